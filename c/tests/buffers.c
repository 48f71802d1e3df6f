/* Which provided buffer an operation takes, and when registered files and buffers are gone: with
 * what the manual pages call for, written by hand. */
#include "demand.h"
#include "wulgach_buffers.h"
#include "wulgach_tables.h"

#include <stdio.h>

enum { MOST = 64 };

static struct wulgach_group group;
static struct wulgach_buffer rows[MOST];
static size_t room;

/* Provides so many buffers of 8 bytes, numbered from one on, which stand at 4096 times that number.
 */
static bool provide(uint32_t count, uint16_t id)
{
    struct wulgach_buffers asked = {
        .address = (uint64_t)id * 4096, .length = 8, .count = count, .id = id};
    return wulgach_group_provide(&group, rows, room, &asked);
}

/* The number of the next buffer, which is taken, or -105. */
static int32_t taken(void)
{
    struct wulgach_buffer next = {.id = 999};
    if (!wulgach_group_next(&group, rows, room, &next)) {
        demand(next.id == 999, "a buffer where there is none");
        return -105;
    }
    demand(next.length == 8, "a buffer's length");
    wulgach_group_take(&group);
    return next.id;
}

static void take_from_a_list(void)
{
    struct wulgach_buffer next;
    wulgach_group_begin(&group);
    room = 4;
    demand(taken() == -105 && wulgach_group_removing_fault(&group) == -2, "no group");
    demand(provide(3, 7) && wulgach_group_next(&group, rows, room, &next) &&
               next.address == 7 * 4096 && next.id == 7,
        "the first");
    demand(taken() == 7 && wulgach_group_next(&group, rows, room, &next) &&
               next.address == 7 * 4096 + 8 && next.id == 8,
        "the second");
    demand(!provide(3, 1) && group.count == 2 && wulgach_group_room(&group, 3, room) == 10 &&
               wulgach_group_room(&group, 2, room) == 4,
        "no room");
    demand(provide(2, 1) && group.first == 0 && taken() == 8 && taken() == 9 && taken() == 1 &&
               taken() == 2 && taken() == -105,
        "in their order");
    room = MOST;
    demand(provide(10, 20) && wulgach_group_removing_fault(&group) == 0 &&
               wulgach_group_remove(&group, 4) == 4 && taken() == 24,
        "after those that were removed");
    demand(wulgach_group_remove(&group, 100) == 5 && wulgach_group_remove(&group, 1) == 0 &&
               taken() == -105 && wulgach_group_removing_fault(&group) == 0,
        "all are removed");
    demand(provide(1, 65535) && taken() == 65535, "the last number");
}

/* What becomes of a list of many calls, beside one that is kept by counting. */
static void take_at_random(void)
{
    uint32_t provided = 0, gone = 0, seed = 1;
    wulgach_group_begin(&group);
    room = 16;
    for (int i = 0; i < 100000; i++) {
        seed = seed * 1103515245 + 12345;
        uint32_t count = (seed >> 16) % 5;
        if ((seed >> 24) % 3 == 0) {
            bool fits = provided - gone + count <= room;
            demand(provide(count, (uint16_t)provided) == fits, "room");
            provided += fits ? count : 0;
        } else if ((seed >> 24) % 3 == 1) {
            uint32_t left = provided - gone, most = count < left ? count : left;
            demand(wulgach_group_remove(&group, count) == most, "how many are removed");
            gone += most;
        } else {
            demand(taken() == (provided == gone ? -105 : (int32_t)(gone % 65536)), "the next");
            gone += provided != gone;
        }
    }
}

static int32_t register_fault(uint64_t address, uint32_t entries)
{
    return wulgach_group_registering_fault(&group, address, entries, 4096);
}

static void take_from_a_ring(void)
{
    uint16_t cell = 999;
    wulgach_group_begin(&group);
    demand(register_fault(4096, 4) == 0 && wulgach_group_unregistering_fault(&group) == -2 &&
               !wulgach_group_gives_way(&group, 4),
        "no group");
    room = MOST;
    provide(1, 1);
    demand(register_fault(4096, 4) == -17 && wulgach_group_unregistering_fault(&group) == -22 &&
               !wulgach_group_gives_way(&group, 4) && taken() == 1,
        "a list");
    demand(register_fault(4096, 4) == 0 && wulgach_group_gives_way(&group, 4) &&
               !wulgach_group_gives_way(&group, 3) && !wulgach_group_gives_way(&group, 65536),
        "an empty list");
    wulgach_group_register(&group, 4);
    demand(register_fault(4096, 4) == -17 && wulgach_group_unregistering_fault(&group) == 0 &&
               !wulgach_group_gives_way(&group, 4),
        "a ring");
    demand(wulgach_group_providing_fault(&group, 8, 8, 1, 0) == -22 &&
               wulgach_group_removing_fault(&group) == -22,
        "a ring is no list");
    demand(wulgach_group_is_ring(&group), "a ring");
    demand(!wulgach_group_cell(&group, true, 0, &cell) && cell == 999 &&
               !wulgach_group_cell(&group, false, 1, &cell) && cell == 999,
        "an empty ring, and one whose tail can't be read");
    for (uint32_t i = 0; i < 200000; i++) {
        demand(wulgach_group_cell(&group, true, (uint16_t)(i + 1), &cell) && cell == i % 4,
            "the next cell");
        wulgach_group_take(&group);
        demand(!wulgach_group_cell(&group, true, (uint16_t)(i + 1), &cell), "all are taken");
    }
    wulgach_group_unregister(&group);
    demand(wulgach_group_unregistering_fault(&group) == -2 &&
               wulgach_group_removing_fault(&group) == -2 && taken() == -105,
        "after its ring");
    wulgach_group_register(&group, 32768);
    demand(wulgach_group_cell(&group, true, 1, &cell) && cell == 0 &&
               !wulgach_group_cell(&group, true, 0, &cell),
        "another ring");
    struct wulgach_buffer stands = {.address = 16, .length = 5, .id = 9}, found = {.id = 1};
    demand(!wulgach_group_in_cell(false, &stands, &found) && found.id == 1 &&
               wulgach_group_in_cell(true, &stands, &found) && found.address == 16 &&
               found.length == 5 && found.id == 9,
        "what stands in a cell");
}

static int32_t provide_fault(uint64_t address, uint32_t size, uint32_t count, uint64_t id)
{
    return wulgach_group_providing_fault(&group, address, size, count, id);
}

/* The answers of a real ring of Linux 6.18 to the same. */
static void refuse(void)
{
    static struct wulgach_buffer many[65536];
    struct wulgach_buffers asked = {.address = 4096, .length = 1, .count = 65536};
    wulgach_group_begin(&group);
    demand(provide_fault(8, 1, 2, 65535) == -22 && provide_fault(8, 1, 65536, 1) == -22 &&
               provide_fault(8, 1, 65536, 0) == 0,
        "too many numbers");
    demand(provide_fault(8, 1, 1, 65536) == -7 && provide_fault(8, 1, 1, UINT64_MAX) == -7 &&
               provide_fault(8, 1, 1, 65535) == 0,
        "numbers that are too high");
    demand(provide_fault(UINT64_MAX - 5, 4096, 2, 0) == -75 &&
               provide_fault(UINT64_MAX - 8, 4, 2, 0) == 0 &&
               provide_fault(UINT64_MAX - 7, 4, 2, 65536) == -75,
        "addresses that wrap");
    demand(wulgach_group_provide(&group, many, 65536, &asked) && group.count == 65535 &&
               provide_fault(8, 1, 1, 0) == -75,
        "as many as a list may have");
    demand(
        wulgach_group_remove(&group, 65536) == 65535 && provide_fault(8, 1, 1, 0) == 0, "and none");
    demand(wulgach_group_argument_fault(0, true, false, false) == -22 &&
               wulgach_group_argument_fault(2, true, true, false) == -22 &&
               wulgach_group_argument_fault(1, false, false, false) == -22,
        "one argument");
    demand(wulgach_group_argument_fault(1, true, false, true) == -14 &&
               wulgach_group_argument_fault(1, true, true, true) == -22 &&
               wulgach_group_argument_fault(1, true, true, false) == 0,
        "what it is");
    demand(register_fault(0, 3) == -22 && register_fault(0, 4) == -14 &&
               register_fault(4096, 3) == -22 && register_fault(4096, 0) == -22,
        "sizes");
    demand(register_fault(4096, 65536) == -22 && register_fault(4096, 32768) == 0 &&
               register_fault(4104, 8) == -22 && register_fault(8192, 1) == 0,
        "places");
    wulgach_group_register(&group, 8);
    demand(register_fault(4096, 3) == -22 && register_fault(4104, 8) == -17 &&
               register_fault(0, 8) == -17,
        "a second ring");
}

static void end_operations(void)
{
    demand(wulgach_buffer_part(0, 9) == 9 && wulgach_buffer_part(8, 9) == 8 &&
               wulgach_buffer_part(UINT64_MAX, 9) == 9,
        "how much is asked for");
    demand(wulgach_buffer_flags(false, 0, 1, false, 3) == 0x30001 &&
               wulgach_buffer_flags(false, 0, 0, true, 0) == 1 &&
               wulgach_buffer_flags(false, 0, 5, true, 65535) == 0xffff0001,
        "one that was taken");
    demand(wulgach_buffer_flags(false, 5, 0, false, 3) == 0 &&
               wulgach_buffer_flags(false, 5, -11, false, 3) == 0 &&
               wulgach_buffer_flags(false, 5, -11, true, 3) == 0x30001,
        "one that wasn't, but for one that is taken for nothing");
    demand(wulgach_buffer_is_none(&(struct wulgach_buffer){.length = 8}) &&
               !wulgach_buffer_is_none(&(struct wulgach_buffer){.address = 8}),
        "none");
    struct wulgach_buffer had = {4096, 10, 3}, further = {1, 2, 3};
    demand(wulgach_buffer_is_taken(0x30001) && wulgach_buffer_is_taken(1) &&
               !wulgach_buffer_is_taken(0),
        "which is taken out of its group");
    demand(wulgach_buffer_flags(true, 5, -512, true, 3) == 0x30001 &&
               wulgach_buffer_flags(true, 0, 5, true, 3) == 0,
        "one of which a part is filled");
    demand(
        !wulgach_buffer_further(&had, 0, &further) && further.address == 1 && further.length == 2,
        "one that is to be taken");
    demand(wulgach_buffer_further(&had, 4, &further) && further.address == 4100 &&
               further.length == 6 && further.id == 3,
        "one that is filled further");
}

static void count_uses(void)
{
    struct wulgach_uses uses;
    wulgach_uses_begin(&uses, true);
    wulgach_uses_take(&uses);
    demand(wulgach_uses_release(&uses) == WULGACH_STAYS &&
               wulgach_uses_release(&uses) == WULGACH_TELLS,
        "a request has it longer than its slot");
    wulgach_uses_begin(&uses, false);
    demand(wulgach_uses_release(&uses) == WULGACH_GOES, "no tag");
    wulgach_uses_begin(&uses, true);
    wulgach_uses_drop_tag(&uses);
    demand(wulgach_uses_release(&uses) == WULGACH_GOES, "a table that isn't registered after all");
}

static void look_at_bytes(void)
{
    uint64_t words[2] = {0, 5};
    struct wulgach_table table;
    demand(wulgach_bytes_fault(100, 10, 100, 10) == 0 &&
               wulgach_bytes_fault(100, 10, 110, 0) == 0 &&
               wulgach_bytes_fault(100, 10, 105, 5) == 0,
        "bytes that are its");
    demand(wulgach_bytes_fault(100, 10, 99, 2) == -14 &&
               wulgach_bytes_fault(100, 10, 105, 6) == -14 &&
               wulgach_bytes_fault(100, 10, 111, 0) == -14,
        "bytes that aren't");
    demand(wulgach_bytes_fault(100, 10, 105, UINT64_MAX) == -14 &&
               wulgach_bytes_fault(100, 10, UINT64_MAX, 200) == -14,
        "bytes that wrap");
    wulgach_table_begin(&table);
    demand(wulgach_table_content(&table, words, 2, 1) == 0, "no table");
    wulgach_table_register(&table, words, 2);
    demand(wulgach_table_content(&table, words, 2, 0) == 0 &&
               wulgach_table_content(&table, words, 2, 1) == 5 &&
               wulgach_table_content(&table, words, 2, 2) == 0,
        "slots");
}

int main(void)
{
    take_from_a_list();
    take_at_random();
    take_from_a_ring();
    refuse();
    end_operations();
    count_uses();
    look_at_bytes();
    printf("buffers: as called for\n");
    return 0;
}
