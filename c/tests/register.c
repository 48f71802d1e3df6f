/* What is registered with a ring: with what the manual page calls for, written by hand. */
#include "demand.h"
#include "wulgach_register.h"
#include "wulgach_setup.h"
#include "wulgach_tables.h"

#include <stdio.h>
#include <stdlib.h>
#include <string.h>

/* What a list of these rows is refused for, or 0: then they are registered. */
#define TAKE(made, ...) \
    wulgach_restrictions_register(made, (struct wulgach_restriction[]){__VA_ARGS__}, \
        sizeof((struct wulgach_restriction[]){__VA_ARGS__}) / sizeof(struct wulgach_restriction))

static void take_rows(void)
{
    struct wulgach_restrictions none, made;
    wulgach_restrictions_none(&none);
    demand(wulgach_restrictions_allow_entry(&none, 200, 255) &&
               wulgach_restrictions_allow_call(&none, 99, false),
        "no restrictions");
    made = none;
    demand(wulgach_restrictions_register(&made, NULL, 0) == 0 &&
               !wulgach_restrictions_allow_entry(&made, 0, 0) &&
               !wulgach_restrictions_allow_call(&made, 0, false) &&
               wulgach_restrictions_allow_call(&made, 0, true),
        "no rows");
    made = none;
    demand(TAKE(&made, {.kind = 0, .number = 26}) == -22 &&
               TAKE(&made, {.kind = 1, .number = 58}) == -22 && TAKE(&made, {.kind = 4}) == -22,
        "rows that there aren't");
    demand(TAKE(&made, {.kind = 0, .number = 25}, {.kind = 4}, {.kind = 1, .number = 57}) == -22 &&
               wulgach_restrictions_allow_call(&made, 24, false),
        "a list with a bad row holds nothing");
    demand(TAKE(&made, {.kind = 0, .number = 25, .resv = 1, .fourth_resv = 2},
               {.kind = 1, .number = 57}, {.kind = 1, .number = 0}) == 0,
        "rows");
    demand(wulgach_restrictions_allow_call(&made, 25, false) &&
               !wulgach_restrictions_allow_call(&made, 24, false) &&
               !wulgach_restrictions_allow_call(&made, 89, false),
        "which calls");
    demand(wulgach_restrictions_allow_entry(&made, 57, 0) &&
               wulgach_restrictions_allow_entry(&made, 0, 0) &&
               !wulgach_restrictions_allow_entry(&made, 47, 0) &&
               !wulgach_restrictions_allow_entry(&made, 121, 0),
        "which operations");
    demand(!wulgach_restrictions_allow_entry(&made, 0, 4), "no flags");
    demand(TAKE(&made, {.kind = 1, .number = 0}, {.kind = 2, .number = 255},
               {.kind = 2, .number = 4}, {.kind = 3, .number = 16}) == 0,
        "flags");
    demand(wulgach_restrictions_allow_entry(&made, 0, 16) &&
               wulgach_restrictions_allow_entry(&made, 0, 20) &&
               !wulgach_restrictions_allow_entry(&made, 0, 4) &&
               !wulgach_restrictions_allow_entry(&made, 0, 24),
        "which flags, by the last row of a kind");
    demand(wulgach_restricting_fault(false, true, true, 1) == -77 &&
               wulgach_restricting_fault(true, true, false, 1) == -16 &&
               wulgach_restricting_fault(true, false, false, 1) == -22,
        "a list");
    demand(wulgach_restricting_fault(true, false, true, 104) == -22 &&
               wulgach_restricting_fault(true, false, true, 103) == 0,
        "its length");
    demand(wulgach_enabling_fault(false, true) == -22 &&
               wulgach_enabling_fault(false, false) == -77 &&
               wulgach_enabling_fault(true, false) == 0,
        "enabling");
}

enum { SLOTS = 4, ANY = -1 };

static struct wulgach_table table;
static uint64_t words[SLOTS];

/* The slot that a file gets that asks for any, and has then; or the fault. */
static int32_t any(void)
{
    uint32_t slot = 99;
    int32_t fault = wulgach_table_place(&table, words, table.count, (uint32_t)ANY, &slot);
    demand(fault == 0 || slot == 99, "a slot where there is none");
    if (fault == 0)
        demand(wulgach_table_fill(&table, words, SLOTS, slot, 7) == 0 && words[slot] == 7,
            "a slot that isn't free");
    return fault == 0 ? (int32_t)slot : fault;
}

static void put(uint32_t slot, uint64_t word)
{
    demand(wulgach_table_fill(&table, words, SLOTS, slot, word) + word > 0 && words[slot] == word,
        "a slot's word");
}

static int32_t give_out(uint32_t from, uint32_t len, bool has_reserved)
{
    return wulgach_table_give_out(
        &table, &(struct wulgach_range_form){.off = from, .len = len, .resv = has_reserved});
}

/* The answers of a real ring of Linux 6.18 to the same. */
static void give_slots(void)
{
    wulgach_table_begin(&table);
    demand(any() == -23 && give_out(0, 1, false) == -22 && give_out(0, 0, false) == 0, "no table");
    wulgach_table_register(&table, words, SLOTS);
    demand(any() == 0 && any() == 1 && any() == 2, "one after another");
    put(0, 0);
    demand(any() == 0 && any() == 3 && any() == -23, "one that was emptied");
    put(1, 0), put(3, 0), put(2, 0);
    demand(any() == 2 && any() == 3 && any() == 1, "from the last that was emptied on");
    put(1, 0), put(3, 0), put(0, 9);
    demand(any() == 3 && any() == 1, "one that got another file");
    put(0, 0), put(1, 0), put(2, 0), put(3, 0), put(1, 5);
    demand(any() == 2 && any() == 3 && any() == 0 && any() == -23, "one that was filled");
    put(0, 0), put(1, 0), put(2, 0), put(3, 0);
    demand(give_out(1, 2, false) == 0 && any() == 1 && any() == 2 && any() == -23, "a range");
    put(3, 5), put(3, 0);
    demand(any() == -23, "not after it");
    put(1, 0);
    demand(any() == 1, "in it");
    put(0, 5), put(0, 0);
    demand(any() == -23, "not before it");
    demand(give_out(1, 4, false) == -22 && give_out(1, 1, true) == -22 &&
               give_out(UINT32_MAX, 3, true) == -75,
        "ranges");
    demand(give_out(4, 0, false) == 0 && any() == -23, "an empty one");
}

static void change_tables(void)
{
    uint32_t slot = 99;
    demand(wulgach_table_place(&table, words, SLOTS, 0, &slot) == -22 &&
               wulgach_table_place(&table, words, SLOTS, 5, &slot) == -22 && slot == 99,
        "no such slot");
    demand(wulgach_table_place(&table, words, SLOTS, 4, &slot) == 0 && slot == 3, "a slot");
    demand(wulgach_table_fill(&table, words, SLOTS, 4, 1) == 0, "no fifth");
    demand(wulgach_table_registering_fault(&table, 0, 0, true) == -16 &&
               wulgach_table_updating_fault(&table, 2, 2) == 0 &&
               wulgach_table_updating_fault(&table, 2, 3) == -22 &&
               wulgach_table_updating_fault(&table, UINT32_MAX, 1) == -75,
        "updates");
    demand(wulgach_table_closing_fault(&table, words, SLOTS, 1) == 0 &&
               wulgach_table_closing_fault(&table, words, SLOTS, 3) == -9 &&
               wulgach_table_closing_fault(&table, words, SLOTS, 4) == -22,
        "closes");
    demand(wulgach_table_unregistering_fault(&table, true) == -22 &&
               wulgach_table_unregistering_fault(&table, false) == 0,
        "unregistering");
    wulgach_table_unregister(&table);
    demand(wulgach_table_place(&table, words, 0, 1, &slot) == -6 &&
               wulgach_table_updating_fault(&table, 0, 0) == -6 &&
               wulgach_table_closing_fault(&table, words, 0, 0) == -6,
        "no table");
    demand(wulgach_table_unregistering_fault(&table, true) == -22 &&
               wulgach_table_unregistering_fault(&table, false) == -6,
        "no table to unregister");
    demand(wulgach_table_registering_fault(&table, 0, 9, true) == -22 &&
               wulgach_table_registering_fault(&table, 9, 9, true) == 0 &&
               wulgach_table_registering_fault(&table, 9, 8, true) == -24,
        "files");
    demand(wulgach_table_registering_fault(&table, (1 << 20) + 1, UINT64_MAX, true) == -24 &&
               wulgach_table_registering_fault(&table, 1 << 20, UINT64_MAX, true) == 0,
        "many");
    demand(wulgach_table_registering_fault(&table, 1 << 14, 0, false) == 0 &&
               wulgach_table_registering_fault(&table, (1 << 14) + 1, 0, false) == -22,
        "buffers");
}

static int32_t file_row(int32_t fd, uint64_t tag, bool is_update)
{
    int32_t fault;
    uint32_t row = wulgach_file_row(fd, tag, is_update, &fault);
    return row == WULGACH_ROW_REFUSED ? fault : (int32_t)row;
}

static int32_t buffer_row(uint64_t from, uint64_t size, uint64_t tag)
{
    int32_t fault;
    uint32_t row = wulgach_buffer_row(from, size, tag, &fault);
    return row == WULGACH_ROW_REFUSED ? fault : (int32_t)row;
}

static void give_numbers(void)
{
    uint32_t next = WULGACH_ENROLLING_BEGINS;
    for (uint32_t stage = WULGACH_ENROLLING_READS; stage <= WULGACH_ENROLLING_TELLS; stage++)
        demand((next = wulgach_enrolling_next(next, 0)) == stage &&
                   wulgach_enrolling_next(stage, -14) == (stage == WULGACH_ENROLLING_TELLS
                                                                 ? WULGACH_ENROLLING_EMPTIES
                                                                 : WULGACH_ENROLLING_FAILS),
            "a number's stages");
    demand(wulgach_enrolling_next(WULGACH_ENROLLING_TELLS, 0) == WULGACH_ENROLLING_IS_DONE,
        "a number is given");
}

static void take_lists(void)
{
    uint32_t slot = 9;
    demand(wulgach_table_listing(0, 2, true, 0) == WULGACH_LISTING_TAKES &&
               wulgach_table_listing(2, 2, true, 0) == WULGACH_LISTING_PUTS,
        "a table's rows");
    demand(wulgach_table_listing(1, 2, true, -9) == WULGACH_LISTING_DROPS &&
               wulgach_table_listing(2, 2, true, -9) == WULGACH_LISTING_DROPS &&
               wulgach_table_listing(0, 2, false, 0) == WULGACH_LISTING_PUTS,
        "a fault, and no lists");
    demand(wulgach_takes_next(0, 1, 0) && !wulgach_takes_next(1, 1, 0) &&
               !wulgach_takes_next(0, 1, -9),
        "an update's rows");
    demand(wulgach_next_to_go(3, 0, &slot) && slot == 2 && wulgach_next_to_go(3, 2, &slot) &&
               slot == 0,
        "which slot goes next");
    demand(!wulgach_next_to_go(3, 3, &slot) && !wulgach_next_to_go(0, 0, &slot) && slot == 0,
        "all have gone");
    demand(wulgach_has_thread(2) && wulgach_has_thread(6) && !wulgach_has_thread(0xfffffffd),
        "a ring with a thread");
    demand(wulgach_asks_processor(6) && !wulgach_asks_processor(4) && !wulgach_asks_processor(2) &&
               !wulgach_asks_processor(38),
        "a processor that matters");
    demand(wulgach_asks_shared(32) && !wulgach_asks_shared(0xffffffdf), "a ring that is shared");
    uint32_t of_entry, of_completion;
    wulgach_cells_of(1024, &of_entry, &of_completion);
    demand(of_entry == 2 && of_completion == 1, "cells of large entries");
    wulgach_cells_of(2048, &of_entry, &of_completion);
    demand(of_entry == 1 && of_completion == 2, "cells of large completions");
}

static void look_at_rows(void)
{
    give_numbers();
    take_lists();
    demand(file_row(0, 1, false) == WULGACH_ROW_FILLS &&
               file_row(-1, 0, false) == WULGACH_ROW_EMPTIES && file_row(-1, 1, true) == -22,
        "files");
    demand(wulgach_row_steps(WULGACH_ROW_FILLS, true) == 7 &&
               wulgach_row_steps(WULGACH_ROW_FILLS, false) == 6 &&
               wulgach_row_steps(WULGACH_ROW_EMPTIES, false) == 1 &&
               wulgach_row_steps(WULGACH_ROW_KEEPS, true) == 0 &&
               wulgach_row_steps(WULGACH_ROW_REFUSED, true) == 0,
        "what is done with a slot");
    demand(file_row(-2, 0, true) == WULGACH_ROW_KEEPS && file_row(-2, 1, true) == -22 &&
               file_row(-2, 1, false) == WULGACH_ROW_FILLS &&
               file_row(-3, 0, true) == WULGACH_ROW_FILLS,
        "those that stay");
    demand(buffer_row(0, 0, 0) == WULGACH_ROW_EMPTIES && buffer_row(0, 0, 1) == -22 &&
               buffer_row(0, 1, 1) == -14,
        "no buffer");
    demand(buffer_row(8, (uint64_t)1 << 63, 0) == -22 && buffer_row(0, UINT64_MAX, 1) == -22 &&
               buffer_row(8, UINT64_MAX >> 1, 0) == -14,
        "a length below 0");
    demand(buffer_row(8, 0, 0) == -14 && buffer_row(8, 1, 1) == WULGACH_ROW_FILLS &&
               buffer_row(8, 1 << 30, 0) == WULGACH_ROW_FILLS &&
               buffer_row(8, (1 << 30) + 1, 0) == -14,
        "buffers");
    demand(wulgach_updated(0, -9) == -9 && wulgach_updated(2, -9) == 2 &&
               wulgach_updated(3, 0) == 3 && wulgach_updated(0, 0) == 0,
        "what an update returns");
}

/* Calls of io_uring_register(2), by their numbers; what a real ring of Linux 6.18 said to the same.
 */
enum {
    BUFFERS = 0,
    FILES = 2,
    NO_FILES = 3,
    EVENTFD = 4,
    UPDATE = 6,
    PROBE = 8,
    RESTRICT = 11,
    FILES2 = 13,
    BUFFERS2 = 15,
    ENROLL = 20,
    DISMISS = 21,
    RING = 22,
    CANCEL = 24,
    RANGE = 25
};

#define CALL(code, ...) wulgach_calling_fault(code, &(struct wulgach_caller){__VA_ARGS__})
#define CONTENT(code, ...) wulgach_content_fault(code, true, &(struct wulgach_content){__VA_ARGS__})

static void make_calls(void)
{
    demand(CALL(PROBE, .fd = 3, .is_open = true, .is_ring = true, .is_allowed = true) == 0 &&
               CALL(26, .fd = 3, .is_open = true, .is_ring = true, .is_allowed = true) == -22,
        "calls");
    demand(CALL(36, .fd = 3) == -22 && CALL(35, .fd = 3) == -9 && CALL(35, .fd = -1) == -22 &&
               CALL(PROBE, .fd = -2) == -9,
        "numbers and descriptors");
    demand(CALL(PROBE, .fd = 1, .is_open = true) == -95 &&
               CALL(26, .fd = 3, .is_open = true, .is_ring = true) == -13,
        "what is no ring, what isn't allowed");
    demand(CALL(PROBE, .fd = 3, .is_open = true, .is_ring = true, .is_another = true) == -17,
        "another thread");
    demand(wulgach_argument_fault(FILES, false, 0) == -14 &&
               wulgach_argument_fault(BUFFERS, true, 0) == 0 &&
               wulgach_argument_fault(UPDATE, false, 0) == -22,
        "lists");
    demand(wulgach_argument_fault(FILES2, false, 0) == -22 &&
               wulgach_argument_fault(FILES2, false, 32) == 0 &&
               wulgach_argument_fault(BUFFERS2, true, 33) == -22,
        "sizes");
    demand(wulgach_argument_fault(RANGE, false, 0) == -22 &&
               wulgach_argument_fault(RANGE, true, 1) == -22 &&
               wulgach_argument_fault(RANGE, true, 0) == 0,
        "a range");
    demand(wulgach_argument_fault(NO_FILES, true, 0) == -22 &&
               wulgach_argument_fault(NO_FILES, false, 1) == -22 &&
               wulgach_argument_fault(NO_FILES, false, 0) == 0,
        "nothing");
    demand(wulgach_argument_fault(CANCEL, false, 1) == -22 &&
               wulgach_argument_fault(RING, true, 0) == -22 &&
               wulgach_argument_fault(EVENTFD, false, 1) == 0,
        "one");
    demand(wulgach_argument_fault(PROBE, false, 0) == -22 &&
               wulgach_argument_fault(PROBE, true, 256) == 0 &&
               wulgach_argument_fault(PROBE, true, 257) == -22,
        "a probe");
    demand(wulgach_argument_fault(ENROLL, true, 0) == -22 &&
               wulgach_argument_fault(ENROLL, false, 16) == 0 &&
               wulgach_argument_fault(DISMISS, true, 17) == -22,
        "rings by number");
    demand(wulgach_argument_fault(RESTRICT, false, 999) == 0 &&
               wulgach_argument_fault(9, true, 1) == -22,
        "restrictions, and what isn't served");
    static const struct {
        uint32_t count;
        uint8_t rows;
    } probes[] = {{0, 0}, {1, 1}, {58, 58}, {256, 58}};
    for (size_t i = 0; i < sizeof probes / sizeof *probes; i++) {
        struct wulgach_probe probe;
        wulgach_probe_of(probes[i].count, &probe);
        demand(probe.last == 57 && probe.rows == probes[i].rows, "rows of a probe");
    }
}

static void read_contents(void)
{
    struct wulgach_content none = {0};
    demand(wulgach_content_fault(FILES2, false, &none) == -14 && CONTENT(FILES2, 0) == -22 &&
               CONTENT(FILES2, .nr = 1) == 0,
        "files");
    demand(CONTENT(FILES2, .nr = 1, .flags = 2) == -22 &&
               CONTENT(BUFFERS2, .nr = 1, .flags = 1) == 0 &&
               CONTENT(BUFFERS2, .nr = 1, .flags = 1, .has_data = true) == -22,
        "sparse ones");
    demand(CONTENT(UPDATE, .nr = 1) == 0 && CONTENT(UPDATE, .nr = 1, .has_reserved = true) == -22 &&
               CONTENT(14, 0) == -22,
        "updates");
    demand(CONTENT(CANCEL, 0) == 0 && CONTENT(CANCEL, .flags = 16) == -22 &&
               CONTENT(CANCEL, .flags = 6) == 0 && CONTENT(CANCEL, .flags = 11) == 0,
        "a cancel");
    demand(CONTENT(PROBE, 0) == 0 && CONTENT(PROBE, .has_reserved = true) == -22 &&
               CONTENT(9, 0) == -22,
        "a probe");
}

static void tell_eventfds(void)
{
    struct wulgach_eventfd eventfd;
    wulgach_eventfd_begin(&eventfd);
    demand(!wulgach_eventfd_tells(&eventfd, 0) && wulgach_eventfd_may_leave(&eventfd, false) &&
               !wulgach_eventfd_may_leave(&eventfd, true) &&
               wulgach_eventfd_unregistering_fault(&eventfd) == -6,
        "no eventfd");
    demand(wulgach_eventfd_registering_fault(&eventfd, false, false, false) == -14 &&
               wulgach_eventfd_registering_fault(&eventfd, true, false, false) == -9 &&
               wulgach_eventfd_registering_fault(&eventfd, true, true, false) == -22 &&
               wulgach_eventfd_registering_fault(&eventfd, true, true, true) == 0,
        "what is none");
    wulgach_eventfd_register(&eventfd, true);
    demand(eventfd.is_async && wulgach_eventfd_tells(&eventfd, 0) &&
               !wulgach_eventfd_tells(&eventfd, 1) && !wulgach_eventfd_may_leave(&eventfd, false),
        "one");
    demand(wulgach_eventfd_added(&eventfd, 0, 1, true) == 1 &&
               wulgach_eventfd_added(&eventfd, 0, 9, true) == 1 &&
               wulgach_eventfd_added(&eventfd, 0, 0, true) == 0 &&
               wulgach_eventfd_added(&eventfd, 0, 1, false) == 0 &&
               wulgach_eventfd_added(&eventfd, 1, 1, true) == 0,
        "what is added");
    demand(wulgach_eventfd_registering_fault(&eventfd, false, false, false) == -16 &&
               wulgach_eventfd_unregistering_fault(&eventfd) == 0,
        "a second one");
    wulgach_eventfd_unregister(&eventfd);
    demand(!eventfd.is_registered && !eventfd.is_async &&
               wulgach_eventfd_added(&eventfd, 0, 1, true) == 0,
        "none again");
    demand(wulgach_tells_async_alone(7) && !wulgach_tells_async_alone(4) &&
               !wulgach_tells_async_alone(5) && !wulgach_tells_async_alone(99),
        "one of what ends asynchronously alone");
}

static void enroll_rings(void)
{
    uint64_t rows[16], fd = 99;
    uint32_t row = 99;
    wulgach_enrolled_begin(rows, 16);
    demand(wulgach_enrolled_named(rows, 16, true, 0, &fd) == -9 &&
               wulgach_enrolled_named(rows, 16, true, 16, &fd) == -22 && fd == 99,
        "no rings");
    demand(wulgach_enrolling_fault(16, false, false, false) == -22 &&
               wulgach_enrolling_fault(3, true, true, true) == -22 &&
               wulgach_enrolling_fault(UINT32_MAX, false, false, false) == -9 &&
               wulgach_enrolling_fault(3, false, true, false) == -95 &&
               wulgach_enrolling_fault(15, false, true, true) == 0,
        "faults");
    demand(wulgach_enrolled_place(rows, 16, 3, &row) == 0 && row == 3, "a row");
    wulgach_enroll(rows, 16, 3, 0);
    demand(wulgach_enrolled_named(rows, 16, true, 3, &fd) == 0 && fd == 0 &&
               wulgach_enrolled_place(rows, 16, 3, &row) == -16 && row == 3,
        "one that is taken");
    for (uint32_t i = 0; i < 15; i++) {
        demand(
            wulgach_enrolled_place(rows, 16, UINT32_MAX, &row) == 0 && row == (i < 3 ? i : i + 1),
            "any");
        wulgach_enroll(rows, 16, row, 100 + row);
    }
    demand(wulgach_enrolled_place(rows, 16, UINT32_MAX, &row) == -16 &&
               wulgach_enrolled_named(rows, 16, true, 15, &fd) == 0 && fd == 115,
        "all");
    demand(wulgach_dismissing_fault(16, false, false) == -22 &&
               wulgach_dismissing_fault(3, true, false) == -22 &&
               wulgach_dismissing_fault(3, false, true) == -22 &&
               wulgach_dismissing_fault(15, false, false) == 0,
        "dismissing");
    wulgach_dismiss(rows, 16, 9);
    demand(wulgach_closes_row(3, true, 3) && !wulgach_closes_row(3, true, 4) &&
               !wulgach_closes_row(3, false, 3),
        "whose descriptor is closed");
    demand(wulgach_enrolled_named(rows, 16, true, 9, &fd) == -9 &&
               wulgach_enrolled_place(rows, 16, UINT32_MAX, &row) == 0 && row == 9,
        "one that was dismissed");
}

static void know_threads(void)
{
    uint64_t rows[16], fd = 99;
    wulgach_enrolled_begin(rows, 16);
    wulgach_enroll(rows, 16, 3, 7);
    demand(wulgach_enrolled_named(rows, 16, false, 3, &fd) == -22 &&
               wulgach_enrolled_named(rows, 16, false, 4, &fd) == -22 && fd == 99,
        "numbers of a thread that isn't known");
    demand(wulgach_known_after(0, 5, WULGACH_SETS_UP, 0, true) == 5 &&
               wulgach_known_after(4, 5, WULGACH_ENROLLS, 0, false) == 5 &&
               wulgach_known_after(4, 5, WULGACH_CALLS, 1, false) == 5,
        "what makes one known");
    demand(wulgach_known_after(4, 5, WULGACH_CALLS, 0, false) == 4 &&
               wulgach_known_after(0, 5, WULGACH_CALLS, 9, true) == 0 &&
               wulgach_known_after(4, 5, 99, 1, false) == 4,
        "what doesn't");
    demand(wulgach_is_known(5, 5) && !wulgach_is_known(4, 5) && !wulgach_is_known(0, 5),
        "where it is");
    demand(wulgach_dismissed_rows(true, 9) == 9 && wulgach_dismissed_rows(false, 9) == 0,
        "rows that are taken");
    demand(!wulgach_enrolled_go(3, 4) && wulgach_enrolled_go(4, 4), "in which round its rings go");
}

#define PINNED(...) wulgach_pinning_fault(&(struct wulgach_memory){.page = 4096, __VA_ARGS__})

static void keep_pages(void)
{
    demand(PINNED(.from = 4096, .size = 1, .is_asked = true, .is_there = true, .is_listed = true) ==
                   0 &&
               PINNED(.from = 4096, .size = 1) == 0,
        "memory");
    demand(PINNED(.from = 4096, .size = 1, .is_asked = true) == -14 &&
               PINNED(.from = 4096, .size = 1, .is_asked = true, .is_there = true,
                   .is_listed = true, .is_written_back = true) == -14 &&
               PINNED(.from = 4096, .size = 1, .is_written_back = true) == 0,
        "pages that can't be kept");
    demand(PINNED(.from = UINT64_MAX - 4095, .size = 1, .is_asked = true) == -75 &&
               PINNED(.from = UINT64_MAX - 4096, .size = 1, .is_asked = true) == -14 &&
               PINNED(.from = 2, .size = UINT64_MAX) == -75,
        "memory without an end");
    demand(wulgach_has_byte_of(10, 5, 14, 20) && !wulgach_has_byte_of(10, 5, 15, 20) &&
               wulgach_has_byte_of(10, 5, 0, 11) && !wulgach_has_byte_of(10, 5, 0, 10) &&
               wulgach_has_byte_of(10, UINT64_MAX, 11, 12),
        "memory that has a byte of other");
    demand(wulgach_is_listed(true, 1) && wulgach_is_listed(true, UINT64_MAX) &&
               !wulgach_is_listed(true, 0) && !wulgach_is_listed(false, 1),
        "a list that says something");
}

/* What a line of /proc/self/maps says. */
static struct wulgach_mapped mapped_by(const char *line)
{
    struct wulgach_mapped mapped = {.start = 1};
    demand(wulgach_mapped_of((const uint8_t *)line, strlen(line), &mapped), line);
    return mapped;
}

static bool says(const char *line, struct wulgach_mapped wanted)
{
    struct wulgach_mapped mapped = mapped_by(line);
    return mapped.start == wanted.start && mapped.end == wanted.end &&
           mapped.offset == wanted.offset && mapped.inode == wanted.inode &&
           mapped.path == wanted.path && mapped.major == wanted.major &&
           mapped.is_shared == wanted.is_shared && mapped.is_asked == wanted.is_asked;
}

static bool is_no_line(const char *line)
{
    struct wulgach_mapped mapped = {.start = 77};
    return !wulgach_mapped_of((const uint8_t *)line, strlen(line), &mapped) && mapped.start == 77;
}

/* The first lines are the manual page's and a kernel's own. */
static void list_memory(void)
{
    demand(says("00400000-00452000 r-xp 00000000 08:02 173521      /usr/bin/dbus-daemon",
               (struct wulgach_mapped){
                   .start = 0x400000, .end = 0x452000, .inode = 173521, .path = 50, .major = 8}),
        "a program");
    demand(says("7f8a9e0d7000-7f8a9e0d8000 rw-s 0001f000 fd:01 1837  /srv/a file",
               (struct wulgach_mapped){.start = 0x7f8a9e0d7000,
                   .end = 0x7f8a9e0d8000,
                   .offset = 0x1f000,
                   .inode = 1837,
                   .path = 52,
                   .major = 0xfd,
                   .is_shared = true,
                   .is_asked = true}),
        "a file with a blank in its name");
    demand(says("e24000-f7b0000 rw-p 00000000 00:00 0 ",
               (struct wulgach_mapped){.start = 0xe24000, .end = 0xf7b0000, .path = 37}) &&
               says("e24000-f7b0000 rw-p 00000000 00:00 0",
                   (struct wulgach_mapped){.start = 0xe24000, .end = 0xf7b0000, .path = 36}),
        "memory of no file");
    demand(says("10-20 rw-s 00000000 00:0f 5 anon_inode:[io_uring]",
               (struct wulgach_mapped){
                   .start = 16, .end = 32, .inode = 5, .path = 28, .is_shared = true}) &&
               says("10-20 rw-s 00000000 00:01 5 /dev/zero (deleted)",
                   (struct wulgach_mapped){.start = 16,
                       .end = 32,
                       .inode = 5,
                       .path = 28,
                       .is_shared = true,
                       .is_asked = true}),
        "a name, and a path that is gone");
    demand(
        says(
            "ffffffffff600000-ffffffffffffffff --xp ffffffffffffffff ffffffff:00 18446744073709551615 [vsyscall]",
            (struct wulgach_mapped){.start = 0xffffffffff600000,
                .end = UINT64_MAX,
                .offset = UINT64_MAX,
                .inode = UINT64_MAX,
                .path = 89,
                .major = UINT32_MAX}),
        "the largest numbers");
    demand(is_no_line("") && is_no_line("400000 r-xp 00000000 08:02 173521 /a") &&
               is_no_line("-452000 r-xp 0 08:02 1 /a") && is_no_line("4g-5 r-xp 0 08:02 1 /a") &&
               is_no_line("4A-5B r-xp 0 08:02 1 /a") && is_no_line("4-5 r-xp 0") &&
               is_no_line("4-5 r-xp  08:02 1 /a") && is_no_line("4-5 r-xp 0 08:02 a /a"),
        "no line");
    demand(is_no_line("0-10000000000000000 r-xp 0 08:02 1 /a") &&
               is_no_line("0-1 r-xp 0 100000000:02 1 /a") &&
               is_no_line("0-1 r-xp 10000000000000000 08:02 1 /a") &&
               is_no_line("0-1 r-xp 0 08:02 18446744073709551616 /a"),
        "numbers that are too large");
}

static bool is_of_a_file(uint32_t major, bool knows, uint64_t kind)
{
    return wulgach_is_of_a_file(
        &(struct wulgach_mapped){.major = major, .is_shared = true}, knows, kind);
}

static void share_memory(void)
{
    demand(is_of_a_file(254, false, 0) && is_of_a_file(254, true, 0x01021994) &&
               is_of_a_file(0, true, 0x9123683e),
        "files that are written back");
    demand(!is_of_a_file(0, false, 0x9123683e) && !is_of_a_file(0, true, 0x01021994) &&
               !is_of_a_file(0, true, 0x858458f6) && !is_of_a_file(0, true, 0x958458f6),
        "files in memory");
    demand(!wulgach_is_of_a_file(&(struct wulgach_mapped){.major = 254}, true, 0x9123683e),
        "memory of the process's own");
}

int main(void)
{
    keep_pages();
    list_memory();
    share_memory();
    make_calls();
    read_contents();
    tell_eventfds();
    enroll_rings();
    know_threads();
    take_rows();
    give_slots();
    change_tables();
    look_at_rows();
    printf("register: as called for\n");
    return 0;
}
