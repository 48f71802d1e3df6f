/* Which rings a set-up makes, what of them is mapped, and which threads may call: with what the
 * manual page calls for, written by hand. */
#include "demand.h"
#include "wulgach_setup.h"
#include "wulgach_tables.h"

#include <stdio.h>
#include <string.h>

/* Flags of a set-up. */
enum {
    SQPOLL = 2,
    SQ_AFF = 4,
    CQSIZE = 8,
    CLAMP = 16,
    ATTACH_WQ = 32,
    R_DISABLED = 64,
    COOP = 256,
    FLAG = 512,
    SINGLE = 4096,
    DEFER = 8192
};

/* The fault of a set-up; of one that is made, its sizes, the completion ring's in thousands. */
static int32_t set_up(struct wulgach_asked_ring asked)
{
    struct wulgach_setup setup = {.sq = 77};
    int32_t fault = wulgach_set_up(&asked, &setup);
    demand(fault == 0 ? setup.has_cq && !setup.stops && setup.start == 0 &&
                            setup.linux_rules == asked.linux_rules
                      : setup.sq == 77,
        "what a set-up writes");
    return fault < 0 ? fault : (int32_t)(setup.cq * 10000 + setup.sq);
}

#define SET_UP(...) set_up((struct wulgach_asked_ring){__VA_ARGS__})

static void make_rings(void)
{
    demand(SET_UP(.entries = 0) == -22 && SET_UP(.entries = 0, .flags = CLAMP) == -22 &&
               SET_UP(.entries = 4097) == -22,
        "no entries, too many");
    demand(SET_UP(.entries = 1) == 20001 && SET_UP(.entries = 1, .linux_rules = true) == 20001 &&
               SET_UP(.entries = 5) == 160008 &&
               SET_UP(.entries = 5000, .flags = CLAMP) == 81924096,
        "sizes");
    demand(SET_UP(.entries = 4, .cq_entries = 70) == 80004 &&
               SET_UP(.entries = 4, .cq_entries = 5, .flags = CQSIZE) == 80004,
        "a completion ring");
    demand(SET_UP(.entries = 3, .cq_entries = 3, .flags = CQSIZE) == 40004 &&
               SET_UP(.entries = 5, .cq_entries = 4, .flags = CQSIZE) == -22,
        "a small one");
    demand(SET_UP(.entries = 4, .flags = CQSIZE) == -22 &&
               SET_UP(.entries = 4, .cq_entries = 9000, .flags = CQSIZE) == -22,
        "one of none, and of too many");
    demand(SET_UP(.entries = 4, .cq_entries = 9000, .flags = CQSIZE | CLAMP) == 81920004,
        "one that is clamped");
    demand(SET_UP(.entries = 4, .has_reserved = true) == -22 &&
               SET_UP(.entries = 4, .flags = 1 << 14) == -22 &&
               SET_UP(.entries = 4, .flags = 1u << 31) == -22,
        "what isn't served");
    demand(SET_UP(.entries = 1,
               .flags = R_DISABLED | 1 | 128 | 1024 | 2048 | COOP | FLAG | SINGLE | DEFER) == 20001,
        "what is");
    demand(wulgach_features(true) == wulgach_features(false) + 1 &&
               (wulgach_features(false) & 0x166) == 0x126,
        "features");
}

static void refuse_flags(void)
{
    demand(SET_UP(.entries = 1, .flags = DEFER) == -22 &&
               SET_UP(.entries = 1, .flags = DEFER | SINGLE) == 20001 &&
               SET_UP(.entries = 1, .flags = SINGLE) == 20001,
        "deferred work");
    demand(SET_UP(.entries = 1, .flags = FLAG) == -22 &&
               SET_UP(.entries = 1, .flags = FLAG | COOP) == 20001 &&
               SET_UP(.entries = 1, .flags = FLAG | DEFER | SINGLE) == 20001,
        "its flag");
    demand(SET_UP(.entries = 1, .flags = SQPOLL) == 20001 &&
               SET_UP(.entries = 1, .flags = SQPOLL | COOP) == -22 &&
               SET_UP(.entries = 1, .flags = SQPOLL | FLAG) == -22 &&
               SET_UP(.entries = 1, .flags = SQPOLL | DEFER | SINGLE) == -22,
        "a thread");
    demand(SET_UP(.entries = 1, .flags = SQ_AFF, .is_online = true) == -22 &&
               SET_UP(.entries = 1, .flags = SQ_AFF | SQPOLL, .is_online = true) == 20001 &&
               SET_UP(.entries = 1, .flags = SQ_AFF | SQPOLL) == -22,
        "its processor");
    demand(SET_UP(.entries = 1, .flags = ATTACH_WQ) == -6 &&
               SET_UP(.entries = 1, .flags = ATTACH_WQ, .is_open = true) == -22 &&
               SET_UP(.entries = 1, .flags = ATTACH_WQ, .is_open = true, .is_ring = true) == 20001,
        "workers that are shared");
    demand(SET_UP(.entries = 1, .flags = ATTACH_WQ | SQPOLL, .is_open = true, .is_ring = true) ==
                   -22 &&
               SET_UP(.entries = 1, .flags = ATTACH_WQ | SQPOLL | SQ_AFF, .is_open = true,
                   .is_ring = true, .has_thread = true) == 20001,
        "a thread that is shared");
    demand(SET_UP(.entries = 0, .flags = ATTACH_WQ) == -22 &&
               SET_UP(.entries = 1, .flags = ATTACH_WQ | SQ_AFF) == -6,
        "which comes first");
}

static void go_through_set_ups(void)
{
    demand(wulgach_set_up_next(WULGACH_SET_UP_BEGINS, 0) == WULGACH_SET_UP_READS &&
               wulgach_set_up_next(WULGACH_SET_UP_READS, 0) == WULGACH_SET_UP_ASKS &&
               wulgach_set_up_next(WULGACH_SET_UP_ASKS, 0) == WULGACH_SET_UP_MAKES,
        "a set-up");
    demand(wulgach_set_up_next(WULGACH_SET_UP_MAKES, 0) == WULGACH_SET_UP_TELLS &&
               wulgach_set_up_next(WULGACH_SET_UP_TELLS, 0) == WULGACH_SET_UP_OPENS &&
               wulgach_set_up_next(WULGACH_SET_UP_OPENS, 0) == WULGACH_SET_UP_IS_DONE,
        "its end");
    demand(wulgach_set_up_next(WULGACH_SET_UP_READS, -14) == WULGACH_SET_UP_FAILS &&
               wulgach_set_up_next(WULGACH_SET_UP_TELLS, -14) == WULGACH_SET_UP_DROPS &&
               wulgach_set_up_next(WULGACH_SET_UP_OPENS, -24) == WULGACH_SET_UP_DROPS,
        "its faults");
    demand(wulgach_region_of(0) == WULGACH_RINGS && wulgach_region_of(0x8001000) == WULGACH_RINGS &&
               wulgach_region_of(0x10000000) == WULGACH_ENTRIES &&
               wulgach_region_of(0x18000000) == WULGACH_NO_REGION,
        "what is mapped");
    demand(wulgach_ring_fate(false, 0, true, false) == WULGACH_RING_STAYS &&
               wulgach_ring_fate(true, 1, true, false) == WULGACH_RING_STAYS &&
               wulgach_ring_fate(true, 0, false, false) == WULGACH_RING_ASKS,
        "rings that stay");
    demand(wulgach_ring_fate(true, 0, true, true) == WULGACH_RING_STAYS &&
               wulgach_ring_fate(true, 0, true, false) == WULGACH_RING_GOES,
        "one that goes");
    demand(wulgach_is_gone(WULGACH_IS_NOT_SO, WULGACH_IS_SO, WULGACH_IS_NOT_SO) &&
               !wulgach_is_gone(WULGACH_IS_SO, WULGACH_IS_SO, WULGACH_IS_NOT_SO) &&
               !wulgach_is_gone(WULGACH_IS_NOT_SO, WULGACH_IS_NOT_SO, WULGACH_IS_NOT_SO) &&
               !wulgach_is_gone(WULGACH_IS_NOT_SO, WULGACH_IS_SO, WULGACH_IS_SO) &&
               !wulgach_is_gone(WULGACH_IS_NOT_KNOWN, WULGACH_IS_SO, WULGACH_IS_NOT_SO),
        "one that nobody reaches");
    demand(wulgach_was_made_here(true, true, true) && wulgach_was_made_here(false, false, false) &&
               !wulgach_was_made_here(false, true, false) &&
               !wulgach_was_made_here(false, false, true),
        "one that was made here");
    demand(wulgach_may_name_ring_of(5, 5) && !wulgach_may_name_ring_of(4, 5),
        "whose ring a descriptor names");
    demand(wulgach_looked_at_before_sleep() == 8 &&
               wulgach_looked_at_after(true, 1, 0) == WULGACH_ALL_RINGS &&
               wulgach_looked_at_after(false, 2, 10000000) == 8 &&
               wulgach_looked_at_after(false, 2, 9999999) == 0 &&
               wulgach_looked_at_after(false, 1, UINT64_MAX) == 0,
        "how many are looked at");
    demand(wulgach_tries_rings_again(0) && wulgach_tries_rings_again(99) &&
               !wulgach_tries_rings_again(100),
        "how often in a handler");
    demand(wulgach_asks_elapsed(false, 2) && !wulgach_asks_elapsed(false, 1) &&
               !wulgach_asks_elapsed(true, 2),
        "when the time matters");
    demand(wulgach_holding_fault(-1, false) == -9 && wulgach_holding_fault(3, true) == -9 &&
               wulgach_holding_fault(3, false) == 0 && wulgach_telling_fault(true) == 0 &&
               wulgach_telling_fault(false) == -14,
        "files");
    demand(wulgach_takes_instance(233) && !wulgach_takes_instance(0) && !wulgach_takes_instance(21),
        "which call takes an instance");
}

#define MAPPED_OF(table, ...) wulgach_mapping_fault(&(struct wulgach_mapping){__VA_ARGS__}, table)
#define MAPPED(...) MAPPED_OF(4096, __VA_ARGS__)

static void map_rings(void)
{
    enum {
        READ = 1,
        WRITE = 2,
        RUN = 4,
        SHARED = 1,
        PRIVATE = 2,
        VALIDATED = 3,
        FIXED = 0x10,
        STACK = 0x100,
        HUGE_PAGES = 0x40000,
        SYNC = 0x80000,
        UNTAKEN = 0x100000
    };
    demand(MAPPED(.size = 1, .protection = READ | WRITE, .flags = SHARED) == 0 &&
               MAPPED(.size = 1 << 20, .offset = 1ull << 32, .flags = VALIDATED) == 0 &&
               MAPPED(.size = 1, .at = 4095, .flags = SHARED) == 0 &&
               MAPPED(.size = 1, .protection = READ, .flags = PRIVATE) == 0,
        "what is mapped");
    demand(MAPPED(.flags = SHARED) == -22 &&
               MAPPED(.size = 1, .offset = 1, .flags = SHARED) == -22 &&
               MAPPED(.size = 1, .flags = SHARED | HUGE_PAGES) == -22 &&
               MAPPED(.size = 1ull << 47, .at = 4096, .flags = SHARED) == -12,
        "what is none");
    demand(MAPPED(.size = (1ull << 47) - 4096, .at = 4096, .flags = SHARED) == -22 &&
               MAPPED(.size = 1, .at = 4095, .flags = SHARED | FIXED) == -22 &&
               MAPPED(.size = 1, .at = 1, .offset = 1ull << 29, .flags = SHARED | UNTAKEN) == -22,
        "an address");
    demand(MAPPED(.size = 1, .offset = 1ull << 31, .protection = RUN) == -12 &&
               MAPPED(.size = 1, .flags = SHARED | FIXED) == 0,
        "an offset");
    demand(MAPPED(.size = 1, .protection = RUN) == -22 &&
               MAPPED(.size = 1, .protection = RUN, .flags = 8) == -22 &&
               MAPPED(.size = 1, .protection = RUN, .flags = VALIDATED | SYNC) == -95 &&
               MAPPED(.size = 1, .flags = SHARED | SYNC) == 0,
        "a kind");
    demand(MAPPED(.size = 1, .protection = RUN, .flags = SHARED | STACK) == -1 &&
               MAPPED(.size = 1, .flags = SHARED | STACK) == -22 &&
               MAPPED(.size = 1, .protection = WRITE, .flags = PRIVATE) == -19,
        "a use");
    demand(MAPPED_OF(4097, .size = 4096, .offset = 1ull << 28, .flags = SHARED) == -14 &&
               MAPPED_OF(4097, .size = 4097, .offset = 1ull << 28, .flags = SHARED) == 0 &&
               MAPPED_OF(8192, .size = 4097, .offset = 1ull << 28 | 4096, .flags = SHARED) == 0,
        "pages of the entries");
    demand(MAPPED_OF(8192, .size = 4096, .flags = SHARED) == 0 &&
               MAPPED_OF(8192, .size = 4096, .offset = 1ull << 28, .flags = SHARED | STACK) == -22,
        "and before them");
    struct wulgach_mapping asked = {
        .protection = READ | WRITE | RUN, .flags = SHARED | FIXED | UNTAKEN | SYNC | 0x40};
    demand(wulgach_mapping_placing(&asked) == (FIXED | UNTAKEN | 0x40) &&
               wulgach_mapping_protection(&asked) == (READ | WRITE),
        "where it is, and for what");
    demand(wulgach_names_descriptor(SHARED) && !wulgach_names_descriptor(SHARED | 0x20),
        "memory of no file");
}

static void note_threads(void)
{
    struct wulgach_issuer issuer;
    wulgach_issuer_begin(&issuer, 7, SINGLE, false);
    demand(!wulgach_issuer_is_another(&issuer, 8), "a layer that isn't strict");
    wulgach_issuer_begin(&issuer, 7, SINGLE, true);
    demand(wulgach_issuer_is_another(&issuer, 8) && !wulgach_issuer_is_another(&issuer, 7),
        "one that is");
    demand(wulgach_entering_fault(&issuer, 8, 1, false) == -17 &&
               wulgach_entering_fault(&issuer, 8, 0, true) == 0 &&
               wulgach_entering_fault(&issuer, 7, 1, true) == 0,
        "submissions");
    wulgach_issuer_begin(&issuer, 7, SINGLE | SQPOLL, true);
    demand(
        wulgach_issuer_is_another(&issuer, 8) && wulgach_entering_fault(&issuer, 8, 1, true) == 0,
        "a ring with a thread");
    wulgach_issuer_begin(&issuer, 7, SINGLE | DEFER | R_DISABLED, false);
    demand(issuer.is_disabled && !wulgach_issuer_is_another(&issuer, 8) &&
               wulgach_entering_fault(&issuer, 7, 0, false) == -77,
        "a disabled ring");
    wulgach_issuer_enable(&issuer, 8);
    wulgach_issuer_enable(&issuer, 7);
    demand(!issuer.is_disabled && wulgach_issuer_is_another(&issuer, 7) &&
               !wulgach_issuer_is_another(&issuer, 8),
        "who enabled it");
    demand(wulgach_entering_fault(&issuer, 7, 1, false) == -17 &&
               wulgach_entering_fault(&issuer, 7, 0, true) == -17 &&
               wulgach_entering_fault(&issuer, 7, 0, false) == 0,
        "deferred work");
}

/* Whether a list of processors has each of these numbers, and no other below 12. */
static bool has_numbers(const char *list, uint32_t numbers)
{
    for (uint32_t number = 0; number < 12; number++)
        if (wulgach_lists_number((const uint8_t *)list, strlen(list), number) !=
            (numbers >> number & 1))
            return false;
    return true;
}

static void list_processors(void)
{
    demand(has_numbers("0-3,5,7-9\n", 0x3af) && has_numbers("0\n", 1) && has_numbers("11", 0x800),
        "a list of processors");
    demand(has_numbers("", 0) && has_numbers("\n1", 0) && has_numbers("2,,4\n", 0x14) &&
               has_numbers("3-1\n", 0),
        "empty parts");
    demand(has_numbers("1-,-2,3-4-5,x6,7 ,8\n", 0x100), "parts that are anything else");
    demand(wulgach_lists_number((const uint8_t *)"4294967295", 10, UINT32_MAX) &&
               wulgach_lists_number((const uint8_t *)"0-99999999999999999999", 22, UINT32_MAX) &&
               !wulgach_lists_number((const uint8_t *)"99999999999999999999", 20, UINT32_MAX) &&
               !wulgach_lists_number((const uint8_t *)"4294967296", 10, 0),
        "large numbers");
}

static void take_what_is_unknown(void)
{
    demand(wulgach_is_taken_so(WULGACH_IS_REACHED, false, false) &&
               wulgach_is_taken_so(WULGACH_IS_EVENTFD, false, false) &&
               !wulgach_is_taken_so(WULGACH_IS_COUNTER, false, true) &&
               wulgach_is_taken_so(WULGACH_IS_ONLINE, false, false) &&
               !wulgach_is_taken_so(WULGACH_IS_SAME_FILE, false, true) &&
               wulgach_is_taken_so(WULGACH_IS_LOCKED, false, false),
        "what isn't known");
    for (uint32_t matter = WULGACH_IS_REACHED; matter <= WULGACH_IS_LOCKED; matter++)
        demand(wulgach_is_taken_so(matter, true, true) && !wulgach_is_taken_so(matter, true, false),
            "what is");
}

int main(void)
{
    make_rings();
    go_through_set_ups();
    map_rings();
    list_processors();
    take_what_is_unknown();
    refuse_flags();
    note_threads();
    printf("set_ups: as called for\n");
    return 0;
}
