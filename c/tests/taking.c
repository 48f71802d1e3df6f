/* Which positions a call takes, what goes on next, what waits after drains, what an update changes
 * and what is copied of an entry: with what the manual page calls for, written by hand. */
#include "demand.h"
#include "wulgach.h"
#include "wulgach_cancel.h"
#include "wulgach_enter.h"
#include "wulgach_form.h"
#include "wulgach_taking.h"

#include <stdio.h>
#include <string.h>

static void take_positions(void)
{
    struct wulgach_submitting asked = {.to_submit = 9, .head = UINT32_MAX, .tail = 3, .entries = 8};
    struct wulgach_item good = {.is_entry = true},
                        linked = {.is_entry = true, .is_faulty = true, .links = true},
                        faulty = {.is_entry = true, .is_faulty = true}, none = {0};
    struct wulgach_taking taking;
    uint32_t cell = 99;
    demand(wulgach_taking_begin(&taking, &asked, &cell) == 4 && cell == 7, "the first position");
    demand(wulgach_taking_took(&taking, &good, &cell) == WULGACH_TAKES && cell == 0, "the second");
    demand(wulgach_taking_took(&taking, &linked, &cell) == WULGACH_TAKES && cell == 1,
        "after a faulty entry that links");
    demand(wulgach_taking_took(&taking, &faulty, &cell) == WULGACH_ENDS_CALL && cell == 1,
        "after one that doesn't");
    asked.submits_all = true;
    wulgach_taking_begin(&taking, &asked, &cell);
    demand(wulgach_taking_took(&taking, &faulty, &cell) == WULGACH_TAKES &&
               wulgach_taking_took(&taking, &none, &cell) == WULGACH_ENDS_CALL,
        "a ring that submits all");
    asked.to_submit = 1;
    demand(wulgach_taking_begin(&taking, &asked, &cell) == 1 &&
               wulgach_taking_took(&taking, &good, &cell) == WULGACH_IS_FULL,
        "as many as are asked for");
    asked.given = 2;
    demand(wulgach_taking_begin(&taking, &asked, &cell) == 2, "what the core was given before");
    asked.given = 0;
    asked.tail = asked.head;
    cell = 99;
    demand(wulgach_taking_begin(&taking, &asked, &cell) == 0 && cell == 99, "nothing is published");
    demand(wulgach_refusal_fault(0, false) == -11 && wulgach_refusal_fault(1, false) == 0 &&
               wulgach_refusal_fault(1, true) == -11,
        "memory is refused");
}

static void choose(void)
{
    struct wulgach_ways ways = {.ready = 2, .issuable = 1, .may_return = true};
    uint32_t place;
    demand(wulgach_ways_count(&ways) == 4, "how many ways");
    demand(wulgach_ways_at(&ways, 1, &place) == WULGACH_WAY_FINISH && place == 1, "one that runs");
    demand(
        wulgach_ways_at(&ways, 2, &place) == WULGACH_WAY_ISSUE && place == 0, "one that can start");
    demand(wulgach_ways_at(&ways, 3, &place) == WULGACH_WAY_RETURN &&
               wulgach_ways_at(&ways, 4, &place) == WULGACH_NO_WAY,
        "the last");
}

static void post(void)
{
    static const struct wulgach_course waiting, started = {.has_started = true};
    struct wulgach_drains drains;
    struct wulgach_chain chain;
    int32_t res = 7;
    wulgach_drains_begin(&drains);
    demand(wulgach_drains_may_post(&drains, 0, false, true) &&
               !wulgach_drains_may_post(&drains, 1, false, true) &&
               !wulgach_drains_may_post(&drains, 1, true, true),
        "nothing drains");
    demand(!wulgach_drains_may_post(&drains, 0, false, false) &&
               !wulgach_drains_may_post(&drains, 0, true, false),
        "no memory");
    demand(wulgach_oldest_starts(&drains, true, &waiting) &&
               !wulgach_oldest_starts(&drains, true, &started),
        "no drain");
    wulgach_chain_first(&chain, 4);
    wulgach_chain_sees(&chain, 8);
    wulgach_chain_sees(&chain, 0);
    demand(
        !wulgach_drains_accept(&drains, &chain) && wulgach_drains_may_post(&drains, 0, false, true),
        "a chain without a drain");
    wulgach_chain_first(&chain, 4);
    wulgach_chain_sees(&chain, 2);
    demand(wulgach_drains_accept(&drains, &chain), "a chain with one");
    wulgach_drains_end(&drains, true);
    wulgach_drains_end(&drains, false);
    demand(!wulgach_drains_may_post(&drains, 0, false, true) &&
               wulgach_drains_may_post(&drains, 0, true, true),
        "its second member");
    wulgach_drains_end(&drains, true);
    demand(wulgach_drains_may_post(&drains, 0, false, true), "after its end");
    demand(!wulgach_oldest_starts(&drains, true, &waiting) &&
               wulgach_oldest_starts(&drains, false, &waiting) &&
               !wulgach_oldest_starts(&drains, false, &started),
        "a drain was there");
    demand(wulgach_is_one_choice(WULGACH_IN_ORDER, true) &&
               wulgach_is_one_choice(WULGACH_LAZY, true) &&
               wulgach_is_one_choice(WULGACH_BY_CHOICE, false) &&
               !wulgach_is_one_choice(WULGACH_BY_CHOICE, true),
        "what is one choice");
    demand(wulgach_end_of_send(true) == WULGACH_PART_NOTICE &&
               wulgach_end_of_send(false) == WULGACH_PART_SENT,
        "two completions of a send");
    struct wulgach_submission reports = {.opcode = 47, .ioprio = 8},
                              plain = {.opcode = 47, .ioprio = 4};
    demand(!wulgach_notice_of(&reports, false, &res) && res == 7, "no notice after a drain");
    demand(wulgach_notice_of(&reports, true, &res) && res == INT32_MIN &&
               wulgach_notice_of(&plain, true, &res) && res == 0,
        "a notice");
}

static void put_off(void)
{
    for (uint32_t what = WULGACH_SUBMISSION_COMES; what <= WULGACH_END_COMES; what++)
        demand(wulgach_order_after(what, false, false) == WULGACH_COMES_NOW &&
                   wulgach_order_after(what, true, false) == WULGACH_POSTS_FIRST,
            "what was put off comes first");
    demand(wulgach_order_after(WULGACH_SUBMISSION_COMES, true, true) == WULGACH_WAITS_BEHIND &&
               wulgach_order_after(WULGACH_POSTING_COMES, true, true) == WULGACH_WAITS_BEHIND &&
               wulgach_order_after(WULGACH_END_COMES, true, true) == WULGACH_COMES_NOW,
        "memory is refused still");
}

/* Which are looked at for those that find their files in their turn. */
static void find_in_turn(void)
{
    struct wulgach_due due;
    struct wulgach_due_span span = {77, 77};
    wulgach_due_begin(&due);
    demand(!wulgach_due_is_any(&due) && !wulgach_due_before(&due, UINT64_MAX, &span) &&
               span.first == 77,
        "none at first");
    wulgach_due_notes(&due, 3);
    wulgach_due_notes(&due, 7);
    demand(wulgach_due_is_any(&due) && !wulgach_due_before(&due, 3, &span) &&
               wulgach_due_before(&due, 4, &span) && span.first == 3 && span.last == 3,
        "the first");
    demand(wulgach_due_before(&due, UINT64_MAX, &span) && span.first == 3 && span.last == 7, "all");
    wulgach_due_found_before(&due, 5);
    demand(wulgach_due_is_any(&due) && !wulgach_due_before(&due, 5, &span) &&
               wulgach_due_before(&due, 8, &span) && span.first == 5 && span.last == 7,
        "those that are left");
    wulgach_due_found_before(&due, 2);
    demand(!wulgach_due_before(&due, 5, &span), "none comes back");
    wulgach_due_found_before(&due, 8);
    demand(
        !wulgach_due_is_any(&due) && !wulgach_due_before(&due, UINT64_MAX, &span), "none is left");
    wulgach_due_notes(&due, 9);
    demand(wulgach_due_before(&due, UINT64_MAX, &span) && span.first == 9 && span.last == 9,
        "another");
    wulgach_due_notes(&due, 6);
    demand(wulgach_due_before(&due, 9, &span) && span.first == 6 && span.last == 8,
        "and one before it");
}

static void search_and_update(void)
{
    struct wulgach_outstanding
        other = {.user_data = 1, .is_token = true, .runs = true, .is_stream = true},
        read = {.user_data = 2, .is_token = true, .runs = true},
        poll = {.user_data = 2, .is_token = true, .runs = true, .is_stream = true};
    struct wulgach_search search;
    wulgach_search_begin(&search, 2);
    demand(!wulgach_search_sees(&search, &other) && wulgach_search_sees(&search, &poll) &&
               !wulgach_search_sees(&search, &poll) && wulgach_search_has_cancelled(&search),
        "the oldest that waits");
    wulgach_search_begin(&search, 2);
    demand(!wulgach_search_sees(&search, &read) && !wulgach_search_sees(&search, &poll) &&
               !wulgach_search_has_cancelled(&search),
        "the oldest is carried out");
    demand(wulgach_search_found_by_core(&search, -114, true) == -114, "one was found");
    struct wulgach_outstanding limiting = {
        .user_data = 2, .code = 15, .is_token = true, .runs = true};
    wulgach_search_begin(&search, 2);
    demand(!wulgach_search_sees(&search, &limiting) &&
               wulgach_search_found_by_core(&search, -114, true) == -2 &&
               wulgach_search_found_by_core(&search, -114, false) == -114 &&
               wulgach_search_found_by_core(&search, 0, true) == 0,
        "a linked timeout isn't found");
    demand(wulgach_search_sees(&search, &poll) &&
               wulgach_search_found_by_core(&search, -114, true) == -114,
        "what stands after it is");
    struct wulgach_outstanding unstarted = {
        .user_data = 2, .is_token = true, .may_start = true, .is_stream = true};
    wulgach_search_begin(&search, 2);
    demand(!wulgach_search_sees(&search, &unstarted) && wulgach_search_sees(&search, &poll),
        "what doesn't run is passed over");
    struct wulgach_submission changed = {
        .opcode = 6, .user_data = 5, .op_flags = 1, .len = 1, .off = 9};
    wulgach_updated_poll(&changed, &(struct wulgach_submission){.len = 4, .off = 6});
    demand(changed.user_data == 6 && changed.op_flags == 1, "user data");
    wulgach_updated_poll(&changed, &(struct wulgach_submission){.len = 2, .off = 8, .op_flags = 4});
    demand(changed.user_data == 6 && changed.op_flags == 4 && changed.len == 1 &&
               changed.off == 9 && changed.opcode == 6,
        "events, and nothing else");
    changed.op_flags = 1u << 30 | 1;
    wulgach_updated_poll(
        &changed, &(struct wulgach_submission){.len = 2, .op_flags = 1u << 31 | 4});
    demand(changed.op_flags == (1u << 30 | 4), "16 bits of events");
    demand(wulgach_poll_removal(&(struct wulgach_submission){.len = 1}, true) ==
                   WULGACH_REMOVAL_CANCELS &&
               wulgach_poll_removal(&(struct wulgach_submission){.len = 2}, true) ==
                   WULGACH_REMOVAL_UPDATES &&
               wulgach_poll_removal(&(struct wulgach_submission){.len = 2}, false) ==
                   WULGACH_REMOVAL_DOES_NOTHING,
        "a poll's removal");
    demand(
        wulgach_timeout_removal(&(struct wulgach_submission){0}, true) == WULGACH_REMOVAL_CANCELS &&
            wulgach_timeout_removal(&(struct wulgach_submission){.op_flags = 3}, true) ==
                WULGACH_REMOVAL_UPDATES &&
            wulgach_timeout_removal(&(struct wulgach_submission){.op_flags = 19}, true) ==
                WULGACH_REMOVAL_UPDATES_LINKED &&
            wulgach_timeout_removal(&(struct wulgach_submission){.op_flags = 17}, true) ==
                WULGACH_REMOVAL_CANCELS,
        "a timeout's");
    demand(wulgach_removal_result(true) == 0 && wulgach_removal_result(false) == -2,
        "what a removal ends with");
    struct wulgach_linked linked = {.user_data = 5, .is_linked = true}, loose = {.user_data = 5};
    struct wulgach_linked_update update;
    wulgach_linked_update_begin(&update, 5);
    demand(
        !wulgach_linked_update_sees(&update, &loose) && wulgach_linked_update_result(&update) == -2,
        "none runs that is linked");
    demand(wulgach_linked_update_sees(&update, &linked) &&
               !wulgach_linked_update_sees(&update, &linked) &&
               wulgach_linked_update_result(&update) == 0,
        "the first is changed, and no other");
    wulgach_linked_update_begin(&update, 6);
    demand(!wulgach_linked_update_sees(&update, &linked) &&
               wulgach_linked_update_result(&update) == -2,
        "another's");
    struct wulgach_submission relative = {.opcode = 11, .off = 5, .op_flags = 33, .user_data = 7},
                              absolute = {.op_flags = 40};
    wulgach_updated_timeout(
        &relative, &(struct wulgach_submission){.op_flags = 2, .user_data = 8, .off = 3});
    wulgach_updated_timeout(&absolute, &(struct wulgach_submission){.op_flags = 3});
    demand(relative.op_flags == 32 && relative.off == 0 && absolute.op_flags == 41 &&
               absolute.off == 0,
        "a timeout's flags and count");
    demand(relative.opcode == 11 && relative.user_data == 7, "and nothing else");
}

/* What comes after so many pieces of an entry, none of which has a fault, and which hold one
 * vector. */
static int32_t next(struct wulgach_submission entry, uint32_t count, struct wulgach_piece *piece)
{
    return wulgach_next_piece(
        &entry, &(struct wulgach_copied){.count = count, .vectors = 1}, piece);
}

#define NEXT(count, ...) next((struct wulgach_submission){__VA_ARGS__}, count, &piece)

static const struct wulgach_beside nobody;

static uint8_t flags_before(uint8_t flags, const struct wulgach_submission *next, bool linux_rules)
{
    struct wulgach_core_entry made;
    struct wulgach_beside beside;
    wulgach_beside_of(next, WULGACH_FORM_TOKEN, true, &beside);
    wulgach_core_entry_between(&(struct wulgach_submission){.flags = flags}, WULGACH_FORM_TOKEN,
        &nobody, &beside, linux_rules, &made);
    return made.flags;
}

/* The flags that the core is told of an entry with a fault, of this operation, and of a linked
 * timeout after it; the entry before them links it or doesn't. */
static void tell_two(uint8_t code, bool is_linked, uint8_t fault_flags, uint8_t timeout_flags,
    bool linux_rules, uint8_t told[2])
{
    struct wulgach_submission fault = {.opcode = code, .flags = fault_flags},
                              timeout = {.opcode = 15, .flags = timeout_flags},
                              earlier = {.flags = is_linked ? 4 : 0};
    struct wulgach_beside before, first, second;
    struct wulgach_core_entry made;
    wulgach_beside_of(&earlier, WULGACH_FORM_TOKEN, false, &before);
    wulgach_beside_of(&fault, WULGACH_FORM_REFUSED, is_linked, &first);
    wulgach_beside_of(&timeout, WULGACH_FORM_TOKEN, true, &second);
    wulgach_core_entry_between(&fault, WULGACH_FORM_REFUSED, &before, &second, linux_rules, &made);
    told[0] = made.flags;
    wulgach_core_entry_between(&timeout, WULGACH_FORM_TOKEN, &first, &nobody, linux_rules, &made);
    told[1] = made.flags;
}

static void skip_after_faults(void)
{
    enum { LINK = 4, HARD = 8, SKIP = 64, DRAIN = 2, ANY = 0, UNKNOWN = 99 };
    static const struct {
        uint8_t code, fault, timeout, told[2];
        bool is_linked, by_manual;
    } rows[] = {
        {ANY, LINK, 0, {LINK | HARD, 0}, .is_linked = false},
        {ANY, LINK | SKIP, 0, {LINK | HARD, SKIP}, .is_linked = false},
        {ANY, LINK, SKIP, {LINK | HARD | SKIP, SKIP}, .is_linked = false},
        {ANY, HARD | SKIP, SKIP, {HARD | SKIP, SKIP}, .is_linked = false},
        {UNKNOWN, HARD | SKIP, 0, {HARD, 0}, .is_linked = false},
        {UNKNOWN, HARD, SKIP, {HARD | SKIP, SKIP}, .is_linked = false},
        {ANY, HARD | SKIP, 0, {HARD | SKIP, 0}, .is_linked = true},
        {ANY, HARD | SKIP, LINK, {HARD | SKIP, LINK}, .is_linked = false},
        {ANY, HARD | SKIP | DRAIN, 0, {HARD | SKIP | DRAIN, 0}, .is_linked = false},
        {ANY, HARD | SKIP, DRAIN, {HARD | SKIP, DRAIN}, .is_linked = false},
        {ANY, LINK | SKIP, 0, {LINK | SKIP, 0}, .is_linked = false, .by_manual = true},
    };
    for (size_t i = 0; i < sizeof rows / sizeof *rows; i++) {
        uint8_t told[2];
        tell_two(rows[i].code, rows[i].is_linked, rows[i].fault, rows[i].timeout,
            !rows[i].by_manual, told);
        demand(told[0] == rows[i].told[0] && told[1] == rows[i].told[1],
            "a linked timeout after a fault");
    }
}

static void copy_pieces(void)
{
    enum {
        READV = 1,
        RECVMSG = 10,
        CONNECT = 16,
        BIND = 56,
        READ = 22,
        OPENAT2 = 28,
        SEND = 26,
        SETXATTR = 42,
        SEND_ZC = 47
    };
    struct wulgach_submission set = {.opcode = SETXATTR, .addr = 1, .off = 2, .addr3 = 3, .len = 5};
    struct wulgach_piece piece = {.from = 99};
    demand(NEXT(0, .opcode = 0) == 0 && piece.from == 99, "a no-op");
    demand(NEXT(0, .opcode = READV, .addr = 8, .len = 3) == 1 && piece.what == WULGACH_VECTORS &&
               piece.from == 8 && piece.size == 48,
        "vectors");
    demand(NEXT(0, .opcode = READ) == 1 && piece.what == WULGACH_BUFFER, "a buffer");
    demand(next(set, 0, &piece) == 1 && piece.what == WULGACH_SECOND_PATH && piece.from == 1,
        "an attribute's name");
    demand(next(set, 1, &piece) == 1 && piece.what == WULGACH_VALUE && piece.from == 2 &&
               piece.size == 5,
        "its value");
    demand(next(set, 2, &piece) == 1 && piece.what == WULGACH_PATH && piece.from == 3 &&
               next(set, 3, &piece) == 0,
        "its file");
    set.len = 0;
    demand(next(set, 1, &piece) == 1 && piece.what == WULGACH_PATH && piece.from == 3 &&
               next(set, 2, &piece) == 0,
        "its file after no value");
    set.len = 65537;
    demand(next(set, 1, &piece) == -7 && NEXT(0, .opcode = CONNECT, .off = 129) == -22 &&
               NEXT(0, .opcode = CONNECT, .off = 128) == 1 &&
               NEXT(0, .opcode = BIND, .off = 129) == -22 &&
               NEXT(0, .opcode = BIND, .off = 1ull << 32 | 2) == 1,
        "too long");
    demand(NEXT(1, .opcode = SEND_ZC, .off = 1, .file_index = 0x10080) == 1 &&
               NEXT(1, .opcode = SEND_ZC) == 0 &&
               NEXT(1, .opcode = SEND, .off = 1, .file_index = 16) == 1,
        "where a send goes");
    demand(NEXT(0, .opcode = OPENAT2, .addr = 1, .off = 2, .len = 32) == 1 &&
               piece.what == WULGACH_HOW_REST && piece.from == 2 && piece.size == 32,
        "what is newer in how a file is opened");
    demand(NEXT(1, .opcode = OPENAT2, .addr = 1, .off = 2, .len = 32) == 1 &&
               piece.what == WULGACH_HOW && piece.from == 2 && piece.size == 24,
        "what is known of that");
    demand(NEXT(2, .opcode = OPENAT2, .addr = 1, .off = 2, .len = 32) == 1 &&
               piece.what == WULGACH_PATH && piece.from == 1,
        "its path comes after that");
    demand(NEXT(1, .opcode = OPENAT2, .len = 24, .flags = 1, .buf_index = 1) == 1 &&
               NEXT(2, .opcode = OPENAT2, .len = 24, .flags = 1) == -9 &&
               NEXT(2, .opcode = OPENAT2, .len = 24, .flags = 1, .buf_index = 1) == -22,
        "a slot and a buffer come after its structure");
    demand(NEXT(0, .opcode = OPENAT2, .len = 4097) == 1 && wulgach_how_fault(false) == -7 &&
               wulgach_how_fault(true) == 0,
        "a longer structure");
    demand(wulgach_time_fault(0, 0) == 0 && wulgach_time_fault(-1, 5) == -22 &&
               wulgach_time_fault(5, -1) == -22,
        "a time");
    struct wulgach_submission selects = {.opcode = RECVMSG, .flags = 32};
    demand(wulgach_message_vectors(&selects, 0) == 1 && wulgach_message_vectors(&selects, 2) == 2 &&
               wulgach_message_vectors(&(struct wulgach_submission){.opcode = RECVMSG}, 0) == 0,
        "its vectors");
    demand(wulgach_wanted_of(&selects, 9) == 9 &&
               wulgach_wanted_of(&(struct wulgach_submission){.opcode = RECVMSG}, 9) == 0,
        "how much of a buffer");
}

/* What the core is given for an entry, and its words. */
static void core_entries(void)
{
    struct wulgach_core_entry made;
    struct wulgach_submission cancel = {.opcode = 14, .flags = 255, .user_data = 5, .addr = 6};
    wulgach_core_entry_between(&cancel, WULGACH_FORM_CANCEL, &nobody, &nobody, true, &made);
    demand(made.code == 14 && made.flags == 94 && made.user_data == 5 && made.target == 6,
        "a cancel of the core's");
    wulgach_core_entry_between(&cancel, WULGACH_FORM_TOKEN, &nobody, &nobody, true, &made);
    demand(
        made.code == 0 && made.flags == 94 && made.user_data == 5 && made.target == 0, "a token");
    wulgach_core_entry_between(&cancel, WULGACH_FORM_REFUSED, &nobody, &nobody, true, &made);
    demand(made.code == 255 && made.len == 0 && made.flags == 94,
        "an entry with a fault of its flags");
    cancel.flags = 94;
    wulgach_core_entry_between(&cancel, WULGACH_FORM_REFUSED, &nobody, &nobody, true, &made);
    demand(made.code == 22 && made.len == 65 && made.flags == 94, "an entry with another");
    struct wulgach_submission timeout = {.opcode = 15}, linked = {.opcode = 15, .flags = 4},
                              other = {.opcode = 11};
    demand(flags_before(70, &timeout, true) == 78 && flags_before(72, &timeout, true) == 72 &&
               flags_before(66, &timeout, true) == 66,
        "before a linked timeout");
    demand(flags_before(4, &linked, true) == 4 && flags_before(4, &other, true) == 4 &&
               flags_before(70, &timeout, false) == 70,
        "before another, or by other rules");
    struct wulgach_entry words, wanted;
    wulgach_core_words(
        &(struct wulgach_core_entry){.code = 14, .flags = 94, .user_data = 5, .target = 6}, &words);
    wulgach_cancel(wanted.words, 5, 94, 6);
    demand(memcmp(&words, &wanted, sizeof words) == 0, "the words of a cancel");
    wulgach_core_words(
        &(struct wulgach_core_entry){.code = 22, .len = 65, .user_data = UINT64_MAX}, &words);
    wulgach_read(wanted.words, UINT64_MAX, 0, 0, 0, 65);
    demand(memcmp(&words, &wanted, sizeof words) == 0, "and of one that is refused");
}

static void no_ends(void)
{
    uint8_t code = 5;
    demand(wulgach_extra_of(true, &code) == WULGACH_FORM_REFUSED && code == 255 &&
               wulgach_extra_of(false, &code) == WULGACH_FORM_TOKEN && code == 0,
        "a completion that belongs to no end");
    demand(wulgach_told_of_end(true) == 0 && wulgach_told_of_end(false) == -9,
        "what it is told of an end");
    demand(wulgach_names_slot(7, 8) && !wulgach_names_slot(8, 8), "a slot");
}

/* One buffer is told as its piece is, and nothing after it. */
static void one_buffers(void)
{
    enum { READ = 22, SETXATTR = 42 };
    struct wulgach_piece piece;
    for (int code = 0; code < 256; code++) {
        struct wulgach_submission entry = {
            .opcode = (uint8_t)code, .flags = 32, .addr = 8, .len = 3};
        bool is_buffer = next(entry, 0, &piece) == 1 && piece.what == WULGACH_BUFFER,
             ends = next(entry, 1, &piece) == 0;
        struct wulgach_piece one = {.from = 1};
        bool has_one = wulgach_one_buffer(&entry, &one);
        demand(has_one ? is_buffer && ends && one.what == WULGACH_BUFFER && one.from == 8 &&
                             one.size == 3
                       : one.from == 1,
            "one buffer is told, and then nothing");
    }
    demand(
        wulgach_one_buffer(&(struct wulgach_submission){.opcode = READ}, &piece) &&
            !wulgach_one_buffer(&(struct wulgach_submission){.opcode = SETXATTR, .len = 5}, &piece),
        "a read has one buffer");
}

/* As a real ring of Linux 6.18 ends entries with such a path or name. */
static void look_at_names(void)
{
    enum {
        OPENAT = 18,
        STATX = 21,
        OPENAT2 = 28,
        RENAMEAT = 35,
        UNLINKAT,
        MKDIRAT,
        SYMLINKAT,
        LINKAT,
        FSETXATTR = 41,
        SETXATTR,
        FGETXATTR,
        GETXATTR,
        EMPTY_PATH = 0x1000
    };
    static const struct {
        uint8_t opcode;
        uint32_t flags;
        bool is_second;
        uint64_t length;
        bool has_end;
        int32_t fault;
    } rows[] = {
        {OPENAT, 0, false, 0, true, -2},
        {OPENAT, EMPTY_PATH, false, 0, true, -2},
        {OPENAT, 0, false, 4095, true, 0},
        {OPENAT, 0, false, 4096, false, -36},
        {OPENAT2, 0, false, 0, true, -2},
        {STATX, 0, false, 0, true, -2},
        {STATX, EMPTY_PATH, false, 0, true, 0},
        {STATX, EMPTY_PATH, false, 4096, false, -36},
        {MKDIRAT, 0, false, 0, true, -2},
        {UNLINKAT, EMPTY_PATH, false, 0, true, -2},
        {RENAMEAT, 0, false, 0, true, -2},
        {RENAMEAT, EMPTY_PATH, true, 0, true, -2},
        {RENAMEAT, 0, true, 4096, false, -36},
        {SYMLINKAT, 0, false, 0, true, -2},
        {SYMLINKAT, 0, true, 0, true, -2},
        {LINKAT, 0, false, 0, true, -2},
        {LINKAT, EMPTY_PATH, false, 0, true, 0},
        {LINKAT, EMPTY_PATH, true, 0, true, -2},
        {LINKAT, 0x400, false, 0, true, -2},
        {FSETXATTR, 0, true, 0, true, -34},
        {SETXATTR, 0, true, 256, false, -34},
        {FGETXATTR, 0, true, 255, true, 0},
        {GETXATTR, 0, true, 0, true, -34},
        {GETXATTR, 0, true, 1, true, 0},
        {SETXATTR, 0, false, 0, true, -2},
        {GETXATTR, EMPTY_PATH, false, 0, true, -2},
        {GETXATTR, 0, false, 4096, false, -36},
        {FSETXATTR, 0, true, 256, true, -34},
    };
    for (size_t i = 0; i < sizeof rows / sizeof *rows; i++) {
        struct wulgach_submission entry = {.opcode = rows[i].opcode, .op_flags = rows[i].flags};
        demand(wulgach_name_fault(&entry, rows[i].is_second, rows[i].length, rows[i].has_end) ==
                   rows[i].fault,
            "a path or a name");
    }
}

/* The same of messages, without their faults of memory: what is copied after what, and what that
 * ends with. */
static void look_at_messages(void)
{
    enum {
        SENDMSG = 9,
        RECVMSG,
        SENDMSG_ZC = 48,
        SELECT = 32,
        GOES_ON = 2,
        ADDRESS = 1000,
        VECTORS = 2000
    };
    static const struct {
        uint8_t opcode, flags;
        uint16_t ioprio;
        struct wulgach_header header;
        int32_t found[3];
    } rows[] = {
        {SENDMSG, 0, 0, {8, 16, 2, 0, 20}, {ADDRESS + 20, VECTORS + 32, 0}},
        {SENDMSG_ZC, 0, 0, {8, 16, 0, 0, 999}, {ADDRESS + 128, 0}},
        {SENDMSG, 0, 0, {0, 16, 1, 0, UINT32_MAX}, {VECTORS + 16, 0}},
        {SENDMSG, 0, 0, {8, 16, 1, 0, 0}, {VECTORS + 16, 0}},
        {SENDMSG, 0, 0, {8, 16, 1025, 0, UINT32_MAX}, {-22}},
        {SENDMSG, 0, 0, {8, 16, 1025, 0, 1}, {ADDRESS + 1, -90}},
        {SENDMSG, 0, 0, {0, 16, 1024, 0, 0}, {VECTORS + 16384, 0}},
        {RECVMSG, 0, 0, {8, 16, 1, 0, 20}, {VECTORS + 16, 0}},
        {RECVMSG, 0, 0, {8, 16, 0, 0, 1u << 31}, {-22}},
        {RECVMSG, 0, 0, {0, 16, 0, 0, 1u << 31}, {0}},
        {RECVMSG, 0, 0, {0, 16, UINT64_MAX, 0, 0}, {-90}},
        {RECVMSG, SELECT, 0, {0, 16, 2, 0, 0}, {-22}},
        {RECVMSG, SELECT, 0, {0, 16, 1025, 0, 0}, {-90}},
        {RECVMSG, SELECT, 0, {0, 16, 1, UINT64_MAX, UINT32_MAX}, {VECTORS + 16, 0}},
        {RECVMSG, SELECT, GOES_ON, {0, 16, 0, 0, UINT32_MAX}, {-75}},
        {RECVMSG, SELECT, GOES_ON, {8, 16, 0, 0, UINT32_MAX}, {-22}},
        {RECVMSG, SELECT, GOES_ON, {0, 16, 1, 1u << 31, 0}, {VECTORS + 16, -75}},
        {RECVMSG, SELECT, GOES_ON, {8, 16, 1, INT32_MAX - 16, 0}, {VECTORS + 16, 0}},
        {RECVMSG, SELECT, GOES_ON, {8, 16, 1, INT32_MAX - 16, 1}, {VECTORS + 16, -75}},
        {RECVMSG, SELECT, GOES_ON, {8, 16, 1, UINT64_MAX, 1}, {VECTORS + 16, -75}},
    };
    for (size_t i = 0; i < sizeof rows / sizeof *rows; i++) {
        struct wulgach_submission entry = {
            .opcode = rows[i].opcode, .flags = rows[i].flags, .ioprio = rows[i].ioprio};
        int32_t next = 1;
        for (uint32_t count = 0; next > 0; count++) {
            struct wulgach_piece piece;
            next = wulgach_next_message_piece(&entry, &rows[i].header, count, 0, &piece);
            int32_t found = next <= 0 ? next
                                      : (piece.what == WULGACH_ADDRESS ? ADDRESS : VECTORS) +
                                            (int32_t)piece.size;
            demand(found == rows[i].found[count], "a message");
            demand(next <= 0 || piece.from == (piece.what == WULGACH_ADDRESS ? 8 : 16),
                "where it stands");
        }
        demand(wulgach_next_message_piece(
                   &entry, &rows[i].header, 0, -14, &(struct wulgach_piece){0}) == -14,
            "the fault of a piece");
    }
}

/* The fault of an entry after its pieces, of which the last has one. */
static int32_t last(struct wulgach_submission entry, struct wulgach_copied copied)
{
    struct wulgach_piece piece;
    return wulgach_next_piece(&entry, &copied, &piece);
}

static void end_copies(void)
{
    enum { READ = 22, TIMEOUT = 11, LINK_TIMEOUT = 15, SELECTS = 32 };
    struct wulgach_submission read = {.opcode = READ, .flags = SELECTS},
                              timeout = {.opcode = LINK_TIMEOUT};
    demand(last(read, (struct wulgach_copied){.count = 1, .vectors = 1}) == 0 &&
               last(read, (struct wulgach_copied){.count = 1, .vectors = 2}) == -22,
        "a provided buffer");
    demand(last(read, (struct wulgach_copied){.count = 1, .vectors = 2, .fault = -14}) == -14,
        "what can't be read");
    demand(last(timeout,
               (struct wulgach_copied){
                   .count = 1, .before = {.links = true}, .has_before = true}) == 0,
        "a linked timeout");
    demand(last(timeout, (struct wulgach_copied){.count = 1, .before = {.links = true}}) == -22,
        "first in its call");
    demand(last(timeout, (struct wulgach_copied){.count = 1, .has_before = true}) == -22,
        "after one that doesn't link it");
    demand(
        last(timeout,
            (struct wulgach_copied){.count = 1, .before = {true, true}, .has_before = true}) == -22,
        "after another");
    demand(last(timeout, (struct wulgach_copied){.count = 1, .fault = -14}) == -14,
        "after its time's fault");
    demand(last((struct wulgach_submission){.opcode = TIMEOUT},
               (struct wulgach_copied){.count = 1}) == 0,
        "a timeout");
}

int main(void)
{
    end_copies();
    take_positions();
    choose();
    post();
    put_off();
    find_in_turn();
    search_and_update();
    copy_pieces();
    core_entries();
    no_ends();
    one_buffers();
    skip_after_faults();
    look_at_names();
    look_at_messages();
    printf("taking: as called for\n");
    return 0;
}
