/* Worked rows of cores and machines, with the answers that the rules call for, written by hand; and
 * calls and requests at size, of which none may be refused memory. */
#include "wulgach.h"

#include <stdio.h>
#include <stdlib.h>
#include <string.h>

static void check(bool is_right, const char *what)
{
    if (!is_right) {
        fprintf(stderr, "rows: %s\n", what);
        exit(1);
    }
}

static const struct wulgach_setup four = {.sq = 4, .cq = 4, .has_cq = true, .files = 2};

static struct wulgach_answer core_step(
    struct wulgach_core *core, uint32_t kind, uint32_t word, uint64_t number)
{
    struct wulgach_step made = {.kind = kind, .word = word, .number = number};
    struct wulgach_answer answer;
    check(wulgach_core_step(core, &made, &answer) == 0, "a core's step");
    return answer;
}

static struct wulgach_answer step(
    struct wulgach_machine *machine, uint32_t kind, uint32_t word, uint64_t number)
{
    struct wulgach_step made = {.kind = kind, .word = word, .number = number};
    struct wulgach_answer answer;
    check(wulgach_machine_step(machine, &made, &answer) == 0, "a machine's step");
    return answer;
}

/* A core ends its only request, a no-op, with 7. */
static void one_request(void)
{
    struct wulgach_core core = {0};
    struct wulgach_entry entry;
    struct wulgach_taken taken;
    struct wulgach_answer end;
    struct wulgach_bytes none = {{0}};
    struct wulgach_completion completion;
    struct wulgach_operation operation;
    struct wulgach_counts counts;
    uint64_t least = 99, next = 99;
    wulgach_nop(entry.words, 9, 0);
    check(wulgach_core_new(&core, &four) == 0 &&
              wulgach_core_submit_one(&core, &entry, &taken) == 0 && taken.accepted == 1,
        "a request is taken");
    check(wulgach_core_least(&core, &least) == 0 && least == 0 &&
              wulgach_core_next_issuable(&core, 0, &next) == 0 && next == 0,
        "it waits");
    check(core_step(&core, WULGACH_ISSUE, 0, 0).kind == WULGACH_RUN, "it is started");
    check(wulgach_core_running_op(&core, 0, &operation) == 0 && operation.code == WULGACH_OP_NOP,
        "it runs");
    check(wulgach_core_finish(&core, 0, 7, &none, &end) == 0 && end.kind == WULGACH_ENDED &&
              end.res == 7,
        "it ends");
    check(memcmp(end.bytes, none.bytes, sizeof none.bytes) == 0, "it has no data");
    check(wulgach_core_rest(&core, 0, &completion) == 0 && completion.user_data == 9,
        "its completion rests");
    check(wulgach_core_counts(&core, &counts) == 0, "counts");
    check(counts.accepted == 1 && counts.outstanding == 0 && counts.running == 0 &&
              counts.posted == 1 && counts.reaped == 0,
        "what it counts");
    check(wulgach_core_free(&core) == 0, "free");
}

/* Two requests in a whole call are reaped in order, and a third place is left alone; none is reaped
 * after them. */
static void two_requests(void)
{
    struct wulgach_core core = {0};
    struct wulgach_entry entries[2];
    struct wulgach_answer answer;
    struct wulgach_bytes none = {{0}};
    struct wulgach_completion places[3];
    struct wulgach_counts counts;
    uint64_t count = 99;
    memset(places, 0, sizeof places);
    wulgach_nop(entries[0].words, 7, 0);
    wulgach_nop(entries[1].words, 8, 0);
    check(
        wulgach_core_new(&core, &four) == 0 && wulgach_core_submit(&core, entries, 2, &answer) == 0,
        "submit");
    check(
        answer.kind == WULGACH_TAKEN && answer.word == 2 && answer.dropped == 0 && answer.head == 2,
        "both are taken");
    for (uint64_t number = 0; number < 2; number++) {
        core_step(&core, WULGACH_ISSUE, 0, number);
        check(wulgach_core_finish(&core, number, 5, &none, &answer) == 0, "finish");
    }
    check(wulgach_core_reap_all(&core, places, 3, &count) == 0 && count == 2, "two are reaped");
    check(places[0].user_data == 7 && places[0].res == 5 && places[1].user_data == 8 &&
              places[1].res == 5,
        "in order");
    check(places[2].user_data == 0 && places[2].res == 0, "a third place is left alone");
    check(wulgach_core_reap_all(&core, places, 3, &count) == 0 && count == 0, "none is left");
    check(wulgach_core_counts(&core, &counts) == 0 && counts.reaped == 2, "so many are reaped");
    check(wulgach_core_free(&core) == 0, "free");
}

/* A ring that stops takes up to the entry with a fault, and the rest waits. A whole call of more
 * entries than slots, one after a word that is staged, one beside an open call, and one of a closed
 * ring are refused before any step. */
static void whole_calls(void)
{
    static const struct wulgach_setup stopping = {
        .sq = 4, .cq = 4, .has_cq = true, .files = 2, .stops = true};
    struct wulgach_core core = {0};
    struct wulgach_entry entries[5];
    struct wulgach_answer answer;
    for (uint64_t i = 0; i < 5; i++)
        wulgach_nop(entries[i].words, i + 1, i == 1 ? WULGACH_IO_DRAIN | 0x80 : 0);
    check(wulgach_core_new(&core, &stopping) == 0 &&
              wulgach_core_submit(&core, entries, 3, &answer) == 0,
        "submit");
    check(
        answer.kind == WULGACH_TAKEN && answer.word == 2 && answer.dropped == 0 && answer.head == 2,
        "up to the fault");
    check(wulgach_core_submit(&core, entries, 1, &answer) == 0 && answer.kind == WULGACH_BUSY,
        "the rest waits");
    answer = core_step(&core, WULGACH_BEGIN, 4, 0);
    check(answer.kind == WULGACH_CALL && answer.word == 1, "it is one");
    check(wulgach_core_new(&core, &four) == 0 &&
              wulgach_core_submit(&core, entries, 5, &answer) == 0 &&
              answer.kind == WULGACH_NO_SLOT,
        "too many");
    core_step(&core, WULGACH_INDEX, 0, 0);
    check(wulgach_core_submit(&core, entries, 1, &answer) == 0 && answer.kind == WULGACH_BUSY,
        "a word is staged");
    core_step(&core, WULGACH_STORE_TAIL, 0, 0);
    core_step(&core, WULGACH_BEGIN, 1, 0);
    check(wulgach_core_submit(&core, entries, 1, &answer) == 0 && answer.kind == WULGACH_IN_CALL,
        "a call is open");
    core_step(&core, WULGACH_TAKE, 0, 0);
    core_step(&core, WULGACH_END, 0, 0);
    core_step(&core, WULGACH_CLOSE, 0, 0);
    check(wulgach_core_submit(&core, entries, 1, &answer) == 0 && answer.kind == WULGACH_CLOSED,
        "a closed ring");
    check(wulgach_core_free(&core) == 0, "free");
}

/* Submits these entries in one call, step by step. */
static void submit(
    struct wulgach_machine *machine, const struct wulgach_entry *entries, uint32_t count)
{
    for (uint32_t i = 0; i < count; i++) {
        struct wulgach_step fill = {.kind = WULGACH_FILL, .word = i};
        struct wulgach_answer answer;
        memcpy(fill.entry, entries[i].words, sizeof fill.entry);
        check(wulgach_machine_step(machine, &fill, &answer) == 0 && answer.kind == WULGACH_FILLED,
            "fill");
        check(step(machine, WULGACH_INDEX, i, 0).kind == WULGACH_STAGED, "index");
    }
    step(machine, WULGACH_STORE_TAIL, 0, 0);
    check(step(machine, WULGACH_BEGIN, count, 0).kind == WULGACH_CALL, "begin");
    for (uint32_t i = 0; i < count; i++)
        step(machine, WULGACH_TAKE, 0, 0);
    check(step(machine, WULGACH_END, 0, 0).word == count, "end");
    step(machine, WULGACH_LOAD_HEAD, 0, 0);
}

/* Three requests of two calls are finished, and none of their completions is reaped. The ring holds
 * two of them. */
static void completions_rest(void)
{
    static const struct wulgach_setup two = {.sq = 2, .cq = 2, .has_cq = true, .files = 2};
    struct wulgach_machine machine = {0};
    struct wulgach_entry entries[3];
    struct wulgach_completion completion;
    for (uint64_t i = 0; i < 3; i++)
        wulgach_nop(entries[i].words, i + 1, 0);
    check(wulgach_machine_new(&machine, &two) == 0, "new");
    submit(&machine, entries, 2);
    submit(&machine, entries + 2, 1);
    for (uint64_t number = 0; number < 3; number++) {
        check(step(&machine, WULGACH_ISSUE, 0, number).kind == WULGACH_RUN, "issue");
        struct wulgach_answer end = step(&machine, WULGACH_FINISH, 0, number);
        check(end.kind == WULGACH_ENDED && end.res == 0, "finish");
    }
    for (uint64_t place = 0; place < 3; place++)
        check(wulgach_machine_rest(&machine, place, &completion) == 0 &&
                  completion.user_data == place + 1,
            "each completion rests");
    check(wulgach_machine_rest(&machine, 3, &completion) != 0, "there is no fourth");
    check(wulgach_machine_free(&machine) == 0, "free");
}

/* Whether a file stands so, and none of its writes is synced. */
static bool stands(struct wulgach_machine *machine, int32_t fd, uint32_t len, uint64_t writes)
{
    struct wulgach_file file;
    return wulgach_machine_state(machine, fd, &file) == 0 && file.len == len &&
           file.writes == writes && file.synced == 0;
}

/* A write is the least and comes first. It stays the least while it runs, and the sync comes next.
 * Both files stand as they should once the machine is idle, and there is no third. */
static void a_write_reaches_its_file(void)
{
    struct wulgach_machine machine = {0};
    struct wulgach_entry entries[2];
    struct wulgach_operation operation;
    struct wulgach_file file;
    uint64_t least = 99, next = 99;
    uint8_t byte;
    wulgach_write(entries[0].words, 1, 0, 0, 2, (const uint8_t *)"ab", 2);
    wulgach_fsync(entries[1].words, 2, 0, 1);
    check(wulgach_machine_new(&machine, &four) == 0, "new");
    submit(&machine, entries, 2);
    check(wulgach_machine_least(&machine, &least) == 0 && least == 0 &&
              wulgach_machine_next_issuable(&machine, 0, &next) == 0 && next == 0,
        "the write is first");
    check(step(&machine, WULGACH_ISSUE, 0, 0).kind == WULGACH_RUN, "the write is started");
    check(wulgach_machine_least(&machine, &least) == 0 && least == 0 &&
              wulgach_machine_next_issuable(&machine, 0, &next) == 0 && next == 1,
        "the sync is next");
    check(wulgach_machine_running_op(&machine, 1, &operation) != 0, "the sync doesn't run");
    check(wulgach_machine_running_op(&machine, 0, &operation) == 0, "the write runs");
    check(operation.code == WULGACH_OP_WRITE && operation.fd == 0 && operation.off == 2 &&
              operation.len == 2 && memcmp(operation.bytes, "ab", 3) == 0,
        "it is the write");
    step(&machine, WULGACH_FINISH, 0, 0);
    check(step(&machine, WULGACH_ISSUE, 0, 1).kind == WULGACH_RUN, "the sync is started");
    step(&machine, WULGACH_FINISH, 0, 1);
    check(stands(&machine, 0, 4, 1) && stands(&machine, 1, 0, 0) &&
              wulgach_machine_state(&machine, 2, &file) != 0,
        "how the files stand");
    for (uint64_t at = 0; at < 4; at++)
        check(wulgach_machine_byte(&machine, 0, at, &byte) == 0 && byte == (uint8_t) "\0\0ab"[at],
            "a byte");
    check(wulgach_machine_byte(&machine, 0, 4, &byte) != 0, "there is no fifth");
    check(wulgach_machine_free(&machine) == 0, "free");
}

/* A call of so many no-ops, all by the entry of one slot, with the head after it. */
static void large_call(struct wulgach_machine *machine, uint32_t count, uint32_t head)
{
    struct wulgach_step fill = {.kind = WULGACH_FILL};
    struct wulgach_answer answer;
    wulgach_nop(fill.entry, 7, 0);
    check(wulgach_machine_step(machine, &fill, &answer) == 0, "fill");
    for (uint32_t i = 0; i < count; i++)
        step(machine, WULGACH_INDEX, 0, 0);
    step(machine, WULGACH_STORE_TAIL, 0, 0);
    answer = step(machine, WULGACH_BEGIN, count, 0);
    check(answer.kind == WULGACH_CALL && answer.word == count, "begin");
    for (uint32_t i = 0; i < count; i++)
        step(machine, WULGACH_TAKE, 0, 0);
    answer = step(machine, WULGACH_END, 0, 0);
    check(answer.kind == WULGACH_TAKEN && answer.word == count && answer.dropped == 0 &&
              answer.head == head,
        "end");
    step(machine, WULGACH_LOAD_HEAD, 0, 0);
}

/* All requests are started and ended, in order, and none of their completions is reaped: the last
 * rests after all others. */
static void end_all(struct wulgach_machine *machine, uint64_t count)
{
    struct wulgach_completion completion;
    struct wulgach_counts counts;
    for (uint64_t number = 0; number < count; number++) {
        check(step(machine, WULGACH_ISSUE, 0, number).kind == WULGACH_RUN, "issue");
        check(step(machine, WULGACH_FINISH, 0, number).kind == WULGACH_ENDED, "finish");
    }
    check(wulgach_machine_counts(machine, &counts) == 0 && counts.outstanding == 0 &&
              counts.posted == count && counts.reaped == 0,
        "all are posted");
    check(wulgach_machine_rest(machine, count - 1, &completion) == 0 && completion.user_data == 7,
        "the last rests");
    check(wulgach_machine_rest(machine, count, &completion) == -2, "none after it");
}

/* Four calls on the largest rings, all but the first of a whole ring, and then the ends of all; and
 * 100,000 requests, each in a call of its own, of which each ends and is reaped before the next. */
static void at_size(void)
{
    static const struct wulgach_setup large = {.sq = 4096, .cq = 8192, .has_cq = true, .files = 1},
                                      least = {.sq = 1, .cq = 1, .has_cq = true, .files = 1};
    struct wulgach_machine machine = {0};
    struct wulgach_counts counts;
    check(wulgach_machine_new(&machine, &large) == 0, "new");
    large_call(&machine, 1100, 1100);
    large_call(&machine, 4096, 5196);
    check(wulgach_machine_counts(&machine, &counts) == 0 && counts.accepted == 5196 &&
              counts.outstanding == 5196,
        "all are accepted");
    large_call(&machine, 4096, 9292);
    large_call(&machine, 4096, 13388);
    check(wulgach_machine_counts(&machine, &counts) == 0 && counts.accepted == 13388 &&
              counts.outstanding == 13388 && counts.running == 0,
        "so are as many again");
    end_all(&machine, 13388);
    check(wulgach_machine_new(&machine, &least) == 0, "new");
    for (uint32_t number = 0; number < 100000; number++) {
        large_call(&machine, 1, number + 1);
        step(&machine, WULGACH_ISSUE, 0, number);
        step(&machine, WULGACH_FINISH, 0, number);
        step(&machine, WULGACH_LOAD_CQ_TAIL, 0, 0);
        step(&machine, WULGACH_REAP, 0, 0);
        step(&machine, WULGACH_STORE_CQ_HEAD, 0, 0);
        step(&machine, WULGACH_FLUSH, 0, 0);
    }
    check(wulgach_machine_counts(&machine, &counts) == 0, "counts");
    check(counts.accepted == 100000 && counts.outstanding == 0 && counts.running == 0 &&
              counts.posted == 100000 && counts.reaped == 100000,
        "all have ended");
    check(wulgach_machine_free(&machine) == 0, "free");
}

int main(void)
{
    one_request();
    two_requests();
    whole_calls();
    completions_rest();
    a_write_reaches_its_file();
    at_size();
    puts("rows: cores and machines go as they should");
    return 0;
}
