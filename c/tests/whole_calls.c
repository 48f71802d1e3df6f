/* Whole calls beside the rows of steps that they are: two cores are given the same entries, one of
 * them by wulgach_core_submit and wulgach_core_reap_all, the other one step by step, and both tell
 * the same. And each refusal, with what it leaves. Memory is refused as refusing.h says. */
#define TEST "whole_calls"

#include "refusing.h"
#include "wulgach.h"

#include <stdlib.h>
#include <string.h>

enum { SIZE = 8 };

static const struct wulgach_setup going_on = {.sq = SIZE, .files = 1, .start = UINT32_MAX - 3};
static const struct wulgach_setup stopping = {.sq = SIZE, .files = 1, .stops = true};

static struct wulgach_answer step(
    struct wulgach_core *core, uint32_t kind, uint32_t word, uint64_t number)
{
    struct wulgach_step made = {.kind = kind, .word = word, .number = number};
    struct wulgach_answer answer;
    check(wulgach_core_step(core, &made, &answer) == 0, "a step");
    return answer;
}

/* The steps of wulgach_core_submit. Returns the last answer. */
static struct wulgach_answer submit_by_steps(
    struct wulgach_core *core, const struct wulgach_entry *entries, uint32_t count)
{
    step(core, WULGACH_LOAD_HEAD, 0, 0);
    for (uint32_t i = 0; i < count; i++) {
        struct wulgach_step fill = {.kind = WULGACH_FILL, .word = i};
        struct wulgach_answer answer;
        memcpy(fill.entry, entries[i].words, sizeof fill.entry);
        check(wulgach_core_step(core, &fill, &answer) == 0 && answer.kind == WULGACH_FILLED,
            "a fill");
        check(step(core, WULGACH_INDEX, i, 0).kind == WULGACH_STAGED, "an index");
    }
    step(core, WULGACH_STORE_TAIL, 0, 0);
    check(step(core, WULGACH_BEGIN, count, 0).kind == WULGACH_CALL, "a begin");
    for (uint32_t i = 0; i < count; i++)
        step(core, WULGACH_TAKE, 0, 0);
    return step(core, WULGACH_END, 0, 0);
}

static bool is_same_answer(const struct wulgach_answer *a, const struct wulgach_answer *b)
{
    return a->kind == b->kind && a->word == b->word && a->dropped == b->dropped &&
           a->head == b->head && a->number == b->number && a->res == b->res &&
           memcmp(a->entry, b->entry, sizeof a->entry) == 0 &&
           memcmp(a->bytes, b->bytes, sizeof a->bytes) == 0;
}

/* Makes the steps that a call stands for which came to this end, as they are told: each is answered
 * so. */
static void submit_as_told(struct wulgach_core *core, const struct wulgach_entry *entries,
    uint32_t count, const struct wulgach_answer *end)
{
    struct wulgach_step told;
    struct wulgach_answer as_told, answer;
    uint32_t head = step(core, WULGACH_LOAD_HEAD, 0, 0).word, place = 0;
    for (; wulgach_submitted_step(entries, count, head, end, place, &told, &as_told); place++) {
        check(wulgach_core_step(core, &told, &answer) == 0, "a step that is told");
        check(is_same_answer(&answer, &as_told), "it is answered as is told");
    }
    check(place == 3 * count + 4 && told.kind == WULGACH_END, "all steps are told");
}

/* Of a call whose begin was refused that is the last step, and there are none of more entries than
 * a ring can have. */
static void steps_end(void)
{
    static struct wulgach_entry entries[4097];
    struct wulgach_step told;
    struct wulgach_answer answer;
    const struct wulgach_answer again = {.kind = WULGACH_AGAIN};
    check(wulgach_submitted_step(entries, 2, 0, &again, 6, &told, &answer) &&
              told.kind == WULGACH_BEGIN && told.word == 2 && answer.kind == WULGACH_AGAIN,
        "a begin that was refused");
    check(!wulgach_submitted_step(entries, 2, 0, &again, 7, &told, &answer) &&
              told.kind == WULGACH_BEGIN,
        "nothing after it");
    check(wulgach_submitted_step(entries, 4096, 0, &again, 0, &told, &answer) &&
              !wulgach_submitted_step(entries, 4097, 0, &again, 0, &told, &answer),
        "4,096 entries at most");
}

/* Takes what waits, issues and finishes all that can go on, in the order of the numbers. */
static void carry_out(struct wulgach_core *core)
{
    struct wulgach_bytes bytes = {{1, 2, 3}};
    struct wulgach_answer next;
    while ((next = step(core, WULGACH_NEXT, 0, 0)).kind == WULGACH_NEXT_IS) {
        struct wulgach_answer answer = step(core, WULGACH_ISSUE, 0, next.number);
        if (answer.kind == WULGACH_RUN)
            check(wulgach_core_finish(core, next.number, 0, &bytes, &answer) == 0, "a finish");
    }
}

/* Makes count entries: no-ops with user data from first on, the one at faulty with a fault. */
static void make_entries(
    struct wulgach_entry *entries, uint32_t count, uint64_t first, uint32_t faulty)
{
    for (uint32_t i = 0; i < count; i++)
        wulgach_nop(entries[i].words, first + i,
            i == faulty  ? 128
            : i % 3 == 0 ? WULGACH_IO_LINK
                         : 0);
}

/* What both cores tell of how far they came, and of each completion that rests. */
static void compare(struct wulgach_core *whole, struct wulgach_core *stepped)
{
    struct wulgach_counts a, b;
    check(wulgach_core_counts(whole, &a) == 0 && wulgach_core_counts(stepped, &b) == 0, "counts");
    check(memcmp(&a, &b, sizeof a) == 0, "the same counts");
    for (uint64_t i = 0; i < a.posted - a.reaped; i++) {
        struct wulgach_completion one, other;
        check(wulgach_core_rest(whole, i, &one) == 0 && wulgach_core_rest(stepped, i, &other) == 0,
            "a completion");
        check(one.user_data == other.user_data && one.res == other.res, "the same completion");
    }
}

/* Flushes both, the one by the call of that name, and has both say their tail. */
static void flush(struct wulgach_core *whole, struct wulgach_core *stepped)
{
    uint32_t kind, tail;
    uint64_t moved;
    struct wulgach_answer answer = step(stepped, WULGACH_FLUSH, 0, 0);
    check(wulgach_core_flush(whole, &kind, &moved) == 0 && kind == answer.kind &&
              moved == answer.number,
        "the same moves");
    answer = step(stepped, WULGACH_LOAD_CQ_TAIL, 0, 0);
    check(wulgach_core_cq_tail(whole, &kind, &tail) == 0 && kind == answer.kind &&
              tail == answer.word,
        "the same tail");
}

/* Reaps both: the one at once into room places, the other step by step. */
static void reap(struct wulgach_core *whole, struct wulgach_core *stepped, size_t room)
{
    struct wulgach_completion places[2 * SIZE] = {{0}};
    uint64_t count = 99;
    check(wulgach_core_reap_all(whole, places, room, &count) == 0 && count <= room, "reap_all");
    struct wulgach_step told;
    struct wulgach_answer as_told, tail = step(stepped, WULGACH_LOAD_CQ_TAIL, 0, 0);
    check(wulgach_reaped_step(places, count, tail.word, 0, 0, &told, &as_told) &&
              told.kind == WULGACH_LOAD_CQ_TAIL && is_same_answer(&tail, &as_told),
        "the tail is told");
    for (uint64_t i = 0; i < count; i++) {
        struct wulgach_answer answer = step(stepped, WULGACH_REAP, 0, 0);
        check(wulgach_reaped_step(places, count, 0, 0, (uint32_t)i + 1, &told, &as_told) &&
                  told.kind == WULGACH_REAP && is_same_answer(&answer, &as_told),
            "a reap is told");
        check(answer.kind == WULGACH_REAPED && answer.number == places[i].user_data &&
                  answer.res == places[i].res,
            "the same is reaped");
        check(
            memcmp(answer.bytes, places[i].bytes, sizeof answer.bytes) == 0, "with the same bytes");
    }
    if (count < room)
        check(step(stepped, WULGACH_REAP, 0, 0).kind == WULGACH_NOTHING, "all is reaped");
    for (size_t i = count; i < 2 * SIZE; i++)
        check(places[i].user_data == 0, "the other places are left");
    struct wulgach_answer head = step(stepped, WULGACH_STORE_CQ_HEAD, 0, 0);
    check(wulgach_reaped_step(places, count, 0, head.word, (uint32_t)count + 1, &told, &as_told) &&
              told.kind == WULGACH_STORE_CQ_HEAD && is_same_answer(&head, &as_told),
        "the head is told");
    check(!wulgach_reaped_step(places, count, 0, 0, (uint32_t)count + 2, &told, &as_told),
        "it is the last");
    flush(whole, stepped);
}

/* Submits at once: one entry by the call of that name, and others by the call for any number. */
static struct wulgach_answer submit_whole(
    struct wulgach_core *core, const struct wulgach_entry *entries, uint32_t count)
{
    struct wulgach_answer answer = {0};
    struct wulgach_taken taken;
    if (count != 1) {
        check(wulgach_core_submit(core, entries, count, &answer) == 0, "submit");
        return answer;
    }
    check(wulgach_core_submit_one(core, entries, &taken) == 0, "submit_one");
    answer.kind = taken.kind;
    answer.word = taken.accepted;
    answer.dropped = taken.dropped;
    answer.head = taken.head;
    return answer;
}

/* Calls of 0 to all entries, with a fault or none, on rings that go on or stop. */
static void side_by_side(const struct wulgach_setup *setup)
{
    struct wulgach_core whole = {0}, stepped = {0};
    check(wulgach_core_new(&whole, setup) == 0 && wulgach_core_new(&stepped, setup) == 0, "new");
    for (uint32_t round = 0; round < 200; round++) {
        struct wulgach_entry entries[SIZE];
        uint32_t count = round % (SIZE + 1), faulty = round / 3 % (2 * SIZE);
        make_entries(entries, count, 100 * round + 1, faulty);
        struct wulgach_answer answer = submit_whole(&whole, entries, count), last;
        check(answer.kind == WULGACH_TAKEN, "all is taken");
        if (round % 2) {
            submit_as_told(&stepped, entries, count, &answer);
        } else {
            last = submit_by_steps(&stepped, entries, count);
            check(is_same_answer(&answer, &last), "the same answer");
        }
        carry_out(&whole);
        carry_out(&stepped);
        compare(&whole, &stepped);
        reap(&whole, &stepped, round % 5 == 0 ? 3 : round % 7 == 0 ? 1 : 2 * SIZE);
        if (answer.word < count) {
            check(wulgach_core_submit(&whole, entries, 1, &last) == 0 && last.kind == WULGACH_BUSY,
                "the rest waits");
            for (int i = 0; i < 2; i++) {
                struct wulgach_core *core = i ? &stepped : &whole;
                uint32_t left = step(core, WULGACH_BEGIN, SIZE, 0).word;
                check(left == count - answer.word, "so many wait");
                while (step(core, WULGACH_TAKE, 0, 0).kind != WULGACH_NO_MORE) {
                }
                check(step(core, WULGACH_END, 0, 0).kind == WULGACH_TAKEN,
                    "a later call takes the rest");
            }
        }
    }
    check(wulgach_core_free(&whole) == 0 && wulgach_core_free(&stepped) == 0, "free");
}

/* Each refusal of a call, and what it leaves. */
static void refusals(void)
{
    struct wulgach_core core = {0};
    struct wulgach_entry entries[SIZE + 1];
    struct wulgach_answer answer = {.kind = 99};
    struct wulgach_completion place = {.user_data = 99}, two[2];
    struct wulgach_counts counts;
    uint64_t count = 99;
    make_entries(entries, SIZE + 1, 1, SIZE + 1);
    check(wulgach_core_submit(&core, entries, 1, &answer) == -9 && answer.kind == 99,
        "submit at an empty place");
    check(wulgach_core_reap_all(&core, &place, 1, &count) == -9 && count == 99 &&
              place.user_data == 99,
        "reap_all at an empty place");
    struct wulgach_taken taken = {.kind = 99};
    check(wulgach_core_submit_one(&core, entries, &taken) == -9 && taken.kind == 99,
        "submit_one at an empty place");
    uint32_t kind = 99, tail = 99;
    check(wulgach_core_cq_tail(&core, &kind, &tail) == -9 && kind == 99 && tail == 99,
        "cq_tail at an empty place");
    check(wulgach_core_flush(&core, &kind, &count) == -9 && kind == 99 && count == 99,
        "flush at an empty place");
    check(wulgach_core_new(&core, &going_on) == 0, "new");
    check(wulgach_core_submit(&core, entries, SIZE + 1, &answer) == 0 &&
              answer.kind == WULGACH_NO_SLOT,
        "too many entries");
    served = 0;
    check(wulgach_core_submit(&core, entries, 2, &answer) == -12, "no memory for a copy");
    served = 1;
    check(wulgach_core_submit(&core, entries, 2, &answer) == 0 && answer.kind == WULGACH_AGAIN,
        "no memory for the call");
    served = -1;
    check(wulgach_core_submit(&core, entries, 1, &answer) == 0 && answer.kind == WULGACH_BUSY,
        "the entries wait");
    check(wulgach_core_submit_one(&core, entries, &taken) == 0 && taken.kind == WULGACH_BUSY &&
              taken.accepted == 0,
        "for one alone too");
    check(step(&core, WULGACH_BEGIN, SIZE, 0).word == 2, "another begin takes them");
    check(wulgach_core_submit(&core, entries, 1, &answer) == 0 && answer.kind == WULGACH_IN_CALL,
        "a call is open");
    check(wulgach_core_submit_one(&core, entries, &taken) == 0 && taken.kind == WULGACH_IN_CALL,
        "for one alone too");
    while (step(&core, WULGACH_TAKE, 0, 0).kind != WULGACH_NO_MORE) {
    }
    check(step(&core, WULGACH_END, 0, 0).word == 2, "both are accepted");
    served = 0;
    check(wulgach_core_reap_all(&core, two, 2, &count) == -12 && count == 99,
        "no memory for completions");
    check(wulgach_core_reap_all(&core, &place, 1, &count) == 0 && count == 0,
        "a single one takes none");
    served = -1;
    check(step(&core, WULGACH_CLOSE, 0, 0).kind == WULGACH_SHUT, "close");
    check(wulgach_core_submit(&core, entries, 1, &answer) == 0 && answer.kind == WULGACH_CLOSED,
        "a closed ring");
    check(wulgach_core_submit_one(&core, entries, &taken) == 0 && taken.kind == WULGACH_CLOSED &&
              taken.head == 0,
        "for one alone too");
    check(wulgach_core_counts(&core, &counts) == 0 && counts.accepted == 2,
        "nothing more was accepted");
    check(wulgach_core_free(&core) == 0, "free");
}

int main(void)
{
    side_by_side(&going_on);
    side_by_side(&stopping);
    steps_end();
    refusals();
    puts("whole_calls: whole calls and their steps do the same");
    return 0;
}
