/* Makes steps on a ring's core, and traces them. */
#include "calls/steps.h"
#include "choices/account.h"
#include "process/fault.h"
#include "traces/trace.h"
#include "wulgach_lookout.h"

#include <string.h>

/* The fields of a step that its kind doesn't use hold anything. */
static void make(struct ring *ring, const struct wulgach_step *step, struct wulgach_answer *answer)
{
    demand(wulgach_core_step(&ring->core, step, answer) == 0, "the core refuses a step");
    if (is_traced(ring))
        trace_step(ring, step, answer);
}

static void make_plain(
    struct ring *ring, uint32_t kind, uint32_t word, struct wulgach_answer *answer)
{
    struct wulgach_step step;
    step.kind = kind;
    step.word = word;
    make(ring, &step, answer);
}

static uint32_t make_word(struct ring *ring, uint32_t kind, uint32_t expected)
{
    struct wulgach_answer answer;
    make_plain(ring, kind, 0, &answer);
    demand(answer.kind == expected, "the core answers a step in another way");
    return answer.word;
}

void write_token(struct wulgach_entry *entry, const struct request *request,
    const struct request *before, const struct request *next, bool is_linux)
{
    static const struct wulgach_beside nobody;
    struct wulgach_core_entry made;
    wulgach_core_entry_between(submission_of(&request->entry), request->mapping,
        before ? &before->beside : &nobody, next ? &next->beside : &nobody, is_linux, &made);
    wulgach_core_words(&made, entry);
}

void fill_slot(struct ring *ring, uint32_t slot, const struct wulgach_entry *entry)
{
    struct wulgach_step step;
    struct wulgach_answer answer;
    step.kind = WULGACH_FILL;
    step.word = slot;
    memcpy(step.entry, entry->words, sizeof step.entry);
    make(ring, &step, &answer);
    demand(answer.kind == WULGACH_FILLED, "the core doesn't fill a slot");
}

void index_word(struct ring *ring, uint32_t word)
{
    struct wulgach_answer answer;
    make_plain(ring, WULGACH_INDEX, word, &answer);
    demand(answer.kind == WULGACH_STAGED, "the core doesn't stage a word");
}

uint32_t store_tail(struct ring *ring)
{
    return make_word(ring, WULGACH_STORE_TAIL, WULGACH_TAIL);
}

uint32_t load_head(struct ring *ring)
{
    return make_word(ring, WULGACH_LOAD_HEAD, WULGACH_HEAD);
}

/* Traces a step that has no fields, whose answer has a word or a number. */
static void trace_plain_step(
    struct ring *ring, uint32_t step, uint32_t kind, uint32_t word, uint64_t number)
{
    trace_step(ring, &(struct wulgach_step){.kind = step},
        &(struct wulgach_answer){.kind = kind, .word = word, .number = number});
}

uint32_t load_cq_tail(struct ring *ring)
{
    uint32_t kind, tail;
    demand(wulgach_core_cq_tail(&ring->core, &kind, &tail) == 0 && kind == WULGACH_TAIL,
        "the core doesn't say its completion tail");
    if (is_traced(ring))
        trace_plain_step(ring, WULGACH_LOAD_CQ_TAIL, kind, tail, 0);
    return tail;
}

void reap_one(struct ring *ring, uint64_t user_data, int32_t res)
{
    struct wulgach_answer answer;
    make_plain(ring, WULGACH_REAP, 0, &answer);
    demand(answer.kind == WULGACH_REAPED, "the core has no completion to reap");
    demand(answer.number == user_data && answer.res == res,
        "the core's completion isn't the one that was shown");
}

uint32_t store_cq_head(struct ring *ring)
{
    return make_word(ring, WULGACH_STORE_CQ_HEAD, WULGACH_HEAD);
}

bool begin_call(struct ring *ring, uint32_t count)
{
    struct wulgach_answer answer;
    make_plain(ring, WULGACH_BEGIN, count, &answer);
    if (answer.kind == WULGACH_AGAIN)
        return false;
    demand(answer.kind == WULGACH_CALL && answer.word == count,
        "the core doesn't open a call of what is staged");
    return true;
}

bool take_position(struct ring *ring)
{
    struct wulgach_answer answer;
    make_plain(ring, WULGACH_TAKE, 0, &answer);
    demand(answer.kind == WULGACH_ENTRY || answer.kind == WULGACH_DROPPED,
        "the core doesn't take a position");
    return answer.kind == WULGACH_ENTRY;
}

struct wulgach_answer end_call(struct ring *ring)
{
    struct wulgach_answer answer;
    make_plain(ring, WULGACH_END, 0, &answer);
    demand(answer.kind == WULGACH_TAKEN, "the core doesn't end a call");
    return answer;
}

uint64_t flush(struct ring *ring)
{
    uint32_t kind;
    uint64_t moved;
    demand(wulgach_core_flush(&ring->core, &kind, &moved) == 0 && kind == WULGACH_MOVED,
        "the core doesn't flush");
    if (is_traced(ring))
        trace_plain_step(ring, WULGACH_FLUSH, kind, 0, moved);
    note_rules(OVERFLOW_MOVES, moved);
    return moved;
}

bool find_next(struct ring *ring, uint64_t from, uint64_t *number)
{
    *number = next_issuable(ring, from);
    bool is_any = *number != UINT64_MAX;
    if (is_traced(ring))
        trace_plain_step(
            ring, WULGACH_NEXT, is_any ? WULGACH_NEXT_IS : WULGACH_NOTHING, 0, *number);
    return is_any;
}

/* Traces a step that moves a request. */
static void trace_request_step(
    struct ring *ring, uint32_t step, uint64_t number, uint32_t kind, int32_t res)
{
    trace_step(ring, &(struct wulgach_step){.kind = step, .number = number},
        &(struct wulgach_answer){.kind = kind, .res = res});
}

uint32_t issue(struct ring *ring, uint64_t number, int32_t *res)
{
    uint32_t kind;
    demand(wulgach_core_issue(&ring->core, number, &kind, res) == 0, "the core refuses an issue");
    if (is_traced(ring))
        trace_request_step(ring, WULGACH_ISSUE, number, kind, *res);
    return kind;
}

void finish(struct ring *ring, uint64_t number, int32_t told)
{
    uint32_t kind;
    int32_t res;
    demand(
        wulgach_core_end(&ring->core, number, told, &kind, &res) == 0, "the core refuses a finish");
    if (is_traced(ring))
        trace_request_step(ring, WULGACH_FINISH, number, kind, res);
    demand(kind == WULGACH_ENDED && res == told, "the core doesn't end a running request");
}

uint32_t count_issuable(struct ring *ring)
{
    uint64_t count;
    demand(wulgach_core_issuable(&ring->core, &count) == 0,
        "the core doesn't say how many can be issued");
    return (uint32_t)count;
}

uint64_t nth_issuable(struct ring *ring, uint32_t place)
{
    uint64_t number;
    demand(wulgach_core_nth_issuable(&ring->core, place, &number) == 0,
        "the core doesn't say which can be issued");
    return number;
}

uint64_t next_issuable(struct ring *ring, uint64_t from)
{
    uint64_t number;
    return wulgach_core_next_issuable(&ring->core, from, &number) == 0 ? number : UINT64_MAX;
}

/* By what the core says of this request alone. */
static bool may_go_on(struct ring *ring, uint64_t number)
{
    struct wulgach_why why;
    demand(wulgach_core_why(&ring->core, number, &why) == 0,
        "the core doesn't say how a request stands");
    return wulgach_lets_start(why.kind);
}

bool can_issue(struct ring *ring, uint64_t number)
{
    /* (by Linux's rules the core looks at one after the other for the next) */
    return ring->is_linux ? may_go_on(ring, number) : next_issuable(ring, number) == number;
}
