/* Makes whole calls, and traces their steps. To the core an entry stands in the slot of its place
 * in the call, whatever the slot is in which the application wrote it.
 */
#include "calls/whole_calls.h"
#include "calls/steps.h"
#include "process/fault.h"
#include "traces/trace.h"

#include <errno.h>
#include <stdlib.h>

/* What has a step or an answer has a frame of its own, which isn't there while the core takes one
 * entry: a thread may have the smallest stack. */
#define APART __attribute__((noinline))

bool make_entries(struct ring *ring, uint32_t slots)
{
    ring->entries = calloc(slots, sizeof *ring->entries);
    return ring->entries;
}

void free_entries(struct ring *ring)
{
    free(ring->entries);
}

void note_entry(struct ring *ring, const struct request *request)
{
    size_t place = ring->staged.count;
    const struct request *before = place > 0 ? ring->staged.rows[place - 1] : NULL;
    const struct request *earlier = place > 1 ? ring->staged.rows[place - 2] : NULL;
    write_token(&ring->entries[place], request, before, NULL, ring->is_linux);
    if (before)
        write_token(&ring->entries[place - 1], before, earlier, request, ring->is_linux);
}

/* ---- submissions ---- */

/* Traces the steps of a call that the core has taken at once, or whose begin it has refused. */
static APART void trace_submission(
    struct ring *ring, uint32_t count, const struct wulgach_taken *taken)
{
    const struct wulgach_answer end = {.kind = taken->kind,
        .word = taken->accepted,
        .dropped = taken->dropped,
        .head = taken->head};
    uint32_t head = ring->head + ring->own_positions;
    struct wulgach_step step;
    struct wulgach_answer answer;
    for (uint32_t place = 0;
         wulgach_submitted_step(ring->entries, count, head, &end, place, &step, &answer); place++)
        trace_step(ring, &step, &answer);
}

/* Whether the core has none of it, and each word names a slot: after one that doesn't nothing more
 * is staged. */
static bool can_be_whole(const struct ring *ring, uint32_t given)
{
    return given == 0 && ring->staged.rows[ring->staged.count - 1];
}

static void stage_position(struct ring *ring, uint32_t place)
{
    bool has_slot = ring->staged.rows[place];
    if (has_slot)
        fill_slot(ring, place, &ring->entries[place]);
    index_word(ring, has_slot ? place : ring->bad_word);
}

static struct wulgach_taken taken_of(const struct wulgach_answer *answer)
{
    return (struct wulgach_taken){.kind = answer->kind,
        .accepted = answer->word,
        .dropped = answer->dropped,
        .head = answer->head};
}

static APART bool submit_by_steps(struct ring *ring, uint32_t given, struct wulgach_taken *taken)
{
    uint32_t count = (uint32_t)ring->staged.count;
    load_head(ring);
    for (uint32_t i = given; i < count; i++)
        stage_position(ring, i);
    store_tail(ring);
    if (!begin_call(ring, count))
        return false;
    for (uint32_t i = 0; i < count; i++)
        demand(
            take_position(ring) == (ring->staged.rows[i] != NULL), "the core drops another word");
    struct wulgach_answer answer = end_call(ring);
    *taken = taken_of(&answer);
    return true;
}

static APART int32_t submit_many(struct ring *ring, uint32_t count, struct wulgach_taken *taken)
{
    struct wulgach_answer answer;
    int32_t error = wulgach_core_submit(&ring->core, ring->entries, count, &answer);
    if (error == 0)
        *taken = taken_of(&answer);
    return error;
}

/* A single entry is given, and told of, without a copy of an answer. */
static int32_t submit_whole(struct ring *ring, uint32_t count, struct wulgach_taken *taken)
{
    return count == 1 ? wulgach_core_submit_one(&ring->core, ring->entries, taken)
                      : submit_many(ring, count, taken);
}

bool submit_staged(struct ring *ring, uint32_t given, struct wulgach_taken *taken)
{
    uint32_t count = (uint32_t)ring->staged.count;
    int32_t error = can_be_whole(ring, given) ? submit_whole(ring, count, taken) : -ENOMEM;
    if (error == -ENOMEM)
        return submit_by_steps(ring, given, taken);
    demand(error == 0 && (taken->kind == WULGACH_TAKEN || taken->kind == WULGACH_AGAIN),
        "the core doesn't take what is staged");
    if (is_traced(ring))
        trace_submission(ring, count, taken);
    return taken->kind == WULGACH_TAKEN;
}

/* ---- completions ---- */

/* So many are reaped by one call at most. */
enum { MOST_REAPED = 32 };

static void trace_reaped(struct ring *ring, const struct wulgach_completion *reaped, uint32_t count,
    uint32_t tail, uint32_t head)
{
    struct wulgach_step step;
    struct wulgach_answer answer;
    for (uint32_t place = 0; wulgach_reaped_step(reaped, count, tail, head, place, &step, &answer);
         place++)
        trace_step(ring, &step, &answer);
}

static void reap_by_steps(struct ring *ring, const struct wulgach_posted *posted, uint32_t count,
    uint32_t tail, uint32_t head)
{
    demand(load_cq_tail(ring) == tail, "the core's completion tail isn't the one that was shown");
    for (uint32_t i = 0; i < count; i++)
        reap_one(ring, posted[i].token, posted[i].told);
    demand(store_cq_head(ring) == head, "the core's completion head isn't the application's");
}

/* Reaps so many; `tail` is what is shown, and `head` where the core's head is to be then. */
static void reap_some(struct ring *ring, const struct wulgach_posted *posted, uint32_t count,
    uint32_t tail, uint32_t head)
{
    struct wulgach_completion reaped[MOST_REAPED];
    uint64_t found;
    int32_t error = wulgach_core_reap_all(&ring->core, reaped, count, &found);
    if (error == -ENOMEM) {
        reap_by_steps(ring, posted, count, tail, head);
        return;
    }
    demand(error == 0 && found == count, "the core has no completion to reap");
    for (uint32_t i = 0; i < count; i++)
        demand(reaped[i].user_data == posted[i].token && reaped[i].res == posted[i].told,
            "the core's completion isn't the one that was shown");
    if (is_traced(ring))
        trace_reaped(ring, reaped, count, tail, head);
}

void reap_oldest(struct ring *ring, uint32_t count)
{
    const struct completions *completions = &ring->completions;
    const struct wulgach_posted *oldest = completions->queue + completions->first;
    uint32_t tail = completions->at.head + completions->at.shown;
    for (uint32_t from = 0, some; from < count; from += some) {
        some = count - from < MOST_REAPED ? count - from : MOST_REAPED;
        reap_some(ring, oldest + from, some, tail, completions->at.head + from + some);
    }
}
