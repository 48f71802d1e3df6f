/* The completion side of the mirror. The layer is the application's hand on the core's ring: it
 * reaps there what the application has reaped in ring memory, and shows in ring memory exactly what
 * the core's tail shows. Which completions there are, in which order, and which overflow, is the
 * core's decision; that the real result stands in the place of the token's is the library's too.
 */
#include "calls/completions.h"
#include "calls/duties.h"
#include "calls/steps.h"
#include "calls/whole_calls.h"
#include "choices/account.h"
#include "process/fault.h"
#include "rings/ring.h"

#include <stdlib.h>
#include <string.h>

bool reserve_completions(struct completions *completions, size_t more)
{
    if (completions->first > 0 && completions->first >= completions->at.posted) {
        memcpy(completions->queue, completions->queue + completions->first,
            completions->at.posted * sizeof *completions->queue);
        completions->first = 0;
    }
    size_t need = completions->first + completions->at.posted + more;
    if (need <= completions->room)
        return true;
    struct wulgach_posted *queue = realloc(completions->queue, 2 * need * sizeof *queue);
    if (!queue)
        return false;
    completions->queue = queue;
    completions->room = 2 * need;
    return true;
}

static struct wulgach_posted *posted_at(struct completions *completions, size_t index)
{
    return &completions->queue[completions->first + index];
}

bool note_end(struct ring *ring, const struct request *request, int32_t told)
{
    struct completions *completions = &ring->completions;
    struct wulgach_completion core;
    bool has_core = wulgach_core_rest(&ring->core, completions->at.posted, &core) == 0;
    struct wulgach_posted end = {
        .user_data = request->entry.user_data,
        .flags = request->flags,
        .token = request->token,
        .told = told,
        .is_message = request->is_message,
        .call = request->call,
        .ended = ring->call_number,
    };
    int32_t posted = wulgach_shown_end(&completions->at, posted_at(completions, 0),
        completions->room - completions->first, &request->course, &end, &core, has_core);
    demand(posted >= 0, "the core posted something else");
    return posted > 0;
}

/* Stores a completion into the cell of its position. */
static void store_completion(
    struct memory *memory, const struct wulgach_posted *posted, uint32_t position)
{
    struct io_uring_cqe *cell = completion_at(memory, position);
    cell->user_data = posted->user_data;
    cell->res = posted->res;
    cell->flags = posted->flags;
    if (memory->completion_cells > 1)
        cell[1] = (struct io_uring_cqe){0};
}

/* Stores what the core's tail shows, in the library's order. Returns of how much of it an eventfd
 * is to be told. */
static uint64_t store_shown(struct ring *ring)
{
    struct completions *completions = &ring->completions;
    uint32_t tail = load_cq_tail(ring);
    uint64_t told = 0;
    struct wulgach_store store;
    demand(wulgach_shown_takes(&completions->at, tail), "the core shows more than it posted");
    for (;;) {
        wulgach_shown_store(&completions->at, tail, &store);
        if (!store.is_cell)
            break;
        const struct wulgach_posted *posted = posted_at(completions, store.place);
        store_completion(&ring->memory, posted, store.position);
        if (ring->telling.is_registered) /* (else nobody is told) */
            told += wulgach_tells(posted, ring->telling.is_async);
    }
    store_word(&ring->memory.cq->tail, store.position);
    return told;
}

void show_flags(struct ring *ring)
{
    /* A call may bring something: so a peek that finds nothing calls, requests go on, and a
     * descriptor that polls is readable no more. */
    store_word(
        &ring->memory.sq->flags, wulgach_shown_flags(&ring->completions.at, ring->requests.count,
                                     ring->is_readable, ring->has_thread));
}

void show(struct ring *ring)
{
    struct wulgach_shown *at = &ring->completions.at;
    ring->completions.is_behind = false;
    ring->completions.told = wulgach_shown_overflows(at) ? store_shown(ring) : 0;
    if (wulgach_shown_overflows(at) &&
        !(load_word(&ring->memory.sq->flags) & IORING_SQ_CQ_OVERFLOW))
        note_rule(COMPLETION_OVERFLOWS);
    do_duties_after_storing(ring, ring->completions.told);
}

void show_ends(struct ring *ring)
{
    if (ring->completions.is_behind)
        show(ring);
}

/* The core's application reaps what the real one has reaped. */
static void reap(struct ring *ring, uint32_t count)
{
    struct completions *completions = &ring->completions;
    reap_oldest(ring, count);
    completions->first += count;
    wulgach_shown_reap(&completions->at, count);
    wulgach_lookout_changes(&ring->lookout);
}

/* What has overflowed moves into the ring, if the library says so. */
static void move_overflow(struct ring *ring, uint32_t count, bool is_flushing)
{
    if (wulgach_shown_loads_head(
            &ring->completions.at, count, is_flushing, ring->memory.cq_entries) &&
        wulgach_shows_again(flush(ring)))
        show(ring);
}

/* What was heard matters: so many were reaped, or what has overflowed is asked for. What is in a
 * set is done by rising bits. */
__attribute__((noinline)) static void take_heard(
    struct ring *ring, uint32_t steps, uint32_t count, bool is_flushing)
{
    for (; steps; steps &= steps - 1)
        switch (__builtin_ctz(steps)) {
        case WULGACH_HEARD_SHOWS:
            show_ends(ring);
            break;
        case WULGACH_HEARD_REAPS:
            reap(ring, count);
            break;
        default:
            move_overflow(ring, count, is_flushing);
        }
}

bool hear(struct ring *ring, enum wulgach_occasion occasion)
{
    uint32_t count;
    bool is_flushing = wulgach_asks_overflow(occasion);
    if (wulgach_shown_heard(&ring->completions.at, load_word(&ring->memory.cq->head), &count) != 0)
        return false;
    uint32_t steps = wulgach_heard_steps(count, is_flushing);
    if (steps)
        take_heard(ring, steps, count, is_flushing);
    return true;
}

uint32_t count_ready(const struct ring *ring)
{
    return wulgach_shown_ready(&ring->completions.at, load_word(&ring->memory.cq->head));
}

void free_completions(struct completions *completions)
{
    free(completions->queue);
    *completions = (struct completions){0};
}
