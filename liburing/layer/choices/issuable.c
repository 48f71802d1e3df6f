/* Which requests the core lets start. What it said is kept as long as the library says, and of the
 * end of a request the library says whether that makes something of others than the next of its
 * chain. Else the core is asked each time.
 */
#include "choices/issuable.h"
#include "calls/steps.h"
#include "process/fault.h"
#include "wulgach_taking.h"

static bool is_kept(const struct ring *ring)
{
    return wulgach_keeps_startable(&ring->drains);
}

/* Asks for those from a number on. */
static void add_from(struct ring *ring, uint64_t from)
{
    for (uint64_t number = next_issuable(ring, from); number != UINT64_MAX;
         number = next_issuable(ring, number + 1))
        add_request(&ring->issuable, request_of(&ring->requests, number));
}

/* Those that are kept. */
static const struct requests *kept_ones(struct ring *ring)
{
    if (!ring->knows_issuable)
        add_from(ring, 0);
    ring->knows_issuable = true;
    return &ring->issuable;
}

uint32_t how_many_issuable(struct ring *ring)
{
    return is_kept(ring) ? (uint32_t)kept_ones(ring)->count : count_issuable(ring);
}

struct request *issuable_at(struct ring *ring, uint32_t place)
{
    return is_kept(ring) ? kept_ones(ring)->rows[place]
                         : request_of(&ring->requests, nth_issuable(ring, place));
}

struct request *issuable_after(struct ring *ring, uint32_t place, const struct request *before)
{
    return is_kept(ring)
               ? issuable_at(ring, place)
               : request_of(&ring->requests, next_issuable(ring, before ? before->number + 1 : 0));
}

/* Passes those that have started or ended, of which none can be issued again: so each is passed
 * once, however many run. */
static void pass_started(struct ring *ring)
{
    const struct requests *requests = &ring->requests;
    size_t place = count_before(requests, ring->unstarted);
    while (place < requests->count && requests->rows[place]->course.has_started)
        place++;
    ring->unstarted = place < requests->count ? requests->rows[place]->number : ring->accepted;
}

struct request *first_issuable(struct ring *ring)
{
    uint64_t number;
    if (is_kept(ring))
        return kept_ones(ring)->count > 0 ? ring->issuable.rows[0] : NULL;
    pass_started(ring);
    return find_next(ring, ring->unstarted, &number) ? request_of(&ring->requests, number) : NULL;
}

uint32_t place_of_issuable(struct ring *ring, const struct request *request)
{
    if (is_kept(ring))
        return (uint32_t)place_of(kept_ones(ring), request->number);
    uint32_t low = 0, high = count_issuable(ring);
    while (low < high) {
        uint32_t middle = low + (high - low) / 2;
        if (nth_issuable(ring, middle) < request->number)
            low = middle + 1;
        else
            high = middle;
    }
    return low;
}

static void forget_all(struct ring *ring)
{
    drop_requests(&ring->issuable, ring->issuable.count);
    ring->knows_issuable = false;
}

/* Once an entry has asked to drain, nothing is kept any more. */
void note_issuable(struct ring *ring, uint64_t first)
{
    if (!is_kept(ring))
        forget_all(ring);
    else if (ring->knows_issuable)
        add_from(ring, first);
}

void note_issued(struct ring *ring, const struct request *request)
{
    if (ring->knows_issuable)
        take_request(&ring->issuable, request);
}

void note_issuable_after(struct ring *ring, const struct request *ended, int32_t told)
{
    if (wulgach_lets_others_start(ring->is_linux, told < 0, ended->mapping == CANCEL))
        forget_all(ring);
    /* (one between the two may have ended before, which a cancel has found) */
    size_t place = count_before(&ring->requests, ended->number + 1);
    struct request *next = ring->knows_issuable && place < ring->requests.count
                               ? ring->requests.rows[place]
                               : NULL;
    if (next &&
        wulgach_asks_next(
            next->course.has_started, request_or_none(&ring->issuable, next->number)) &&
        can_issue(ring, next->number))
        insert_request(&ring->issuable, next);
}
