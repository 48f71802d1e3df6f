/* The ways of a choice: which there are, and which one the policy takes. Only what can really go on
 * is a way: running requests that needn't wait, and those that the core says can be issued. Only
 * those that may have to wait are looked at: so a choice takes no longer for the others, nor for
 * those that wait after links.
 */
#include "choices/ways.h"
#include "choices/issuable.h"
#include "choices/outlook.h"
#include "choices/policy.h"
#include "choices/priorities.h"
#include "operations/operations.h"
#include "traces/trace.h"
#include "wulgach_taking.h"

#include <inttypes.h>
#include <stdlib.h>

/* The ways of a choice: which stands where is the library's. Of the running requests those that
 * have to wait are no way: they stand in ring->waiting, by rising number. */
struct ways {
    struct wulgach_ways of;
    uint32_t waiting;
};

bool is_by_choice(void)
{
    return kind_of_policy() == WULGACH_BY_CHOICE;
}

bool reserve_ways(struct ring *ring, size_t count)
{
    if (!reserve_requests(&ring->patient, count - ring->patient.count) ||
        !reserve_requests(&ring->issuable, count - ring->issuable.count))
        return false;
    if (ring->waiting_room >= count)
        return true;
    struct request **waiting = realloc(ring->waiting, 2 * count * sizeof *waiting);
    if (!waiting)
        return false;
    ring->waiting = waiting;
    ring->waiting_room = 2 * count;
    return true;
}

void note_patient(struct ring *ring, struct request *request)
{
    if (request->is_patient || !is_by_choice())
        return;
    request->is_patient = true;
    insert_request(&ring->patient, request);
}

/* What can be finished whatever is so at any moment need never be asked. */
void note_running(struct ring *ring, struct request *request)
{
    static const struct wulgach_moment nothing;
    if (is_by_choice() && wulgach_can_finish(&request->waiter, &ring->lookout, &request->standing,
                              &request->needs, &request->course, &nothing) != WULGACH_LOOK_FINISHES)
        note_patient(ring, request);
}

static uint32_t list_waiting(struct ring *ring)
{
    uint32_t count = 0;
    for (size_t i = 0; i < ring->patient.count; i++)
        if (!can_finish(ring, ring->patient.rows[i]))
            ring->waiting[count++] = ring->patient.rows[i];
    return count;
}

/* The first of them is what is first in order. */
static struct ways ways_of(struct ring *ring, bool may_return)
{
    uint32_t waiting = list_waiting(ring);
    return (struct ways){
        {(uint32_t)ring->running.count - waiting, how_many_issuable(ring), may_return}, waiting};
}

/* The running request that can be finished and stands at this place among these. */
static struct request *ready_at(struct ring *ring, const struct ways *ways, uint32_t place)
{
    uint32_t low = 0, high = ways->waiting;
    while (low < high) {
        uint32_t middle = low + (high - low) / 2;
        if (place_of(&ring->running, ring->waiting[middle]->number) - middle <= place)
            low = middle + 1;
        else
            high = middle;
    }
    return ring->running.rows[place + low];
}

static uint32_t place_of_ready(
    struct ring *ring, const struct ways *ways, const struct request *request)
{
    uint32_t place = (uint32_t)place_of(&ring->running, request->number), before = 0;
    while (before < ways->waiting && ring->waiting[before]->number < request->number)
        before++;
    return place - before;
}

/* The request of a way, or NULL: it is to return. */
static struct request *way_at(struct ring *ring, const struct ways *ways, uint32_t number)
{
    uint32_t place;
    switch (wulgach_ways_at(&ways->of, number, &place)) {
    case WULGACH_WAY_FINISH:
        return ready_at(ring, ways, place);
    case WULGACH_WAY_ISSUE:
        return issuable_at(ring, place);
    default:
        return NULL;
    }
}

/* How many ways are requests. */
static uint32_t count_requests(const struct ways *ways)
{
    return ways->of.ready + ways->of.issuable;
}

void describe_way(char *text, size_t size, const struct request *request)
{
    snprintf(text, size, "%s request %" PRIu64 " (%s)",
        request->course.has_started ? "finish" : "issue", request->number,
        operation_name(request->entry.opcode));
}

static void take_way(
    struct ring *ring, struct request *way, uint64_t at, uint32_t chosen, uint32_t count)
{
    char what[96];
    describe_way(what, sizeof what, way);
    trace_note(
        ring, "choice %" PRIu64 " is %" PRIu32 " of %" PRIu32 ": %s", at, chosen, count, what);
    go_on_with(ring, way);
    record_choice(at, count, chosen, what);
}

static void choose_return(struct ring *ring, uint64_t at, uint32_t count)
{
    trace_note(
        ring, "choice %" PRIu64 " is %" PRIu32 " of %" PRIu32 ": return", at, count - 1, count);
    record_choice(at, count, count - 1, "return");
}

/* An application that has returned from so many calls in a row without anything going on only looks
 * again and again: it comes last then, whatever it drew. */
enum { MOST_RETURNS = 3 };

/* The way of the highest priority that was found so far; NULL: it is to return. */
struct highest {
    uint64_t priority;
    struct request *way;
};

static struct player player_of(const struct ring *ring, const struct request *way)
{
    return way ? (struct player){.ring = ring->index, .chain = way->member.chain}
               : (struct player){.is_application = true};
}

static void look_at_way(struct highest *highest, struct ring *ring, struct request *way)
{
    uint64_t priority = priority_of(player_of(ring, way));
    if (priority > highest->priority)
        *highest = (struct highest){priority, way};
}

static struct request *highest_way(struct ring *ring, const struct ways *ways)
{
    struct highest highest = {0, NULL};
    uint32_t waiting = 0;
    if (ways->of.may_return && ring->returns < MOST_RETURNS)
        look_at_way(&highest, ring, NULL);
    for (size_t i = 0; i < ring->running.count; i++) {
        if (waiting < ways->waiting && ring->waiting[waiting] == ring->running.rows[i])
            waiting++;
        else
            look_at_way(&highest, ring, ring->running.rows[i]);
    }
    struct request *request = NULL;
    for (uint32_t place = 0; place < ways->of.issuable; place++) {
        request = issuable_after(ring, place, request);
        look_at_way(&highest, ring, request);
    }
    return highest.way;
}

/* The place of a way; that of returning is after all others. */
static uint32_t place_of_way(struct ring *ring, const struct ways *ways, const struct request *way)
{
    if (!way)
        return count_requests(ways);
    return way->course.has_started ? place_of_ready(ring, ways, way)
                                   : ways->of.ready + place_of_issuable(ring, way);
}

static uint32_t choose_by_priority(struct ring *ring, uint64_t at, const struct ways *ways)
{
    lock_choices();
    struct request *highest = highest_way(ring, ways);
    if (falls_at(at)) {
        let_fall(at, player_of(ring, highest));
        highest = highest_way(ring, ways);
    }
    unlock_choices();
    return place_of_way(ring, ways, highest);
}

static void record_all_ways(struct ring *ring, const uint64_t *at, const struct ways *ways)
{
    if (!is_recording_ways())
        return;
    record_ways(ring, at);
    for (uint32_t place = 0; place < count_requests(ways); place++)
        record_way(ring, way_at(ring, ways, place));
    record_return(ways->of.may_return);
}

enum progress go_on_by_choice(struct ring *ring, struct request *first, bool may_return)
{
    struct ways ways = ways_of(ring, may_return);
    uint32_t count = wulgach_ways_count(&ways.of);
    if (count == 1) {
        record_all_ways(ring, NULL, &ways);
        go_on_with(ring, first);
        ring->returns = 0;
        return WENT_ON;
    }
    uint64_t at = count_choice();
    record_all_ways(ring, &at, &ways);
    uint32_t chosen = policy() == BY_PRIORITY ? choose_by_priority(ring, at, &ways)
                                              : choose(at, count);
    struct request *way = way_at(ring, &ways, chosen);
    if (!way) {
        ring->returns++;
        choose_return(ring, at, count);
        return MAY_RETURN;
    }
    take_way(ring, way, at, chosen, count);
    ring->returns = 0;
    return WENT_ON;
}
