/* Time is virtual, and a ring's begins when it is made: an absolute time of a real clock counts by
 * what is left of it now. Which timeouts run, who ends next and how is the library's decision.
 *
 * A linked timeout is a member of its chain to the core, after the request that it limits. Time
 * runs for it while that request runs, and over, cancels it. If the request succeeds, the core lets
 * the timeout start: it ends with -125, as a success, so that the chain goes on after it. If the
 * request fails, the core ends the timeout; the application sees -62 if it was the timeout that
 * cancelled it.
 */
#define _GNU_SOURCE
#include "requests/timeouts.h"
#include "process/fault.h"
#include "requests/cancels.h"
#include "rings/ring.h"
#include "waiting/clock.h"
#include "wulgach_cancel.h"

#include <stdlib.h>
#include <time.h>

bool is_timeout(const struct request *request)
{
    return wulgach_is_timeout(request->entry.opcode);
}

bool is_linked_timeout(const struct request *request)
{
    return wulgach_is_linked_timeout(request->entry.opcode);
}

static bool is_timed(const struct request *request)
{
    return wulgach_is_timed(request->entry.opcode);
}

/* How much later than now the time is over that an entry gives. */
static uint64_t time_left(const struct request *timeout)
{
    int32_t clock = wulgach_timeout_clock(submission_of(&timeout->entry));
    uint64_t time = wulgach_time_of(timeout->time->tv_sec, timeout->time->tv_nsec);
    return wulgach_timeout_lasts(time, clock < 0 ? 0 : time_of_clock(clock), clock >= 0);
}

bool reserve_timeouts(struct ring *ring, size_t count)
{
    if (count <= ring->timeouts_room)
        return true;
    struct wulgach_timeout *timeouts = realloc(ring->timeouts, count * sizeof *timeouts);
    if (!timeouts)
        return false;
    ring->timeouts = timeouts;
    ring->timeouts_room = count;
    return true;
}

static void run(struct ring *ring, const struct request *timeout)
{
    struct wulgach_start start = {
        .number = timeout->number,
        .more = time_left(timeout),
        .count = wulgach_timeout_count(submission_of(&timeout->entry)),
        .is_linked = is_linked_timeout(timeout),
    };
    uint64_t held = wulgach_held_for(&ring->held, timeout->number, timeout->is_late);
    demand(
        wulgach_times_start(&ring->times, ring->timeouts, ring->timeouts_room, &start, held) == 0,
        "there is no room for a timeout");
    ring->may_count |= start.count > 0;
    if (held > 0)
        note_counts(ring);
}

/* Does with a timeout's time what the library said. */
static void clock_timeout(struct ring *ring, const struct request *timeout, uint32_t timing)
{
    if (timing == WULGACH_TIMING_BEGINS)
        run(ring, timeout);
    else if (timing == WULGACH_TIMING_STOPS)
        wulgach_times_stop(&ring->times, ring->timeouts, ring->timeouts_room, timeout->number);
}

int32_t end_timeout(struct ring *ring, const struct request *timeout)
{
    int32_t res;
    demand(wulgach_times_end(
               &ring->times, ring->timeouts, ring->timeouts_room, timeout->number, &res) == 0,
        "a timeout ends before its time and its count");
    return res;
}

bool has_counted(const struct ring *ring, const struct request *timeout)
{
    return ring->is_count_reached && is_timeout(timeout) &&
           wulgach_times_has_counted(
               &ring->times, ring->timeouts, ring->timeouts_room, timeout->number);
}

void note_counts(struct ring *ring)
{
    struct wulgach_timeout timeout;
    ring->may_count &= ring->times.count > 0;
    ring->is_count_reached = ring->may_count && wulgach_times_reached(&ring->times, ring->timeouts,
                                                    ring->timeouts_room, &timeout) == 0;
}

struct request *timeout_after(const struct ring *ring, const struct request *request)
{
    struct request *next = request->member.entry.links
                               ? request_or_none(&ring->requests, request->number + 1)
                               : NULL;
    return next && wulgach_member_limits(&next->member, &request->member) ? next : NULL;
}

/* What happens to a request matters to itself, if it is a timeout, and to the linked one after it.
 */
void note_started(struct ring *ring, const struct request *request)
{
    const struct request *after = timeout_after(ring, request);
    if (is_timed(request))
        clock_timeout(ring, request,
            wulgach_timing_after_start(
                &request->member, &request->member, request->course.is_cancelled));
    if (after)
        clock_timeout(ring, after,
            wulgach_timing_after_start(
                &after->member, &request->member, after->course.is_cancelled));
}

void note_found(struct ring *ring, const struct request *request)
{
    if (is_timed(request))
        clock_timeout(
            ring, request, wulgach_timing_after_finding(&request->member, &request->member));
}

void note_ended(struct ring *ring, const struct request *request)
{
    const struct request *after = timeout_after(ring, request);
    if (is_timed(request))
        clock_timeout(ring, request, wulgach_timing_after_end(&request->member, &request->member));
    if (after)
        clock_timeout(ring, after, wulgach_timing_after_end(&after->member, &request->member));
}

/* The running request of a number, dormant or not; or NULL. */
static struct request *running_or_none(const struct ring *ring, uint64_t number)
{
    struct request *request = request_or_none(&ring->requests, number);
    return request && request->course.has_started ? request : NULL;
}

void fire_linked_timeout(struct ring *ring, const struct wulgach_timeout *timeout)
{
    struct request *linked = request_of(&ring->requests, timeout->number);
    uint64_t number;
    end_timeout(ring, linked);
    demand(wulgach_timeout_cancels(timeout, &number) == 0, "a timeout isn't linked");
    struct request *limited = running_or_none(ring, number);
    if (wulgach_timeout_fires(timeout, limited, limited && is_cancellable(limited))) {
        cancel_request(ring, limited);
        linked->has_fired = true;
    }
}

void change_timeout(struct ring *ring, struct request *timeout, const struct request *change)
{
    wulgach_updated_timeout(submission_at(&timeout->entry), submission_of(&change->entry));
    *timeout->time = *change->time;
    wulgach_times_change(
        &ring->times, ring->timeouts, ring->timeouts_room, timeout->number, time_left(timeout));
}

int32_t change_linked_timeout(struct ring *ring, const struct request *change)
{
    struct wulgach_linked_update update;
    struct wulgach_timeout running;
    wulgach_linked_update_begin(&update, wulgach_target_of(submission_of(&change->entry)));
    for (uint64_t place = 0;
         wulgach_times_nth(&ring->times, ring->timeouts, ring->timeouts_room, place, &running) == 0;
         place++) {
        struct request *timeout = request_of(&ring->requests, running.number);
        if (wulgach_linked_update_sees(
                &update, &(struct wulgach_linked){timeout->entry.user_data, running.is_linked}))
            change_timeout(ring, timeout, change);
    }
    return wulgach_linked_update_result(&update);
}
