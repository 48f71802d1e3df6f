/* Time: it is moved on by timeouts, by waits that end without anything, and by what was really
 * slept; or, where it is real, by itself. */
#define _GNU_SOURCE
#include "waiting/waiting.h"
#include "calls/extras.h"
#include "calls/signals.h"
#include "requests/progress.h"
#include "requests/timeouts.h"
#include "waiting/clock.h"
#include "wulgach_sleeps.h"

#include <string.h>

bool has_expired(const struct ring *ring)
{
    struct wulgach_timeout timeout;
    return ring->times.count > 0 &&
           wulgach_times_due(&ring->times, ring->timeouts, ring->timeouts_room, &timeout) == 0;
}

static void fire(struct ring *ring, const struct wulgach_timeout *timeout)
{
    uint64_t before = ring->times.time;
    wulgach_times_pass(&ring->times, timeout);
    note_moved(before, ring->times.time);
    if (timeout->is_linked)
        fire_linked_timeout(ring, timeout);
    else
        finish_timeout(ring, request_of(&ring->requests, timeout->number));
}

/* Whether a request runs for whose descriptor a sleep polls. */
static bool is_streaming(const struct ring *ring)
{
    if (wulgach_polls_instance(ring->dormant.count))
        return true;
    for (size_t i = 0; i < ring->running.count; i++)
        if (wulgach_polls(&ring->running.rows[i]->standing))
            return true;
    return false;
}

/* The kernel's set, which the C library's begins with. */
static uint64_t word_of(const sigset_t *set)
{
    uint64_t word;
    memcpy(&word, set, sizeof word);
    return word;
}

/* Whether a signal waits that comes as soon as the call has this mask. */
static bool has_signal(const sigset_t *mask)
{
    sigset_t waiting;
    return sigpending(&waiting) == 0 && wulgach_comes_by_mask(word_of(&waiting), word_of(mask));
}

/* By what a call of this ring may be woken, if it has a mask to sleep with. Of other threads, and
 * of signals, it is asked where the library says that it matters. */
static struct wulgach_wake_sources wake_sources(const struct ring *ring, const sigset_t *mask)
{
    bool has_streams = is_streaming(ring);
    return (struct wulgach_wake_sources){
        .has_streams = has_streams,
        .has_threads = wulgach_times_asks_threads(&ring->times, has_streams) && has_threads(),
        .is_real = is_time_real(),
        .has_signal = wulgach_asks_signals(mask != NULL, has_streams) && has_signal(mask),
    };
}

/* Waits as the library says, and notes what is known then. */
static struct wulgach_waited wait_as(
    struct ring *ring, const struct wulgach_wait *wait, const struct sleep_masks *masks)
{
    struct wulgach_waited waited = {.is_never = wait->kind == WULGACH_WAIT_NEVER};
    switch (wait->kind) {
    case WULGACH_WAIT_SLEEP:
        waited.result = sleep_until(ring, &wait->until, masks);
        break;
    case WULGACH_WAIT_MOVE:
        note_moved(ring->times.time, wait->until.at);
        wulgach_times_move_to(&ring->times, wait->until.at);
        break;
    default:
        /* (a thread may have ended since, and left a message) */
        waited.has_messages = has_messages(ring);
        waited.may_post = waited.has_messages && can_post_extra(ring);
    }
    return waited;
}

enum wulgach_reply_kind wait_for_any(struct ring *ring, const struct wulgach_limit *deadline,
    bool is_least, const struct sleep_masks *masks, int *error)
{
    take_dropped(masks->own);
    /* (by choice time passes before any of these) */
    struct wulgach_wake_sources sources = ring->is_rushed ? (struct wulgach_wake_sources){0}
                                                          : wake_sources(ring, masks->asleep);
    ring->is_rushed = false;
    struct wulgach_wait wait;
    wulgach_times_wait(
        &ring->times, ring->timeouts, ring->timeouts_room, &sources, deadline, &wait);
    struct wulgach_waited waited = wait_as(ring, &wait, masks);
    if (wulgach_fires_after(&waited)) {
        struct wulgach_woken woken;
        wulgach_times_woken(&ring->times, ring->timeouts, ring->timeouts_room, deadline, &woken);
        if (woken.kind == WULGACH_WOKEN_OVER)
            fire(ring, &woken.timeout);
        waited.is_over = woken.kind == WULGACH_WOKEN_TIMED_OUT;
        waited.is_least = is_least;
    }
    *error = -waited.result;
    return (enum wulgach_reply_kind)wulgach_reply_of_wait(&waited);
}

/* The timeout that ends if time passes at once. */
static bool find_passing(const struct ring *ring, struct wulgach_timeout *timeout)
{
    struct wulgach_wake_sources sources = wake_sources(ring, NULL);
    return wulgach_times_passing(
               &ring->times, ring->timeouts, ring->timeouts_room, &sources, timeout) == 0;
}

bool can_pass_time(const struct ring *ring)
{
    struct wulgach_timeout timeout;
    return find_passing(ring, &timeout);
}

void pass_time(struct ring *ring)
{
    struct wulgach_timeout timeout;
    if (find_passing(ring, &timeout))
        fire(ring, &timeout);
}

bool find_next_timeout(const struct ring *ring, struct wulgach_timeout *timeout)
{
    static const struct wulgach_wake_sources nothing_else;
    return ring->times.count > 0 && wulgach_times_passing(&ring->times, ring->timeouts,
                                        ring->timeouts_room, &nothing_else, timeout) == 0;
}

void pass_by_choice(struct ring *ring)
{
    struct wulgach_timeout timeout;
    if (find_next_timeout(ring, &timeout))
        fire(ring, &timeout);
}

void pass_real_time(struct ring *ring)
{
    struct wulgach_timeout timeout;
    catch_up(ring);
    while (wulgach_times_due(&ring->times, ring->timeouts, ring->timeouts_room, &timeout) == 0)
        fire(ring, &timeout);
}
