/* Sleeps on the streams that running requests wait for, and on an eventfd that is this sleeper's:
 * by an epoll instance, which any signal ends, or by poll(2) where that can't be. Both descriptors
 * are made for one sleep, so that a ring keeps none for it. A process with one thread has them too:
 * another thread may have ended just now, and left a message.
 */
#define _GNU_SOURCE
#include "waiting/sleep.h"
#include "calls/signals.h"
#include "operations/operations.h"
#include "operations/sockets.h"
#include "process/process.h"
#include "requests/ends.h"
#include "rings/descriptors.h"
#include "rings/locking.h"
#include "waiting/clock.h"
#include "waiting/glance.h"
#include "waiting/sleepers.h"
#include "waiting/watch.h"
#include "wulgach_sleeps.h"

#include <errno.h>
#include <stddef.h>
#include <sys/epoll.h>
#include <sys/stat.h>
#include <time.h>
#include <unistd.h>

bool has_threads(void)
{
    struct stat status = {0};
    bool knows = stat("/proc/self/task", &status) == 0;
    return wulgach_may_have_others(knows, status.st_nlink - (nlink_t)watches());
}

/* Adds what has passed since `start` to the ring's time. */
static void add_slept(struct ring *ring, uint64_t start)
{
    wulgach_times_slept(&ring->times, is_time_real(), ring->origin, start, real_time());
}

_Static_assert(sizeof(struct pollfd) == sizeof(struct wulgach_poll_row) &&
                   offsetof(struct pollfd, fd) == offsetof(struct wulgach_poll_row, fd) &&
                   offsetof(struct pollfd, events) == offsetof(struct wulgach_poll_row, events) &&
                   offsetof(struct pollfd, revents) == offsetof(struct wulgach_poll_row, found),
    "a row is what poll(2) takes");

/* Joins what is asked of one descriptor: an instance takes each once, and poll(2) no more than a
 * process may have. */
static nfds_t join_polled(struct pollfd *polled, nfds_t count)
{
    return wulgach_join_polled((struct wulgach_poll_row *)polled, count);
}

/* What the sleep does for a request. What its descriptor shows is asked where that matters. */
static struct wulgach_slept_for find_slept_for(struct request *request)
{
    struct wulgach_slept_for slept;
    bool shows = wulgach_asks_before_nap(&request->needs, request->vain) && is_ready(request);
    wulgach_sleep_effect(
        &request->standing, &request->needs, request->vain, shows, asks_broken(request), &slept);
    request->vain = slept.vain;
    return slept;
}

/* Lists what is asked of the descriptors of the running requests that wait for streams. Says
 * whether there are some for which it is to nap. */
static nfds_t list_streams(const struct ring *ring, struct pollfd *streams, bool *naps)
{
    nfds_t count = 0;
    for (size_t i = 0; i < ring->running.count; i++) {
        struct request *request = ring->running.rows[i];
        if (!wulgach_polls(&request->standing))
            continue;
        struct wulgach_slept_for slept = find_slept_for(request);
        *naps |= slept.naps;
        if (slept.is_polled)
            streams[count++] = poll_of(request);
    }
    if (wulgach_polls_instance(ring->dormant.count))
        streams[count++] = (struct pollfd){.fd = ring->dormant.instance, .events = POLLIN};
    return count;
}

/* Gives the sleep's instance what it polls. Returns what that made of it, as far as any can be told
 * of (enum wulgach_enlisted). */
static uint32_t enlist(const struct sleeper *self, nfds_t count)
{
    uint32_t all = WULGACH_INSTANCE_TELLS;
    for (const struct pollfd *at = self->polled;
         at < self->polled + count && all != WULGACH_INSTANCE_CANT_TELL; at++) {
        struct epoll_event event = {.events = (uint16_t)at->events};
        int32_t came = at->fd >= 0 && epoll_ctl(self->instance, EPOLL_CTL_ADD, at->fd, &event) < 0
                           ? -errno
                           : 0;
        all = wulgach_enlisted_with(all, came);
    }
    return all;
}

/* A time as a system call takes it, or NULL: it is without end. */
static const struct timespec *time_of(const struct wulgach_limit *limit, struct timespec *time)
{
    struct wulgach_span span;
    wulgach_span_of(limit->at, &span);
    *time = (struct timespec){(time_t)span.seconds, (long)span.nanoseconds};
    return limit->is_set ? time : NULL;
}

/* Sleeps until a descriptor shows something or the time is over. Returns how many do, or the
 * negative of an error number. */
static int sleep_on(
    struct sleeper *self, nfds_t count, const struct wulgach_limit *limit, const sigset_t *signals)
{
    struct timespec time;
    struct epoll_event told;
    struct wulgach_limit lasts;
    bool has_instance = self->instance >= 0;
    uint32_t call = wulgach_sleep_call_of(
        has_instance, has_instance ? enlist(self, count) : WULGACH_INSTANCE_TELLS, limit, &lasts);
    if (call != WULGACH_SLEEPS_BY_POLL) {
        int came = epoll_pwait2(self->instance, &told, 1, time_of(&lasts, &time), signals);
        came = came < 0 ? -errno : came;
        if (!wulgach_sleeps_by_poll(came))
            return wulgach_sleep_came(call, came);
    }
    int came = poll_until(self->polled, count, time_of(limit, &time), signals);
    return came < 0 ? -errno : came;
}

/* Polls without the ring's lock. Handlers of signals run meanwhile. */
static int poll_unlocked(struct ring *ring, struct sleeper *self, nfds_t count,
    const struct wulgach_limit *limit, const struct sleep_masks *masks)
{
    int fd = ring->called_fd;
    pthread_mutex_unlock(&ring->lock);
    /* A message that came before that is posted, and wakes this thread. */
    visit_ring(ring, fd);
    sigset_t dropped;
    let_dropped(masks->own, &dropped);
    int came = sleep_on(self, count, limit, masks->asleep);
    pthread_sigmask(SIG_BLOCK, &dropped, NULL);
    leave_inner_sleeps(self);
    uint32_t left = what_is_left(ring);
    /* (something is left in a child alone, which has one thread; elsewhere others have the lock) */
    if (left)
        ring->left = left;
    if (!(left & WULGACH_LEAVES_LOCK)) {
        pthread_mutex_lock(&ring->lock);
        call_by(ring, fd);
    }
    return wulgach_sleep_came_to(came, ring->image != this_image());
}

/* (it has a frame of its own, below that of the call: by this a sleep that was left is known) */
__attribute__((noinline)) int sleep_until(
    struct ring *ring, const struct wulgach_limit *until, const struct sleep_masks *masks)
{
    volatile uint64_t place;
    wake_sleepers(ring);
    struct sleeper *self = begin_sleep(ring, ring->running.count + 3, &place);
    if (!self)
        return wulgach_missing_fault(WULGACH_NO_MEMORY_OWN);
    bool naps = false;
    nfds_t count = list_streams(ring, self->polled, &naps);
    self->polled[count++] = (struct pollfd){.fd = self->wake, .events = POLLIN};
    if (wulgach_polls_writes(ring->pipes.count))
        self->polled[count++] = (struct pollfd){.fd = ring->pipes.inotify, .events = POLLIN};
    struct wulgach_limit limit, end;
    bool can_be_woken = wulgach_can_be_woken(self->wake >= 0, naps);
    wulgach_times_sleeps_for(&ring->times, until, can_be_woken, &limit, &end);
    uint64_t start = real_time();
    int result = poll_unlocked(ring, self, join_polled(self->polled, count), &limit, masks);
    end_sleep(self);
    place = 0;
    add_slept(ring, start);
    wulgach_times_wake(&ring->times, &end, result);
    return result;
}

void wake_sleepers(struct ring *ring)
{
    static const uint64_t one = 1;
    if (!wulgach_lookout_wakes(&ring->lookout))
        return;
    for (const struct sleeper *sleeper = ring->sleepers; sleeper; sleeper = sleeper->next)
        if (write(sleeper->wake, &one, sizeof one) < 0)
            continue; /* it has none, and naps */
}
