/* The kernel tells a poll of a write in the moment of the write, also if what was written is read
 * at once. The layer looks at a descriptor in its calls, and finds nothing then. So it has inotify
 * tell of writes to the pipes that polls wait for while it isn't called: that keeps no file open,
 * and knows pipes, though not sockets.
 */
#define _GNU_SOURCE
#include "waiting/pipes.h"
#include "operations/operations.h"
#include "operations/polls.h"
#include "process/numbers.h"
#include "rings/ring.h"

#include <fcntl.h>
#include <poll.h>
#include <stdio.h>
#include <stdlib.h>
#include <string.h>
#include <sys/inotify.h>
#include <sys/stat.h>
#include <unistd.h>

void make_pipes(struct pipes *pipes)
{
    *pipes = (struct pipes){.inotify = -1};
}

void free_pipes(struct pipes *pipes)
{
    if (pipes->inotify >= 0)
        close(pipes->inotify);
    free(pipes->watches);
    free(pipes->written);
}

/* A request, as far as it says which writes it is told of. */
static struct wulgach_pipe_poll seen_of(const struct request *request)
{
    return (struct wulgach_pipe_poll){
        .watch = (uint32_t)request->watch,
        .events = request->entry.poll32_events,
        .is_poll = is_poll(request),
        .is_of_pipe = request->is_of_pipe,
        .is_cancelled = request->course.is_cancelled,
    };
}

/* Whether a descriptor is a pipe's by which that can be read. */
static bool reads_pipe(int fd)
{
    struct stat status;
    return fstat(fd, &status) == 0 &&
           wulgach_is_heard(status.st_mode, (uint32_t)fcntl(fd, F_GETFL));
}

bool is_poll_of_pipe(const struct request *request)
{
    struct wulgach_pipe_poll seen = seen_of(request);
    seen.is_of_pipe = true;
    return wulgach_awaits_writes(&seen) && reads_pipe(request->fd);
}

static bool is_watching(const struct request *request)
{
    struct wulgach_pipe_poll seen = seen_of(request);
    return wulgach_awaits_writes(&seen);
}

/* Makes room for one more watch; false if memory was refused. */
static bool reserve_watch(struct pipes *pipes)
{
    if (pipes->count < pipes->room)
        return true;
    size_t room = 2 * (pipes->room + 4);
    struct watch *watches = realloc(pipes->watches, room * sizeof *watches);
    if (watches)
        pipes->watches = watches;
    int *written = realloc(pipes->written, room * sizeof *written);
    if (written)
        pipes->written = written;
    if (!watches || !written)
        return false;
    pipes->room = room;
    return true;
}

static int make_inotify(void)
{
    return inotify_init1(IN_CLOEXEC | IN_NONBLOCK);
}

/* The watch of a descriptor's pipe, which is one however many descriptors it has; 0: there is none
 * to be had. */
static int watch_of(struct pipes *pipes, int fd)
{
    char path[40];
    if (pipes->inotify < 0)
        pipes->inotify = made_high(make_inotify);
    if (!reserve_watch(pipes))
        return 0;
    snprintf(path, sizeof path, "/proc/thread-self/fd/%d", fd);
    int watch = inotify_add_watch(pipes->inotify, path, wulgach_heard_events());
    return watch < 0 ? 0 : watch;
}

/* The place of a watch, or where it belongs. */
static size_t place_of_watch(const struct pipes *pipes, int number)
{
    size_t low = 0, high = pipes->count;
    while (low < high) {
        size_t middle = low + (high - low) / 2;
        if (pipes->watches[middle].number < number)
            low = middle + 1;
        else
            high = middle;
    }
    return low;
}

/* The watch of a number, or NULL. */
static struct watch *watch_by(const struct pipes *pipes, int number)
{
    size_t place = place_of_watch(pipes, number);
    return place < pipes->count && pipes->watches[place].number == number ? &pipes->watches[place]
                                                                          : NULL;
}

/* Adds a watch without polls. There is room. */
static struct watch *add_watch(struct pipes *pipes, int number)
{
    struct watch *at = pipes->watches + place_of_watch(pipes, number);
    memmove(at + 1, at, (size_t)(pipes->watches + pipes->count - at) * sizeof *at);
    *at = (struct watch){.number = number};
    pipes->count++;
    pipes->idle++;
    return at;
}

/* A running poll waits by this watch. A new one has room. */
static void wait_by(struct pipes *pipes, struct request *request, int number)
{
    struct watch *watch = watch_by(pipes, number);
    if (!watch)
        watch = add_watch(pipes, number);
    pipes->idle -= !watch->polls;
    request->watch = number;
    request->watched_after = watch->polls;
    if (watch->polls)
        watch->polls->watched_before = request;
    watch->polls = request;
}

void leave_pipe(struct ring *ring, struct request *request)
{
    struct watch *watch = request->watch > 0 ? watch_by(&ring->pipes, request->watch) : NULL;
    if (!watch)
        return;
    if (request->watched_before)
        request->watched_before->watched_after = request->watched_after;
    else
        watch->polls = request->watched_after;
    if (request->watched_after)
        request->watched_after->watched_before = request->watched_before;
    ring->pipes.idle += !watch->polls;
    request->watch = 0;
    request->watched_before = request->watched_after = NULL;
}

/* Sees that each running poll has its watch: a dormant one had it before. Those that were submitted
 * together wait for the same pipe, mostly. */
static void add_watches(struct ring *ring)
{
    const struct request *before = NULL;
    for (size_t i = 0; i < ring->running.count; i++) {
        struct request *request = ring->running.rows[i];
        if (!is_watching(request)) {
            leave_pipe(ring, request);
            continue;
        }
        int watch = request->watch;
        if (watch == 0)
            watch = before && before->fd == request->fd ? before->watch
                                                        : watch_of(&ring->pipes, request->fd);
        if (request->watch == 0 && watch > 0)
            wait_by(&ring->pipes, request, watch);
        before = request;
    }
}

/* Takes away those that no poll waits by any more. */
static void drop_watches(struct pipes *pipes)
{
    size_t kept = 0;
    for (size_t i = 0; pipes->idle > 0 && i < pipes->count; i++) {
        if (pipes->watches[i].polls)
            pipes->watches[kept++] = pipes->watches[i];
        else
            inotify_rm_watch(pipes->inotify, pipes->watches[i].number);
    }
    if (pipes->idle > 0)
        pipes->count = kept;
    pipes->idle = 0;
}

static bool has_something(const struct request *request)
{
    return shows_ready((struct pollfd){.fd = request->fd, .events = (short)wulgach_left_events()});
}

/* A poll has heard of a write: what was written is there still, or gone. */
static void tell(struct ring *ring, struct request *request, bool is_there)
{
    struct wulgach_pipe_poll seen = seen_of(request);
    rouse(ring, request);
    wulgach_waiter_hears(&request->waiter, &ring->lookout, &seen, is_there);
}

/* Tells the polls that wait by a watch, as the library says. Returns whether one has heard. */
static bool tell_of_write(struct ring *ring, const struct watch *watch)
{
    bool is_known = false, is_there = false;
    for (struct request *request = watch->polls; request; request = request->watched_after) {
        struct wulgach_pipe_poll seen = seen_of(request);
        uint32_t telling;
        while ((telling = wulgach_telling_of(&seen, (uint32_t)watch->number, is_known)) ==
               WULGACH_TELLING_ASKS) {
            is_there = has_something(request);
            is_known = true;
        }
        if (telling == WULGACH_TELLING_TELLS)
            tell(ring, request, is_there);
    }
    return is_known;
}

/* What was written while nobody looked. Returns whether a poll has heard of any. */
static bool tell_of_writes(struct ring *ring)
{
    struct pipes *pipes = &ring->pipes;
    bool is_heard = false;
    for (size_t i = 0; i < pipes->written_count; i++) {
        struct watch *watch = watch_by(pipes, pipes->written[i]);
        is_heard |= tell_of_write(ring, watch);
        watch->is_written = false;
    }
    pipes->written_count = 0;
    return is_heard;
}

static void note_write(struct pipes *pipes, struct watch *watch)
{
    if (!watch->is_written)
        pipes->written[pipes->written_count++] = watch->number;
    watch->is_written = true;
}

/* Notes what an event says of a pipe. Returns whether that counts as written to. */
static bool note_event_of(
    struct pipes *pipes, const struct inotify_event *event, struct watch *watch)
{
    bool is_written = wulgach_counts_as_written(event->mask, watch->number == event->wd);
    if (is_written)
        note_write(pipes, watch);
    return is_written;
}

/* Notes what an event says: of its pipe, or where it names none, of each. Returns whether one
 * counts as written to that is watched. */
static bool note_event(struct pipes *pipes, const struct inotify_event *event)
{
    bool is_any = false;
    struct watch *watch = watch_by(pipes, event->wd);
    if (watch)
        return note_event_of(pipes, event, watch);
    for (size_t i = 0; i < pipes->count; i++)
        is_any |= note_event_of(pipes, event, &pipes->watches[i]);
    return is_any;
}

/* Reads the writes that were told since they were last read, and passes them on, or drops them.
 * Returns whether a poll has heard of one. */
static bool read_writes(struct ring *ring, bool is_dropping)
{
    _Alignas(struct inotify_event) char events[4096];
    ssize_t length;
    bool is_any = false;
    while ((length = read(ring->pipes.inotify, events, sizeof events)) > 0) {
        for (ssize_t at = 0; at < length;) {
            const struct inotify_event *event = (const void *)(events + at);
            is_any |= !is_dropping && note_event(&ring->pipes, event);
            at += (ssize_t)(sizeof *event + event->len);
        }
    }
    return is_any && tell_of_writes(ring);
}

/* A poll that had heard of a write finds nothing. Returns whether it was told. */
static bool miss_write(const struct ring *ring, struct request *request, bool is_there)
{
    struct wulgach_pipe_poll seen = seen_of(request);
    return wulgach_waiter_misses(&request->waiter, &ring->lookout, &seen, is_there);
}

/* (one that goes on has taken its event where it finds none, and something is there) */
void note_look(const struct ring *ring, struct request *request, bool is_ready)
{
    wulgach_ring_poll_looks(&request->of_ring, is_ready);
    request->has_waited |= !is_ready;
    if (wulgach_waiter_sees(&request->waiter, &ring->lookout, is_ready))
        miss_write(ring, request, has_something(request));
}

/* Whether what a poll has heard of is gone. */
static bool is_gone(const struct request *request)
{
    uint32_t gone = wulgach_waiter_gone(&request->waiter, false, false);
    if (gone == WULGACH_GONE_ASKS)
        gone = wulgach_waiter_gone(&request->waiter, true, has_something(request));
    return gone == WULGACH_GONE_YES;
}

/* Sees what became of what was there when it was heard. Returns whether a poll was told. */
static bool tell_of_gone(struct ring *ring)
{
    bool is_told = false;
    for (size_t i = 0; i < ring->running.count; i++) {
        struct request *request = ring->running.rows[i];
        if (!is_gone(request) || !miss_write(ring, request, false))
            continue;
        tell(ring, request, false);
        is_told = true;
    }
    return is_told;
}

/* Does what the library says is next so that writes are heard. Returns whether a poll has heard of
 * one. */
static bool do_hearing(struct ring *ring, uint32_t hearing)
{
    switch (hearing) {
    case WULGACH_HEARING_ADDS:
        add_watches(ring);
        return false;
    case WULGACH_HEARING_DROPS:
        drop_watches(&ring->pipes);
        return false;
    case WULGACH_HEARING_TELLS_OF_GONE:
        return tell_of_gone(ring);
    case WULGACH_HEARING_SORTS:
        return read_writes(ring, wulgach_lookout_drops_writes(&ring->lookout));
    case WULGACH_HEARING_READS:
        return read_writes(ring, false);
    default:
        wulgach_lookout_hears(&ring->lookout);
        return false;
    }
}

/* What the ring's own requests may have written and read since isn't told: in which order they go
 * on is the policy's choice. */
bool watch_pipes(struct ring *ring)
{
    bool is_heard = false;
    uint32_t hearing = WULGACH_HEARING_IS_DONE;
    while (
        (hearing = wulgach_hearing_at_rest(hearing, ring->pipes.count)) != WULGACH_HEARING_IS_DONE)
        is_heard |= do_hearing(ring, hearing);
    return is_heard;
}

void hear_pipes(struct ring *ring)
{
    uint32_t hearing = WULGACH_HEARING_IS_DONE;
    while (
        (hearing = wulgach_hearing_at_begin(hearing, ring->pipes.count)) != WULGACH_HEARING_IS_DONE)
        do_hearing(ring, hearing);
}
