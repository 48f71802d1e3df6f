/* The descriptor is an epoll instance: poll and epoll take it, read and write refuse it, as they do
 * a ring of the kernel. In it are an eventfd of the layer's, which is set while completions wait or
 * something can go on, and the descriptors of the streams that running requests wait for. The
 * eventfd also tells the instance from others, and so does a mark.
 *
 * The layer isn't told when the application reaps: so the eventfd stays set until the next call,
 * and meanwhile IORING_SQ_TASKRUN makes a peek that finds nothing call. Where somebody may wait for
 * edges (waiters.c), each call that posts writes the eventfd, though it is set.
 */
#define _GNU_SOURCE
#include "rings/readiness.h"
#include "operations/operations.h"
#include "process/numbers.h"
#include "process/passing.h"
#include "requests/progress.h"
#include "rings/locking.h"
#include "rings/waiters.h"
#include "waiting/waiting.h"

#include <errno.h>
#include <stdlib.h>
#include <sys/epoll.h>
#include <sys/ioctl.h>
#include <sys/random.h>
#include <unistd.h>

/* An instance keeps how whoever waits on it looks for what a network brings: 31 bits of
 * microseconds and 6 of a count, which any program may set and a kernel since 6.9 keeps. Nobody
 * waits on a ring's, so there it has the ring's mark. */
#define BITS_OF_MARK 0x3f7fffffffu

/* Draws a mark, and gives it to an instance. 0: it has none. */
static uint64_t make_mark(int fd)
{
    uint64_t mark;
    if (getrandom(&mark, sizeof mark, GRND_NONBLOCK) != sizeof mark)
        return 0;
    mark &= BITS_OF_MARK;
    return ioctl(fd, SETS_MARK, &mark) == 0 ? mark : 0;
}

int make_polled(struct ring *ring)
{
    struct epoll_event event = {.events = EPOLLIN};
    int fd = epoll_create1(EPOLL_CLOEXEC);
    if (fd < 0)
        return -errno;
    ring->mark = make_mark(fd);
    note_polled_ring(ring->mark);
    ring->ready_fd = made_eventfd();
    if (ring->ready_fd >= 0 && epoll_ctl(fd, EPOLL_CTL_ADD, ring->ready_fd, &event) == 0)
        return fd;
    int error = errno;
    close(fd);
    return -error;
}

void free_polled(struct ring *ring)
{
    if (ring->ready_fd >= 0)
        close(ring->ready_fd);
    free(ring->watched);
}

bool is_polled_by(const struct ring *ring, int fd)
{
    struct epoll_event event = {.events = EPOLLIN};
    return epoll_ctl(fd, EPOLL_CTL_MOD, ring->ready_fd, &event) == 0;
}

/* (to ask for the mark takes two thirds of the time) */
bool is_still_polled_by(const struct ring *ring, int fd)
{
    uint64_t mark;
    if (!ring->mark)
        return is_polled_by(ring, fd);
    return pass(SYS_ioctl, fd, GETS_MARK, (long)&mark, 0, 0, 0) >= 0 && mark == ring->mark;
}

static int by_descriptor(const void *one, const void *other)
{
    const struct watched *first = one, *second = other;
    return (first->fd > second->fd) - (first->fd < second->fd);
}

/* Lists a descriptor for which one waits. */
static void list_one(struct watched *watched, int fd, uint32_t events, uint64_t begun)
{
    *watched = (struct watched){.fd = fd};
    wulgach_watched_begin(&watched->at);
    wulgach_watched_add(&watched->at, events, begun);
}

/* Lists the descriptors of the running requests that wait for streams by rising number, each once.
 */
static size_t list_watched(const struct ring *ring, struct watched *watched)
{
    size_t count = 0, kept = 0;
    uint32_t besides = wulgach_polls_besides(ring->pipes.count, ring->dormant.instance >= 0);
    if (besides & WULGACH_POLLS_WRITES)
        list_one(&watched[count++], ring->pipes.inotify, EPOLLIN, 0);
    if (besides & WULGACH_POLLS_INSTANCE)
        list_one(&watched[count++], ring->dormant.instance, EPOLLIN, 0);
    for (size_t i = 0; i < ring->running.count; i++) {
        const struct request *request = ring->running.rows[i];
        if (!wulgach_polls(&request->standing))
            continue;
        struct pollfd polled = poll_of(request);
        if (polled.fd < 0)
            continue;
        list_one(&watched[count++], polled.fd, (uint16_t)polled.events, request->begun);
    }
    qsort(watched, count, sizeof *watched, by_descriptor);
    for (size_t i = 0; i < count; i++) {
        if (kept == 0 || watched[kept - 1].fd != watched[i].fd)
            watched[kept++] = watched[i];
        else
            wulgach_watched_add(&watched[kept - 1].at, watched[i].at.events, watched[i].at.begun);
    }
    return kept;
}

int change_polled(struct ring *ring, int change, int fd, struct epoll_event *event)
{
    if (!is_still_polled_by(ring, ring->called_fd))
        call_by(ring, ring->called_fd);
    return epoll_ctl(ring->called_fd, change, fd, event);
}

static int32_t watch(struct ring *ring, int change, const struct watched *watched)
{
    struct epoll_event event = {.events = watched->at.events};
    return change_polled(ring, change, watched->fd, &event) < 0 ? -errno : 0;
}

static void add_watched(struct ring *ring, struct watched *watched)
{
    wulgach_watched_enlist(&watched->at, watch(ring, EPOLL_CTL_ADD, watched));
}

/* Changes what is watched of one descriptor, or two lists' first: NULL where one has it not. A
 * number that is closed and opened again isn't watched. */
static void watch_change(struct ring *ring, const struct watched *before, struct watched *after)
{
    static const struct watched nothing;
    switch (wulgach_watch_of(
        before ? &before->at : &nothing.at, before, after ? &after->at : &nothing.at, after)) {
    case WULGACH_WATCH_ADDS:
        add_watched(ring, after);
        return;
    case WULGACH_WATCH_REMOVES:
        watch(ring, EPOLL_CTL_DEL, before);
        return;
    case WULGACH_WATCH_RENEWS:
        if (wulgach_watch_adds_after(watch(ring, EPOLL_CTL_MOD, after)))
            add_watched(ring, after);
        return;
    }
}

/* Changes what is watched from one list to another. */
static void watch_changes(struct ring *ring, const struct watched *before, size_t before_count,
    struct watched *after, size_t after_count)
{
    size_t i = 0, j = 0;
    while (i < before_count || j < after_count) {
        bool is_before = j == after_count || (i < before_count && before[i].fd <= after[j].fd);
        bool is_after = i == before_count || (j < after_count && after[j].fd <= before[i].fd);
        watch_change(ring, is_before ? &before[i] : NULL, is_after ? &after[j] : NULL);
        ring->is_untold |= is_after && after[j].at.is_untold;
        i += is_before;
        j += is_after;
    }
}

/* An epoll instance keeps a descriptor that is closed while its file is open elsewhere. */
void unwatch(struct ring *ring, int fd)
{
    struct watched key = {.fd = fd};
    struct watched *watched = ring->watched_count
                                  ? bsearch(&key, ring->watched, ring->watched_count, sizeof key,
                                        by_descriptor)
                                  : NULL;
    if (!watched)
        return;
    watch(ring, EPOLL_CTL_DEL, watched);
    wulgach_watched_give_back(&watched->at);
}

/* Puts the streams that are waited for in the place of those that were. If memory is refused, it
 * can't tell of them until the next call tries. */
static void watch_streams(struct ring *ring)
{
    ring->is_untold = false;
    if (ring->running.count == 0 && ring->dormant.count == 0 && ring->watched_count == 0)
        return;
    struct watched *watched = calloc(ring->running.count + 3, sizeof *watched);
    if (!watched) {
        ring->is_untold = true;
        return;
    }
    size_t count = list_watched(ring, watched);
    watch_changes(ring, ring->watched, ring->watched_count, watched, count);
    free(ring->watched);
    ring->watched = watched;
    ring->watched_count = count;
}

/* Whether completions were posted since the descriptor was told last. */
static bool has_posted(struct ring *ring)
{
    return wulgach_shown_has_posted(&ring->completions.at, &ring->told_posted);
}

/* Finds out what the library wants to know of what a call would bring. */
static void look_ahead(struct ring *ring, uint32_t asked, struct wulgach_prospect *known)
{
    if (asked == WULGACH_ASK_REQUESTS) {
        known->can_go_on = can_go_on(ring);
        known->knows_requests = true;
    } else {
        known->can_pass_time = can_pass_time(ring);
        known->knows_time = true;
    }
}

static bool is_readable_now(struct ring *ring)
{
    struct wulgach_prospect known = {.is_untold = ring->is_untold};
    uint32_t told, head = load_word(&ring->memory.cq->head);
    while (
        (told = wulgach_shown_readable(&ring->completions.at, head, &known)) > WULGACH_IS_READABLE)
        look_ahead(ring, told, &known);
    return told == WULGACH_IS_READABLE;
}

void show_readiness(struct ring *ring)
{
    uint64_t one = 1;
    watch_streams(ring);
    bool is_readable = is_readable_now(ring);
    /* (another thread or process may wait for an edge, or this one between its calls) */
    if (!wulgach_tells_anew(ring->is_readable, is_readable, has_posted(ring), may_wait_for_edges()))
        return;
    ring->is_readable = is_readable;
    /* (by the kernel's call itself: the C library's asks besides whether the thread is cancelled)
     */
    pass(is_readable ? SYS_write : SYS_read, ring->ready_fd, (long)&one, sizeof one, 0, 0, 0);
}
