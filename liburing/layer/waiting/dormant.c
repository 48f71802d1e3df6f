/* A descriptor that is looked at costs as much in each call as it does in the first, however long
 * nothing comes. So where more requests wait than a poll(2) looks at in passing, they become
 * dormant: they leave those that the lookout has run, and come back, as if they had started, once
 * their descriptor is ready, a cancel has found them, an update has changed them or a poll hears of
 * a write. Whether one waits for nothing but its descriptor the library says.
 *
 * The instance is asked once a moment, as descriptors are looked at once. It has each for one
 * event, and is given it again when its request is to be dormant again: then the kernel looks
 * whether it is ready already. It knows a descriptor by its number and its file, so a request whose
 * descriptor it has already, as a registered file's, gets a duplicate. What it doesn't take is
 * looked at as before.
 */
#define _GNU_SOURCE
#include "waiting/dormant.h"
#include "choices/ways.h"
#include "operations/operations.h"
#include "process/numbers.h"
#include "registered/files.h"
#include "rings/readiness.h"
#include "rings/ring.h"
#include "waiting/pipes.h"
#include "waiting/streams.h"

#include <errno.h>
#include <sys/epoll.h>
#include <unistd.h>

/* Of so many descriptors the instance tells at once. */
enum { MOST_TOLD = 64 };

void make_dormant(struct dormant *dormant)
{
    *dormant = (struct dormant){.instance = -1};
}

void free_dormant(struct dormant *dormant)
{
    if (dormant->instance >= 0)
        close(dormant->instance);
}

/* A ring's descriptor that polls has the instance before that has anything: so a request that waits
 * for the ring itself isn't taken. */
static bool is_polled_for(struct ring *ring, int instance)
{
    struct epoll_event event = {.events = EPOLLIN};
    return ring->ready_fd < 0 || change_polled(ring, EPOLL_CTL_ADD, instance, &event) == 0;
}

static bool has_instance(struct ring *ring)
{
    struct dormant *dormant = &ring->dormant;
    if (dormant->instance >= 0 || dormant->is_refused)
        return !dormant->is_refused;
    int instance = made_instance();
    dormant->is_refused = instance < 0 || !is_polled_for(ring, instance);
    if (!dormant->is_refused)
        dormant->instance = instance;
    else if (instance >= 0)
        close(instance);
    return !dormant->is_refused;
}

/* ---- which descriptors the instance has ---- */

/* Returns 0, or an error number's negative. */
static int32_t change(
    const struct ring *ring, int how, const struct request *request, const struct pollfd *polled)
{
    struct epoll_event event = {
        .events = wulgach_dormant_events((uint16_t)polled->events), .data.u64 = request->number};
    int fd = request->duplicate ? request->duplicate->fd : polled->fd;
    return epoll_ctl(ring->dormant.instance, how, fd, &event) == 0 ? 0 : -errno;
}

/* Adds its descriptor, or its duplicate if it has one. */
static enum wulgach_enlisting add_to_instance(
    const struct ring *ring, const struct request *request, const struct pollfd *polled)
{
    return (enum wulgach_enlisting)wulgach_enlisting_after(
        change(ring, EPOLL_CTL_ADD, request, polled), request->duplicate != NULL);
}

/* Gives the instance a request's descriptor, for one event. False: it doesn't take it. */
static bool enlist(struct ring *ring, struct request *request)
{
    struct pollfd polled = poll_of(request);
    if (request->is_enlisted)
        return change(ring, EPOLL_CTL_MOD, request, &polled) == 0;
    enum wulgach_enlisting is = add_to_instance(ring, request, &polled);
    if (is == WULGACH_ADDS_DUPLICATE && (request->duplicate = hold_file(polled.fd)))
        is = add_to_instance(ring, request, &polled);
    request->is_enlisted = is == WULGACH_IS_LISTED;
    return request->is_enlisted;
}

void delist(struct ring *ring, struct request *request)
{
    if (request->is_enlisted) {
        struct pollfd polled = poll_of(request);
        change(ring, EPOLL_CTL_DEL, request, &polled);
        request->is_enlisted = false;
    }
    release_file(request->duplicate);
    request->duplicate = NULL;
}

/* ---- becoming dormant ---- */

/* Whether a request is to become dormant. */
static bool is_to_lie(const struct ring *ring, const struct request *request)
{
    bool is_unready = wulgach_waiter_sighting(&request->waiter, &ring->lookout) ==
                      WULGACH_SIGHTING_UNREADY;
    return wulgach_lies_down(
        &request->standing, &request->needs, &request->course, is_unready, request->is_unlisted);
}

/* Has the instance tell of one, which keeps its file from now on. False: it is looked at for ever.
 */
static bool enlist_kept(struct ring *ring, struct request *request)
{
    hold_file_of(request);
    if (wulgach_instance_takes(request->file, request->epoll >= 0) && enlist(ring, request))
        return true;
    delist(ring, request);
    request->is_unlisted = true;
    return false;
}

static void lie_down(struct ring *ring, struct request *request)
{
    request->is_dormant = true;
    ring->dormant.count++;
    wulgach_lookout_leaves(&ring->lookout, take_request(&ring->running, request));
    if (request->is_patient)
        take_request(&ring->patient, request);
    request->is_patient = false;
}

/* Whether there is room for all of them to come back, however many lie down. */
static bool has_room(struct ring *ring)
{
    size_t whole = ring->requests.count;
    return reserve_requests(&ring->running, whole) && reserve_requests(&ring->patient, whole);
}

uint64_t count_waiting(const struct ring *ring)
{
    uint64_t count = 0;
    for (size_t i = 0; i < ring->running.count; i++)
        count += ring->running.rows[i]->standing.is_stream;
    return count;
}

void let_lie(struct ring *ring)
{
    if (!has_room(ring))
        return;
    for (size_t i = 0; i < ring->running.count;) {
        struct request *request = ring->running.rows[i];
        if (is_to_lie(ring, request) && has_instance(ring) && enlist_kept(ring, request))
            lie_down(ring, request);
        else
            i++;
    }
}

/* ---- coming back ---- */

/* To the lookout it starts: so what was known of it, as that it waits, isn't any more. */
static void bring_back(struct ring *ring, struct request *request)
{
    request->is_dormant = false;
    wulgach_waiter_begin(&request->waiter);
    ring->dormant.count--;
    wulgach_lookout_starts(&ring->lookout, insert_request(&ring->running, request));
    note_patient(ring, request);
}

void rouse(struct ring *ring, struct request *request)
{
    if (request->is_dormant)
        bring_back(ring, request);
}

/* The kernel refuses to tell, so all are looked at from now on. The program may have closed the
 * instance, and opened something under its number: that stays open. */
static void rouse_all(struct ring *ring)
{
    ring->dormant.is_refused = true;
    ring->dormant.instance = -1;
    for (size_t i = 0; i < ring->requests.count; i++)
        rouse(ring, ring->requests.rows[i]);
}

/* The descriptor of a request is ready, or was that of one that has ended. */
static void rouse_told(struct ring *ring, uint64_t number)
{
    struct request *request = request_or_none(&ring->requests, number);
    if (!request || !request->is_dormant)
        return;
    bring_back(ring, request);
    wulgach_waiter_is_told_ready(&request->waiter, &ring->lookout);
}

__attribute__((noinline)) static void ask_instance(struct ring *ring)
{
    struct epoll_event events[MOST_TOLD];
    uint32_t answer;
    wulgach_waiter_sees(&ring->dormant.asked, &ring->lookout, false);
    do {
        int count = epoll_wait(ring->dormant.instance, events, MOST_TOLD, 0);
        for (int i = 0; i < count; i++)
            rouse_told(ring, events[i].data.u64);
        answer = wulgach_instance_answered(count, MOST_TOLD);
    } while (answer == WULGACH_INSTANCE_ASKS);
    if (answer == WULGACH_INSTANCE_ROUSES)
        rouse_all(ring);
}

void rouse_ready(struct ring *ring)
{
    if (wulgach_waiter_sighting(&ring->dormant.asked, &ring->lookout) == WULGACH_SIGHTING_UNSEEN)
        ask_instance(ring);
}
