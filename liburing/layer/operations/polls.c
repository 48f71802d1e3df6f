/* A poll that goes on tells of each event once: so the kernel is asked by an epoll instance. One
 * that ends with its first event asks the descriptor itself. Which is asked, and for what, is the
 * library's decision.
 */
#define _GNU_SOURCE
#include "operations/polls.h"
#include "operations/operations.h"
#include "process/numbers.h"
#include "registered/eventfds.h"
#include "rings/descriptors.h"
#include "rings/ring.h"
#include "rings/waiters.h"
#include "waiting/glance.h"
#include "waiting/pipes.h"
#include "wulgach_tries.h"

#include <errno.h>
#include <sys/epoll.h>
#include <unistd.h>

bool is_poll(const struct request *request)
{
    return request->needs.is_poll;
}

static uint16_t events_of(const struct request *request)
{
    return (uint16_t)request->needs.events;
}

static void drop_instance(struct request *request)
{
    if (request->epoll >= 0)
        close(request->epoll);
    request->epoll = -1;
}

/* Asks an instance for its descriptor. */
static int32_t ask_instance(struct request *request)
{
    struct epoll_event event = {.events = wulgach_instance_events(events_of(request))};
    request->epoll = made_instance();
    if (request->epoll < 0)
        return -errno;
    note_waiter(EPOLL_CTL_ADD, request->fd);
    return epoll_ctl(request->epoll, EPOLL_CTL_ADD, request->fd, &event) < 0 ? -errno : 0;
}

/* What asking one comes to, which isn't kept. */
static int32_t ask_once(struct request *request)
{
    int32_t res = ask_instance(request);
    drop_instance(request);
    return res;
}

int find_polling(struct request *request)
{
    return wulgach_polling_fault(ask_once(request));
}

bool can_be_polled(struct request *request)
{
    return wulgach_counts_as_polled(ask_once(request));
}

/* One that ends with its first event doesn't keep its instance. */
static int start_by_instance(struct request *request)
{
    struct wulgach_poll_start start;
    int32_t res = ask_instance(request);
    wulgach_poll_starts(events_of(request), request->needs.goes_on, res, &start);
    request->needs.goes_on = start.goes_on;
    if (!start.goes_on)
        drop_instance(request);
    return start.fault;
}

int start_poll(const struct ring *ring, struct request *request)
{
    wulgach_ring_poll_begin(&request->of_ring, request->needs.goes_on,
        request->needs.goes_on && is_ring(request->fd), ring->tellings);
    request->is_of_pipe = is_poll_of_pipe(request);
    drop_instance(request);
    return wulgach_asks_instance(submission_of(&request->entry)) ? start_by_instance(request) : 0;
}

struct pollfd poll_of_poll(const struct request *request)
{
    if (request->epoll >= 0)
        return (struct pollfd){.fd = request->epoll, .events = POLLIN};
    return (struct pollfd){.fd = request->fd, .events = (short)events_of(request)};
}

/* The events that are there, or 0. */
static uint16_t present_events(const struct request *request)
{
    struct epoll_event event = {0};
    struct pollfd at = {.fd = request->fd, .events = (short)events_of(request)};
    bool is_by_instance = request->epoll >= 0;
    int came = is_by_instance ? epoll_wait(request->epoll, &event, 1, 0) : poll_now(&at, 1);
    return wulgach_present_of(came, is_by_instance ? (uint16_t)event.events : (uint16_t)at.revents);
}

int32_t take_events(const struct ring *ring, struct request *request)
{
    int32_t res;
    uint16_t present = present_events(request);
    note_look(ring, request, present != 0);
    bool was_told = wulgach_waiter_takes(&request->waiter, &ring->lookout);
    return wulgach_poll_result(events_of(request), present, was_told, &res) ? res : WOULD_WAIT;
}

bool comes_of_ring(const struct ring *ring, const struct request *request)
{
    if (!is_poll(request))
        return false;
    bool is_eventfd = wulgach_ring_poll_asks_eventfd(&request->of_ring, ring->tellings) &&
                      is_own_eventfd(ring, request->fd);
    return wulgach_comes_of_ring(&request->of_ring, ring->tellings, is_eventfd);
}

void note_poll_event(const struct ring *ring, struct request *request)
{
    wulgach_ring_poll_has_event(&request->of_ring, ring->tellings);
}
