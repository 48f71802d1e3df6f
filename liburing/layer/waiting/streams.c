/* Descriptors are looked at by few calls for all, once between two things that can change them. */
#define _GNU_SOURCE
#include "waiting/streams.h"
#include "operations/operations.h"
#include "operations/sockets.h"
#include "operations/unwilling.h"
#include "registered/files.h"
#include "waiting/glance.h"
#include "waiting/pipes.h"

#include <sys/socket.h>

void look_at(const struct ring *ring, struct request *request)
{
    note_look(ring, request, is_ready(request));
}

/* Asks a socket whether it listens. */
static void ask_listening(struct request *request)
{
    int listens = 0;
    socklen_t size = sizeof listens;
    request->knows_listening = getsockopt(
                                   request->fd, SOL_SOCKET, SO_ACCEPTCONN, &listens, &size) == 0;
    request->is_listening = listens != 0;
}

void look_first(const struct ring *ring, struct request *request)
{
    bool is_found = is_ready(request);
    if (wulgach_asks_listening(&request->needs, is_found)) {
        ask_listening(request);
        request->is_tried_first = wulgach_is_tried_first(
            submission_of(&request->entry), (uint32_t)option_of(request->fd, SO_RCVLOWAT));
        is_found = is_glanced_ready(request, wulgach_unshown_glance(is_impatient(request)));
    }
    note_look(ring, request, is_found);
}

static bool is_to_be_looked_at(const struct ring *ring, const struct request *request)
{
    return request->standing.is_stream &&
           wulgach_waiter_sighting(&request->waiter, &ring->lookout) == WULGACH_SIGHTING_UNSEEN;
}

/* The row of the running request to look at from this one on. */
static size_t next_row(const struct ring *ring, size_t row)
{
    while (row < ring->running.count && !is_to_be_looked_at(ring, ring->running.rows[row]))
        row++;
    return row;
}

/* How many are looked at by one call: no more than a process may have descriptors, however few that
 * are. */
enum { MOST_AT_ONCE = 64 };

/* Looks at these, and notes what was found. */
static void look_at_some(
    const struct ring *ring, struct request **requests, struct pollfd *polled, nfds_t count)
{
    int came = poll_now(polled, count);
    for (nfds_t i = 0; i < count; i++) {
        uint32_t glance = wulgach_glance_of(
            is_impatient(requests[i]), true, came, (uint16_t)polled[i].revents);
        note_look(ring, requests[i],
            glance == WULGACH_GLANCE_ASKS_ALONE ? is_ready(requests[i])
                                                : is_glanced_ready(requests[i], glance));
    }
}

/* Looks at all of them. */
static void look_at_all(struct ring *ring)
{
    struct request *requests[MOST_AT_ONCE];
    struct pollfd polled[MOST_AT_ONCE];
    nfds_t count = 0;
    for (size_t i = next_row(ring, 0); i < ring->running.count; i = next_row(ring, i + 1)) {
        requests[count] = ring->running.rows[i];
        polled[count++] = poll_of(ring->running.rows[i]);
        if (count == MOST_AT_ONCE) {
            look_at_some(ring, requests, polled, count);
            count = 0;
        }
    }
    if (count > 0)
        look_at_some(ring, requests, polled, count);
}

bool is_found_ready(struct ring *ring, struct request *request)
{
    uint32_t sighting;
    /* (a dormant one, of which a cancel asks, isn't among them) */
    bool are_many = ring->running.count > 1;
    while ((sighting = wulgach_waiter_sighting(&request->waiter, &ring->lookout)) ==
           WULGACH_SIGHTING_UNSEEN) {
        if (are_many)
            look_at_all(ring);
        else
            look_at(ring, request);
        are_many = false;
    }
    return sighting == WULGACH_SIGHTING_READY;
}

/* Whether a request is to have a file of its own, and a second one. (an epoll instance keeps none
 * open) */
static bool is_to_hold_first(const struct request *request)
{
    return wulgach_keeps_open(
        &request->standing, &request->needs, request->is_assigned, request->started, request->file);
}

static bool is_to_hold_second(const struct request *request)
{
    return wulgach_keeps_second_open(&request->standing, &request->needs, request->is_assigned,
        request->started, request->second_file);
}

/* The last one for which that was done, of those that were kept one right after the other: a number
 * is one file's meanwhile. */
struct holder {
    int fd;
    struct file *file;
};

static void hold_second(struct request *request)
{
    request->second_file = hold_file(request->second_fd);
    if (request->second_file)
        request->second_fd = request->second_file->fd;
}

static void hold_first(struct request *request, struct holder *last)
{
    int fd = request->fd;
    struct file *shared = wulgach_shares_copy(&request->standing, fd, last->file, last->fd)
                              ? last->file
                              : NULL;
    request->file = shared ? share_file(shared) : hold_file(fd);
    *last = (struct holder){fd, request->file};
    if (request->file)
        request->fd = request->file->fd;
}

/* What waits has numbers of its own. */
static void hold_beside(struct request *request, struct holder *last)
{
    if (is_to_hold_first(request))
        hold_first(request, last);
    if (is_to_hold_second(request))
        hold_second(request);
}

void hold_file_of(struct request *request)
{
    hold_beside(request, &(struct holder){-1, NULL});
}

/* (a call in which nothing waits comes past here too) */
__attribute__((noinline)) void hold_files(struct ring *ring)
{
    struct holder last = {-1, NULL};
    for (size_t i = 0; i < ring->running.count; i++)
        hold_beside(ring->running.rows[i], &last);
}

void hold_new_files(struct ring *ring)
{
    const struct requests *requests = &ring->requests;
    struct holder last = {-1, NULL};
    for (size_t i = count_before(requests, ring->held_before); i < requests->count; i++)
        hold_beside(requests->rows[i], &last);
    ring->held_before = ring->accepted;
}

void hold_files_before(struct ring *ring, const struct request *closing, int fd)
{
    const struct requests *requests = &ring->requests;
    struct holder last = {-1, NULL};
    for (size_t i = 0; i < requests->count; i++)
        if (wulgach_keeps_before_close(
                requests->rows[i]->number, requests->rows[i]->fd, closing->number, fd))
            hold_beside(requests->rows[i], &last);
}
