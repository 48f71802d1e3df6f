/* Sockets and splices: each call is made so that it doesn't wait, and again once the descriptor is
 * ready. What is next after each is the library's decision. */
#define _GNU_SOURCE
#include "operations/sockets.h"
#include "operations/means.h"
#include "operations/operations.h"
#include "process/numbers.h"
#include "requests/copying.h"
#include "rings/ring.h"
#include "waiting/glance.h"
#include "wulgach_results.h"
#include "wulgach_sleeps.h"
#include "wulgach_tries.h"
#include "wulgach_waits.h"

#include <errno.h>
#include <fcntl.h>
#include <limits.h>
#include <poll.h>
#include <stdlib.h>
#include <string.h>
#include <sys/epoll.h>
#include <sys/socket.h>
#include <unistd.h>

/* A message, with room for an address that is the layer's. */
struct addressed {
    struct msghdr message;
    struct sockaddr_storage address;
};

int make_message(struct request *request, const struct wulgach_piece *buffer)
{
    struct addressed *addressed = request->value = calloc(1, sizeof *addressed);
    struct msghdr *message = &addressed->message;
    request->vectors = malloc(sizeof *request->vectors);
    if (!addressed || !request->vectors)
        return wulgach_missing_fault(WULGACH_NO_MEMORY_OWN);
    *request->vectors = (struct iovec){(void *)(uintptr_t)buffer->from, buffer->size};
    request->length = wulgach_length_with(0, buffer->size);
    message->msg_iov = request->vectors;
    message->msg_iovlen = request->vector_count = 1;
    return 0;
}

/* What the library wants to know of a message. */
static struct wulgach_header header_of(const struct msghdr *message)
{
    return (struct wulgach_header){
        .name = (uintptr_t)message->msg_name,
        .name_size = message->msg_namelen,
        .vectors = (uintptr_t)message->msg_iov,
        .vector_count = message->msg_iovlen,
        .control_size = message->msg_controllen,
    };
}

/* Copies each piece of a message that the library tells, and returns its fault, or 0, or that of
 * refused memory. */
static int32_t copy_message_pieces(struct request *request, const struct wulgach_header *header)
{
    struct wulgach_piece piece;
    int32_t fault = 0, next;
    for (uint32_t count = 0; (next = wulgach_next_message_piece(submission_of(&request->entry),
                                  header, count, fault, &piece)) > 0;
         count++)
        fault = piece.what == WULGACH_ADDRESS ? copy_address(request, piece.from, piece.size)
                                              : copy_vectors(request, &piece);
    return next;
}

int copy_message(struct request *request, uint64_t from)
{
    struct addressed *addressed = request->value = calloc(1, sizeof *addressed);
    if (!addressed)
        return wulgach_missing_fault(WULGACH_NO_MEMORY_OWN);
    struct msghdr *message = &addressed->message;
    int32_t fault = copy_in(message, from, sizeof *message);
    struct wulgach_header header = header_of(message);
    request->vectors = &request->one; /* an empty one, if none is copied */
    if (fault == 0)
        fault = copy_message_pieces(request, &header);
    if (fault < 0)
        return fault;
    request->vector_count = (uint32_t)wulgach_message_vectors(
        submission_of(&request->entry), header.vector_count);
    message->msg_iov = request->vectors;
    message->msg_iovlen = request->vector_count;
    request->control = message->msg_controllen;
    return 0;
}

int copy_address(struct request *request, uint64_t from, size_t size)
{
    if (wulgach_is_address_alone(request->entry.opcode)) {
        request->value = calloc(1, sizeof(struct sockaddr_storage));
        return request->value ? copy_in(request->value, from, size)
                              : wulgach_missing_fault(WULGACH_NO_MEMORY_OWN);
    }
    struct addressed *addressed = request->value;
    request->address = addressed->message.msg_name = &addressed->address;
    addressed->message.msg_namelen = (socklen_t)size;
    return copy_in(&addressed->address, from, size);
}

/* Moves the vectors on after a call that came to this. */
static void advance(struct request *request, int32_t came_to)
{
    uint64_t moved = wulgach_moved_by(came_to);
    request->done += moved;
    for (uint32_t i = 0; i < request->vector_count && moved > 0; i++) {
        struct iovec *vector = &request->vectors[i];
        struct wulgach_rest rest;
        wulgach_rest_of(
            &(struct wulgach_vector){(uintptr_t)vector->iov_base, vector->iov_len}, moved, &rest);
        *vector = (struct iovec){(void *)(uintptr_t)rest.vector.from, rest.vector.size};
        moved = rest.moved;
    }
}

/* What the kernel says of a message that it has received. */
static struct wulgach_received received_by(const struct msghdr *message)
{
    return (struct wulgach_received){
        .control_size = message->msg_controllen,
        .name_size = message->msg_namelen,
        .flags = (uint32_t)message->msg_flags,
        .has_name = message->msg_name != NULL,
    };
}

/* Tells what the library says of a message, where the application's stands. False if it can't be
 * written. */
static bool tell_message(const struct request *request)
{
    struct wulgach_received received = received_by(request->value);
    struct wulgach_field field;
    for (uint32_t told = 0; wulgach_next_told(&received, told, &field); told++)
        if (copy_out(request->entry.addr + field.offset, &field.value, field.size) < 0)
            return false;
    return true;
}

int32_t move_message(struct request *request, const struct wulgach_means *means)
{
    struct msghdr *message = request->value;
    message->msg_controllen = wulgach_control_of(
        submission_of(&request->entry), request->control, request->done);
    int32_t came_to = make_call(&means->call);
    bool is_told = !wulgach_tells_message(submission_of(&request->entry), came_to) ||
                   tell_message(request);
    int32_t res = wulgach_told_result(came_to, is_told);
    advance(request, res);
    return res;
}

/* One that goes on: sizes and flags stand in the buffer, and after them the address, the control
 * data and the bytes. Writes how much of the buffer has something. */
static int32_t receive_into_buffer(struct request *request, uint64_t *filled)
{
    const struct msghdr *asked = request->value;
    struct wulgach_layout layout;
    char *at = request->vectors->iov_base;
    if (!wulgach_layout_of(
            asked->msg_namelen, asked->msg_controllen, request->vectors->iov_len, &layout))
        return fault_of_buffer(request, wulgach_missing_fault(WULGACH_NO_ROOM));
    struct iovec bytes = {at + layout.bytes, layout.room};
    struct msghdr message = {
        .msg_name = layout.has_name ? at + layout.name : NULL,
        .msg_namelen = asked->msg_namelen,
        .msg_control = layout.has_control ? at + layout.control : NULL,
        .msg_controllen = asked->msg_controllen,
        .msg_iov = &bytes,
        .msg_iovlen = 1,
    };
    struct wulgach_held held = {.fd = request->fd, .value = (uintptr_t)&message};
    struct wulgach_means means;
    wulgach_means_of(submission_of(&request->entry), &held, &means);
    int32_t came_to = make_call(&means.call);
    struct wulgach_received received = received_by(&message);
    struct wulgach_front told;
    wulgach_front_of(&received, (uint32_t)came_to, &told);
    bool is_told = !wulgach_tells_message(submission_of(&request->entry), came_to) ||
                   copy_out((uintptr_t)at, &told, sizeof told) == 0;
    int32_t res = wulgach_told_result(came_to, is_told);
    if (res < 0)
        return res;
    request->done = (uint32_t)res;
    *filled = wulgach_layout_filled(&layout, (uint32_t)res);
    return res;
}

static bool is_stream_socket(const struct request *request)
{
    int type = 0;
    socklen_t size = sizeof type;
    return getsockopt(request->fd, SOL_SOCKET, SO_TYPE, &type, &size) == 0 &&
           wulgach_is_stream_type((uint32_t)type);
}

static int32_t error_of_socket(const struct request *request)
{
    int error = 0;
    socklen_t size = sizeof error;
    return getsockopt(request->fd, SOL_SOCKET, SO_ERROR, &error, &size) < 0 ? -errno : -error;
}

int option_of(int fd, int name)
{
    int value = 0;
    socklen_t size = sizeof value;
    return getsockopt(fd, SOL_SOCKET, name, &value, &size) < 0 ? 0 : value;
}

bool asks_broken(const struct request *request)
{
    const struct wulgach_submission *entry = submission_of(&request->entry);
    /* (of what only reads the socket needn't be asked) */
    return wulgach_asks_broken(entry, AF_UNIX, SOCK_STREAM) &&
           wulgach_asks_broken(entry, (uint32_t)option_of(request->fd, SO_DOMAIN),
               (uint32_t)option_of(request->fd, SO_TYPE));
}

bool is_broken(const struct request *request)
{
    if (!asks_broken(request))
        return false;
    struct wulgach_system_call call;
    wulgach_breaking_call(request->fd, &call);
    return wulgach_is_broken(make_call(&call));
}

/* What an epoll instance tells of a descriptor now, as poll(2) does. Negative: there is none, or it
 * doesn't take the descriptor. */
static int ask_instance_now(struct pollfd *at)
{
    int instance = made_instance(), came = -1;
    struct epoll_event event = {.events = (uint16_t)at->events};
    if (instance >= 0 && epoll_ctl(instance, EPOLL_CTL_ADD, at->fd, &event) == 0)
        came = epoll_wait(instance, &event, 1, 0);
    if (came > 0)
        at->revents = (short)event.events;
    if (instance >= 0)
        close(instance);
    return came;
}

/* Whether a descriptor is a socket that nothing more comes from: it was shut down for reading, or
 * its peer for writing. (select(2), by which others are looked at where poll(2) refuses to, tells
 * only that it can be read: as of one with an error, or with what has come meanwhile) */
static bool is_shut(int fd)
{
    struct pollfd at = {.fd = fd, .events = POLLRDHUP};
    int came = poll(&at, 1, 0);
    if (came < 0 && wulgach_asks_select(-errno)) {
        came = ask_instance_now(&at);
        if (came < 0)
            came = poll_now(&at, 1);
    }
    return wulgach_is_shut(came, (uint16_t)at.revents);
}

int32_t call_unless_shut(
    const struct request *request, int32_t (*call)(void *), void *with, bool *is_found_shut)
{
    const struct wulgach_submission *entry = submission_of(&request->entry);
    uint32_t step = WULGACH_SHUTTING_ENDS;
    int32_t res = call(with);
    while ((step = wulgach_shutting_next(entry, step, res, &res)) != WULGACH_SHUTTING_ENDS) {
        if (step == WULGACH_SHUTTING_ASKS_LOCAL)
            res = option_of(request->fd, SO_DOMAIN) == AF_UNIX;
        else if (step == WULGACH_SHUTTING_ASKS)
            res = is_shut(request->fd);
        else if (step == WULGACH_SHUTTING_ASKS_WILL)
            res = is_not_to_wait(request);
        else
            res = call(with);
        *is_found_shut |= step == WULGACH_SHUTTING_CALLS_AGAIN;
    }
    return res;
}

/* The call of a request, and how much of its buffer that fills, if it fills one. */
struct turn_call {
    struct ring *ring;
    struct request *request;
    uint64_t *filled;
};

static int32_t call_once(void *with)
{
    struct turn_call *call = with;
    return call->filled ? receive_into_buffer(call->request, call->filled)
                        : carry_out_by_means(call->ring, call->request);
}

static int32_t call_in_turn(struct ring *ring, struct request *request, uint64_t *filled)
{
    bool is_found_shut = false;
    return call_unless_shut(
        request, call_once, &(struct turn_call){ring, request, filled}, &is_found_shut);
}

/* Does what the library said is next, and says what that came to. */
static int32_t take_turn(
    struct ring *ring, struct request *request, uint32_t turn, uint64_t *filled)
{
    switch (turn) {
    case WULGACH_TURN_CALLS:
        return call_in_turn(ring, request, filled);
    case WULGACH_TURN_POLLS:
        return is_polled(request);
    case WULGACH_TURN_ASKS_WILL:
        return is_not_to_wait(request);
    case WULGACH_TURN_ASKS_TYPE:
        return is_stream_socket(request);
    default:
        return error_of_socket(request);
    }
}

static struct wulgach_call call_of(const struct request *request)
{
    return (struct wulgach_call){
        .length = request->length,
        .done = request->done,
        .control = request->control,
        .is_stream = request->standing.is_stream,
        .is_impatient = is_impatient(request),
        .has_begun = wulgach_counts_as_begun(request->done),
        .was_repeated = request->was_repeated,
    };
}

int32_t call_socket(struct ring *ring, struct request *request)
{
    const struct wulgach_submission *entry = submission_of(&request->entry);
    bool fills = request->needs.fills_buffer;
    int32_t res = 0;
    uint64_t filled = 0;
    uint32_t turn = 0, last;
    for (;;) {
        struct wulgach_call call = call_of(request);
        last = turn;
        turn = wulgach_call_next(entry, &call, last, res, &res);
        request->was_repeated = wulgach_is_call_repeated(request->was_repeated, last, turn);
        if (turn <= WULGACH_TURN_WAITS)
            break;
        res = take_turn(ring, request, turn, fills ? &filled : NULL);
    }
    if (turn == WULGACH_TURN_ENDS_WITH_DONE)
        return wulgach_done_result(entry, request->done, filled);
    return turn == WULGACH_TURN_WAITS ? WOULD_WAIT : res;
}
