/* Carries operations out, each by the system call that the library says, when its request is
 * finished. */
#define _GNU_SOURCE
#include "operations/operations.h"
#include "calls/signals.h"
#include "operations/means.h"
#include "operations/openness.h"
#include "operations/polls.h"
#include "operations/sockets.h"
#include "operations/splices.h"
#include "operations/trying.h"
#include "operations/unwilling.h"
#include "registered/groups.h"
#include "rings/ring.h"
#include "waiting/glance.h"
#include "wulgach_results.h"
#include "wulgach_tries.h"

#include <errno.h>
#include <fcntl.h>
#include <sys/socket.h>
#include <sys/stat.h>
#include <sys/uio.h>

/* (A transfer of no vectors says so, and does nothing else.) */
bool has_offsets(const struct request *request)
{
    int fd = request->fd;
    return (request->needs.is_read ? preadv(fd, NULL, 0, 0) : pwritev(fd, NULL, 0, 0)) >= 0 ||
           errno != ESPIPE;
}

bool finds_buffer(struct ring *ring, struct request *request)
{
    struct wulgach_buffer buffer;
    bool is_found = find_provided(ring, request->entry.buf_group, &buffer) &&
                    !wulgach_buffer_is_none(&buffer);
    request->standing.has_found_buffer |= wulgach_waits_after_search(
        submission_of(&request->entry), is_found);
    return is_found;
}

struct pollfd poll_of(const struct request *request)
{
    if (is_poll(request))
        return poll_of_poll(request);
    if (request->needs.needs_second)
        return poll_of_splice(request);
    return (struct pollfd){.fd = request->fd, .events = (short)request->needs.events};
}

bool is_impatient(const struct request *request)
{
    struct wulgach_patience patience = {.length = request->length,
        .has_failed = request->started < 0,
        .has_begun = request->has_called,
        .knows_listening = request->knows_listening,
        .is_listening = request->is_listening,
        .is_socket = request->is_socket};
    return wulgach_is_impatient(submission_of(&request->entry), &patience);
}

bool shows_ready(struct pollfd at)
{
    int came = poll_now(&at, 1);
    return wulgach_counts_as_ready(came, (uint16_t)at.revents);
}

bool is_polled(const struct request *request)
{
    return shows_ready(poll_of(request));
}

bool is_glanced_ready(const struct request *request, uint32_t glance)
{
    bool is_shown = glance == WULGACH_GLANCE_READY;
    bool breaks = wulgach_asks_breaking(is_shown, request->is_tried_first, request->has_called) &&
                  is_broken(request);
    return wulgach_is_found_ready(is_shown, request->is_tried_first, request->has_called, breaks);
}

bool is_ready(const struct request *request)
{
    bool is_hasty = is_impatient(request);
    struct pollfd at = poll_of(request);
    /* (what the descriptor of a hasty one shows makes no difference) */
    int came = is_hasty ? 0 : poll_now(&at, 1);
    return is_glanced_ready(
        request, wulgach_glance_of(is_hasty, false, came, (uint16_t)at.revents));
}

/* Cuts the vectors to what the library says that each has of half their bytes. */
static void shorten(struct request *request)
{
    uint64_t before = 0;
    for (uint32_t i = 0; i < request->vector_count; i++) {
        struct iovec *vector = &request->vectors[i];
        uint64_t length = vector->iov_len;
        vector->iov_len = wulgach_half_in(request->length, before, length);
        before += length;
    }
}

bool is_not_to_wait(const struct request *request)
{
    return request->needs.needs_second ? is_unwilling_splice(request) : is_unwilling(request->fd);
}

/* The transfer as the library is told of it. */
static struct wulgach_transfer transfer_of(const struct request *request)
{
    struct wulgach_transfer transfer = {
        .length = request->length,
        .fault = request->started,
        .is_at_once = request->is_tried_at_once,
        .is_tried = request->is_tried,
        .is_stream = request->standing.is_stream,
        .is_socket = request->is_socket,
    };
    if (!transfer.is_stream)
        return transfer;
    transfer.is_impatient = is_impatient(request);
    transfer.has_offsets = has_offsets(request);
    return transfer;
}

/* The vectors as the library is told of them. */
static struct wulgach_vectors vectors_of(const struct request *request)
{
    struct iovec first = request->vector_count > 0 ? *request->vectors : (struct iovec){0};
    return (struct wulgach_vectors){
        .fd = request->fd,
        .count = request->vector_count,
        .vectors = (uintptr_t)request->vectors,
        .buffer = (uintptr_t)first.iov_base,
        .length = first.iov_len,
    };
}

/* Makes the call in the way that the library said. A read is made by the kernel's call itself,
 * which is quicker than the C library's. */
static int32_t make_in_way(
    const struct request *request, const struct wulgach_system_call *call, uint32_t way)
{
    if (way == WULGACH_CALL_UNWILLING) {
        block_signals_before(WULGACH_DOES_ASK_NOT_TO_WAIT, false, false);
        return make_unwilling_transfer(call, request->fd);
    }
    if (!request->needs.is_read)
        return make_call(call);
    int32_t res = make_passing_call(call);
    return was_interrupted(res) ? make_passing_call(call) : res;
}

/* The call of a transfer, and the way in which it is made. */
struct transfer_call {
    const struct request *request;
    struct wulgach_system_call call;
    uint32_t way;
};

static int32_t call_once(void *with)
{
    const struct transfer_call *call = with;
    return make_in_way(call->request, &call->call, call->way);
}

static int32_t call_transfer(
    const struct request *request, struct wulgach_transfer *transfer, uint32_t way)
{
    struct wulgach_vectors vectors = vectors_of(request);
    struct transfer_call call = {.request = request, .way = way};
    wulgach_transfer_call(submission_of(&request->entry), &vectors, transfer, way, &call.call);
    int32_t res = call_unless_shut(request, call_once, &call, &transfer->is_shut);
    note_call(request->fd, way == WULGACH_CALL_AT_ONCE, res);
    return res;
}

/* One that was tried is asked about, and never tried again. */
static void find_untried(struct request *request)
{
    request->was_tried = true;
    request->started = find_kind(request);
}

static int32_t carry_transfer_out(struct request *request)
{
    struct wulgach_transfer transfer = transfer_of(request);
    uint32_t step = 0;
    int32_t res = 0;
    while ((step = wulgach_transfer_next(&transfer, step, res, &res)) > WULGACH_TRY_WAITS) {
        if (step == WULGACH_TRY_FINDS) {
            find_untried(request);
            transfer = transfer_of(request);
        } else {
            res = step == WULGACH_TRY_POLLS ? is_polled(request)
                                            : call_transfer(request, &transfer, step);
        }
    }
    return step == WULGACH_TRY_WAITS ? WOULD_WAIT : res;
}

/* Makes the calls of an operation: the library says which they are. */
static int32_t call_or_wait(struct ring *ring, struct request *request)
{
    switch (wulgach_calls_of(request->entry.opcode)) {
    case WULGACH_CALLS_OF_TRANSFER:
        return carry_transfer_out(request);
    case WULGACH_CALLS_OF_POLL:
        return take_events(ring, request);
    case WULGACH_CALLS_IN_TURN:
        return call_socket(ring, request);
    default:
        return carry_out_by_means(ring, request);
    }
}

_Static_assert((int)FAULT_EIO == WULGACH_GIVES_EIO && (int)FAULT_ENOSPC == WULGACH_GIVES_ENOSPC &&
                   (int)FAULT_SHORT == WULGACH_GIVES_SHORT,
    "faults count as the library's do");

bool can_have(const struct request *request, enum injection fault)
{
    return fault == NO_FAULT || wulgach_can_have(request->entry.opcode, request->standing.is_stream,
                                    request->length, fault);
}

int32_t moved_so_far(const struct request *request)
{
    return wulgach_moved_so_far(submission_of(&request->entry), request->done);
}

/* Whether its descriptor is open, and a socket's. */
static struct wulgach_nature nature_without_buffer(const struct request *request)
{
    struct stat status = {0};
    struct wulgach_nature nature = {
        .is_open = counts_as_open(request->fd, request->needs.is_registered)};
    nature.is_socket = fstat(request->fd, &status) == 0 && S_ISSOCK(status.st_mode);
    return nature;
}

/* With what one ends that finds no provided buffer. */
static int32_t fault_without_buffer(const struct request *request)
{
    struct wulgach_nature nature = nature_without_buffer(request);
    return wulgach_no_buffer_fault(submission_of(&request->entry), &nature);
}

int32_t fault_of_buffer(const struct request *request, int32_t why)
{
    struct wulgach_nature nature = nature_without_buffer(request);
    return wulgach_buffer_fault(submission_of(&request->entry), &nature, why);
}

/* Whether one has had the provided buffer that was found for it. Its descriptor is asked only of
 * one that failed. */
static bool has_had_buffer(const struct request *request, int32_t res)
{
    if (res >= 0)
        return true;
    struct wulgach_nature nature = nature_without_buffer(request);
    return wulgach_has_had_buffer(submission_of(&request->entry), res, true, &nature);
}

/* Whether one takes its provided buffer though nothing was moved. Whether its descriptor can be
 * polled is asked only where that matters. */
static bool takes_for_nothing(struct ring *ring, struct request *request, int32_t res)
{
    bool is_of_ring = has_buffer_ring(ring, request->entry.buf_group);
    return has_had_buffer(request, res) &&
           wulgach_takes_for_nothing(request->entry.opcode, res, is_of_ring,
               is_of_ring && res < 0 && can_be_polled(request));
}

/* Tells of the buffer that a request had by its result, and takes it out of its group, if it has
 * taken it. */
static void leave_buffer(struct ring *ring, struct request *request, int32_t res, uint16_t id)
{
    bool would_wait = res == WOULD_WAIT;
    request->flags = wulgach_buffer_flags(would_wait, (uint32_t)moved_so_far(request), res,
        !would_wait && takes_for_nothing(ring, request, res), id);
    if (wulgach_buffer_is_taken(request->flags))
        take_provided(ring, request->entry.buf_group);
}

/* What a request ends with that something failed of when it started. */
static int32_t fault_at_start(struct ring *ring, struct request *request)
{
    const struct wulgach_submission *entry = submission_of(&request->entry);
    struct wulgach_buffer buffer;
    struct wulgach_nature nature = {0};
    bool is_asked = wulgach_fault_asks_buffer(entry, request->started),
         is_found = is_asked && find_provided(ring, request->entry.buf_group, &buffer);
    bool has_buffer = !is_asked || (is_found && !wulgach_buffer_is_none(&buffer));
    if (!has_buffer)
        nature = nature_without_buffer(request);
    int32_t res = wulgach_ends_at_start(entry, request->started, has_buffer, &nature);
    if (is_found)
        leave_buffer(ring, request, res, buffer.id);
    return res;
}

/* Begins with the next buffer of its group, if there is one. */
static bool begin_buffer(struct ring *ring, struct request *request)
{
    request->flags = 0;
    request->done = 0;
    if (!find_provided(ring, request->entry.buf_group, &request->provided))
        return false;
    request->provided.length = wulgach_buffer_part(request->wanted, request->provided.length);
    request->length = request->provided.length;
    return true;
}

/* Goes on there in its buffer, of which what a fault cuts isn't used again. */
static int32_t call_into(
    struct ring *ring, struct request *request, struct wulgach_buffer at, bool is_half)
{
    *request->vectors = (struct iovec){(void *)(uintptr_t)at.address, at.length};
    if (is_half) {
        shorten(request);
        request->provided.length = (uint32_t)wulgach_left_of_buffer(
            request->provided.length, request->length, at.length);
    }
    return call_or_wait(ring, request);
}

/* Carries out what takes a buffer. Whether it goes on in the one that it had, and has taken one, by
 * its result, is the library's decision. */
static int32_t call_with_buffer(struct ring *ring, struct request *request, bool is_half)
{
    struct wulgach_buffer further;
    if (wulgach_buffer_further(&request->provided, (uint32_t)request->course.moved, &further))
        return call_into(ring, request, further, is_half);
    if (!begin_buffer(ring, request))
        return fault_without_buffer(request);
    struct wulgach_buffer had = request->provided;
    int32_t res = wulgach_buffer_is_none(&had) ? fault_without_buffer(request)
                                               : call_into(ring, request, had, is_half);
    leave_buffer(ring, request, res, had.id);
    return res;
}

/* Makes its calls, of half of its bytes or of all, and takes back the signal that comes of them. */
static int32_t call_for(struct ring *ring, struct request *request, bool is_half)
{
    block_signals_before(
        WULGACH_DOES_OPERATION, request->needs.is_read, request->standing.is_stream);
    if (is_half && !request->needs.selects)
        shorten(request);
    int32_t res = request->needs.selects ? call_with_buffer(ring, request, is_half)
                                         : call_or_wait(ring, request);
    if (res < 0)
        take_back_signal(wulgach_signal_after(submission_of(&request->entry), res));
    return res;
}

int32_t carry_out(struct ring *ring, struct request *request, enum injection fault)
{
    int32_t res;
    uint32_t source = wulgach_source_of(request->entry.opcode, request->started, fault, &res);
    switch (source) {
    case WULGACH_FROM_START:
        return fault_at_start(ring, request);
    case WULGACH_FROM_ENTRY:
        return wulgach_no_op_result(submission_of(&request->entry));
    case WULGACH_FROM_FAULT:
        return res;
    default:
        return call_for(ring, request, source == WULGACH_FROM_HALF);
    }
}

/* Whether a request has ended with an error because something that it needs isn't there. */
static bool is_missing(const struct request *request, int32_t res)
{
    const struct wulgach_submission *entry = submission_of(&request->entry);
    struct wulgach_openness openness = {0};
    if (wulgach_asks_openness(entry, res))
        openness = openness_of(request->fd);
    return wulgach_is_missing(entry, request->started < 0, res, &openness);
}

bool is_success(const struct ring *ring, const struct request *request, int32_t res)
{
    const struct msghdr *received = request->needs.is_receive ? request->value : NULL;
    struct wulgach_carried carried = {
        .length = request->length,
        .control = request->control,
        .message_flags = received ? (uint32_t)received->msg_flags : 0,
        .has_message = request->value != NULL,
        .is_cancelled = request->course.is_cancelled,
        .is_missing = res < 0 && is_missing(request, res),
    };
    return wulgach_has_succeeded(submission_of(&request->entry), &carried, ring->is_linux, res);
}
