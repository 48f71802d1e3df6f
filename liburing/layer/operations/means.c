/* Which call an operation is carried out by, and with which arguments, is the library's decision.
 */
#define _GNU_SOURCE
#include "operations/means.h"
#include "calls/extras.h"
#include "operations/openings.h"
#include "operations/sockets.h"
#include "operations/splices.h"
#include "operations/syncing.h"
#include "operations/unwilling.h"
#include "process/fault.h"
#include "process/passing.h"
#include "registered/files.h"
#include "registered/groups.h"
#include "registered/placings.h"
#include "requests/cancels.h"
#include "requests/timeouts.h"
#include "rings/descriptors.h"
#include "rings/ring.h"
#include "rings/waiters.h"
#include "waiting/streams.h"
#include "wulgach_openings.h"
#include "wulgach_results.h"
#include "wulgach_tables.h"

#include <errno.h>
#include <sys/stat.h>
#include <unistd.h>

int32_t make_call(const struct wulgach_system_call *call)
{
    long result = syscall((long)call->number, call->first, call->second, call->third, call->fourth,
        call->fifth, call->sixth);
    return result < 0 ? -errno : (int32_t)result;
}

/* Of a splice: its descriptor, if it is to be asked not to wait. */
static int asked_for_splice(int fd)
{
    struct stat status;
    bool is_regular = fstat(fd, &status) == 0 && S_ISREG(status.st_mode);
    return wulgach_asks_end(is_pipe(fd), is_regular) ? fd : -1;
}

/* Makes the call of an operation, with as many of its descriptors asked not to wait as the library
 * says. */
static int32_t make_call_of(struct request *request, const struct wulgach_system_call *call)
{
    uint32_t opening = wulgach_opening_of(
        submission_of(&request->entry), how_flags(request), request->has_found_pipe);
    if (opening != WULGACH_OPENS_PLAINLY)
        return open_by(request, call, opening);
    switch (wulgach_asked_descriptors(request->entry.opcode)) {
    case 0:
        return make_call(call);
    case 1:
        return make_unwilling_call(call, request->fd, -1);
    default:
        return make_unwilling_call(
            call, asked_for_splice(request->fd), asked_for_splice(request->second_fd));
    }
}

int32_t make_passing_call(const struct wulgach_system_call *call)
{
    return (int32_t)pass((long)call->number, (long)call->first, (long)call->second,
        (long)call->third, (long)call->fourth, (long)call->fifth, (long)call->sixth);
}

/* What is held for a request, but for the offsets of a splice. */
static struct wulgach_held held_of(const struct request *request)
{
    struct iovec first = request->vector_count > 0 ? *request->vectors : (struct iovec){0};
    return (struct wulgach_held){
        .fd = request->fd,
        .second_fd = request->second_fd,
        .path = (uintptr_t)request->path,
        .second_path = (uintptr_t)request->second_path,
        .how = (uintptr_t)request->how,
        .value = (uintptr_t)request->value,
        .buffer = (uintptr_t)first.iov_base,
        .length = first.iov_len,
        .address = (uintptr_t)request->address,
    };
}

/* The same. An epoll instance that is a ring's descriptor is none: what the ring has of the
 * layer's, and is none either, stands for it. */
static int32_t make_call_on(
    const struct ring *ring, struct request *request, const struct wulgach_system_call *call)
{
    struct wulgach_system_call made = *call;
    if (wulgach_takes_instance(call->number) && is_ring((int)call->first))
        made.first = (uint64_t)(ring->ready_fd >= 0 ? ring->ready_fd : ring->called_fd);
    if (made.number != SYS_epoll_ctl)
        return make_call_of(request, &made);
    note_waiter((uint32_t)made.second, (int)made.third);
    return make_passing_call(&made);
}

static int32_t open_file(
    struct ring *ring, struct request *request, const struct wulgach_means *means)
{
    int32_t fd = make_call_of(request, &means->call);
    return fd >= 0 ? install_file(ring, fd, means->slot) : fd;
}

/* Does what the library says that a close does. Those before it have begun in the kernel, which has
 * their files. */
static int32_t close_file(
    struct ring *ring, const struct request *request, const struct wulgach_system_call *call)
{
    int fd = (int)call->first;
    int32_t result = wulgach_holding_fault(fd, is_ring(fd));
    for (uint32_t steps = wulgach_closing_steps(result); steps; steps &= steps - 1)
        if (__builtin_ctz(steps) == WULGACH_CLOSING_KEEPS)
            hold_files_before(ring, request, fd);
        else
            result = make_call(call);
    return result;
}

static int32_t update_listed(struct ring *ring, const struct wulgach_means *means)
{
    struct wulgach_lists lists;
    wulgach_lists_of_files(
        &(struct wulgach_files_form){.offset = means->slot, .fds = means->listed.address},
        means->listed.count, &lists);
    return update_files(ring, &lists);
}

/* What makes no call of its own: whoever keeps the ring does it. */
static int32_t carry_out_on_ring(
    struct ring *ring, struct request *request, const struct wulgach_means *means)
{
    const struct io_uring_sqe *entry = &request->entry;
    switch (means->kind) {
    case WULGACH_BY_SLOT_REMOVAL:
        return remove_file(ring, means->slot);
    case WULGACH_BY_FILES_PLACING:
        return place_files(ring, means->listed.address, means->listed.count);
    case WULGACH_BY_FILES_UPDATE:
        return update_listed(ring, means);
    case WULGACH_BY_TIMEOUT:
        return end_timeout(ring, request);
    case WULGACH_BY_LINKED_TIMEOUT:
        return wulgach_timeout_linked_outcome(request->has_fired);
    case WULGACH_BY_PROVISION:
        return provide_buffers(ring, entry);
    case WULGACH_BY_PROVISION_REMOVAL:
        return remove_buffers(ring, entry);
    case WULGACH_BY_MESSAGE:
        return send_message(ring, entry);
    case WULGACH_BY_CANCEL:
        return cancel_by(ring, request);
    case WULGACH_BY_POLL_REMOVAL:
        return remove_poll(ring, request);
    case WULGACH_BY_TIMEOUT_REMOVAL:
        return remove_timeout(ring, request);
    default:
        stop_program("an operation is carried out by nothing");
    }
}

static int32_t carry_out_by(
    struct ring *ring, struct request *request, const struct wulgach_means *means)
{
    switch (means->kind) {
    case WULGACH_BY_CALL:
        return make_call_on(ring, request, &means->call);
    case WULGACH_BY_SPLICE:
        return result_of_splice(request, make_call_of(request, &means->call));
    case WULGACH_BY_OPENING:
        return open_file(ring, request, means);
    case WULGACH_BY_SYNC:
        return is_taken_for_synced(request->fd)
                   ? wulgach_done_result(submission_of(&request->entry), 0, 0)
                   : make_call(&means->call);
    case WULGACH_BY_CLOSE:
        return close_file(ring, request, &means->call);
    case WULGACH_BY_CONNECT: {
        int32_t res = make_call_of(request, &means->call);
        request->done |= wulgach_has_begun(res);
        return res;
    }
    case WULGACH_BY_SEND:
        note_message(request->control);
        return move_message(request, means);
    case WULGACH_BY_RECEIVE:
    case WULGACH_BY_RECEIVE_MESSAGE:
        return move_message(request, means);
    default:
        return carry_out_on_ring(ring, request, means);
    }
}

int32_t carry_out_by_means(struct ring *ring, struct request *request)
{
    struct wulgach_held held = held_of(request);
    struct wulgach_offsets offsets;
    struct wulgach_means means;
    wulgach_offsets_of(submission_of(&request->entry), &offsets);
    held.offset_in = (uintptr_t)&offsets.from;
    held.offset_out = (uintptr_t)&offsets.to;
    wulgach_means_of(submission_of(&request->entry), &held, &means);
    return carry_out_by(ring, request, &means);
}
