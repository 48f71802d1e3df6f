/* io_uring_register(2): the probe of operations, registered files, buffers, rings and an eventfd,
 * and restrictions. Which calls there are, and what is refused of their arguments and of what they
 * read, is the library's decision.
 */
#define _GNU_SOURCE
#include "calls/duties.h"
#include "calls/enter.h"
#include "operations/openness.h"
#include "operations/operations.h"
#include "process/fault.h"
#include "process/process.h"
#include "registered/enrolling.h"
#include "registered/eventfds.h"
#include "registered/groups.h"
#include "requests/cancels.h"
#include "requests/copying.h"
#include "requests/progress.h"
#include "rings/locking.h"
#include "rings/ring.h"
#include "wulgach_cancel.h"

#include <errno.h>
#include <string.h>

enum { MOST_PROBED = 256 };

_Static_assert(
    sizeof(struct io_uring_rsrc_register) == 32 && sizeof(struct io_uring_rsrc_update2) == 32,
    "the library's sizes of structures");
_Static_assert(sizeof(struct io_uring_rsrc_register) == sizeof(struct wulgach_table_form) &&
                   sizeof(struct io_uring_rsrc_update2) == sizeof(struct wulgach_update_form),
    "the library's structures");
_Static_assert(sizeof(struct io_uring_files_update) == sizeof(struct wulgach_files_form) &&
                   sizeof(struct io_uring_sync_cancel_reg) == sizeof(struct wulgach_cancel_form),
    "the library's structures");

static int probe(uint32_t code, uint64_t at, uint32_t count)
{
    union {
        struct io_uring_probe probe;
        unsigned char
            bytes[sizeof(struct io_uring_probe) + MOST_PROBED * sizeof(struct io_uring_probe_op)];
    } copy;
    struct wulgach_probe told;
    wulgach_probe_of(count, &told);
    size_t size = sizeof copy.probe + told.rows * sizeof *copy.probe.ops;
    memset(&copy, 0, size);
    bool is_read = copy_in(&copy, at, size) == 0;
    struct wulgach_content content;
    wulgach_content_of_probe(copy.bytes, size, &content);
    int result = wulgach_content_fault(code, is_read, &content);
    if (result < 0)
        return result;
    copy.probe.last_op = told.last;
    copy.probe.ops_len = told.rows;
    for (uint8_t operation = 0; operation < told.rows; operation++) {
        copy.probe.ops[operation].op = operation;
        copy.probe.ops[operation].flags = wulgach_probed_flags(operation);
    }
    return copy_out(at, &copy, size);
}

static int register_resources(struct ring *ring, uint32_t code, uint64_t at, bool is_of_files)
{
    struct io_uring_rsrc_register asked = {0};
    bool is_read = copy_in(&asked, at, sizeof asked) == 0;
    struct wulgach_content content;
    wulgach_content_of_table((const void *)&asked, &content);
    int result = wulgach_content_fault(code, is_read, &content);
    if (result < 0)
        return result;
    struct wulgach_lists lists;
    wulgach_lists_of_table((const void *)&asked, &lists);
    return is_of_files ? register_files(ring, &lists) : register_buffers(ring, &lists);
}

/* A call whose argument is its list. */
static int register_list(struct ring *ring, uint64_t at, uint32_t count, bool is_of_files)
{
    struct wulgach_lists lists;
    wulgach_lists_of_call(at, count, &lists);
    return is_of_files ? register_files(ring, &lists) : register_buffers(ring, &lists);
}

static int update_resources(struct ring *ring, uint32_t code, uint64_t at, bool is_of_files)
{
    struct io_uring_rsrc_update2 asked = {0};
    bool is_read = copy_in(&asked, at, sizeof asked) == 0;
    struct wulgach_content content;
    wulgach_content_of_update((const void *)&asked, &content);
    int result = wulgach_content_fault(code, is_read, &content);
    if (result < 0)
        return result;
    struct wulgach_lists lists;
    wulgach_lists_of_update((const void *)&asked, &lists);
    return is_of_files ? update_files(ring, &lists) : update_buffers(ring, &lists);
}

static int update_files_at(struct ring *ring, uint32_t code, uint64_t at, uint32_t count)
{
    struct io_uring_files_update asked = {0};
    bool is_read = copy_in(&asked, at, sizeof asked) == 0;
    struct wulgach_content content;
    wulgach_content_of_files((const void *)&asked, count, &content);
    int result = wulgach_content_fault(code, is_read, &content);
    if (result < 0)
        return result;
    struct wulgach_lists lists;
    wulgach_lists_of_files((const void *)&asked, count, &lists);
    return update_files(ring, &lists);
}

/* A cancel that returns once what it found has ended. */
static int cancel_at_once(struct ring *ring, uint32_t code, uint64_t at)
{
    struct io_uring_sync_cancel_reg asked = {0};
    bool is_read = copy_in(&asked, at, sizeof asked) == 0;
    struct wulgach_content content;
    wulgach_content_of_cancel((const void *)&asked, &content);
    int result = wulgach_content_fault(code, is_read, &content);
    if (result < 0)
        return result;
    struct wulgach_sought sought;
    wulgach_sought_by_call((const void *)&asked, &sought);
    /* (what it has found ends as it goes on: so its time limit is never over before) */
    result = cancel_sought(ring, NULL, &sought);
    end_cancelled(ring);
    return result;
}

/* A call that the library has let pass. */
static int make_call(struct ring *ring, uint32_t code, uint64_t at, uint32_t count)
{
    switch (code) {
    case IORING_REGISTER_PROBE:
        return probe(code, at, count);
    case IORING_REGISTER_FILES:
        return register_list(ring, at, count, true);
    case IORING_REGISTER_FILES2:
        return register_resources(ring, code, at, true);
    case IORING_UNREGISTER_FILES:
        return unregister_files(ring, false);
    case IORING_REGISTER_FILES_UPDATE:
        return update_files_at(ring, code, at, count);
    case IORING_REGISTER_FILES_UPDATE2:
        return update_resources(ring, code, at, true);
    case IORING_REGISTER_FILE_ALLOC_RANGE:
        return register_range(ring, at);
    case IORING_REGISTER_BUFFERS:
        return register_list(ring, at, count, false);
    case IORING_REGISTER_BUFFERS2:
        return register_resources(ring, code, at, false);
    case IORING_UNREGISTER_BUFFERS:
        return unregister_buffers(ring, false);
    case IORING_REGISTER_BUFFERS_UPDATE:
        return update_resources(ring, code, at, false);
    case IORING_REGISTER_EVENTFD:
    case IORING_REGISTER_EVENTFD_ASYNC:
        return register_eventfd(ring, at, wulgach_tells_async_alone(code));
    case IORING_UNREGISTER_EVENTFD:
        return unregister_eventfd(ring);
    case IORING_REGISTER_PBUF_RING:
        return register_buffer_ring(ring, at, count);
    case IORING_UNREGISTER_PBUF_RING:
        return unregister_buffer_ring(ring, at, count);
    case IORING_REGISTER_SYNC_CANCEL:
        return cancel_at_once(ring, code, at);
    case IORING_REGISTER_RING_FDS:
        return enroll_rings(at, count);
    case IORING_UNREGISTER_RING_FDS:
        return dismiss_rings(at, count);
    case IORING_REGISTER_RESTRICTIONS:
        return register_restrictions(ring, at, count);
    case IORING_REGISTER_ENABLE_RINGS:
        return enable_ring(ring);
    default:
        stop_program("the library lets a call pass that there isn't");
    }
}

/* One call, as it is made. */
struct calling {
    struct wulgach_caller caller;
    struct ring *ring; /* held once it was found, or NULL */
    void *argument;
    uint32_t code, count;
};

static void find_called(struct calling *calling)
{
    struct wulgach_caller *caller = &calling->caller;
    calling->ring = lock_ring(caller->fd);
    caller->is_ring = calling->ring;
    caller->is_open = caller->is_ring || is_open_besides(caller->fd);
    if (!calling->ring)
        return;
    caller->is_another = wulgach_issuer_is_another(&calling->ring->issuer, (uint32_t)this_thread());
    caller->is_allowed = allows_call(calling->ring, calling->code);
}

/* Does what the library says comes before a call is carried out. Returns its fault, or 0. */
static int do_next(struct calling *calling, uint32_t wanted)
{
    switch (wanted) {
    case WULGACH_CHECKS_DESCRIPTOR:
        find_called(calling);
        return 0;
    case WULGACH_COUNTS_CALL:
        calling->ring->call_number++;
        return 0;
    case WULGACH_CHECKS_CALLER:
        return wulgach_calling_fault(calling->code, &calling->caller);
    default:
        return wulgach_argument_fault(calling->code, calling->argument, calling->count);
    }
}

/* Does what the library says is done of a call that passes, by rising bits. */
static int make_passed(struct calling *calling, uint32_t steps)
{
    int result = 0;
    for (; steps; steps &= steps - 1)
        switch (steps & -steps) {
        case WULGACH_BEGINS_CALL:
            do_duties_at_register_begin(calling->ring, calling->code);
            break;
        case WULGACH_MAKES_CALL:
            result = make_call(
                calling->ring, calling->code, (uintptr_t)calling->argument, calling->count);
            break;
        default:
            do_duties_at_register_return(calling->ring, calling->code);
        }
    return result;
}

static int register_by(struct calling *calling)
{
    int32_t next = wulgach_registering_next(false, WULGACH_AT_FIRST, 0);
    while (next >= 0 && next < WULGACH_AT_FIRST) {
        int result = do_next(calling, (uint32_t)next);
        next = wulgach_registering_next(calling->ring, (uint32_t)next, result);
    }
    int result = next < 0 ? next : make_passed(calling, (uint32_t)next);
    if (calling->ring)
        unlock_ring(calling->ring);
    return result;
}

int register_at(int fd, uint32_t code, void *argument, uint32_t count)
{
    sigset_t own;
    struct calling calling = {
        .caller = {.fd = fd}, .argument = argument, .code = code, .count = count};
    block_signals(&own);
    int result = register_by(&calling);
    allow_signals(&own);
    return result;
}
