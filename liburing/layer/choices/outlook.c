/* Writes what could go on. */
#define _GNU_SOURCE
#include "choices/outlook.h"
#include "calls/steps.h"
#include "choices/policy.h"
#include "operations/operations.h"

#include <fcntl.h>
#include <inttypes.h>

/* Whether a no-op looks for no file and no buffer. */
static bool is_loose(const struct io_uring_sqe *entry)
{
    struct wulgach_needs needs;
    wulgach_needs_of(submission_of(entry), &needs);
    return !needs.needs_file && !needs.uses_buffer;
}

/* Whether all that an operation does is to move bytes at its offset, in a file that it neither
 * appends to nor has a place in; or it syncs a file or does nothing. */
static bool is_plain(const struct request *request)
{
    const struct io_uring_sqe *entry = &request->entry;
    if (request->mapping != TOKEN || request->standing.is_stream ||
        entry->flags & (IOSQE_FIXED_FILE | IOSQE_BUFFER_SELECT))
        return false;
    switch (entry->opcode) {
    case IORING_OP_NOP:
        return is_loose(entry);
    case IORING_OP_FSYNC:
        return true;
    case IORING_OP_READ:
    case IORING_OP_WRITE:
    case IORING_OP_READV:
    case IORING_OP_WRITEV: {
        int flags = fcntl(entry->fd, F_GETFL);
        return entry->off != UINT64_MAX && !entry->rw_flags && flags >= 0 && !(flags & O_APPEND);
    }
    default:
        return false;
    }
}

static uint64_t length_of(const struct request *request)
{
    return request->vectors ? request->length : request->entry.len;
}

/* Where its bytes lie in memory, or 0 if they lie where vectors say. */
static uint64_t address_of(const struct io_uring_sqe *entry)
{
    return entry->opcode == IORING_OP_READV || entry->opcode == IORING_OP_WRITEV ? 0 : entry->addr;
}

void record_accepted(const struct ring *ring, const struct request *request)
{
    const struct io_uring_sqe *entry = &request->entry;
    if (!is_recording_ways())
        return;
    record_line("request %" PRIu32 " %" PRIu64 " %u %u %" PRIu64 " %" PRIu64 " %" PRIu64 " %s\n",
        ring->index, request->number, (unsigned)entry->opcode, (unsigned)entry->flags,
        address_of(entry), (uint64_t)entry->off, length_of(request),
        is_plain(request) ? "plain" : "other");
}

void record_silent_end(const struct ring *ring, const struct request *request)
{
    if (is_recording_ways())
        record_line("silent %" PRIu32 " %" PRIu64 "\n", ring->index, request->number);
}

/* The letter of a way. */
static char letter_of(struct ring *ring, const struct request *way)
{
    struct wulgach_why why;
    if (way->course.has_started)
        return 'f';
    bool is_doomed = wulgach_core_why(&ring->core, way->number, &why) == 0 &&
                     why.kind == WULGACH_DOOMED;
    if (is_doomed || way->mapping != TOKEN)
        return 'e';
    return is_choosing_events() ? 'i' : 'b';
}

void record_ways(const struct ring *ring, const uint64_t *at)
{
    if (at)
        record_line("ways %" PRIu64 " %" PRIu32, *at, ring->index);
    else
        record_line("ways - %" PRIu32, ring->index);
}

void record_way(struct ring *ring, const struct request *way)
{
    record_line(" %c%" PRIu64, letter_of(ring, way), way->number);
}

void record_return(bool may_return)
{
    record_line(may_return ? " r\n" : "\n");
}

void record_faults(const struct ring *ring, const struct request *request, uint64_t at,
    const enum injection *faults, uint32_t count)
{
    if (!is_recording_ways())
        return;
    record_line("ways %" PRIu64 " %" PRIu32 " n%" PRIu64, at, ring->index, request->number);
    for (uint32_t i = 0; i < count; i++)
        record_line(" x%" PRIu64 ".%d", request->number, (int)faults[i]);
    record_line("\n");
}

void record_passing(const struct ring *ring, uint64_t at)
{
    if (is_recording_ways())
        record_line("ways %" PRIu64 " %" PRIu32 " n t\n", at, ring->index);
}

void record_break(void)
{
    if (is_recording_ways())
        record_line("break\n");
}
