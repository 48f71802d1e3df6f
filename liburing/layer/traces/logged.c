/* The log's events of a ring's requests. */
#define _GNU_SOURCE
#include "traces/logged.h"
#include "traces/logging.h"
#include "wulgach_logged.h"

#include <errno.h>
#include <string.h>
#include <unistd.h>

/* What is logged of a request is the library's decision. Of most it is nothing, and they are passed
 * over at once. */
static uint32_t logged_of(const struct request *request)
{
    uint32_t logged = wulgach_logged_of(
        request->mapping, request->entry.opcode, request->standing.is_stream);
    return logged != WULGACH_LOGS_NOTHING && is_logging() ? logged : WULGACH_LOGS_NOTHING;
}

/* A number that no other request of the process has. */
static uint64_t operation_of(const struct ring *ring, const struct request *request)
{
    return ((uint64_t)ring->index << 40) + request->number + 1;
}

/* Who sees memory that is shared with files compares it at any call that syncs, also of no file:
 * what was written before is told from what is written meanwhile. */
static void compare_memory(void)
{
    int kept = errno;
    fdatasync(-1);
    errno = kept;
}

static void log_sync(struct event *event, const char *path, const struct io_uring_sqe *entry)
{
    struct wulgach_synced_bytes bytes;
    compare_memory();
    event->kind = EVENT_SYNC;
    event->flags = entry->fsync_flags & IORING_FSYNC_DATASYNC ? IS_OF_DATA : 0;
    if (wulgach_synced_bytes_of(submission_of(entry), &bytes)) {
        event->flags |= IS_OF_RANGE;
        event->offset = (int64_t)bytes.begin;
        event->length = bytes.length;
    }
    log_event(event, path, NULL, NULL, 0);
}

static void log_write(struct event *event, const char *path, const struct request *request)
{
    event->kind = EVENT_WRITE;
    event->length = request->length;
    wulgach_place_write(event, request->fd, request->entry.off, request->entry.rw_flags);
    log_event(event, path, NULL, request->vectors, request->vector_count);
}

/* (a path's room is made only where it may be wanted) */
__attribute__((noinline)) static void log_start_of(
    const struct ring *ring, struct request *request, uint32_t logged)
{
    char path[PATH_ROOM];
    uint64_t file;
    if (!is_on_disk(request->fd, path, &file))
        return;
    request->logged_file = file;
    struct event event = {.operation = operation_of(ring, request), .file = file};
    if (logged == WULGACH_LOGS_SYNC)
        log_sync(&event, path, &request->entry);
    else
        log_write(&event, path, request);
}

void log_start(const struct ring *ring, struct request *request)
{
    uint32_t logged = logged_of(request);
    if (logged != WULGACH_LOGS_NOTHING)
        log_start_of(ring, request, logged);
}

/* (its file may have been renamed meanwhile) */
__attribute__((noinline)) static void log_part(
    const struct ring *ring, const struct request *request, uint16_t kind, int64_t result)
{
    struct event event = {.kind = kind,
        .operation = operation_of(ring, request),
        .file = request->logged_file,
        .result = result};
    log_event(&event, NULL, NULL, NULL, 0);
}

void log_carrying(const struct ring *ring, const struct request *request)
{
    if (request->logged_file != 0)
        log_part(ring, request, EVENT_CARRY, 0);
}

void log_carried(const struct ring *ring, const struct request *request, int32_t res)
{
    if (request->logged_file != 0)
        log_part(ring, request, EVENT_END, res);
}
