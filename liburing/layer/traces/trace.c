/* Writes the trace of a ring: each line by one write, so that no line is cut where a thread exits
 * in the middle of another's, and none is there twice where a child is forked.
 */
#define _GNU_SOURCE
#include "traces/trace.h"
#include "choices/turns.h"
#include "calls/signals.h"
#include "operations/operations.h"
#include "process/fault.h"
#include "process/numbers.h"
#include "rings/ring.h"

#include <errno.h>
#include <fcntl.h>
#include <inttypes.h>
#include <pthread.h>
#include <stdarg.h>
#include <stdlib.h>
#include <string.h>
#include <unistd.h>

/* A file for writing. */
static int open_written(const char *path)
{
    begin_low_number();
    int file = moved_high(open(path, O_WRONLY | O_CREAT | O_TRUNC | O_APPEND | O_CLOEXEC, 0666));
    int error = errno;
    end_low_number();
    errno = error;
    return file;
}

/* Writes the line. A process whose files may get no longer isn't ended by that. */
static bool write_line(const struct ring *ring)
{
    sigset_t own;
    hold_long_files(&own);
    ssize_t written = write(ring->trace_file, ring->line, ring->line_length);
    int fault = written < 0 ? errno : ENOSPC;
    let_long_files(&own, fault == EFBIG);
    errno = fault;
    return written == (ssize_t)ring->line_length;
}

void end_trace_line(struct ring *ring)
{
    fputc('\n', ring->trace);
    fflush(ring->trace);
    tell_own_calls(true);
    bool is_written = write_line(ring);
    tell_own_calls(false);
    if (is_written) {
        rewind(ring->trace);
        return;
    }
    perror("wulgach: the trace can't be written");
    close_trace(ring);
}

/* Writes the set-up, which is the first line. */
static void trace_setup(struct ring *ring)
{
    struct wulgach_setup setup = {.sq = ring->memory.sq_entries,
        .cq = ring->memory.cq_entries,
        .files = 1,
        .has_cq = true,
        .linux_rules = ring->is_linux};
    uint8_t line[WULGACH_MOST_OF_LINE];
    uint64_t length;
    if (wulgach_trace_setup(&setup, line, sizeof line, &length) != 0) {
        fprintf(stderr, "wulgach: a set-up has no line in the trace\n");
        close_trace(ring);
        return;
    }
    fwrite(line, 1, length, ring->trace);
    end_trace_line(ring);
}

/* What their files' names begin with, or NULL: none are wanted. */
static const char *prefix;

static void read_environment(void)
{
    const char *word = getenv("WULGACH_TRACE");
    if (!word || !*word)
        return;
    prefix = strdup(word);
    demand(prefix != NULL, "out of memory");
}

/* (the program may change its environment later) */
void read_trace(void)
{
    static pthread_once_t once = PTHREAD_ONCE_INIT;
    pthread_once(&once, read_environment);
}

static void open_trace(struct ring *ring)
{
    ring->has_trace = true;
    if (!prefix)
        return;
    char *path = NULL;
    ring->trace_file = asprintf(&path, "%s.%d.%" PRIu32, prefix, (int)ring->process, ring->index) <
                               0
                           ? -1
                           : open_written(path);
    free(path);
    if (ring->trace_file >= 0)
        ring->trace = open_memstream(&ring->line, &ring->line_length);
    if (!ring->trace) {
        fprintf(stderr, "wulgach: %s.%d.%" PRIu32 " can't be written\n", prefix, (int)ring->process,
            ring->index);
        if (ring->trace_file >= 0)
            close(ring->trace_file);
        return;
    }
    trace_setup(ring);
}

void close_trace(struct ring *ring)
{
    if (!ring->trace)
        return;
    tell_own_calls(true);
    fclose(ring->trace);
    free(ring->line);
    close(ring->trace_file);
    tell_own_calls(false);
    ring->trace = NULL;
}

/* Without memory no letter is written. */
static void print_flags(FILE *out, uint8_t flags)
{
    uint8_t letters[8];
    uint64_t length;
    if (wulgach_trace_flags(flags, letters, sizeof letters, &length) == 0)
        fwrite(letters, 1, length, out);
}

void trace_step(
    struct ring *ring, const struct wulgach_step *step, const struct wulgach_answer *answer)
{
    if (!ring->has_trace) {
        tell_own_calls(true);
        open_trace(ring);
        tell_own_calls(false);
    }
    if (!ring->trace)
        return;
    uint8_t line[WULGACH_MOST_OF_LINE];
    uint64_t length;
    if (wulgach_trace_line(step, answer, line, sizeof line, &length) != 0) {
        fprintf(stderr, "wulgach: a step has no line in the trace\n");
        close_trace(ring);
        return;
    }
    fwrite(line, 1, length, ring->trace);
    end_trace_line(ring);
}

void trace_note(struct ring *ring, const char *format, ...)
{
    if (!ring->trace)
        return;
    va_list arguments;
    va_start(arguments, format);
    fputs("# ", ring->trace);
    vfprintf(ring->trace, format, arguments);
    va_end(arguments);
    end_trace_line(ring);
}

void trace_request(struct ring *ring, const struct request *request)
{
    if (!ring->trace)
        return;
    fprintf(ring->trace, "# request %" PRIu64 ": ", request->number);
    print_operation(ring->trace, request);
    fputs(", flags ", ring->trace);
    print_flags(ring->trace, request->entry.flags);
    end_trace_line(ring);
}

void trace_result(struct ring *ring, const struct request *request, int32_t res)
{
    if (ring->trace)
        trace_note(ring, "request %" PRIu64 " ends: %" PRId32, request->number, res);
}
