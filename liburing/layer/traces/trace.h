/* The trace of a ring: a file PREFIX.PID.INDEX for each ring on which a step was made, if
 * WULGACH_TRACE gives a PREFIX. It begins with the set-up, has a line STEP = ANSWER for each step
 * in the language of `uring trace`, and after # what a reader wants to know: what a request really
 * asks for, its real result, and what was chosen. A line is in the file as soon as it is known, so
 * a program that dies leaves its trace.
 */
#ifndef TRACE_H
#define TRACE_H

#include "requests/requests.h"
#include "rings/ring.h"
#include "wulgach.h"

/* Reads the environment, once. */
void read_trace(void);

void close_trace(struct ring *ring);

/* Whether steps are to be traced, as far as is known: the first step opens the trace, if one is
 * wanted. */
static inline bool is_traced(const struct ring *ring)
{
    return ring->trace || !ring->has_trace;
}

void trace_step(
    struct ring *ring, const struct wulgach_step *step, const struct wulgach_answer *answer);
void trace_request(struct ring *ring, const struct request *request);
void trace_result(struct ring *ring, const struct request *request, int32_t res);

/* Hands the line that is being written to the file, and begins another. A trace that can't be
 * written ends with the line before. */
void end_trace_line(struct ring *ring);

/* A line of its own after #. */
void trace_note(struct ring *ring, const char *format, ...) __attribute__((format(printf, 2, 3)));

#endif
