/* What the end of a request makes of others: its completion is queued, what had to wait needn't
 * now, and what the application sees of it may differ from what the core says.
 */
#include "requests/ends.h"
#include "choices/issuable.h"
#include "choices/outlook.h"
#include "choices/rules.h"
#include "choices/ways.h"
#include "registered/files.h"
#include "requests/cancels.h"
#include "requests/timeouts.h"
#include "rings/readiness.h"
#include "traces/trace.h"
#include "wulgach_taking.h"

void note_wait(struct ring *ring, struct request *request)
{
    note_patient(ring, request);
    wulgach_waiter_waits(&request->waiter, &ring->lookout);
}

/* A request ends that had started or not: which others are looked at again. */
static void look_after_end(struct ring *ring, const struct request *ended)
{
    struct wulgach_end_of_one end = {
        .is_count_reached = ring->is_count_reached, .has_drains = ring->drains.outstanding > 0};
    wulgach_lookout_ends(&ring->lookout, &end);
    if (ended->course.has_started)
        wulgach_lookout_leaves(&ring->lookout, take_request(&ring->running, ended));
    if (ended->is_patient)
        take_request(&ring->patient, ended);
}

/* Nothing tells of its descriptor any more. */
__attribute__((noinline)) static void forget_descriptor(struct ring *ring, struct request *request)
{
    delist(ring, request);
    leave_pipe(ring, request);
}

/* A file that a request has kept until its end, or none, as the library is told of it. */
struct kept {
    bool has_file, is_of_slot, is_same;
};

/* Whether it is the file of the number that its entry names is asked only where that matters to
 * `wulgach_may_close_last`. */
static struct kept kept_of(uint64_t others, const struct file *file, bool is_of_slot, int fd)
{
    return (struct kept){file, is_of_slot, others && file && !is_of_slot && is_file_of(file, fd)};
}

static bool may_close(uint64_t others, bool was_closed, const struct kept *kept)
{
    return wulgach_may_close_last(
        others, was_closed, kept->has_file, kept->is_of_slot, kept->is_same);
}

/* A request that has files lets them go. Others may go on after it, as who reads a pipe whose other
 * end it has closed. */
static void leave_files(struct ring *ring, struct request *request)
{
    const struct wulgach_needs *needs = &request->needs;
    uint64_t others = ring->running.count + ring->dormant.count;
    struct kept first = kept_of(others, request->file, needs->is_registered, needs->fd);
    struct kept second = kept_of(
        others, request->second_file, needs->is_second_registered, needs->second_fd);
    bool was_closed = end_request(&ring->requests, request);
    if (may_close(others, was_closed, &first) || may_close(others, was_closed, &second))
        wulgach_lookout_moves(&ring->lookout);
}

static void unwatch_files(struct ring *ring, const struct request *request)
{
    if (request->file)
        unwatch(ring, request->file->fd);
    if (request->second_file)
        unwatch(ring, request->second_file->fd);
    if (request->epoll >= 0)
        unwatch(ring, request->epoll);
}

/* It stands in no list any more, and lets its files go. */
static void leave(struct ring *ring, struct request *request)
{
    take_from_directory(ring, request);
    if (request->file || request->second_file)
        leave_files(ring, request);
    else
        end_request(&ring->requests, request);
}

/* A request that ends, what the core was told of it, and whether a completion was posted. */
struct end_of_request {
    struct request *request;
    int32_t told;
    bool is_posted;
};

static void keep_completion(struct ring *ring, struct end_of_request *end)
{
    end->is_posted = note_end(ring, end->request, end->told);
    if (!end->is_posted)
        record_silent_end(ring, end->request);
}

static void do_duty(struct ring *ring, struct end_of_request *end, enum wulgach_end_duty duty)
{
    struct request *request = end->request;
    switch (duty) {
    case WULGACH_END_KEEPS:
        keep_completion(ring, end);
        return;
    case WULGACH_END_COUNTS:
        if (wulgach_times_count_end(
                &ring->times, &request->course, is_timeout(request), end->is_posted))
            wulgach_held_posts(&ring->held, request->is_extra ? request->of : request->number,
                request->is_at_once);
        return;
    case WULGACH_END_STOPS_TIMEOUT:
        note_ended(ring, request);
        return;
    case WULGACH_END_LOOKS_AT_COUNTS:
        note_counts(ring);
        return;
    case WULGACH_END_UNWATCHES:
        unwatch_files(ring, request);
        return;
    case WULGACH_END_FORGETS:
        forget_descriptor(ring, request);
        return;
    case WULGACH_END_LOOKS_BEHIND:
        look_after_end(ring, request);
        return;
    case WULGACH_END_LETS_START:
        note_issuable_after(ring, request, end->told);
        return;
    case WULGACH_END_ENDS_DRAIN:
        wulgach_drains_end(&ring->drains, true);
        return;
    case WULGACH_END_LEAVES:
        leave(ring, request);
        return;
    case WULGACH_END_HAS_ENDS:
        ring->completions.is_behind = true;
        return;
    }
    __builtin_unreachable();
}

void end_of(struct ring *ring, struct request *request, int32_t res, int32_t told)
{
    trace_result(ring, request, res);
    note_outcome(request, told);
    struct end_of_request end = {.request = request, .told = told};
    uint32_t duties = wulgach_duties_after_end(request->file || request->second_file,
        request->epoll >= 0, request->standing.is_stream, request->is_draining);
    for (; duties; duties &= duties - 1)
        do_duty(ring, &end, (enum wulgach_end_duty)__builtin_ctz(duties));
}

/* A request of the core's has ended so: cancels what it has found all the same, if it is a cancel,
 * and says whether there is one. Of a core that has found what no cancel finds the result is put
 * right. */
static bool cancel_after(
    struct ring *ring, const struct request *cancel, struct request *next, int32_t *res)
{
    struct wulgach_ended_cancel ended = {
        .is_cancel = cancel->mapping == CANCEL, .has_next = next, .linux_rules = ring->is_linux};
    for (;;)
        switch ((enum wulgach_sought_after)wulgach_next_sought(&ended, *res)) {
        case WULGACH_SEEKS_RUNNING:
            ended.has_cancelled = cancel_running(ring, cancel, res);
            ended.has_looked = true;
            break;
        case WULGACH_SEEKS_NEXT:
            cancel_request(ring, next);
            ended.has_cancelled = true;
            break;
        case WULGACH_SEEKS_NO_MORE:
            return ended.has_cancelled;
        }
}

int32_t shown_of(
    struct ring *ring, const struct request *request, struct request *next, int32_t res)
{
    struct wulgach_ended_early ended = {
        .fault = request->fault,
        .is_faulty = request->mapping == REFUSED,
        .is_cancel = request->mapping == CANCEL,
        .has_cancelled = cancel_after(ring, request, next, &res),
        .is_linked_timeout = is_linked_timeout(request),
        .has_fired = request->has_fired,
    };
    return wulgach_shown_of(&ended, res);
}
