/* Issues a ring's requests. What is done with one that starts, and in which order, is the library's
 * decision. */
#include "requests/issuing.h"
#include "calls/extras.h"
#include "calls/steps.h"
#include "choices/issuable.h"
#include "choices/outlook.h"
#include "choices/rules.h"
#include "choices/ways.h"
#include "operations/openings.h"
#include "operations/operations.h"
#include "operations/polls.h"
#include "process/fault.h"
#include "requests/cancels.h"
#include "requests/ends.h"
#include "requests/timeouts.h"
#include "traces/logged.h"
#include "waiting/streams.h"
#include "wulgach_cancel.h"

static void do_step_of_start(
    struct ring *ring, struct request *request, enum wulgach_step_of_start step)
{
    switch (step) {
    case WULGACH_FINDS_EARLIER:
        assign_before(ring, request->number);
        return;
    case WULGACH_FINDS_OWN:
        assign(ring, request);
        return;
    case WULGACH_BEGINS_TIME:
        note_started(ring, request);
        return;
    case WULGACH_LOOKS_UP:
        look_for_pipe(request);
        return;
    case WULGACH_ASKS_EVENTS:
        request->started = start_poll(ring, request);
        return;
    case WULGACH_LOOKS:
        look_first(ring, request);
        return;
    case WULGACH_SEEKS_BUFFER:
        finds_buffer(ring, request);
        return;
    }
    __builtin_unreachable();
}

/* Does what is in a set, by rising bits. */
static void do_steps(struct ring *ring, struct request *request, uint32_t steps)
{
    for (; steps; steps &= steps - 1)
        do_step_of_start(ring, request, (enum wulgach_step_of_start)__builtin_ctz(steps));
}

/* The core let a request start: what is done then, and in which order, is the library's decision.
 */
static void start(struct ring *ring, struct request *request)
{
    demand(wulgach_course_start(&request->course), "a request starts twice");
    request->begun = ++ring->begun;
    wulgach_lookout_starts(&ring->lookout, insert_request(&ring->running, request));
    do_steps(ring, request,
        wulgach_steps_at_start(
            submission_of(&request->entry), how_flags(request), request->is_assigned));
    log_start(ring, request);
    do_steps(ring, request,
        wulgach_steps_after_files(&request->standing, &request->needs, request->started));
    note_running(ring, request);
}

/* A request ends that wasn't carried out. A send without copies may have a notice after that. */
static void end_unissued(struct ring *ring, struct request *request, int32_t shown, int32_t told)
{
    struct origin of = origin_of(request);
    int32_t notice;
    bool notifies = wulgach_notifies_unsent(request->needs.is_zero_copy, shown) &&
                    wulgach_notice_of(
                        submission_of(&request->entry), can_post_extra(ring), &notice);
    if (notifies)
        request->flags = wulgach_completion_flags(
            wulgach_part_unsent(request->member.is_linked), 0);
    end_of(ring, request, shown, told);
    if (notifies && can_post_extra(ring))
        post_extra(ring, &of, notice, wulgach_completion_flags(WULGACH_PART_NOTICE, 0));
}

/* Issues a request that can be issued, and no other. True if it has started: else it has ended
 * without being carried out. */
static bool issue_alone(struct ring *ring, struct request *request)
{
    int32_t res;
    note_standing(ring, request);
    bool is_cancel = request->mapping == CANCEL;
    struct request *next = is_cancel && wulgach_looks_ahead(is_cancel, ring->is_linux)
                               ? find_request(ring, request)
                               : NULL;
    uint32_t kind = issue(ring, request->number, &res);
    note_issued(ring, request);
    if (kind == WULGACH_ENDED) {
        int32_t shown = shown_of(ring, request, next, res);
        note_fact(request, WULGACH_FACT_DROPPED, shown);
        end_unissued(ring, request, shown, res);
        return false;
    }
    demand(kind == WULGACH_RUN, "the core doesn't issue a request");
    start(ring, request);
    return true;
}

/* Issues what can be issued of what a kernel issues before a cancel or a removal. */
static void issue_before(struct ring *ring, const struct request *seeker)
{
    for (size_t i = count_before(&ring->requests, seeker->number + 1); i < ring->requests.count;) {
        struct request *request = ring->requests.rows[i];
        bool is_due = is_due_before(seeker, request) && can_issue(ring, request->number);
        if (is_due)
            record_break();
        i += !is_due || issue_alone(ring, request);
    }
}

bool issue_waiting(struct ring *ring, struct request *request)
{
    if (wulgach_comes_late(request->entry.opcode, request->member.is_linked))
        issue_before(ring, request);
    return issue_alone(ring, request);
}
