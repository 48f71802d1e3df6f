/* Goes on with a ring's requests. Whether a request may start, and what its end makes of others, is
 * the core's decision: the layer asks which can be issued.
 */
#define _GNU_SOURCE
#include "requests/progress.h"
#include "calls/duties.h"
#include "calls/extras.h"
#include "calls/steps.h"
#include "choices/injection.h"
#include "choices/issuable.h"
#include "choices/outlook.h"
#include "choices/passing_time.h"
#include "choices/policy.h"
#include "choices/turns.h"
#include "choices/ways.h"
#include "operations/openness.h"
#include "operations/operations.h"
#include "operations/polls.h"
#include "process/fault.h"
#include "requests/ends.h"
#include "requests/issuing.h"
#include "requests/timeouts.h"
#include "traces/logged.h"
#include "waiting/streams.h"
#include "waiting/waiting.h"
#include "wulgach_results.h"
#include "wulgach_taking.h"

/* Finds out what the library wants to know of this moment. */
static void look_for_one(
    struct ring *ring, struct request *request, uint32_t wanted, struct wulgach_moment *known)
{
    switch (wanted) {
    case WULGACH_ASK_COUNT:
        known->has_counted = has_counted(ring, request);
        known->knows_count = true;
        return;
    case WULGACH_ASK_POSTING:
        known->may_post = can_post_extra(ring);
        known->knows_posting = true;
        return;
    case WULGACH_ASK_BUFFER:
        known->has_buffer = finds_buffer(ring, request);
        known->knows_buffer = true;
        return;
    default:
        known->is_ready = is_found_ready(ring, request);
        known->knows_readiness = true;
    }
}

bool can_finish(struct ring *ring, struct request *request)
{
    struct wulgach_moment known = {0};
    uint32_t look;
    while ((look = wulgach_can_finish(&request->waiter, &ring->lookout, &request->standing,
                &request->needs, &request->course, &known)) > WULGACH_LOOK_FINISHES)
        look_for_one(ring, request, look, &known);
    return look == WULGACH_LOOK_FINISHES;
}

/* Whether a request goes on after this result. */
static bool goes_on_after(const struct ring *ring, const struct request *request, int32_t res)
{
    return wulgach_goes_on(&ring->completions.at, request->needs.goes_on,
        submission_of(&request->entry), request->done, comes_of_ring(ring, request), res,
        ring->memory.cq_entries);
}

/* Posts a completion of a request before its end. It counts as of the call that submitted the
 * request. False: it is put off. */
static bool post_event(
    struct ring *ring, const struct request *request, int32_t res, enum wulgach_part part)
{
    struct origin of = origin_of(request);
    return post_extra(ring, &of, res, wulgach_completion_flags(part, request->flags));
}

static void note_vain(struct ring *ring, struct request *request)
{
    request->has_called = true;
    request->vain++;
    note_fact(request, WULGACH_FACT_WAITS, moved_so_far(request));
    note_wait(ring, request);
}

/* Whether an operation has brought something and goes on: then that is told. */
static bool brings_event(struct ring *ring, struct request *request, int32_t res)
{
    if (!goes_on_after(ring, request, res))
        return false;
    note_fact(request, WULGACH_FACT_WENT_ON, 0);
    note_poll_event(ring, request);
    post_event(ring, request, res, WULGACH_PART_EVENT);
    request->flags = wulgach_untold_after(WULGACH_PART_EVENT, request->flags);
    request->entry.off = wulgach_offset_after(submission_of(&request->entry), res);
    return true;
}

/* Does what is due after an operation. True: it ends. */
static bool do_try_duty(
    struct ring *ring, struct request *request, int32_t res, enum wulgach_tried_duty duty)
{
    switch (duty) {
    case WULGACH_TRIED_LOOKS_AFRESH:
        wulgach_lookout_moves(&ring->lookout);
        return false;
    case WULGACH_TRIED_WAITS:
        note_vain(ring, request);
        return false;
    case WULGACH_TRIED_ASKS_GOING_ON:
        return !brings_event(ring, request, res);
    }
    __builtin_unreachable();
}

/* Carries an operation out. False: it goes on running, since it would have to wait, or brought
 * something and goes on. */
static bool try_operation(struct ring *ring, struct request *request, int32_t *res)
{
    do_duties_before(ring, request);
    log_carrying(ring, request);
    *res = carry_out(ring, request, injected(ring, request));
    log_carried(ring, request, *res);
    bool ends = false;
    for (uint32_t duties = wulgach_after_try(request->needs.can_make_ready, *res == WOULD_WAIT);
         duties; duties &= duties - 1)
        ends = do_try_duty(ring, request, *res, (enum wulgach_tried_duty)__builtin_ctz(duties));
    if (!ends)
        return false;
    demand(wulgach_course_done(&request->course, *res), "an operation is done that wasn't begun");
    return true;
}

/* A send without copies ends with this result: if it has two completions, its own end is the
 * second, that its memory may be used again. Returns what its own end shows. */
static int32_t notify(struct ring *ring, struct request *request, int32_t res)
{
    int32_t shown;
    if (!wulgach_notice_of(submission_of(&request->entry), can_post_extra(ring), &shown))
        return res;
    uint32_t end = wulgach_end_of_send(post_event(ring, request, res, WULGACH_PART_SENT));
    request->flags = wulgach_completion_flags(end, request->flags);
    if (end == WULGACH_PART_SENT) {
        change_unposted(ring, shown, wulgach_completion_flags(WULGACH_PART_NOTICE, 0));
        return res;
    }
    note_fact(request, WULGACH_FACT_NOTIFIED, shown);
    return shown;
}

/* A request that ends, its result, and what the core is told of that. */
struct finishing {
    struct request *request;
    int32_t res, told;
};

static void do_step_of_finish(
    struct ring *ring, struct finishing *at, enum wulgach_finish_step step)
{
    struct request *request = at->request;
    switch (step) {
    case WULGACH_FINISH_JUDGES:
        at->told = wulgach_told_of_end(is_success(ring, request, at->res));
        return;
    case WULGACH_FINISH_NOTIFIES:
        at->res = notify(ring, request, at->res);
        return;
    case WULGACH_FINISH_TELLS:
        finish(ring, request->number, at->told);
        return;
    case WULGACH_FINISH_ENDS:
        demand(wulgach_course_end(&request->course), "a request ends that isn't to end");
        end_of(ring, request, at->res, at->told);
        return;
    }
    __builtin_unreachable();
}

/* Whether a request's file is one of an operation's, of which a splice has two. */
static bool has_file_of(const struct request *request, const struct request *taker)
{
    return is_same_file(request->fd, taker->fd) ||
           (taker->needs.needs_second && is_same_file(request->fd, taker->second_fd));
}

/* Whether a request that runs has its event before an operation that may take it. Whether both are
 * carried out on one file is asked where it matters. */
static bool has_event_first(struct ring *ring, struct request *request, const struct request *taker)
{
    return wulgach_has_event_first(&request->needs, request->has_waited, true) &&
           can_finish(ring, request) &&
           wulgach_has_event_first(
               &request->needs, request->has_waited, has_file_of(request, taker));
}

/* The first of those from a number on, or NULL. */
static struct request *next_first(struct ring *ring, const struct request *taker, uint64_t from)
{
    for (size_t i = count_before(&ring->running, from); i < ring->running.count; i++)
        if (has_event_first(ring, ring->running.rows[i], taker))
            return ring->running.rows[i];
    return NULL;
}

static void finish_running(struct ring *ring, struct request *request);

/* Each has its event once. */
static void finish_rivals(struct ring *ring, const struct request *taker)
{
    struct request *rival;
    if (!wulgach_may_take(&taker->standing, &taker->needs))
        return;
    for (uint64_t from = 0; (rival = next_first(ring, taker, from));) {
        from = rival->number + 1;
        record_break();
        finish_running(ring, rival);
    }
}

/* Goes on with a running request: whether its operation is carried out, or it ends at once, is the
 * library's decision. */
static void finish_running(struct ring *ring, struct request *request)
{
    int32_t res;
    if (wulgach_course_act(&request->course, &res) == WULGACH_ACT_CARRY_OUT) {
        finish_rivals(ring, request);
        if (!try_operation(ring, request, &res))
            return;
    } else {
        do_duties_before_posting(ring);
        /* (the last event of one that goes on was put off, maybe) */
        if (ring->unposted)
            comes_now(ring, WULGACH_END_COMES);
    }
    struct finishing at = {.request = request, .res = res};
    for (uint32_t steps = wulgach_finish_steps(request->needs.is_zero_copy); steps;
         steps &= steps - 1)
        do_step_of_finish(ring, &at, (enum wulgach_finish_step)__builtin_ctz(steps));
}

static void tell_step(const struct ring *ring, const struct request *request)
{
    char what[96];
    describe_way(what, sizeof what, request);
    wulgach_hear_step(ring->index, what);
}

void go_on_with(struct ring *ring, struct request *request)
{
    if (wulgach_hear_step)
        tell_step(ring, request);
    if (request->course.has_started)
        finish_running(ring, request);
    else if (issue_waiting(ring, request) && is_one_choice() && can_finish(ring, request))
        finish_running(ring, request);
}

/* The least running request that can be finished, or NULL. */
static struct request *first_to_finish(struct ring *ring)
{
    if (ring->dormant.count > 0)
        rouse_ready(ring);
    for (; ring->lookout.count < ring->running.count; wulgach_lookout_passes(&ring->lookout))
        if (can_finish(ring, ring->running.rows[ring->lookout.count]))
            return ring->running.rows[ring->lookout.count];
    return NULL;
}

/* The least request that the core lets start, or NULL, where none can be finished. */
static struct request *first_to_issue(struct ring *ring)
{
    if (ring->requests.count == 0)
        return NULL;
    struct request *oldest = ring->requests.rows[0];
    return wulgach_oldest_starts(&ring->drains, ring->is_linux, &oldest->course)
               ? oldest
               : first_issuable(ring);
}

/* What goes on first in order: way 0 of the library's, which is asked where there are two kinds.
 * NULL if there is none. */
static struct request *first_in_order(struct ring *ring)
{
    struct request *running = first_to_finish(ring);
    uint32_t place;
    return running && wulgach_ways_at(&(struct wulgach_ways){.ready = 1, .issuable = 1}, 0,
                          &place) == WULGACH_WAY_FINISH
               ? running
               : first_to_issue(ring);
}

/* Time passes by choice, or what is chosen goes on. A wait whose time is over sleeps, as where
 * nothing can go on. */
static enum progress go_on_chosen(struct ring *ring, struct request *first, bool may_return)
{
    switch (choose_passing(ring, may_return)) {
    case A_TIMEOUT_ENDS:
        ring->returns = 0;
        pass_by_choice(ring);
        return WENT_ON;
    case THE_WAIT_ENDS:
        ring->is_rushed = true;
        return STUCK;
    default:
        return go_on_by_choice(ring, first, may_return);
    }
}

enum progress go_on(struct ring *ring, bool may_return)
{
    post_messages(ring);
    struct request *first = first_in_order(ring);
    if (!first && do_duties_when_stuck(ring))
        first = first_in_order(ring);
    if (!first)
        return STUCK;
    if (is_by_choice())
        return go_on_chosen(ring, first, may_return);
    go_on_with(ring, first);
    return WENT_ON;
}

bool can_go_on(struct ring *ring)
{
    return first_in_order(ring) != NULL;
}

void end_cancelled(struct ring *ring)
{
    struct wulgach_awaiting awaiting;
    wulgach_awaiting_begin(&awaiting);
    for (size_t i = 0; i < ring->requests.count;) {
        struct request *request = ring->requests.rows[i];
        bool may_start = wulgach_course_asks_start(&request->course) &&
                         can_issue(ring, request->number);
        uint32_t awaited = wulgach_awaiting_sees(
            &awaiting, request->number, &request->course, may_start);
        demand(awaited != WULGACH_WRONG_TURN, "a cancel looks at a request out of its turn");
        if (awaited == WULGACH_NOT_AWAITED) {
            i++;
            continue;
        }
        record_break();
        if (awaited == WULGACH_AWAITED_RUNS || issue_waiting(ring, request))
            finish_running(ring, request);
        wulgach_awaiting_ends(&awaiting);
    }
}

void finish_timeout(struct ring *ring, struct request *timeout)
{
    record_break();
    finish_running(ring, timeout);
}
