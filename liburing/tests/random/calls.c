/* What a call of io_uring_enter returns and shows, and virtual time. */
#include "model.h"

#include <errno.h>
#include <inttypes.h>
#include <linux/io_uring.h>
#include <string.h>

int64_t add_times(int64_t one, int64_t other)
{
    int64_t sum;
    return __builtin_add_overflow(one, other, &sum) ? INT64_MAX : sum;
}

static bool is_policy(const struct model *model, const char *name)
{
    return !model->is_kernel && strcmp(model->program->policy, name) == 0;
}

static bool is_seeded(const struct model *model)
{
    return !is_policy(model, "order") && !is_policy(model, "lazy");
}

/* ---- time ---- */

bool passes_by_choice(const struct model *model)
{
    return !model->is_kernel && model->program->timeout_rate > 0;
}

/* Whether one time is certainly before another. */
static bool is_before(const struct model *model, int64_t one, int64_t other)
{
    return add_times(one, model->slack) < other;
}

void fire(struct model *model, const struct request *timeout)
{
    if (model->is_kernel)
        return;
    int64_t end = end_of_timeout(timeout);
    /* (a linked one whose time was over then may have fired in the call before, beside one that
     * ended that) */
    if (!passes_by_choice(model) &&
        (timeout->action->code == IORING_OP_TIMEOUT || end > model->call->began))
        expect_stuck(model, "can go on while time passes");
    for (const struct request *other = model->requests; other < model->requests + model->count;
         other++) {
        int64_t end_of_other = other == timeout || other->may_have_fired ? -1
                                                                         : end_of_timeout(other);
        bool is_equal = end_of_other == end && model->slack == 0;
        if (end_of_other >= 0 &&
            (is_before(model, end_of_other, end) || (is_equal && other < timeout)))
            wrong(model, "timeout %u ends before timeout %u", timeout->index, other->index);
    }
    if (model->now < end)
        model->now = end;
    struct call *call = model->call;
    /* A linked timeout ends no wait: what it cancels posts the completion. */
    call->is_fired |= timeout->action->code == IORING_OP_TIMEOUT;
    if (!passes_by_choice(model) && !model->is_late && call->min_complete == 0 &&
        has_pipe_reads(model, true))
        wrong(model, "timeout %u ends in a peek, though a pipe is waited for", timeout->index);
    if (!model->is_late && call->deadline >= 0 && is_before(model, call->deadline, end))
        wrong(model, "timeout %u ends after the call's limit", timeout->index);
}

/* ---- what a call returned ---- */

static bool has_waited(const struct call *call)
{
    return call->is_getting && call->min_complete > 0 && call->accepted == call->to_submit;
}

static uint32_t enough_of(const struct model *model)
{
    uint32_t enough = model->call->min_complete;
    return enough < model->cq_entries ? enough : model->cq_entries;
}

/* The call ended without what it waited for: nothing can go on. */
static void judge_vain(struct model *model)
{
    struct call *call = model->call;
    bool has_overflowed = call->flags & IORING_SQ_CQ_OVERFLOW;
    if (!has_overflowed && !(passes_by_choice(model) && call->limit >= 0))
        expect_stuck(model, "can go on, and the call waits no longer");
    if (call->limit < 0 && (has_timeouts(model) || model->program->is_threaded))
        wrong(model, "a call that can wait doesn't");
    if (call->limit >= 0 && model->now < call->deadline)
        model->now = call->deadline;
}

static long vain_result(const struct call *call)
{
    return call->limit < 0 ? -EDEADLK : call->ready > 0 ? 0 : -ETIME;
}

/* A timeout that ends meanwhile ends the wait; one that ended before doesn't, whose completion has
 * come into the ring from outside only now. */
static bool may_be_fired(const struct model *model)
{
    const struct call *call = model->call;
    bool is_refused = call->result < 0 && call->result == vain_result(call);
    return call->is_fired && !(model->is_late && is_refused);
}

static void judge_result(struct model *model)
{
    struct call *call = model->call;
    long wanted = call->accepted;
    bool is_vain = has_waited(call) && call->ready < enough_of(model) && !may_be_fired(model);
    if (wanted == 0 && is_vain)
        wanted = vain_result(call);
    if (call->result != wanted)
        wrong(model, "a call returns %ld, and is to return %ld", call->result, wanted);
    if (is_vain)
        judge_vain(model);
}

/* ---- what it shows ---- */

static void judge_words(const struct model *model)
{
    const struct call *call = model->call;
    if (call->head != model->taken)
        wrong(model, "the head is %" PRIu32 ", and is to be %" PRIu32, call->head, model->taken);
    if (call->dropped != model->dropped)
        wrong(model, "%" PRIu32 " words are dropped, and %" PRIu32 " are to be", call->dropped,
            model->dropped);
    if (call->overflow != 0)
        wrong(model, "completions are lost");
    if (call->is_blocking)
        wrong(model, "a call leaves signals blocked");
    if (call->ready > model->cq_entries)
        wrong(model, "there are more completions than the ring holds");
}

/* A message may be on its way, and nothing shows it. */
static bool is_any_outstanding(const struct model *model)
{
    if (model->program->has_messages)
        return true;
    for (uint32_t i = 0; i < model->count; i++)
        if (!model->requests[i].is_ended)
            return true;
    return false;
}

/* No flag is shown only if nothing is outstanding; that of an overflow only if completions are to
 * come. */
static void judge_flags(struct model *model)
{
    const struct call *call = model->call;
    if (call->flags & ~(uint32_t)(IORING_SQ_CQ_OVERFLOW | IORING_SQ_TASKRUN))
        wrong(model, "flags %#" PRIx32 " are shown", call->flags);
    if (call->flags == 0)
        for (struct request *request = model->requests; request < model->requests + model->count;
             request++)
            if (!request->is_ended && !(request->action->flags & IOSQE_CQE_SKIP_SUCCESS) &&
                !request->is_silent)
                wrong(model, "entry %u is outstanding, and no flag says so", request->index);
    if (call->flags & IORING_SQ_CQ_OVERFLOW && !is_any_outstanding(model))
        wrong(model, "a completion has overflowed, and none is to come");
    if (call->flags & IORING_SQ_CQ_OVERFLOW && call->ready < model->cq_entries && call->is_getting)
        wrong(model, "a completion stays outside, and there is room");
}

/* Whether a request can certainly go on without waiting. Beside a read that waits for its pipe,
 * time is real; whether one that is linked after a skipped success has begun, or one that is silent
 * has ended, isn't known. */
static bool can_go_on(const struct model *model, const struct request *request)
{
    if (request->is_ended || request->is_silent ||
        request->action->flags & IOSQE_CQE_SKIP_SUCCESS || !can_start(model, request))
        return false;
    bool is_timeout = request->action->code == IORING_OP_TIMEOUT;
    return !may_be_blocked(model, request) && !(is_timeout && has_pipe_reads(model, false));
}

/* A descriptor that polls is readable while completions wait or something can go on, and else
 * isn't. */
static void judge_readiness(const struct model *model)
{
    const struct call *call = model->call;
    bool has_completions = call->ready > 0 || call->flags & IORING_SQ_CQ_OVERFLOW;
    if (!call->is_polled)
        return;
    if (has_completions && !call->is_readable)
        wrong(model, "completions wait, and the descriptor isn't readable");
    if (!has_completions && call->is_readable && !is_any_outstanding(model))
        wrong(model, "the descriptor is readable, and nothing is outstanding");
    for (uint32_t i = 0; i < model->count && !call->is_readable; i++)
        if (can_go_on(model, &model->requests[i]))
            wrong(model, "entry %u can go on, and the descriptor isn't readable",
                model->requests[i].index);
}

static bool is_vain_peek(const struct call *call)
{
    return call->is_getting && call->min_complete == 0 && call->accepted == call->to_submit &&
           call->ready == 0;
}

/* In a peek that finds nothing, and by choice in any call, a linked timeout may have cancelled its
 * request, which ends in a later call. */
static void note_unseen_fires(struct model *model)
{
    if (!is_vain_peek(model->call) && !passes_by_choice(model))
        return;
    for (struct request *request = model->requests; request < model->requests + model->count;
         request++) {
        int64_t end = request->action->code == IORING_OP_LINK_TIMEOUT ? end_of_timeout(request)
                                                                      : -1;
        request->may_have_fired |= end >= 0;
        if (end > model->now)
            model->slack = add_times(model->slack, end - model->now);
    }
}

/* How far the policy has things go on. */
static void judge_policy(struct model *model)
{
    const struct call *call = model->call;
    bool has_overflowed = call->flags & IORING_SQ_CQ_OVERFLOW;
    bool has_eventfd = model->program->rings[model->ring].telling != NO_EVENTFD;
    if (is_policy(model, "lazy") && !has_eventfd && !call->is_getting &&
        call->tail != call->tail_before)
        wrong(model, "a lazy ring goes on, and nobody waits");
    /* A peek that finds nothing lets time pass. */
    if (is_vain_peek(call) && !has_overflowed && !is_seeded(model)) {
        expect_stuck(model, "can go on, and a peek finds nothing");
        if (has_timeouts(model) && !has_linked_timeouts(model) && !has_pipe_reads(model, true))
            wrong(model, "a peek finds nothing, and a timeout runs");
    }
    /* Whoever sleeps on an eventfd calls no more. */
    model->is_at_rest = (is_policy(model, "order") || has_eventfd) && !has_overflowed &&
                        !(call->is_fired && call->min_complete == 0);
    if (model->is_at_rest)
        expect_stuck(
            model, has_eventfd ? "can go on, and an eventfd is to tell" : "can go on in order");
}

void judge_call(struct model *model)
{
    judge_words(model);
    model->has_overflowed = model->call->flags & IORING_SQ_CQ_OVERFLOW;
    if (model->is_kernel)
        return;
    judge_result(model);
    judge_flags(model);
    judge_readiness(model);
    judge_policy(model);
    note_unseen_fires(model);
    if (has_due_messages(model) && !(model->call->flags & IORING_SQ_CQ_OVERFLOW))
        wrong(model, "a message isn't there");
}
