/* Requests: which may go on, and what each end makes of others. */
#include "model.h"

#include <errno.h>
#include <inttypes.h>
#include <linux/io_uring.h>
#include <stdarg.h>
#include <string.h>
#include <unistd.h>

void wrong(const struct model *model, const char *format, ...)
{
    va_list arguments;
    va_start(arguments, format);
    fprintf(stderr, "random: seed %" PRIu64 "%s, ring %u: ", model->program->seed,
        model->is_kernel ? " on a real ring" : "", model->ring);
    vfprintf(stderr, format, arguments);
    fputc('\n', stderr);
    fflush(stderr);
    _exit(1);
}

/* ---- what may go on ---- */

/* Whether a request waits for another that hasn't ended. In the kernel nobody waits for a faulty
 * group that drains, nor for a linked timeout, which runs beside the request before it. */
static bool waits_for(
    const struct model *model, const struct request *request, const struct request *other)
{
    if (other->is_ended || other >= request ||
        (model->is_kernel && other->action->code == IORING_OP_LINK_TIMEOUT))
        return false;
    if (model->is_linux)
        return other->group == request->group;
    bool is_drain = model->has_drain[other->group] &&
                    !(model->is_kernel && model->has_fault[other->group]);
    return other->group == request->group || is_drain || model->has_drain[request->group];
}

static bool is_in_turn(const struct model *model, const struct request *request)
{
    for (const struct request *other = model->requests; other < request; other++)
        if (waits_for(model, request, other))
            return false;
    return true;
}

bool can_start(const struct model *model, const struct request *request)
{
    return is_in_turn(model, request) && !model->is_deferred[request->group];
}

bool is_timeout(const struct request *request)
{
    return request->action->code == IORING_OP_TIMEOUT && !request->is_doomed &&
           !request->is_cancelled;
}

static bool is_skipping(const struct request *request)
{
    return request->action->flags & IOSQE_CQE_SKIP_SUCCESS;
}

uint32_t count_awaited(const struct model *model)
{
    uint32_t count = 0;
    for (uint32_t i = 0; i < model->count; i++)
        count += !model->requests[i].is_ended && !is_skipping(&model->requests[i]) &&
                 !model->requests[i].is_silent;
    return count;
}

bool has_timeouts(const struct model *model)
{
    for (uint32_t i = 0; i < model->count; i++)
        if (!model->requests[i].is_ended && is_timeout(&model->requests[i]) &&
            can_start(model, &model->requests[i]))
            return true;
    return has_linked_timeouts(model);
}

bool has_linked_timeouts(const struct model *model)
{
    for (uint32_t i = 0; i < model->count; i++)
        if (model->requests[i].action->code == IORING_OP_LINK_TIMEOUT &&
            end_of_timeout(&model->requests[i]) >= 0)
            return true;
    return false;
}

/* The timeout that is linked to a request, while neither has ended; or NULL. */
static struct request *timeout_after(struct model *model, const struct request *request)
{
    struct request *next = &model->requests[request - model->requests + 1];
    bool is_timeout = next < model->requests + model->count && next->group == request->group &&
                      next->action->code == IORING_OP_LINK_TIMEOUT;
    return is_timeout && !next->is_ended && !next->is_doomed ? next : NULL;
}

/* A linked timeout runs while the request before it does. */
int64_t end_of_timeout(const struct request *timeout)
{
    const struct request *limited = timeout->action->code == IORING_OP_LINK_TIMEOUT ? timeout - 1
                                                                                    : timeout;
    bool is_kind = limited != timeout || timeout->action->code == IORING_OP_TIMEOUT;
    if (!is_kind || timeout->is_ended || timeout->is_doomed || timeout->has_fired ||
        timeout->is_faulty)
        return -1;
    if (limited->is_ended || limited->is_doomed || limited->is_cancelled || limited->since < 0)
        return -1;
    return add_times(limited->since, timeout->action->time);
}

/* ---- ends ---- */

void note_starts(struct model *model)
{
    for (uint32_t i = 0; i < model->count; i++) {
        struct request *request = &model->requests[i];
        if (request->is_ended || !can_start(model, request))
            continue;
        request->may_have_found |= model->queue_length > 0;
        if (request->since < 0)
            request->since = model->now;
    }
    note_tallies(model);
}

static void end(struct model *model, struct request *request, bool is_success)
{
    request->is_ended = true;
    bool is_soft = (request->action->flags & LINKS) == IOSQE_IO_LINK;
    if (is_soft && !is_success && model->is_linux && !is_before_last_timeout(model, request))
        doom_after(model, request);
    for (struct request *later = request + 1;
         is_soft && !is_success && !model->is_linux && later < model->requests + model->count;
         later++)
        later->is_doomed |= later->group == request->group;
    if (model->is_linux)
        let_deferred_go_on(model);
    note_starts(model);
}

/* What keeps a deferred group back has ended unseen. */
static void force_on(struct model *model, const struct request *request)
{
    struct request *other = model->requests;
    while (model->is_deferred[request->group] && !request->is_doomed) {
        while (other < model->requests + model->count &&
               (other->is_ended || model->is_deferred[other->group]))
            other++;
        if (other == model->requests + model->count)
            wrong(model, "entry %u has ended, and is deferred", request->index);
        force(model, other, "keeps one back that has ended");
        other = model->requests;
    }
}

void force_before(struct model *model, const struct request *request)
{
    for (struct request *other = model->requests; other < request; other++)
        if (waits_for(model, request, other))
            force(model, other, "is waited for by one that has ended");
    force_on(model, request);
}

/* A request must have ended by now: so it succeeded unseen. */
void force(struct model *model, struct request *request, const char *why)
{
    force_before(model, request);
    if (request->is_silent) {
        end(model, request, false);
        return;
    }
    if (!is_skipping(request) || request->is_doomed)
        wrong(model, "entry %u %s, and hasn't ended", request->index, why);
    end(model, request, carry_out(model, request, unseen_result(model, request)));
}

/* A timeout that is linked to it may have cancelled it, unseen. */
bool may_have_been_cancelled(const struct model *model, const struct request *request)
{
    const struct request *next = request + 1;
    return next < model->requests + model->count && next->group == request->group &&
           next->may_have_fired;
}

bool can_end(const struct model *model, const struct request *request)
{
    if (request->is_ended)
        return false;
    if (request->is_doomed)
        return !model->is_linux || is_in_turn(model, request);
    bool is_running_out = is_timeout(request) && !has_counted(model, request);
    return can_start(model, request) && !is_running_out && !may_be_blocked(model, request) &&
           !may_have_been_cancelled(model, request);
}

void expect_stuck(struct model *model, const char *what)
{
    for (struct request *request = model->requests; request < model->requests + model->count;
         request++)
        if (can_end(model, request))
            force(model, request, what);
    note_all_begun(model);
}

/* ---- completions ---- */

bool is_in_order(const struct model *model)
{
    return !model->is_kernel && (strcmp(model->program->policy, "order") == 0 ||
                                    strcmp(model->program->policy, "lazy") == 0);
}

/* A cancel or a removal after a link. */
static bool comes_late(const struct model *model, const struct request *request)
{
    uint8_t code = request->action->code;
    bool is_seeker = code == IORING_OP_ASYNC_CANCEL || code == IORING_OP_POLL_REMOVE ||
                     code == IORING_OP_TIMEOUT_REMOVE;
    return is_seeker && request > model->requests && (request - 1)->group == request->group;
}

/* What can start in such a one's submission after it is issued before it, and so may be out of
 * order. */
bool may_be_early(const struct model *model, const struct request *request)
{
    for (const struct request *late = model->requests; late <= request; late++)
        if (comes_late(model, late) && late->call == request->call)
            return true;
    return false;
}

/* In order, the least that can go on does. What has ended unseen is found so. */
static void expect_order(struct model *model, const struct request *seen)
{
    bool has_pipes = has_pipe_reads(model, false);
    for (struct request *request = model->requests; request < seen; request++)
        if (can_end(model, request) && !(has_pipes && is_stream(model, request)) &&
            !may_be_early(model, seen))
            force(model, request, "comes first in order");
    note_begun_before(model, seen);
}

static struct request *outstanding(struct model *model, uint64_t user_data)
{
    for (uint32_t i = 0; i < model->count; i++)
        if (!model->requests[i].is_ended && user_data_of(model->requests[i].index) == user_data)
            return &model->requests[i];
    wrong(model,
        "a completion with user data %#" PRIx64 " is shown, and no such request is outstanding",
        user_data);
}

static void end_doomed(struct model *model, struct request *request, int32_t res)
{
    int32_t wanted = request->has_fired ? -ETIME : -ECANCELED;
    if (request->is_refused)
        wanted = -EOPNOTSUPP;
    else if (request->is_faulty)
        wanted = request->action->flaw == BAD_POINTER ? -EFAULT : -EINVAL;
    if (model->is_linux)
        force_before(model, request);
    if (request->is_silent)
        wrong(model, "entry %u ends with a completion, and is to be silent", request->index);
    if (res != wanted)
        wrong(model, "entry %u ends with %" PRId32 ", and is to end with %" PRId32, request->index,
            res, wanted);
    count_end(model, request, false);
    end(model, request, false);
}

/* Whether the timeout that is linked to a request has cancelled it. */
static bool is_cut_off(struct model *model, struct request *request)
{
    struct request *timeout = timeout_after(model, request);
    bool is_waiting_kind = is_stream(model, request) || request->action->code == IORING_OP_TIMEOUT;
    if (!timeout || !is_waiting_kind)
        return false;
    if (!timeout->may_have_fired)
        fire(model, timeout);
    timeout->has_fired = true;
    return true;
}

static bool has_acted(struct model *model, const struct request *request, int32_t res)
{
    switch (request->action->code) {
    case IORING_OP_ASYNC_CANCEL:
        (request->action->scope              ? cancel_by_flags
            : request->action->flags & LINKS ? remove_one
                                             : cancel)(model, request, res);
        return res >= 0;
    case IORING_OP_POLL_REMOVE:
    case IORING_OP_TIMEOUT_REMOVE:
        remove_one(model, request, res);
        return res == 0;
    case IORING_OP_MSG_RING:
        send_one(model, request, res);
        return true;
    default:
        return carry_out(model, request, res);
    }
}

static void see_end(struct model *model, uint64_t user_data, int32_t res)
{
    struct request *request = outstanding(model, user_data);
    /* (after a message to its own ring the sender ends at once) */
    bool has_sent = request->action->code == IORING_OP_MSG_RING && model->messages &&
                    model->messages[request->index].is_seen && receiver_of(model, request) == model;
    model->tally -= has_sent;
    if (is_in_order(model) && request->action->code != IORING_OP_TIMEOUT &&
        !is_pipe_read(model, request))
        expect_order(model, request);
    model->tally += has_sent;
    if (request->is_doomed) {
        end_doomed(model, request, res);
        return;
    }
    force_before(model, request);
    bool may_be_cancelled = request->is_cancelled || request->may_be_cancelled;
    bool is_cut = !may_be_cancelled && res == -ECANCELED && is_cut_off(model, request);
    if (is_cut || (may_be_cancelled && res == -ECANCELED)) {
        count_end(model, request, false);
        end(model, request, false);
        return;
    }
    if (request->is_cancelled)
        wrong(model, "entry %u ends with %" PRId32 " after a cancel", request->index, res);
    if (request->action->code == IORING_OP_TIMEOUT && res == -ETIME)
        fire(model, request);
    bool is_success = has_acted(model, request, res);
    if (is_success && is_skipping(request))
        wrong(model, "entry %u succeeds with a completion that it skips", request->index);
    count_end(model, request, true);
    end(model, request, is_success);
}

void see(struct model *model, uint64_t user_data, int32_t res, uint32_t flags)
{
    model->queue_flags = 0;
    if ((user_data & 0xffffffff) >= MESSAGE)
        see_message(model, (unsigned)(user_data & 0xffffffff) - MESSAGE, res);
    else
        see_end(model, user_data, res);
    if (flags != model->queue_flags)
        wrong(model,
            "a completion with user data %#" PRIx64 " has flags %#" PRIx32
            ", and is to have %#" PRIx32,
            user_data, flags, model->queue_flags);
}
