/* What requests do to others: cancels, removals, and messages between rings. */
#include "model.h"

#include <errno.h>
#include <inttypes.h>
#include <linux/io_uring.h>

/* ---- cancels ---- */

/* The request that a cancel chooses: the least that is neither doomed nor itself. */
static struct request *target_of(struct model *model, const struct request *cancel)
{
    for (struct request *request = model->requests; request < model->requests + model->count;
         request++)
        if (request != cancel && request->index == cancel->action->target && !request->is_ended &&
            !request->is_doomed)
            return request;
    return NULL;
}

/* Whether a running request ends if it is cancelled. The pipe's end may have been closed. */
static bool can_wait(const struct model *model, const struct request *target)
{
    bool is_closed = target->action->object == PIPE_IN && model->things->is_fed_out;
    return (is_stream(model, target) && !is_closed) || is_timeout(target);
}

/* Whether a cancel found this one's request before, which may run still: until it has ended, it is
 * found again. */
static bool was_found_before(const struct model *model, const struct request *cancel)
{
    for (const struct request *request = model->requests; request < model->requests + model->count;
         request++)
        if (request->index == cancel->action->target && !request->is_ended &&
            request->may_be_found_again)
            return true;
    return false;
}

/* Whether any cancel finds it, but those of the core's by the manual pages' rules: it is no cancel,
 * and no linked timeout. */
static bool is_ever_found(const struct request *request)
{
    return request->action->code != IORING_OP_ASYNC_CANCEL &&
           request->action->code != IORING_OP_LINK_TIMEOUT;
}

/* What a cancel is to find by Linux's rules, of what it may: what has started, which all does
 * before it that can; nothing that is doomed. One after it may have started. */
static bool is_to_be_found(
    const struct model *model, const struct request *cancel, const struct request *target)
{
    return target < cancel && can_start(model, target) && !target->is_doomed &&
           !target->is_cancelled && !target->may_be_cancelled &&
           !may_have_been_cancelled(model, target);
}

/* A cancel of one by Linux's rules. */
static void cancel_by_linux(struct model *model, const struct request *cancel, int32_t res)
{
    struct request *target = NULL;
    for (struct request *request = model->requests; request < model->requests + model->count;
         request++)
        if (request != cancel && request->index == cancel->action->target && !request->is_ended &&
            !request->is_faulty && is_ever_found(request))
            target = request;
    if (res == -ENOENT) {
        if (target && is_to_be_found(model, cancel, target))
            force(model, target, "isn't found by a cancel");
        return;
    }
    if ((res != 0 && res != -EALREADY) || !target)
        wrong(model, "cancel %u ends with %" PRId32 ", and %s", cancel->index, res,
            target ? "has a target" : "has no target");
    force_before(model, target);
    if (target->is_doomed)
        return;
    bool is_waiting_kind = can_wait(model, target);
    if (res == -EALREADY ? is_waiting_kind || is_in_order(model)
                         : is_in_order(model) && target < cancel && !is_waiting_kind)
        wrong(model, "cancel %u ends with %" PRId32 ", and entry %u %s", cancel->index, res,
            target->index, is_waiting_kind ? "waits" : "has ended in order");
    target->is_cancelled |= res == 0;
}

void cancel(struct model *model, const struct request *cancel, int32_t res)
{
    if (model->is_linux) {
        cancel_by_linux(model, cancel, res);
        return;
    }
    struct request *target = target_of(model, cancel);
    if (!target && res == 0 && was_found_before(model, cancel))
        return;
    if (res == -ENOENT) {
        if (target)
            force(model, target, "isn't found by a cancel");
        return;
    }
    if ((res != 0 && res != -EALREADY) || !target)
        wrong(model, "cancel %u ends with %" PRId32 ", and %s", cancel->index, res,
            target ? "has a target" : "has no target");
    bool is_waiting_kind = can_wait(model, target);
    /* In order, all that comes before and may start has been started. */
    bool has_started = is_in_order(model) && target < cancel && can_start(model, target);
    if (res == 0 && has_started && !is_waiting_kind)
        wrong(
            model, "cancel %u finds entry %u before it was started", cancel->index, target->index);
    if (res == 0) {
        target->is_doomed = !has_started;
        target->is_cancelled = has_started;
        target->may_be_found_again = is_waiting_kind;
        return;
    }
    /* One that runs and waits is seen as a success. */
    if (is_waiting_kind)
        wrong(model, "cancel %u ends with %" PRId32 ", and entry %u waits", cancel->index, res,
            target->index);
    force_before(model, target);
    if (is_in_order(model))
        wrong(model, "cancel %u finds entry %u running", cancel->index, target->index);
}

/* What a removal finds, or a cancel on whose success a link stands: one that runs and waits, or
 * that could start; of a removal only one of its operation. */
static bool is_found_by(const struct request *seeker, const struct request *request)
{
    uint8_t code = seeker->action->code;
    if (request == seeker || request->index != seeker->action->target || request->is_ended ||
        request->is_faulty)
        return false;
    if (code == IORING_OP_ASYNC_CANCEL)
        return is_ever_found(request);
    return request->action->code ==
           (code == IORING_OP_POLL_REMOVE ? IORING_OP_POLL_ADD : IORING_OP_TIMEOUT);
}

void remove_one(struct model *model, const struct request *removal, int32_t res)
{
    struct request *target = NULL;
    for (struct request *request = model->requests; request < model->requests + model->count;
         request++)
        if (is_found_by(removal, request))
            target = request;
    bool is_waiting_kind = target && can_wait(model, target);
    if (res == -ENOENT) {
        if (is_waiting_kind && target < removal && can_start(model, target) && !target->is_doomed &&
            !target->is_cancelled && !target->may_be_cancelled &&
            !may_have_been_cancelled(model, target))
            wrong(model, "removal %u doesn't find entry %u", removal->index, target->index);
        return;
    }
    if (res != 0 || !target)
        wrong(model, "removal %u ends with %" PRId32 ", and %s", removal->index, res,
            target ? "has a target" : "has no target");
    /* One that is doomed waits for nobody. */
    if (target->is_doomed)
        return;
    force_before(model, target);
    target->is_cancelled = true;
}

/* ---- cancels with flags ---- */

/* Whether an operation is carried out on a file. */
static bool has_file(const struct action *action)
{
    uint8_t code = action->code;
    bool is_transfer = is_read(action) || is_write(action);
    return is_transfer || code == IORING_OP_POLL_ADD || code == IORING_OP_FSYNC ||
           code == IORING_OP_FALLOCATE || code == IORING_OP_FADVISE ||
           code == IORING_OP_SYNC_FILE_RANGE;
}

/* The object whose file this one is a duplicate of. */
static enum object original_of(enum object object)
{
    return object == OTHER_LOG ? LOG : object;
}

/* Whether a request is what a cancel looks for. */
static bool is_sought(const struct request *cancel, const struct request *request)
{
    const struct action *sought = cancel->action, *action = request->action;
    if (request == cancel || request->is_ended || request->is_faulty || !is_ever_found(request))
        return false;
    if (sought->scope & IORING_ASYNC_CANCEL_ANY)
        return true;
    if (sought->scope & IORING_ASYNC_CANCEL_FD)
        return has_file(action) && original_of(action->object) == original_of(sought->object);
    return request->index == sought->target;
}

enum finding { NOT_FOUND, MAY_BE_FOUND, FOUND };

/* Whether a cancel finds what it looks for: what waits, or could start now, but one after it only
 * if it has started. One that doesn't wait may run just now, and isn't found then, nor may one
 * whose chain has ended since the cancel was issued; one that isn't loose has its file only when it
 * runs; and whether one has the file that is taken out and put in again isn't known. */
static enum finding finding_of(
    const struct model *model, const struct request *cancel, const struct request *request)
{
    bool is_in_turn = request->is_doomed ? can_end(model, request) : can_start(model, request);
    if (!is_sought(cancel, request) || request->is_cancelled || !is_in_turn)
        return NOT_FOUND;
    bool has_waited = can_wait(model, request),
         is_one_choice = (is_in_order(model) || model->program->is_ends) &&
                         !may_be_early(model, request);
    bool has_its_file = request->is_loose || !(cancel->action->scope & IORING_ASYNC_CANCEL_FD) ||
                        (is_in_order(model) && request < cancel);
    bool is_known = !request->action->is_registered || request->action->object != OTHER_LOG;
    bool is_over = request->is_doomed && !may_be_early(model, cancel);
    bool is_certain = (has_waited || is_one_choice || is_over) && has_its_file &&
                      (is_known || !(cancel->action->scope & IORING_ASYNC_CANCEL_FD)) &&
                      !request->may_be_cancelled && !may_have_been_cancelled(model, request);
    /* A cancel that is seen late may have ended before this one was submitted. */
    bool was_there = !model->is_late || request->call <= cancel->call;
    return is_certain && was_there && request < cancel ? FOUND : MAY_BE_FOUND;
}

static bool is_of_all(const struct request *cancel)
{
    return cancel->action->scope & (IORING_ASYNC_CANCEL_ALL | IORING_ASYNC_CANCEL_ANY);
}

/* How many it finds for certain, and how many at most; a cancel of one finds the first. */
static void count_found(
    const struct model *model, const struct request *cancel, int32_t *least, int32_t *most)
{
    *least = *most = 0;
    for (const struct request *request = model->requests; request < model->requests + model->count;
         request++) {
        enum finding finding = finding_of(model, cancel, request);
        if (finding == NOT_FOUND || (*least > 0 && !is_of_all(cancel)))
            continue;
        *most += 1;
        *least += finding == FOUND;
    }
}

/* It has found all that it may have, or only what is certain, or some. */
static void mark_found(
    struct model *model, const struct request *cancel, bool is_every, bool is_least)
{
    bool is_over = false;
    for (struct request *request = model->requests;
         request < model->requests + model->count && !is_over; request++) {
        enum finding finding = finding_of(model, cancel, request);
        bool is_certain = finding == FOUND ? is_every || is_of_all(cancel)
                                           : finding == MAY_BE_FOUND && is_every;
        is_over = finding == FOUND && !is_of_all(cancel);
        request->is_cancelled |= is_certain;
        request->may_be_cancelled |= !is_certain && finding != NOT_FOUND && !is_least;
    }
}

void cancel_by_flags(struct model *model, const struct request *cancel, int32_t res)
{
    int32_t least, most;
    bool has_nothing = cancel->action->scope & IORING_ASYNC_CANCEL_FD &&
                       (cancel->failure != 0 || is_no_file(model, cancel->action));
    /* (the pipe's end may have been closed since) */
    if (has_nothing && model->is_late && cancel->failure == 0 && cancel->action->object == PIPE_IN)
        return;
    if (has_nothing && res != -EBADF)
        wrong(model, "cancel %u ends with %" PRId32 ", and its descriptor isn't open",
            cancel->index, res);
    if (has_nothing)
        return;
    count_found(model, cancel, &least, &most);
    int32_t count = is_of_all(cancel) ? res : res == 0 ? 1 : res == -ENOENT ? 0 : -1;
    bool is_right = count >= least && count <= most;
    if (!is_of_all(cancel))
        is_right = count == 0 ? least == 0 : count == 1 && most > 0;
    if (!is_right)
        wrong(model, "cancel %u ends with %" PRId32 ", and finds %" PRId32 " to %" PRId32,
            cancel->index, res, least, most);
    if (count > 0)
        mark_found(model, cancel, count == most, is_of_all(cancel) && count == least);
}

/* ---- messages ---- */

struct model *receiver_of(const struct model *model, const struct request *request)
{
    return model->others[request->action->target];
}

bool has_drains(const struct model *model)
{
    if (model->is_linux)
        return false;
    for (uint32_t i = 0; i < model->count; i++)
        if (!model->requests[i].is_ended && model->has_drain[model->requests[i].group])
            return true;
    return false;
}

/* A message was sent. It is posted at once, unless the other ring drains. */
void send_one(struct model *model, const struct request *request, int32_t res)
{
    struct message *message = &model->messages[request->index];
    struct model *receiver = receiver_of(model, request);
    if (res != 0)
        wrong(model, "message %u ends with %" PRId32, request->index, res);
    message->is_sent = true;
    message->is_due = !model->is_late && !has_drains(receiver);
    if (message->is_due && receiver == model && !message->is_seen)
        wrong(model, "message %u isn't there", request->index);
}

void see_message(struct model *model, unsigned index, int32_t res)
{
    const struct action *action = &model->program->actions[index];
    if (!model->messages || index >= MOST_ACTIONS || action->kind != PUT ||
        action->code != IORING_OP_MSG_RING || action->target != model->ring)
        wrong(model, "a message of nobody is shown");
    struct model *sender = model->others[action->ring];
    struct message *message = &model->messages[index];
    if (message->is_seen || res != (int32_t)index)
        wrong(model, "message %u %s", index, message->is_seen ? "is shown again" : "is another");
    for (struct request *request = sender->requests; request < sender->requests + sender->count;
         request++) {
        if (request->index != index)
            continue;
        if (request->is_doomed || (request->is_ended && !message->is_sent))
            wrong(model, "message %u is shown, and wasn't sent", index);
        if (!sender->has_overflowed)
            force_before(sender, request);
        message->is_seen = true;
        count_message(model);
        return;
    }
    wrong(model, "message %u is shown, and wasn't submitted", index);
}

bool has_due_messages(const struct model *model)
{
    for (unsigned i = 0; i < MOST_ACTIONS && model->messages; i++)
        if (model->messages[i].is_due && !model->messages[i].is_seen &&
            model->program->actions[i].target == model->ring)
            return true;
    return false;
}
