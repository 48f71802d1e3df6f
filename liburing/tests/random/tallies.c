/* Timeouts that end once so many completions were posted, and how often an eventfd is told of
 * completions. A timeout counts from its start on, which nobody sees, or what ends in its own
 * submission too: so what is known are bounds.
 */
#include "model.h"

#include <inttypes.h>
#include <linux/io_uring.h>

/* ---- timeouts with a count ---- */

static bool is_counting(const struct request *request)
{
    return request->action->tally && is_timeout(request) && !request->is_ended;
}

/* One before it may have ended unseen, so that it has started. */
static bool may_be_after_unseen(const struct model *model, const struct request *timeout)
{
    for (const struct request *other = model->requests; other < timeout; other++)
        if (!other->is_ended && (other->action->flags & IOSQE_CQE_SKIP_SUCCESS || other->is_silent))
            return true;
    return false;
}

bool may_have_counted(const struct model *model, const struct request *timeout)
{
    return timeout->may_have_begun && model->tally - timeout->tally_least >= timeout->action->tally;
}

bool has_counted(const struct model *model, const struct request *timeout)
{
    return timeout->action->tally && timeout->has_begun && !may_be_early(model, timeout) &&
           model->tally - timeout->tally_most >= timeout->action->tally;
}

/* In order nothing starts while one before it can end. */
static bool is_held_up(const struct model *model, const struct request *timeout)
{
    for (const struct request *other = model->requests; other < timeout && is_in_order(model);
         other++)
        if (!is_stream(model, other) && !(other->action->flags & IOSQE_CQE_SKIP_SUCCESS) &&
            !other->is_silent && !may_be_early(model, timeout) && can_end(model, other))
            return true;
    return false;
}

void note_tallies(struct model *model)
{
    for (struct request *request = model->requests; request < model->requests + model->count;
         request++) {
        bool may_begin = can_start(model, request) || may_be_after_unseen(model, request);
        if (!is_counting(request) || !may_begin || request->may_have_begun ||
            is_held_up(model, request))
            continue;
        request->may_have_begun = true;
    }
}

static void note_begun(struct model *model, struct request *timeout)
{
    if (!is_counting(timeout) || !can_start(model, timeout) || timeout->has_begun)
        return;
    timeout->may_have_begun = timeout->has_begun = true;
    timeout->tally_most = model->tally;
}

void note_begun_before(struct model *model, const struct request *seen)
{
    for (struct request *request = model->requests; request < seen; request++)
        note_begun(model, request);
}

/* What is seen late may have ended before some were submitted. */
void note_all_begun(struct model *model)
{
    if (!model->is_late)
        note_begun_before(model, model->requests + model->count);
}

/* ---- what is seen ---- */

static void count_told(struct model *model, bool is_certain, bool is_possible)
{
    model->told_least += is_certain;
    model->told_most += is_possible;
}

void count_message(struct model *model)
{
    model->tally++;
    count_told(model, true, true);
}

/* Neither a timeout counts that its time or its count has ended, nor is one told of later ends
 * alone what ends in the call that took it. */
void count_end(struct model *model, const struct request *request, bool is_by_itself)
{
    bool is_later = request->call != model->call_number,
         is_of_all = model->program->rings[model->ring].telling == OF_ALL;
    model->tally += !(is_by_itself && request->action->code == IORING_OP_TIMEOUT);
    count_told(model, is_of_all || (is_later && !model->is_late), is_of_all || is_later);
}

void judge_told(struct model *model, uint64_t told, bool is_silenced)
{
    uint32_t least = is_silenced ? 0 : model->told_least, most = is_silenced ? 0 : model->told_most;
    if (told > most || (told == 0 && least > 0))
        wrong(model,
            "the eventfd is told %" PRIu64 " times of %" PRIu32 " to %" PRIu32 " completions", told,
            least, most);
    model->told_least = model->told_most = 0;
}
