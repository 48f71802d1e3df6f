/* What Linux's rules make of drains and of ends, as docs/PROTOCOL.md tells them: a ring that drains
 * defers groups, drains are refused in one that has skipped success, and what a failure cancels is
 * silent as the one that failed says.
 */
#include "model.h"

#include <linux/io_uring.h>

static bool has_flag(const struct request *request, uint8_t flag)
{
    return request->action->flags & flag;
}

bool counts(const struct action *action)
{
    return action->flaw != BAD_CODE && action->flaw != BAD_FLAG;
}

void note_flags(struct model *model, struct request *request, bool is_first)
{
    bool drains = counts(request->action) && has_flag(request, IOSQE_IO_DRAIN);
    model->has_skipped |= counts(request->action) && has_flag(request, IOSQE_CQE_SKIP_SUCCESS);
    request->is_refused = drains && model->has_skipped;
    request->is_faulty |= request->is_refused;
    bool is_let_in = counts(request->action) && !request->is_refused,
         is_granted = drains && is_let_in;
    bool takes_owed = model->owes_drain && is_first && is_let_in;
    model->is_draining |= is_granted || takes_owed;
    model->drains[request->group] |= is_granted || takes_owed;
    model->owes_drain = is_first ? model->owes_drain && !is_let_in
                                 : model->owes_drain || is_granted;
}

static bool has_deferred(const struct model *model)
{
    for (uint32_t group = 0; group < model->group_count; group++)
        if (model->is_deferred[group])
            return true;
    return false;
}

void note_group(struct model *model, uint16_t group)
{
    if (!model->is_draining || model->has_fault[group])
        return;
    model->is_deferred[group] = true;
    let_deferred_go_on(model);
    model->is_draining = model->drains[group] || has_deferred(model);
}

void let_deferred_go_on(struct model *model)
{
    uint32_t group = 0;
    for (const struct request *request = model->requests; request < model->requests + model->count;
         request++)
        if (!request->is_ended && !model->is_deferred[request->group])
            return;
    while (group < model->group_count && !model->is_deferred[group])
        group++;
    if (group == model->group_count)
        return;
    bool is_lone = model->drains[group];
    model->is_deferred[group] = false;
    for (group++; !is_lone && group < model->group_count &&
                  !(model->is_deferred[group] && model->drains[group]);
         group++)
        model->is_deferred[group] = false;
}

/* A first member with a fault, and a linked timeout without one that ends its chain: where neither
 * asks to drain, that is silent as it says itself. */
static bool is_own_timeout(
    const struct model *model, const struct request *first, const struct request *request)
{
    return first && request == first + 1 && first->is_faulty &&
           is_before_last_timeout(model, first) && !request->is_faulty &&
           !has_flag(first, IOSQE_IO_DRAIN) && !has_flag(request, IOSQE_IO_DRAIN);
}

/* The first member counts as the one that failed. */
void doom_group(struct model *model, uint16_t group)
{
    const struct request *first = NULL;
    for (struct request *request = model->requests; request < model->requests + model->count;
         request++) {
        if (request->group != group)
            continue;
        request->is_doomed = true;
        request->is_silent = first &&
                             has_flag(is_own_timeout(model, first, request) ? request : first,
                                 IOSQE_CQE_SKIP_SUCCESS);
        first = first ? first : request;
    }
}

void doom_after(struct model *model, const struct request *failed)
{
    for (struct request *later = model->requests + (failed - model->requests) + 1;
         later < model->requests + model->count; later++) {
        if (later->group != failed->group || later->is_doomed)
            continue;
        later->is_doomed = true;
        later->is_silent = has_flag(failed, IOSQE_CQE_SKIP_SUCCESS);
    }
}

bool is_before_last_timeout(const struct model *model, const struct request *request)
{
    const struct request *next = request + 1;
    return next < model->requests + model->count && next->group == request->group &&
           next->action->code == IORING_OP_LINK_TIMEOUT && next->action->flaw != BAD_CODE &&
           !has_flag(next, LINKS);
}
