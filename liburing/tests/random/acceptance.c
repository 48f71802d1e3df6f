/* Acceptance: which positions a call takes, and what becomes of the requests that it makes of them.
 */
#include "model.h"

#include <errno.h>
#include <linux/io_uring.h>

/* A linked timeout wants a request before it that it limits, which isn't one itself. */
static bool is_faulty(const struct model *model, const struct action *action, bool has_before)
{
    const struct action *before = has_before ? model->requests[model->count - 1].action : NULL;
    bool has_place = before && (before->code != IORING_OP_LINK_TIMEOUT || before->flaw == BAD_CODE);
    return (action->flaw != NO_FLAW && action->flaw != BAD_DATA) ||
           (action->code == IORING_OP_LINK_TIMEOUT && !has_place);
}

/* What the start of a request finds out. */
static int32_t failure_of(const struct model *model, const struct action *action, unsigned index)
{
    bool is_there = action->object != NO_FILE && action->object != PIPE_IN &&
                    (action->object != OTHER_LOG || model->has_file);
    if (action->is_registered && !is_there)
        return -EBADF;
    if (action->code == IORING_OP_POLL_ADD && action->object == NO_FILE)
        return -EBADF;
    return is_in_registered_memory(action) && action->buffer != buffer_of(index) ? -EFAULT : 0;
}

static void accept_one(struct model *model, unsigned index, bool has_before)
{
    const struct action *action = &model->program->actions[index];
    if (!has_before)
        model->group_count++;
    uint16_t group = (uint16_t)(model->group_count - 1);
    bool is_fault = is_faulty(model, action, has_before);
    struct request *request = &model->requests[model->count++];
    *request = (struct request){.action = action,
        .index = (uint16_t)index,
        .group = group,
        .since = -1,
        .is_faulty = is_fault,
        .was_open = !model->things->is_closed,
        .failure = failure_of(model, action, index),
        .call = model->call_number,
        .tally_least = model->tally};
    model->has_drain[group] |= (action->flags & IOSQE_IO_DRAIN) != 0;
    if (model->is_linux)
        note_flags(model, request, !has_before);
    model->has_fault[group] |= request->is_faulty;
}

/* The last entry's group was accepted. */
static void end_group(struct model *model)
{
    uint16_t group = model->requests[model->count - 1].group;
    if (model->is_linux)
        note_group(model, group);
    if (model->is_linux && model->has_fault[group])
        doom_group(model, group);
}

/* All members of a group with a fault are doomed. */
static void doom_faulty(struct model *model, uint32_t first)
{
    for (uint32_t i = first; i < model->count; i++)
        model->requests[i].is_doomed |= model->has_fault[model->requests[i].group];
}

/* One that is after no link and no drain finds its file at once. */
static void note_loose(struct model *model, uint32_t first)
{
    bool has_drain = false;
    for (uint32_t i = 0; i < model->count; i++) {
        struct request *request = &model->requests[i];
        bool is_first = i == 0 || model->requests[i - 1].group != request->group;
        has_drain |= !request->is_ended && model->has_drain[request->group];
        if (i >= first)
            request->is_loose = is_first && !has_drain && can_start(model, request);
    }
}

void take(struct model *model, uint32_t to_submit)
{
    uint32_t first = model->count;
    bool has_before = false,
         is_all = model->program->rings[model->ring].flags & IORING_SETUP_SUBMIT_ALL;
    while (to_submit-- > 0 && model->taken < model->published_count) {
        int32_t index = model->published[model->taken++];
        if (index < 0) {
            model->dropped++;
            break;
        }
        const struct action *action = &model->program->actions[index];
        accept_one(model, (unsigned)index, has_before);
        has_before = action->flags & LINKS;
        if (!has_before)
            end_group(model);
        if (model->requests[model->count - 1].is_faulty && !is_all && !has_before)
            break;
    }
    if (has_before)
        end_group(model);
    if (!model->is_linux)
        doom_faulty(model, first);
    note_loose(model, first);
    note_starts(model);
    model->call->accepted = model->count - first;
}
