/* What is carried out on what may have to wait: who waits for the pipe, and which polls are told of
 * what was written to it. */
#include "model.h"

#include <linux/io_uring.h>

bool is_stream(const struct model *model, const struct request *request)
{
    const struct action *action = request->action;
    bool is_pipe = action->object == PIPE_OUT || action->object == PIPE_IN;
    if (request->failure != 0)
        return false;
    if (is_of_sockets(action))
        return is_pipe && model->program->rings[model->ring].has_sockets;
    if (action->code == IORING_OP_POLL_ADD)
        return true;
    return (is_read(action) || is_write(action)) && (is_pipe || action->object == ZEROS);
}

bool is_pipe_read(const struct model *model, const struct request *request)
{
    const struct action *action = request->action;
    return action->object == PIPE_OUT && (is_read(action) || action->code == IORING_OP_POLL_ADD) &&
           is_stream(model, request);
}

/* One that is to take a provided buffer, and has found none, ends; one that has found one waits,
 * though another has taken that. */
bool may_be_blocked(const struct model *model, const struct request *request)
{
    const struct things *things = model->things;
    const struct action *action = request->action;
    if (!is_pipe_read(model, request) || action->is_impatient || request->is_cancelled ||
        request->is_doomed)
        return false;
    if (is_selecting(action) ? !request->may_have_found : is_read(action) && length_of(action) == 0)
        return false;
    return !request->is_told && things->read == things->written && !things->is_fed_out;
}

bool is_blocked(const struct model *model, const struct request *request)
{
    bool may_have_found_none = is_selecting(request->action) && model->queue_length == 0;
    return may_be_blocked(model, request) && !may_have_found_none && !request->may_be_told;
}

void note_feed(struct model *model)
{
    for (struct request *request = model->requests; request < model->requests + model->count;
         request++) {
        bool is_poll = request->action->code == IORING_OP_POLL_ADD && is_pipe_read(model, request);
        if (!is_poll || model->program->rings[model->ring].has_sockets || request->is_ended ||
            !can_start(model, request))
            continue;
        request->may_be_fed = true;
        request->was_fed |= model->is_at_rest;
    }
}

void note_sip(struct model *model)
{
    for (struct request *request = model->requests; request < model->requests + model->count;
         request++)
        request->may_be_told |= request->may_be_fed &&
                                model->things->read == model->things->written;
}

/* What is there still the ring's own reads may take. */
void note_heard(struct model *model)
{
    for (struct request *request = model->requests; request < model->requests + model->count;
         request++) {
        request->is_told |= request->was_fed && model->things->read == model->things->written;
        request->was_fed = false;
    }
}

bool has_pipe_reads(const struct model *model, bool is_started)
{
    for (uint32_t i = 0; i < model->count; i++) {
        const struct request *request = &model->requests[i];
        if (!request->is_ended && is_pipe_read(model, request) &&
            (!is_started || can_start(model, request)))
            return true;
    }
    return false;
}
