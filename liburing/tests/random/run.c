/* Carries the actions of a program out, and tells the model what was done and what is seen. */
#define _GNU_SOURCE
#include "../direct/clocks.h"
#include "run.h"
#include "world.h"

#include <errno.h>
#include <signal.h>
#include <string.h>
#include <sys/wait.h>
#include <unistd.h>

/* How long a call waits where time is real, and how often the end of a program is waited for. */
enum { SHORT_WAIT = 1000000, KERNEL_WAIT = 500000000, MOST_ROUNDS = 3000, PASSING_ROUNDS = 64 };

/* ---- publishing ---- */

static uint32_t count_pending(const struct world *world)
{
    return world->model.published_count - world->model.taken;
}

/* By Linux's rules what is deferred depends on what has ended. So a ring that drains shows all: no
 * entry is published whose success would be skipped after a drain, or whose failure would end
 * others unseen; nor one that drains, if a completion could overflow, unless it is refused. */
static bool hides(const struct world *world, const struct action *action)
{
    bool has_skipped = action->flags & IOSQE_CQE_SKIP_SUCCESS && counts(action),
         has_drained = false;
    for (uint32_t i = 0; i < world->model.published_count; i++) {
        int32_t index = world->model.published[i];
        const struct action *before = index >= 0 ? &world->program->actions[index] : NULL;
        has_drained |= before && before->flags & IOSQE_IO_DRAIN;
        has_skipped |= before && before->flags & IOSQE_CQE_SKIP_SUCCESS && counts(before);
    }
    bool is_unknown_drain = action->flags & IOSQE_IO_DRAIN && !has_skipped &&
                            !world->program->has_drains;
    bool is_unseen = action->flags & IOSQE_CQE_SKIP_SUCCESS && world->program->has_drains &&
                     (has_drained || action->flags & LINKS);
    return !world->program->is_manual && (is_unknown_drain || is_unseen);
}

static void put(struct world *world, unsigned index, bool is_entry)
{
    struct model *model = &world->model;
    const struct action *action = &world->program->actions[index];
    uint32_t position = model->published_count, size = model->sq_entries;
    if (count_pending(world) >= size || position >= MOST_ACTIONS ||
        (is_entry && hides(world, action)))
        return;
    model->published[position] = is_entry ? (int32_t)index : -1;
    world->slots[position] = -1;
    model->published_count++;
    if (!is_entry) {
        publish(&world->ring, size + (action->turn == 2 ? UINT32_MAX - size : action->turn));
        return;
    }
    uint32_t slot = (position + action->turn) & (size - 1);
    while (world->is_used[slot])
        slot = (slot + 1) & (size - 1);
    world->is_used[slot] = true;
    world->slots[position] = (int32_t)slot;
    write_entry(world, &world->ring.entries[slot], index);
    publish(&world->ring, slot);
}

/* ---- seeing ---- */

static void note_outcome(struct world *world, struct completion shown)
{
    unsigned index = (unsigned)(shown.user_data & 0xffffffff) - 1;
    if (index < MOST_ACTIONS) {
        world->outcome->results[index] = shown.res;
        world->outcome->posts[index]++;
    }
}

/* Tells the model the completions that are new. */
static void see_all(struct world *world)
{
    uint32_t tail = cq_tail(&world->ring);
    if (tail - cq_head(&world->ring) > world->model.cq_entries)
        wrong(&world->model, "the completion ring's tail is %u", tail);
    while (world->seen != tail) {
        if (world->seen >= 2 * MOST_ACTIONS)
            wrong(&world->model, "there are too many completions");
        struct completion shown = completion_at(&world->ring, world->seen);
        world->shown[world->seen++] = shown;
        see(&world->model, shown.user_data, shown.res, shown.flags);
        if (shown.flags & IORING_CQE_F_BUFFER)
            world->is_provided[shown.flags >> IORING_CQE_BUFFER_SHIFT] = false;
        note_outcome(world, shown);
    }
}

static void reap(struct world *world, uint32_t count)
{
    uint32_t head = cq_head(&world->ring), ready = world->seen - head;
    for (uint32_t i = 0; i < count && i < ready; i++) {
        struct completion found = completion_at(&world->ring, head + i);
        if (found.user_data != world->shown[head + i].user_data ||
            found.res != world->shown[head + i].res)
            wrong(&world->model, "a completion has changed");
    }
    store_head(&world->ring, head + (count < ready ? count : ready));
}

/* ---- calling ---- */

/* What posts nothing may have ended, so that what waits for it runs. */
static bool may_have_unseen_ends(const struct model *model)
{
    for (uint32_t i = 0; i < model->count; i++)
        if (!model->requests[i].is_ended &&
            model->requests[i].action->flags & IOSQE_CQE_SKIP_SUCCESS)
            return true;
    return false;
}

/* The limit that a call is given: where it would really sleep, a short one. A call that waits for
 * one completion, which a timeout will give, sleeps only for a pipe that is read already. */
static int64_t limit_of(const struct world *world, const struct call *call, int64_t limit)
{
    const struct model *model = &world->model;
    if (!call->is_getting)
        return -1;
    if (world->is_kernel)
        return KERNEL_WAIT;
    bool is_empty = world->things.read == world->things.written && !world->things.is_fed_out;
    bool may_sleep = has_pipe_reads(model, false) || world->program->is_threaded;
    if (may_sleep && call->min_complete == 1 && call->ready == 0 && has_timeouts(model))
        may_sleep = has_pipe_reads(model, true) ||
                    (has_pipe_reads(model, false) && is_empty && may_have_unseen_ends(model));
    return may_sleep && (limit < 0 || limit > SHORT_WAIT) ? SHORT_WAIT : limit;
}

static bool is_blocking_signals(void)
{
    sigset_t blocked;
    pthread_sigmask(SIG_BLOCK, NULL, &blocked);
    return sigismember(&blocked, SIGUSR1);
}

static void look(const struct world *world, struct call *call)
{
    const struct ring *ring = &world->ring;
    call->is_blocking = is_blocking_signals();
    call->is_polled = ring->way == LAYER_POLLED;
    call->is_readable = call->is_polled && is_readable(ring);
    call->head = sq_head(ring);
    call->dropped = sq_dropped(ring);
    call->flags = sq_flags(ring);
    call->overflow = cq_overflow(ring);
    call->tail = cq_tail(ring);
    call->ready = call->tail - cq_head(ring);
}

static void enter(struct world *world, uint32_t to_submit, uint32_t min_complete, bool is_getting,
    int64_t limit, bool has_mask)
{
    struct model *model = &world->model;
    struct call call = {.to_submit = to_submit,
        .min_complete = min_complete,
        .is_getting = is_getting,
        .deadline = -1};
    uint32_t taken = model->taken;
    look(world, &call);
    call.tail_before = call.tail;
    model->is_late = world->is_kernel || call.flags & IORING_SQ_CQ_OVERFLOW;
    model->call = &call;
    call.began = model->now;
    model->call_number++;
    note_heard(model);
    take(model, to_submit);
    call.limit = limit_of(world, &call, limit);
    if (call.limit >= 0 && min_complete > 0 && call.accepted == to_submit)
        call.deadline = add_times(model->now, call.limit);
    bool may_sleep = has_pipe_reads(model, false) || world->program->is_threaded;
    int64_t start = real_time();
    call.result = enter_ring(
        &world->ring, to_submit, min_complete, is_getting, call.limit, has_mask);
    if (may_sleep)
        model->slack = add_times(model->slack, real_time() - start);
    look(world, &call);
    see_all(world);
    judge_call(model);
    look_at_telling(world);
    while (taken < model->taken)
        spoil(world, taken++);
    model->call = NULL;
}

static void act_enter(struct world *world, const struct action *action)
{
    int32_t to_submit = (int32_t)count_pending(world) + action->excess;
    uint32_t min_complete = action->min_complete;
    if (world->program->is_plain) {
        uint32_t most = count_awaited(&world->model) + world->seen - cq_head(&world->ring);
        min_complete = min_complete < most ? min_complete : most;
    }
    enter(world, to_submit < 0 ? 0 : (uint32_t)to_submit, min_complete, action->is_getting,
        action->limit, action->has_mask);
}

/* ---- other actions ---- */

/* A child doesn't have the ring, and may make one of its own. */
static void act_fork(struct world *world)
{
    struct ring own;
    pid_t child = fork();
    if (child == 0) {
        if (enter_ring(&world->ring, 0, 0, true, -1, false) != -EOPNOTSUPP ||
            open_ring(&own, world->ring.way, 4, 0, 0) != 0)
            _exit(1);
        own.entries[0] = (struct io_uring_sqe){.opcode = IORING_OP_NOP, .user_data = 77};
        publish(&own, 0);
        bool is_right = enter_ring(&own, 1, 1, true, -1, false) == 1 && cq_tail(&own) == 1 &&
                        completion_at(&own, 0).user_data == 77;
        _exit(is_right ? 0 : 1);
    }
    int status = 1;
    if (child < 0 || waitpid(child, &status, 0) != child || status != 0)
        wrong(&world->model, "a child ends with %#x", (unsigned)status);
}

/* Only if it is known what has ended. */
static void act_reopen(struct world *world)
{
    const struct model *model = &world->model;
    if (sq_flags(&world->ring) & IORING_SQ_CQ_OVERFLOW)
        return;
    if (may_have_unseen_ends(model))
        return;
    close_ring(&world->ring);
    make_world_ring(world);
}

static bool has_pipe_writes(const struct world *world)
{
    for (uint32_t i = 0; i < world->model.count; i++)
        if (!world->model.requests[i].is_ended &&
            world->model.requests[i].action->object == PIPE_IN)
            return true;
    return false;
}

/* Only if it is known what was read. */
static void act_sip(struct world *world, uint32_t count)
{
    if (!(sq_flags(&world->ring) & IORING_SQ_CQ_OVERFLOW) && !has_pipe_writes(world))
        sip(world, count);
}

/* Only if it is known which buffers were taken. */
static void act_provide(struct world *world, uint32_t count)
{
    if (sq_flags(&world->ring) & IORING_SQ_CQ_OVERFLOW)
        return;
    for (unsigned buffer = 0; buffer < PROVIDED && count > 0; buffer++)
        count -= provide(world, buffer);
}

/* Only if no request waits that may find its file when it starts. */
static void act_update(struct world *world)
{
    const struct model *model = &world->model;
    if (sq_flags(&world->ring) & IORING_SQ_CQ_OVERFLOW)
        return;
    for (uint32_t i = 0; i < model->count; i++) {
        const struct request *request = &model->requests[i];
        if (!request->is_ended && request->action->is_registered &&
            request->action->object == OTHER_LOG && !request->is_loose)
            return;
    }
    update_files(world);
}

void act(struct world *world, unsigned index)
{
    const struct action *action = &world->program->actions[index];
    switch (action->kind) {
    case NOTHING:
        break;
    case PUT:
    case PUT_WORD:
        put(world, index, action->kind == PUT);
        break;
    case ENTER:
        act_enter(world, action);
        break;
    case REAP:
        reap(world, action->count);
        break;
    case FEED:
        if (!has_pipe_writes(world))
            feed(world, action->count * 8u);
        break;
    case END_FEED:
        if (!has_pipe_writes(world))
            end_feed(world);
        break;
    case FORK:
        act_fork(world);
        break;
    case REOPEN:
        act_reopen(world);
        break;
    case PROVIDE:
        act_provide(world, action->count);
        break;
    case UPDATE:
        act_update(world);
        break;
    case SIP:
        act_sip(world, action->count * 8u);
        break;
    case SILENCE:
        silence(world);
        break;
    }
}

void finish(struct world *world)
{
    struct model *model = &world->model;
    for (int round = 0; count_awaited(model) > 0 || count_pending(world) > 0; round++) {
        uint32_t count = model->count, seen = world->seen, taken = model->taken;
        if (round == MOST_ROUNDS)
            wrong(model, "it doesn't come to rest");
        enter(world, count_pending(world), 1, true, -1, false);
        reap(world, UINT32_MAX);
        bool is_idle = count == model->count && seen == world->seen && taken == model->taken;
        bool is_fed = passes_by_choice(model) && world->things.read < world->things.written;
        if (is_idle && !is_fed && has_pipe_reads(model, false) &&
            !(sq_flags(&world->ring) & IORING_SQ_CQ_OVERFLOW))
            feed(world, CELL);
    }
    /* (a wait whose time is over by choice says nothing of what could go on) */
    for (int quiet = 0, enough = passes_by_choice(model) ? PASSING_ROUNDS : 1; quiet < enough;) {
        reap(world, UINT32_MAX);
        uint32_t seen = world->seen;
        enter(world, 0, world->is_kernel ? 0 : 1, true, 0, false);
        quiet = seen == world->seen ? quiet + 1 : 0;
    }
    struct call none = {.deadline = -1, .limit = -1};
    model->call = &none;
    if (passes_by_choice(model))
        expect_stuck(model, "could go on to the end");
    model->call = NULL;
}
