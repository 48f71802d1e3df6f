/* Runs a program: its rings in one thread, one action after the other, or each in its own. */
#define _GNU_SOURCE
#include "run.h"
#include "world.h"

#include <pthread.h>
#include <stdlib.h>
#include <string.h>

static void *run_ring(void *at)
{
    struct world *world = at;
    for (unsigned i = 0; i < world->program->count; i++)
        if (world->program->actions[i].ring == world->index)
            act(world, i);
    finish(world);
    return NULL;
}

static void run_threads(struct world *worlds, unsigned count)
{
    pthread_t threads[MOST_RINGS];
    for (unsigned i = 0; i < count; i++)
        if (pthread_create(&threads[i], NULL, run_ring, &worlds[i]) != 0)
            wrong(&worlds[i].model, "no thread");
    for (unsigned i = 0; i < count; i++)
        pthread_join(threads[i], NULL);
}

/* The models of all rings know one another. */
static void let_talk(struct world *worlds, unsigned count)
{
    static struct message messages[MOST_ACTIONS];
    memset(messages, 0, sizeof messages);
    for (unsigned i = 0; i < count; i++) {
        worlds[i].model.messages = messages;
        for (unsigned other = 0; other < count; other++)
            worlds[i].model.others[other] = &worlds[other].model;
    }
}

/* Messages of a ring that came to rest later are seen now, unless one that posts nothing drains
 * still. */
static void judge_messages(struct world *world)
{
    finish(world);
    for (unsigned i = 0; i < MOST_ACTIONS; i++) {
        const struct message *message = &world->model.messages[i];
        if (message->is_sent && !message->is_seen && !has_drains(&world->model) &&
            world->program->actions[i].target == world->index)
            wrong(&world->model, "message %u is lost", i);
    }
}

void run_program(const struct program *program, bool is_kernel, struct outcome *outcome)
{
    struct world *worlds = calloc(program->ring_count, sizeof *worlds);
    memset(outcome, 0, sizeof *outcome);
    for (unsigned i = 0; i < program->ring_count; i++) {
        worlds[i].program = program;
        worlds[i].index = i;
        worlds[i].is_kernel = is_kernel;
        worlds[i].outcome = outcome;
        worlds[i].others = worlds;
        make_world(&worlds[i]);
    }
    if (program->has_messages)
        let_talk(worlds, program->ring_count);
    if (program->is_threaded)
        run_threads(worlds, program->ring_count);
    for (unsigned i = 0; i < program->count && !program->is_threaded; i++)
        act(&worlds[program->actions[i].ring], i);
    for (unsigned i = 0; i < program->ring_count && !program->is_threaded; i++)
        finish(&worlds[i]);
    for (unsigned i = 0; i < program->ring_count; i++) {
        if (program->has_messages)
            judge_messages(&worlds[i]);
        judge_world(&worlds[i]);
        free(worlds[i].is_used);
        free(worlds[i].provided_ring);
    }
    free(worlds);
}
