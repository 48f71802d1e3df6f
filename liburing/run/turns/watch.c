/* The processor's time of the process ticks, and a tick that finds no point since the last ones is
 * of a thread that computes. That is deterministic, and left alone unless it takes long while
 * another could go on: then it is taken to spin for that one. */
#define _GNU_SOURCE
#include "watch.h"
#include "code.h"
#include "turns.h"

#include <sys/time.h>

enum { TICK = 20000 };

static uint64_t points_seen, quiet;

static void set_ticks(long microseconds)
{
    const struct itimerval every = {{0, microseconds}, {0, microseconds}};
    kernel(SYS_setitimer, ITIMER_VIRTUAL, &every);
}

void begin_watch(void)
{
    set_ticks(TICK);
}

void pause_watch(bool is_paused)
{
    set_ticks(is_paused ? 0 : TICK);
}

/* Or something comes by itself, as an alarm. */
static bool can_others_go_on(void)
{
    for (int i = 0; i < world->count; i++) {
        const struct thread *thread = world->threads + i;
        if (thread != self &&
            (thread->state == READY ||
                (thread->state == WAITS && (thread->is_ready || thread->limit != NEVER))))
            return true;
    }
    return world->due != NEVER;
}

static void tell_interrupted(const ucontext_t *at)
{
    char place[PLACE_ROOM];
    if (world->interrupted++ > 0)
        return;
    describe_place((const void *)at->uc_mcontext.gregs[REG_RIP], place);
    say_line(
        "thread %d computed for %lu ms at %s without a call while others could go on: it was interrupted, and this run isn't replayed",
        slot_of(self) + 1, (unsigned long)(world->patience / 1000000), place);
}

/* (one that did so once does so again, and is waited for no longer) */
void on_tick(int number, siginfo_t *info, void *context)
{
    const ucontext_t *at = context;
    (void)number, (void)info;
    if (!self || world->points != points_seen) {
        points_seen = world->points;
        quiet = 0;
        return;
    }
    quiet++;
    if (quiet * TICK * 1000 < world->patience && !world->interrupted)
        return;
    quiet = 0;
    if (!can_others_go_on())
        return;
    tell_interrupted(at);
    note_event("interrupted", slot_of(self));
    self->call = 0;
    self->words[0] = at->uc_mcontext.gregs[REG_RIP];
    self->mask = mask_at(at);
    self->stack = (uintptr_t)at->uc_mcontext.gregs[REG_RSP];
    world->now += world->patience;
    change_world();
    wait_until(NULL, NULL, false, world->now + 1);
    points_seen = ++world->points;
}
