/* The baton: one thread has it and runs. All others are parked in the trap of their last call, with
 * signals blocked, each on a word of its own. */
#define _GNU_SOURCE
#include "turns.h"

#include <linux/futex.h>

/* Who went before has to be gone: the kernel clears its word as it is, and nothing of it happens
 * after that. */
static void await_end_of_other(void)
{
    if (self->follows == 0)
        return;
    struct thread *other = world->threads + self->follows - 1;
    uint32_t seen;
    while ((seen = __atomic_load_n(&other->is_alive, __ATOMIC_SEQ_CST)) != 0)
        kernel(SYS_futex, &other->is_alive, FUTEX_WAIT, seen);
    self->follows = 0;
    other->state = FREE;
}

static enum given await_word(void)
{
    const struct timespec a_while = {0, 100000000};
    uint32_t given;
    int whiles = 0;
    while ((given = __atomic_load_n(&self->baton, __ATOMIC_SEQ_CST)) == NOTHING_GIVEN) {
        kernel(SYS_futex, &self->baton, FUTEX_WAIT, NOTHING_GIVEN, &a_while);
        if (__atomic_load_n(&self->baton, __ATOMIC_SEQ_CST) == NOTHING_GIVEN && inherits(++whiles))
            return GIVEN_BATON;
    }
    __atomic_store_n(&self->baton, NOTHING_GIVEN, __ATOMIC_SEQ_CST);
    return given;
}

/* Whether this thread goes on, or another that it chooses. */
static bool takes_baton(void)
{
    int process = self->follows_process - 1;
    await_end_of_other();
    self->follows_process = 0;
    if (process >= 0)
        await_end_of_process(process);
    if (!self->chooses)
        return true;
    self->chooses = false;
    struct thread *next = choose_next();
    give_baton(next);
    return next == self;
}

void park(void)
{
    for (;;) {
        if (await_word() == GIVEN_TASK)
            do_task();
        else if (takes_baton())
            return;
    }
}

void give_baton(struct thread *next)
{
    if (next == self)
        return;
    world->switches++;
    __atomic_store_n(&world->running, slot_of(next), __ATOMIC_SEQ_CST);
    __atomic_store_n(&next->baton, GIVEN_BATON, __ATOMIC_SEQ_CST);
    kernel(SYS_futex, &next->baton, FUTEX_WAKE, 1);
}

void go_on_as(struct thread *next)
{
    if (next == self)
        return;
    give_baton(next);
    park();
}
