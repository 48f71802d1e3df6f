/* Threads that end, and processes. */
#define _GNU_SOURCE
#include "logged.h"
#include "turns.h"

#include <linux/futex.h>

static bool is_last(void)
{
    for (int i = 0; i < world->count; i++) {
        const struct thread *thread = world->threads + i;
        if (thread != self && is_own(thread) && lives(thread))
            return false;
    }
    return true;
}

/* What the kernel does for a thread that ends: locks, and the word that others wait for. */
static void leave_words(void)
{
    free_robust_locks();
    kernel(SYS_set_robust_list, 0, sizeof(struct robust_list_head));
    if (!self->cleared)
        return;
    __atomic_store_n((uint32_t *)self->cleared, 0, __ATOMIC_SEQ_CST);
    wake_futex(key_of(self->cleared, false), 1, FUTEX_BITSET_MATCH_ANY);
}

static void end_process(int status)
{
    if (!process_of(self)->is_guest)
        end_logged();
    leave_run(true);
    kernel(SYS_exit_group, status);
}

/* Who goes on waits until this one is gone. */
long serve_exit(struct trap *trap)
{
    note_call(trap, 0);
    if (is_last())
        end_process((int)trap->words[0]);
    leave_words();
    self->state = ENDED;
    struct thread *next = choose_next();
    next->follows = slot_of(self) + 1;
    give_baton(next);
    for (;;)
        kernel(SYS_exit, trap->words[0]);
}

long serve_exit_group(struct trap *trap)
{
    note_call(trap, 0);
    end_process((int)trap->words[0]);
    return 0;
}

long serve_tid_address(struct trap *trap)
{
    self->cleared = (uint64_t)trap->words[0];
    return self->number;
}

long serve_robust_list(struct trap *trap)
{
    self->robust = (uint64_t)trap->words[0];
    return pass_on(trap);
}
