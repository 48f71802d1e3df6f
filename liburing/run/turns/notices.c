/* Masks, actions, the stack of signals; waits for signals, and who hears of one. */
#define _GNU_SOURCE
#include "../../layer/choices/turns.h"
#include "notices.h"
#include "chance.h"
#include "dispatch.h"

#include <errno.h>
#include <signal.h>
#include <string.h>
#include <sys/syscall.h>

long serve_mask(struct trap *trap)
{
    const uint64_t *given = (const uint64_t *)trap->words[1];
    uint64_t *told = (uint64_t *)trap->words[2], was = mask_at(trap->at), mask = was;
    if (trap->words[3] != sizeof mask)
        return -EINVAL;
    if (given && trap->words[0] == SIG_BLOCK)
        mask |= *given;
    else if (given && trap->words[0] == SIG_UNBLOCK)
        mask &= ~*given;
    else if (given && trap->words[0] == SIG_SETMASK)
        mask = *given;
    else if (given)
        return -EINVAL;
    mask = without_ours(mask);
    memcpy(&trap->at->uc_sigmask, &mask, sizeof mask);
    if (told)
        *told = was;
    return 0;
}

/* Those that are ours are kept for when the program asks again. */
static long keep_action(struct program_action *kept, const struct trap *trap)
{
    struct program_action before = *kept;
    if (trap->words[1])
        *kept = *(const struct program_action *)trap->words[1];
    if (trap->words[2])
        *(struct program_action *)trap->words[2] = before;
    return 0;
}

long serve_action(struct trap *trap)
{
    int signal = (int)trap->words[0];
    if (signal < 1 || signal > LAST_SIGNAL || trap->words[3] != sizeof(uint64_t))
        return -EINVAL;
    struct program_action *actions = process_of(self)->actions;
    if (is_ours(signal))
        return keep_action(actions + signal, trap);
    if (!trap->words[1])
        return pass_on(trap);
    struct program_action action = *(const struct program_action *)trap->words[1];
    action.mask = without_ours(action.mask);
    long result = kernel(SYS_rt_sigaction, signal, &action, trap->words[2], sizeof action.mask);
    if (result == 0)
        actions[signal] = action;
    return result;
}

/* It is set at once, as if from the program's stack, and in the frame: the kernel doesn't change
 * the one that a handler returns from. */
long serve_signal_stack(struct trap *trap)
{
    const stack_t *given = (const stack_t *)trap->words[0];
    stack_t *told = (stack_t *)trap->words[1], was = trap->at->uc_stack;
    uintptr_t at = (uintptr_t)trap->at->uc_mcontext.gregs[REG_RSP], lowest = (uintptr_t)was.ss_sp;
    bool has = was.ss_size > 0 && !(was.ss_flags & SS_DISABLE),
         is_on = has && at > lowest && at <= lowest + was.ss_size;
    if (given && is_on)
        return -EPERM;
    if (given) {
        long result = set_signal_stack_from(given, NULL, (long)at);
        if (result < 0)
            return result;
        trap->at->uc_stack = *given;
    }
    if (told) {
        *told = was;
        told->ss_flags = !has ? SS_DISABLE : is_on ? SS_ONSTACK : 0;
    }
    return 0;
}

bool does_nothing(int process, int signal)
{
    uint64_t handler = world->processes[process].actions[signal].handler;
    bool is_quiet = signal == SIGCHLD || signal == SIGURG || signal == SIGWINCH ||
                    signal == SIGCONT;
    return handler == (uint64_t)SIG_IGN || (handler == (uint64_t)SIG_DFL && is_quiet);
}

static void interrupt(struct thread *thread, int signal)
{
    bool is_awaited = thread->awaited & bit_of(signal);
    if (thread->state != WAITS ||
        (!is_awaited && (thread->mask & bit_of(signal) || does_nothing(thread->process, signal))))
        return;
    thread->wanted_count = 0;
    thread->reason = is_awaited ? IS_READY : INTERRUPTED;
    thread->by = signal;
    thread->state = READY;
    wulgach_note_turn(WULGACH_SIGNAL_ENDS);
}

bool is_restarted(void)
{
    return process_of(self)->actions[self->by].flags & SA_RESTART;
}

struct thread *thread_of_number(int number)
{
    for (int i = 0; i < world->count; i++) {
        struct thread *thread = world->threads + i;
        if (thread->state != FREE && thread->state != ENDED && thread->number == number)
            return thread;
    }
    return NULL;
}

bool takes(const struct thread *thread, int signal)
{
    return lives(thread) && (!(thread->mask & bit_of(signal)) ||
                                (thread->state == WAITS && thread->awaited & bit_of(signal)));
}

struct thread *taker_of(int process, int signal)
{
    if (self->process == process && !(self->mask & bit_of(signal)))
        return self;
    for (int i = 0; i < world->count; i++) {
        struct thread *thread = world->threads + i;
        if (thread->process == process && takes(thread, signal))
            return thread;
    }
    return NULL;
}

void note_raised(int process, int thread, int signal)
{
    if (signal < 1 || signal > LAST_SIGNAL)
        return;
    change_world();
    struct thread *taker = thread ? thread_of_number(thread) : taker_of(process, signal);
    if (taker)
        interrupt(taker, signal);
}

void hear_outside(void)
{
    uint64_t pending = 0;
    kernel(SYS_rt_sigpending, &pending, sizeof pending);
    for (int signal = 1; signal <= LAST_SIGNAL; signal++) {
        struct thread *taker = pending & bit_of(signal) ? taker_of(self->process, signal) : NULL;
        if (taker)
            interrupt(taker, signal);
    }
}

static bool is_pending(void *argument)
{
    uint64_t pending = 0;
    kernel(SYS_rt_sigpending, &pending, sizeof pending);
    return (pending & *(const uint64_t *)argument) != 0;
}

/* What is kept on the program's stack, below what is the program's own there, while its handlers
 * are called (take_pending of passing.c). */
struct kept {
    long next, first, second, third, fourth;
    uint64_t open, mask;
};

/* The kernel calls the handlers of what is pending by now, as it would, under this mask: once the
 * trap is left, and all signals are blocked until then. The program's stack stands there, so that
 * its handlers may do what they like. */
static void go_on_with_pending(struct trap *trap, uint64_t mask)
{
    enum { IN_USE = 128 };
    const uint64_t all = ~(uint64_t)0, open = ~mask;
    greg_t *registers = trap->at->uc_mcontext.gregs;
    if (!is_pending((void *)&open))
        return;
    struct kept *kept = (struct kept *)(registers[REG_RSP] - IN_USE) - 1;
    *kept = (struct kept){registers[REG_RIP], registers[REG_RDI], registers[REG_RSI],
        registers[REG_RDX], registers[REG_R10], mask, mask_at(trap->at)};
    registers[REG_RSP] = (greg_t)kept;
    registers[REG_RIP] = (greg_t)take_pending;
    memcpy(&trap->at->uc_sigmask, &all, sizeof all);
}

long wait_under_mask(struct trap *trap, const uint64_t *mask, long (*wait)(const long *words))
{
    if (!mask)
        return wait(trap->words);
    uint64_t kept = self->mask, now = without_ours(*mask), open = ~now;
    self->mask = now;
    long result = is_pending(&open) ? -EINTR : wait(trap->words);
    self->mask = kept;
    if (result == -EINTR)
        go_on_with_pending(trap, now);
    return result;
}

static long suspend_under(struct trap *trap, uint64_t mask)
{
    uint64_t kept = self->mask, open = ~mask;
    self->mask = mask;
    while (!is_pending(&open))
        if (wait_until(is_pending, &open, true, NEVER) == INTERRUPTED)
            break;
    self->mask = kept;
    go_on_with_pending(trap, mask);
    return -EINTR;
}

long serve_suspend(struct trap *trap)
{
    return suspend_under(trap, without_ours(*(const uint64_t *)trap->words[0]));
}

long serve_pause(struct trap *trap)
{
    return suspend_under(trap, mask_at(trap->at));
}

/* Signals that are blocked and taken by a call. */
long serve_timed_wait(struct trap *trap)
{
    const struct timespec none = {0, 0};
    uint64_t wanted = *(const uint64_t *)trap->words[0],
             limit = limit_after((const struct timespec *)trap->words[2]);
    for (;;) {
        change_world();
        long result = kernel(SYS_rt_sigtimedwait, &wanted, trap->words[1], &none, sizeof wanted);
        if (result != -EAGAIN || limit <= world->now)
            return result;
        self->awaited = wanted;
        enum reason reason = wait_until(is_pending, &wanted, true, limit);
        self->awaited = 0;
        if (reason == INTERRUPTED)
            return -EINTR;
    }
}
