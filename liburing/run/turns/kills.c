/* Signals that the program sends, to this process or to others of the run. One that ends another
 * process does so at once: a parked thread of it takes it, and who has sent it waits until it is
 * gone. */
#define _GNU_SOURCE
#include "notices.h"

#include <signal.h>

static bool stops(int signal)
{
    return signal == SIGSTOP || signal == SIGTSTP || signal == SIGTTIN || signal == SIGTTOU;
}

/* Whether a signal ends a process that has it open. */
static bool ends(int process, int signal)
{
    return signal > 0 && signal <= LAST_SIGNAL && !stops(signal) &&
           world->processes[process].actions[signal].handler == (uint64_t)SIG_DFL &&
           !does_nothing(process, signal);
}

/* Another process that is ended by it: a thread of it takes it at once, where one has it open. */
static void end_other(int process, int thread, int signal)
{
    const struct thread *taker = thread ? thread_of_number(thread) : taker_of(process, signal);
    if (signal == SIGKILL)
        await_end_of_process(process);
    else if (taker && takes(taker, signal) && !(taker->mask & bit_of(signal)))
        ask_process(process, TAKE_SIGNAL);
    else
        world->processes[process].is_doomed = true;
}

/* A process was sent a signal. */
static void note_sent(int process, int thread, int signal)
{
    if (!ends(process, signal))
        note_raised(process, thread, signal);
    else if (process == self->process)
        world->processes[process].is_doomed = true;
    else
        end_other(process, thread, signal);
}

/* Nobody may be there any more, once the first process has ended, to say and write what is left. */
static void tell_end_before(const struct trap *trap, int process, int signal)
{
    if (process != 0 || !ends(process, signal))
        return;
    note_call(trap, 0);
    tell_left();
    tell_end();
    end_log();
}

/* The kernel lets any thread take one for the process, and those that wait have all blocked: it is
 * sent to the one that is to have it. */
static long raise_in_process(const struct trap *trap, int process, int signal)
{
    struct thread *taker = ends(process, signal) ? NULL : taker_of(process, signal);
    int number = world->processes[process].number;
    if (process != self->process)
        tell_end_before(trap, process, signal);
    long result = taker && signal != SIGKILL ? kernel(SYS_tgkill, number, taker->number, signal)
                                             : pass_on(trap);
    if (result == 0)
        note_sent(process, taker ? taker->number : 0, signal);
    return result;
}

static void end_own_process(const struct trap *trap)
{
    note_call(trap, 0);
    leave_run(true);
    kernel(SYS_kill, kernel(SYS_getpid), SIGKILL);
}

/* All processes that one call means, but this one; the kernel has sent it to all. */
static void note_sent_to_group(long group, int signal)
{
    for (int i = 0; i < world->process_count; i++)
        if (world->processes[i].takes_turns && i != self->process &&
            (group == -1 || kernel(SYS_getpgid, world->processes[i].number) ==
                                (group ? -group : kernel(SYS_getpgid, 0))))
            note_sent(i, 0, signal);
}

static long refuse_to_stop(const struct trap *trap)
{
    tell_unserved(trap, "a signal that stops a process isn't sent");
    return 0;
}

static long kill_group(const struct trap *trap, long group, int signal)
{
    bool is_own = group == 0 || -group == kernel(SYS_getpgid, 0);
    if (signal == SIGKILL && is_own)
        tell_end_before(trap, 0, signal);
    long result = pass_on(trap);
    if (result < 0 || signal == 0)
        return result;
    note_sent_to_group(group, signal);
    if (is_own)
        note_sent(self->process, 0, signal);
    return result;
}

long serve_kill(struct trap *trap)
{
    int signal = (int)trap->words[1];
    long number = (int)trap->words[0];
    int process = number > 0 ? find_process((int)number) : -1;
    change_world();
    if (stops(signal) && (number <= 0 || process >= 0))
        return refuse_to_stop(trap);
    if (number <= 0)
        return kill_group(trap, number, signal);
    if (process < 0 || signal == 0)
        return pass_on(trap);
    if (process == self->process && signal == SIGKILL)
        end_own_process(trap);
    return raise_in_process(trap, process, signal);
}

/* One for a thread, or queued with a value. */
static long send(struct trap *trap, int process, int thread, int signal)
{
    change_world();
    if (process >= 0 && stops(signal))
        return refuse_to_stop(trap);
    long result = pass_on(trap);
    if (result == 0 && process >= 0 && signal > 0 &&
        (thread != self->number || ends(process, signal)))
        note_sent(process, thread, signal);
    return result;
}

static int process_of_thread(int number)
{
    const struct thread *thread = thread_of_number(number);
    return thread ? thread->process : -1;
}

long serve_thread_kill(struct trap *trap)
{
    bool has_group = trap->call == SYS_tgkill;
    int number = (int)trap->words[has_group ? 1 : 0];
    return send(trap, process_of_thread(number), number, (int)trap->words[has_group ? 2 : 1]);
}

long serve_queue(struct trap *trap)
{
    return send(trap, find_process((int)trap->words[0]), 0, (int)trap->words[1]);
}

long serve_thread_queue(struct trap *trap)
{
    int number = (int)trap->words[1];
    return send(trap, process_of_thread(number), number, (int)trap->words[2]);
}

/* As this thread returns from its call: a signal that ends the process, and isn't blocked, does so
 * then. */
void end_by_signal(uint64_t mask)
{
    struct process *own = process_of(self);
    uint64_t pending = 0;
    if (!own->is_doomed)
        return;
    kernel(SYS_rt_sigpending, &pending, sizeof pending);
    for (int signal = 1; signal <= LAST_SIGNAL; signal++) {
        if (!(pending & ~mask & bit_of(signal)) || !ends(self->process, signal))
            continue;
        note_event("the process is ended by signal", signal);
        leave_run(true);
        return;
    }
}
