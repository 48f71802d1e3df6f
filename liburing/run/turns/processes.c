/* Processes of the run. What is a process's own, as its descriptors and its memory, is looked at by
 * a thread of it: who runs asks one that is parked, and waits for its answer. Who goes on after a
 * process waits until it is gone, with all that the kernel does of that. */
#define _GNU_SOURCE
#include "dates.h"
#include "notices.h"
#include "turns.h"

#include <linux/futex.h>
#include <poll.h>
#include <string.h>
#include <sys/uio.h>

static const struct timespec a_while = {0, 100000000};

int take_process(int parent)
{
    int slot = 0;
    while (slot < MOST_PROCESSES && world->processes[slot].takes_turns)
        slot++;
    if (slot == MOST_PROCESSES)
        return -1;
    struct process *process = world->processes + slot;
    memset(process, 0, sizeof *process);
    process->takes_turns = true;
    process->parent = parent;
    process->due = NEVER;
    if (parent >= 0)
        memcpy(process->actions, world->processes[parent].actions, sizeof process->actions);
    if (slot >= world->process_count)
        world->process_count = slot + 1;
    world->living++;
    return slot;
}

void free_process(int process)
{
    for (int i = 0; i < world->count; i++)
        if (world->threads[i].process == process)
            world->threads[i].state = FREE;
    if (!world->processes[process].takes_turns)
        return;
    world->processes[process].takes_turns = false;
    world->living--;
    for (int i = 0; i < world->process_count; i++)
        if (world->processes[i].parent == process)
            world->processes[i].parent = -1;
    find_due();
    change_world();
}

int find_process(int number)
{
    for (int i = 0; i < world->process_count; i++)
        if (world->processes[i].takes_turns && world->processes[i].number == number)
            return i;
    return -1;
}

struct thread *parked_thread_of(int process)
{
    for (int i = 0; i < world->count; i++) {
        struct thread *thread = world->threads + i;
        if (thread != self && thread->process == process && lives(thread))
            return thread;
    }
    return NULL;
}

struct thread *parked_elsewhere(void)
{
    for (int i = 0; i < world->count; i++)
        if (!is_own(world->threads + i) && lives(world->threads + i))
            return world->threads + i;
    return NULL;
}

/* A thread that has no memory any more: its process was ended. */
bool is_gone(const struct thread *thread)
{
    enum { NO_SUCH = -3 };
    int word;
    struct iovec to = {&word, sizeof word}, from = {&world->running, sizeof word};
    return thread->number &&
           kernel(SYS_process_vm_readv, thread->number, &to, 1, &from, 1, 0) == NO_SUCH;
}

/* Its descriptors are closed then, and its parent has heard of it. */
static void await_kernel(int number)
{
    struct pollfd ended = {(int)kernel(SYS_pidfd_open, number, 0), POLLIN, 0};
    if (ended.fd < 0)
        return;
    kernel(SYS_ppoll, &ended, 1, 0, 0, sizeof(uint64_t));
    kernel(SYS_close, ended.fd);
}

static void end_others(void)
{
    for (int i = 0; i < world->process_count; i++)
        if (world->processes[i].takes_turns && i != self->process)
            kernel(SYS_kill, world->processes[i].number, SIGKILL);
}

void await_end_of_process(int process)
{
    int parent = world->processes[process].parent;
    await_kernel(world->processes[process].number);
    free_process(process);
    if (process == 0)
        end_run(0);
    note_event("a process has ended:", process + 1);
    wake_sharers();
    if (parent >= 0 && world->processes[parent].takes_turns)
        note_raised(parent, 0, SIGCHLD);
}

void end_run(int status)
{
    if (self->process != 0 && world->processes[0].takes_turns && parked_thread_of(0)) {
        world->status = status;
        ask_process(0, END_RUN);
    }
    end_log();
    end_others();
    kernel(SYS_exit_group, status);
    __builtin_unreachable();
}

static void wake(uint32_t *word)
{
    kernel(SYS_futex, word, FUTEX_WAKE, 1);
}

bool ask_process(int process, enum task task)
{
    struct thread *asked = parked_thread_of(process);
    if (!asked)
        return false;
    world->task = task;
    __atomic_store_n(&world->answered, 0, __ATOMIC_SEQ_CST);
    __atomic_store_n(&asked->baton, GIVEN_TASK, __ATOMIC_SEQ_CST);
    wake(&asked->baton);
    while (__atomic_load_n(&world->answered, __ATOMIC_SEQ_CST) == 0) {
        kernel(SYS_futex, &world->answered, FUTEX_WAIT, 0, &a_while);
        if (__atomic_load_n(&world->answered, __ATOMIC_SEQ_CST) == 0 && is_gone(asked)) {
            await_end_of_process(process);
            return false;
        }
    }
    return true;
}

void do_task(void)
{
    const uint64_t none = 0;
    switch (world->task) {
    case LOOK_AT_OWN:
        look_at_own();
        break;
    case HEAR:
        hear_outside();
        break;
    case FIRE_DATES:
        fire_own_dates();
        break;
    case TELL_PLACES:
        tell_own_places();
        break;
    case TAKE_SIGNAL: /* (it ends the process) */
        kernel(SYS_rt_sigprocmask, SIG_SETMASK, &none, 0, sizeof none);
        break;
    case END_RUN:
        end_run(world->status);
    }
    __atomic_store_n(&world->answered, 1, __ATOMIC_SEQ_CST);
    wake(&world->answered);
}

void ask_others(enum task task)
{
    for (int i = 0; world->living > 1 && i < world->process_count; i++)
        if (world->processes[i].takes_turns && i != self->process)
            ask_process(i, task);
}

/* Whether one waits for what may have come since it was asked last. */
static bool wants_look(int process)
{
    if (world->processes[process].has_rings)
        return true;
    for (int i = 0; i < world->count; i++) {
        const struct thread *thread = world->threads + i;
        if (thread->process == process && thread->state == WAITS && thread->is_ready &&
            thread->asked != world->changes)
            return true;
    }
    return false;
}

void look_at_others(void)
{
    for (int i = 0; world->living > 1 && i < world->process_count; i++)
        if (world->processes[i].takes_turns && i != self->process && wants_look(i))
            ask_process(i, LOOK_AT_OWN);
}

static void leave_baton_to_others(bool ends)
{
    struct thread *next = parked_elsewhere();
    int process = self->process;
    for (int i = 0; i < world->count; i++)
        if (is_own(world->threads + i) && lives(world->threads + i))
            world->threads[i].state = ENDED;
    if (!ends)
        free_process(process);
    if (!next)
        return;
    next->follows_process = ends ? process + 1 : 0;
    next->chooses = true;
    give_baton(next);
}

/* Without it the others are ended. */
void leave_run(bool ends)
{
    if (self->process != 0) {
        leave_baton_to_others(ends);
        return;
    }
    tell_left();
    tell_end();
    end_log();
    end_others();
}

/* One that lives and is before this one would have the baton in its place. */
static bool has_heir_before(int process)
{
    for (int i = 0; i < slot_of(self); i++) {
        const struct thread *other = world->threads + i;
        if (other->process != process && lives(other) && !is_gone(other))
            return true;
    }
    return false;
}

/* A program that has the baton, and hasn't come to take turns for so long, doesn't any more. */
static bool is_lost(int process, int whiles)
{
    enum { MOST_WHILES = 1200 };
    return world->processes[process].becomes && whiles > MOST_WHILES;
}

/* A process that was ended as it had the baton, or is lost, leaves it to the first thread that
 * lives.
 */
bool inherits(int whiles)
{
    int holder = __atomic_load_n(&world->running, __ATOMIC_SEQ_CST);
    int process = world->threads[holder].process;
    bool is_ended = is_gone(world->threads + holder);
    if (process == self->process || (!is_ended && !is_lost(process, whiles)) ||
        has_heir_before(process) ||
        !__atomic_compare_exchange_n(
            &world->running, &holder, slot_of(self), false, __ATOMIC_SEQ_CST, __ATOMIC_SEQ_CST))
        return false;
    self->chooses = true;
    if (is_ended) {
        self->follows_process = process + 1;
        return true;
    }
    tell_outside("a program", "it hasn't come to take them");
    free_process(process);
    return true;
}
