/* Programs that processes become. The process keeps its slot, by which the program finds the world
 * (world.c), and has the baton meanwhile. One that loads no library takes no turns from there on.
 */
#define _GNU_SOURCE
#include "chance.h"
#include "descriptors.h"
#include "notices.h"
#include "turns.h"
#include "watch.h"
#include "../run.h"

#include <errno.h>
#include <fcntl.h>

/* What an exec leaves as it is, the next program's loader would meet. */
static long call_exec(const struct trap *trap, uint64_t mask, bool has_watch)
{
    const uint64_t all = ~(uint64_t)0;
    if (has_watch)
        pause_watch(true);
    pause_chance(true);
    kernel(SYS_rt_sigprocmask, SIG_SETMASK, &mask, 0, sizeof mask);
    long result = pass_on(trap);
    kernel(SYS_rt_sigprocmask, SIG_SETMASK, &all, 0, sizeof all);
    pause_chance(false);
    if (has_watch)
        pause_watch(false);
    return result;
}

/* The process isn't of the run any more; the first one ends it. */
static long exec_outside(const struct trap *trap)
{
    enum { NOT_STARTED = 127 };
    uint64_t mask = self->mask;
    bool is_guest = process_of(self)->is_guest;
    tell_outside((const char *)trap->words[trap->call == SYS_execveat ? 1 : 0],
        "it is linked statically, has other rights or no library preloaded");
    leave_run(false);
    long result = call_exec(trap, mask, !is_guest);
    if (is_guest)
        kernel(SYS_exit_group, NOT_STARTED);
    leave_turns();
    return result;
}

static bool reaches(const struct trap *trap)
{
    bool is_at = trap->call == SYS_execveat;
    note_own_calls(true);
    bool result = is_reached(is_at ? (int)trap->words[0] : AT_FDCWD,
        (const char *)trap->words[is_at ? 1 : 0], (char *const *)trap->words[is_at ? 3 : 2]);
    note_own_calls(false);
    return result;
}

long serve_exec(struct trap *trap)
{
    struct process *process = process_of(self);
    note_call(trap, 0);
    if (!reaches(trap))
        return exec_outside(trap);
    process->becomes = true;
    long result = call_exec(trap, self->mask, !process->is_guest);
    process->becomes = false;
    return result;
}

/* A child that shares its parent's memory: little is its own, and the kernel does the rest. */
long serve_guest(struct trap *trap)
{
    switch (trap->call) {
    case SYS_execve:
    case SYS_execveat:
        return serve_exec(trap);
    case SYS_exit:
    case SYS_exit_group:
        return serve_exit_group(trap);
    case SYS_rt_sigprocmask:
        return serve_mask(trap);
    case SYS_rt_sigaction:
        return serve_action(trap);
    case SYS_close:
    case SYS_close_range:
    case SYS_dup2:
    case SYS_dup3:
        return spare_descriptors(trap);
    default:
        return pass_on(trap);
    }
}
