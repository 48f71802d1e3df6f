/* The signals of a thread that calls; and SIGXFSZ and SIGPIPE. The kernel sends these to the thread
 * that made the call, and a thread's own signals are taken before its process's: so the call's is
 * taken first, if there is one. Which of those that are taken is the call's is the library's
 * decision.
 *
 * A handler that comes amid a call may call io_uring, or leave by a jump: so all are blocked in a
 * call, for two system calls. Where WULGACH_HANDLERS says that no handler does anything of the
 * kind, they are blocked from where one would be seen, as the library says.
 */
#define _GNU_SOURCE
#include "calls/signals.h"
#include "process/fault.h"
#include "process/process.h"
#include "wulgach_results.h"

#include <linux/io_uring.h>
#include <stdlib.h>
#include <string.h>
#include <sys/resource.h>
#include <sys/syscall.h>
#include <unistd.h>

static bool
    are_quiet; /* the handlers; read when a ring is set up, while other threads may be in calls */

void read_handlers(void)
{
    const char *word = getenv("WULGACH_HANDLERS");
    bool is_quiet = word && strcmp(word, "quiet") == 0;
    __atomic_store_n(&are_quiet, is_quiet, __ATOMIC_RELAXED);
    demand(is_quiet || !word || !*word || strcmp(word, "any") == 0,
        "WULGACH_HANDLERS is any or quiet");
}

bool leaves_signals_open(uint32_t min_complete, uint32_t flags)
{
    return !wulgach_blocks_at_begin(__atomic_load_n(&are_quiet, __ATOMIC_RELAXED),
        flags & IORING_ENTER_GETEVENTS, min_complete);
}

/* The call that this thread is in, if none is blocked there yet. */
static __thread struct call_signals *open_call;

void begin_signals(struct call_signals *signals, bool is_open)
{
    signals->are_blocked = !is_open;
    open_call = is_open ? signals : NULL;
    if (!is_open)
        block_signals(&signals->own);
}

static void block_open_call(void)
{
    block_signals(&open_call->own);
    open_call->are_blocked = true;
    open_call = NULL;
}

void block_signals_before(uint32_t doing, bool is_read, bool is_stream)
{
    if (open_call && wulgach_blocks_before(doing, is_read, is_stream))
        block_open_call();
}

bool was_interrupted(int32_t res)
{
    bool is_made_again = wulgach_is_made_again(open_call != NULL, res);
    if (is_made_again)
        block_open_call();
    return is_made_again;
}

void end_signals(const struct call_signals *signals)
{
    open_call = NULL;
    if (signals->are_blocked)
        allow_signals(&signals->own);
}

/* Whether it is taken back, by how long a file may get. */
static bool is_to_be_taken(uint32_t signal)
{
    struct rlimit limit = {0};
    bool knows = getrlimit(RLIMIT_FSIZE, &limit) == 0;
    return wulgach_is_taken_back(signal, knows, limit.rlim_cur);
}

/* Takes back the signal of this number that a call has brought, if there is one. */
static void take_back(int signal)
{
    static const struct timespec no_time = {0, 0};
    siginfo_t told;
    sigset_t signals;
    sigemptyset(&signals);
    sigaddset(&signals, signal);
    /* (the C library's call tells a thread's signal as a process's) */
    if (syscall(SYS_rt_sigtimedwait, &signals, &told, &no_time, (size_t)_NSIG / 8) > 0 &&
        !wulgach_is_signal_of_call(told.si_code, told.si_pid == this_process()))
        syscall(SYS_rt_tgsigqueueinfo, this_process(), this_thread(), signal, &told);
}

_Static_assert(SIGXFSZ == 25 && SIGPIPE == 13, "signals count as the library's do");

void take_back_signal(uint32_t signal)
{
    /* (most calls bring none) */
    if (signal != 0 && is_to_be_taken(signal))
        take_back((int)signal);
}

static bool drops(int signal)
{
    struct sigaction action;
    if (sigaction(signal, NULL, &action) != 0)
        return false;
    bool is_ignored = action.sa_handler == SIG_IGN;
    return wulgach_is_dropped(
        (uint32_t)signal, !is_ignored && action.sa_handler != SIG_DFL, is_ignored);
}

/* Those of these that the process drops as they come to a thread with its own mask. */
static sigset_t dropped_of(const sigset_t *these, const sigset_t *own)
{
    sigset_t dropped;
    sigemptyset(&dropped);
    for (int signal = 1; signal < _NSIG; signal++)
        if (sigismember(these, signal) == 1 && sigismember(own, signal) == 0 && drops(signal))
            sigaddset(&dropped, signal);
    return dropped;
}

void take_dropped(const sigset_t *own)
{
    static const struct timespec no_time = {0, 0};
    sigset_t waiting;
    if (sigpending(&waiting) != 0 || sigisemptyset(&waiting))
        return;
    sigset_t dropped = dropped_of(&waiting, own);
    while (!sigisemptyset(&dropped) && sigtimedwait(&dropped, NULL, &no_time) > 0)
        continue;
}

void let_dropped(const sigset_t *own, sigset_t *dropped)
{
    sigset_t these;
    if (sigpending(&these) != 0)
        sigemptyset(&these);
    for (int signal = 1; signal < _NSIG; signal++)
        if (wulgach_is_dropped((uint32_t)signal, false, false))
            sigaddset(&these, signal);
    *dropped = dropped_of(&these, own);
    pthread_sigmask(SIG_UNBLOCK, dropped, NULL);
}

void hold_long_files(sigset_t *own)
{
    sigset_t signals;
    sigemptyset(&signals);
    sigaddset(&signals, SIGXFSZ);
    pthread_sigmask(SIG_BLOCK, &signals, own);
}

void let_long_files(const sigset_t *own, bool is_refused)
{
    if (is_refused)
        take_back_signal(SIGXFSZ);
    pthread_sigmask(SIG_SETMASK, own, NULL);
}
