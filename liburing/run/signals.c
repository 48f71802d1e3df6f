/* SIGSYS stays the trap's: a program that asks to catch, ignore or block it, or all signals, is
 * told that it is so, and it isn't; so it is with masks (masks.c) and contexts (contexts.c). What a
 * program says of SIGSYS is kept, so that it is told the same when it asks again, and is done with
 * a SIGSYS that isn't the trap's. One that asks the kernel itself, as the runtime of Go does, is
 * told that it is done, and it isn't.
 *
 * A program that blocks it by a call of its own isn't reached, unless the run has a log: if a
 * thread of its has blocked SIGSYS when it calls io_uring, the kernel ends the program with that
 * signal.
 */
#define _GNU_SOURCE
#include "../layer/traces/logging.h"
#include "files.h"
#include "run.h"

#include <dlfcn.h>
#include <errno.h>
#include <pthread.h>
#include <stddef.h>
#include <stdint.h>
#include <string.h>
#include <sys/syscall.h>
#include <unistd.h>

/* An action as the kernel has it. */
struct raw_action {
    void (*handler)(int, siginfo_t *, void *);
    unsigned long flags;
    void (*restorer)(void);
    uint64_t mask;
};

enum { HAS_RESTORER = 0x04000000 };

static struct sigaction asked = {.sa_handler = SIG_DFL};

static void *next(const char *name)
{
    return dlsym(RTLD_NEXT, name);
}

static int real_sigaction(int number, const struct sigaction *action, struct sigaction *before)
{
    static int (*call)(int, const struct sigaction *, struct sigaction *);
    if (!call)
        *(void **)&call = next("sigaction");
    return call(number, action, before);
}

/* (the C library's two signals of its own are never blocked) */
static int kernels_sigmask(int how, const sigset_t *set, sigset_t *before)
{
    uint64_t mask = 0;
    if (set)
        memcpy(&mask, set, sizeof mask);
    mask &= ~((uint64_t)3 << 31);
    return (int)-pass(
        SYS_rt_sigprocmask, how, set ? (long)&mask : 0, (long)before, sizeof mask, 0, 0);
}

int real_sigmask(int how, const sigset_t *set, sigset_t *before)
{
    static int (*call)(int, const sigset_t *, sigset_t *);
    if (is_logging())
        return kernels_sigmask(how, set, before);
    if (!call)
        *(void **)&call = next("pthread_sigmask");
    return call(how, set, before);
}

long set_action_without_trap(const long words[6])
{
    struct raw_action action;
    if ((size_t)words[3] != sizeof action.mask)
        return -EINVAL;
    if (!read_memory((const void *)words[1], &action, sizeof action))
        return -EFAULT;
    action.mask &= ~((uint64_t)1 << (SIGSYS - 1));
    return pass(SYS_rt_sigaction, words[0], (long)&action, words[2], sizeof action.mask, 0, 0);
}

/* What a handler returns to. Unwinders know it by these bytes, if the byte before them is no
 * function's. */
void return_from_handler(void);
__asm__(
    ".text\n.type return_from_handler, @function\n\tnop\nreturn_from_handler:\n\tmov $15, %rax\n\tsyscall\n.size return_from_handler, .-return_from_handler\n");

bool catch_for_good(void (*handler)(int, siginfo_t *, void *))
{
    struct raw_action action = {handler,
        SA_SIGINFO | SA_NODEFER | SA_RESTART | SA_ONSTACK | HAS_RESTORER, return_from_handler,
        ~OPEN_IN_TRAP};
    return syscall(SYS_rt_sigaction, SIGSYS, &action, NULL, sizeof action.mask, 0, ASKS_KERNEL) ==
           0;
}

/* SIGSYS does what it does by itself. */
static void end_process(void)
{
    struct raw_action action = {.flags = HAS_RESTORER, .restorer = return_from_handler};
    syscall(SYS_rt_sigaction, SIGSYS, &action, NULL, sizeof action.mask, 0, ASKS_KERNEL);
    syscall(SYS_tgkill, getpid(), gettid(), SIGSYS);
}

/* What the program's handler finds blocked: what was where the signal came, and what the program
 * said besides. */
static void block_for(const struct sigaction *action, const ucontext_t *at)
{
    sigset_t mask, own, copy;
    sigemptyset(&own);
    memcpy(&own, &at->uc_sigmask, sizeof(uint64_t));
    sigorset(&mask, &own, &action->sa_mask);
    real_sigmask(SIG_SETMASK, without_trap(&mask, &copy), NULL);
}

void give_signal(int number, siginfo_t *info, ucontext_t *at, bool is_of_filter)
{
    const struct sigaction action = asked;
    bool is_ignored = action.sa_handler == SIG_IGN,
         is_caught = !is_ignored && action.sa_handler != SIG_DFL;
    if (wulgach_seen_ends_process(is_of_filter, is_caught, is_ignored))
        end_process();
    if (!is_caught)
        return;
    if (action.sa_flags & (int)SA_RESETHAND)
        asked = (struct sigaction){.sa_handler = SIG_DFL};
    block_for(&action, at);
    if (action.sa_flags & SA_SIGINFO)
        action.sa_sigaction(number, info, at);
    else
        action.sa_handler(number);
}

const sigset_t *without_trap(const sigset_t *set, sigset_t *copy)
{
    if (!set)
        return NULL;
    *copy = *set;
    sigdelset(copy, SIGSYS);
    return copy;
}

SEEN int sigaction(int number, const struct sigaction *action, struct sigaction *before)
{
    if (number == SIGSYS) {
        if (before)
            *before = asked;
        if (action)
            asked = *action;
        return 0;
    }
    if (!action)
        return real_sigaction(number, NULL, before);
    struct sigaction copy = *action;
    sigdelset(&copy.sa_mask, SIGSYS);
    return real_sigaction(number, &copy, before);
}

SEEN int __sigaction(int number, const struct sigaction *action, struct sigaction *before)
    __attribute__((alias("sigaction"), nothrow, leaf));

/* What a program says of SIGSYS by an older call. */
static sighandler_t note_handler(sighandler_t handler)
{
    const sighandler_t before = asked.sa_handler;
    if (handler != SIG_ERR) {
        asked = (struct sigaction){.sa_handler = handler, .sa_flags = SA_RESTART};
        return before;
    }
    errno = EINVAL;
    return SIG_ERR;
}

/* Of another signal these do as the C library's do, and block no other. */
#define CATCHES(name) \
    SEEN sighandler_t name(int number, sighandler_t handler) \
    { \
        static sighandler_t (*call)(int, sighandler_t); \
        if (!call) \
            *(void **)&call = next(#name); \
        return number == SIGSYS ? note_handler(handler) : call(number, handler); \
    }

CATCHES(signal)
CATCHES(ssignal)
CATCHES(bsd_signal)
CATCHES(sysv_signal)
CATCHES(__sysv_signal)

/* SIGSYS isn't held, whoever asks for that. */
SEEN sighandler_t sigset(int number, sighandler_t handler)
{
    static sighandler_t (*call)(int, sighandler_t);
    if (!call)
        *(void **)&call = next("sigset");
    if (number != SIGSYS)
        return call(number, handler);
    return handler == SIG_HOLD ? asked.sa_handler : note_handler(handler);
}

SEEN int sigignore(int number)
{
    static int (*call)(int);
    if (!call)
        *(void **)&call = next("sigignore");
    if (number != SIGSYS)
        return call(number);
    note_handler(SIG_IGN);
    return 0;
}

SEEN int sighold(int number)
{
    static int (*call)(int);
    if (!call)
        *(void **)&call = next("sighold");
    return number == SIGSYS ? 0 : call(number);
}

SEEN int sigaltstack(const stack_t *stack, stack_t *before)
{
    long result = pass(SYS_sigaltstack, (long)stack, (long)before, 0, 0, 0, 0);
    if (result == 0 && stack)
        note_signal_stack(stack);
    if (result < 0)
        errno = (int)-result;
    return result < 0 ? -1 : 0;
}

SEEN int pthread_sigmask(int how, const sigset_t *set, sigset_t *before)
{
    sigset_t copy;
    return real_sigmask(how, how == SIG_UNBLOCK ? set : without_trap(set, &copy), before);
}

SEEN int sigprocmask(int how, const sigset_t *set, sigset_t *before)
{
    int result = pthread_sigmask(how, set, before);
    if (result == 0)
        return 0;
    errno = result;
    return -1;
}
