/* Calls that wait with another mask, or give a thread one: SIGSYS stays open in it, since a handler
 * that comes meanwhile may call io_uring. And the older calls whose masks are of 32 signals; and,
 * where the run has a log, the kernel's own call. */
#define _GNU_SOURCE
#include "files.h"
#include "run.h"

#include <dlfcn.h>
#include <errno.h>
#include <poll.h>
#include <pthread.h>
#include <signal.h>
#include <sys/epoll.h>
#include <sys/select.h>
#include <time.h>

/* The C library's function of this name, which is looked up once. */
#define REAL(type, name, arguments) \
    static type(*name) arguments; \
    if (!name) \
    *(void **)&name = dlsym(RTLD_NEXT, #name)

SEEN int sigsuspend(const sigset_t *set)
{
    REAL(int, sigsuspend, (const sigset_t *));
    sigset_t copy;
    return sigsuspend(without_trap(set, &copy));
}

SEEN int __sigsuspend(const sigset_t *set) __attribute__((alias("sigsuspend"), nonnull(1)));

/* SIGSYS in a mask of 32 signals. */
enum { TRAP = 1 << (SIGSYS - 1) };

SEEN int sigsetmask(int mask)
{
    REAL(int, sigsetmask, (int));
    return sigsetmask(mask & ~TRAP);
}

SEEN int sigblock(int mask)
{
    REAL(int, sigblock, (int));
    return sigblock(mask & ~TRAP);
}

/* (the header's sigpause is another, which takes a signal and no mask) */
SEEN int pause_with(int mask) __asm__("sigpause");

int pause_with(int mask)
{
    static int (*call)(int);
    if (!call)
        *(void **)&call = dlsym(RTLD_NEXT, "sigpause");
    return call(mask & ~TRAP);
}

SEEN int __sigpause(int mask_or_signal, int is_signal)
{
    REAL(int, __sigpause, (int, int));
    return __sigpause(is_signal ? mask_or_signal : mask_or_signal & ~TRAP, is_signal);
}

SEEN int ppoll(
    struct pollfd *polled, nfds_t count, const struct timespec *time, const sigset_t *set)
{
    REAL(int, ppoll, (struct pollfd *, nfds_t, const struct timespec *, const sigset_t *));
    sigset_t copy;
    return ppoll(polled, count, time, without_trap(set, &copy));
}

/* What a compiler makes of it that checks the size of an array. */
SEEN int __ppoll_chk(struct pollfd *polled, nfds_t count, const struct timespec *time,
    const sigset_t *set, size_t size)
{
    REAL(int, __ppoll_chk,
        (struct pollfd *, nfds_t, const struct timespec *, const sigset_t *, size_t));
    sigset_t copy;
    return __ppoll_chk(polled, count, time, without_trap(set, &copy), size);
}

SEEN int pselect(int count, fd_set *read, fd_set *written, fd_set *exceptional,
    const struct timespec *time, const sigset_t *set)
{
    REAL(int, pselect,
        (int, fd_set *, fd_set *, fd_set *, const struct timespec *, const sigset_t *));
    sigset_t copy;
    return pselect(count, read, written, exceptional, time, without_trap(set, &copy));
}

SEEN int epoll_pwait(
    int instance, struct epoll_event *events, int most, int time, const sigset_t *set)
{
    REAL(int, epoll_pwait, (int, struct epoll_event *, int, int, const sigset_t *));
    sigset_t copy;
    return epoll_pwait(instance, events, most, time, without_trap(set, &copy));
}

/* (a C library before 2.35 hasn't it) */
SEEN int epoll_pwait2(int instance, struct epoll_event *events, int most,
    const struct timespec *time, const sigset_t *set)
{
    REAL(int, epoll_pwait2,
        (int, struct epoll_event *, int, const struct timespec *, const sigset_t *));
    sigset_t copy;
    if (epoll_pwait2)
        return epoll_pwait2(instance, events, most, time, without_trap(set, &copy));
    errno = ENOSYS;
    return -1;
}

SEEN int pthread_attr_setsigmask_np(pthread_attr_t *attributes, const sigset_t *set)
{
    REAL(int, pthread_attr_setsigmask_np, (pthread_attr_t *, const sigset_t *));
    sigset_t copy;
    return pthread_attr_setsigmask_np
               ? pthread_attr_setsigmask_np(attributes, without_trap(set, &copy))
               : ENOSYS;
}

/* (the thread has its own mask meanwhile, and goes on with what that is after the call) */
long set_mask_without_trap(const long words[6], ucontext_t *at)
{
    uint64_t mask;
    if ((size_t)words[3] != sizeof mask)
        return -EINVAL;
    if (!read_memory((const void *)words[1], &mask, sizeof mask))
        return -EFAULT;
    mask &= ~((uint64_t)1 << (SIGSYS - 1));
    long result = pass(SYS_rt_sigprocmask, words[0], (long)&mask, words[2], sizeof mask, 0, 0);
    pass(SYS_rt_sigprocmask, SIG_SETMASK, 0, (long)&at->uc_sigmask, sizeof mask, 0, 0);
    return result;
}
