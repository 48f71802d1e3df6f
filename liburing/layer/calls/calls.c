/* What a program calls in the place of the C library's syscall(), mmap() and close(): the layer
 * answers the three calls of io_uring, and hands on all others. liburing's sources call
 * wulgach_polled_syscall, wulgach_mmap and wulgach_close. A program that maps its rings by mmap
 * itself calls wulgach_syscall: its descriptors are memory, and don't poll. Where a call was
 * trapped, all signals are blocked already: wulgach_blocked_enter is told which the thread has
 * blocked else; or none is, where wulgach_leaves_signals_open says that none need be, and it is
 * told so. Whoever hears of a program's closes asks wulgach_may_name_ring before one, and calls
 * wulgach_look_for_closed after it. One that hears all calls wulgach_hear_closes, if the user says
 * so.
 */
#define _GNU_SOURCE
#include "calls/enter.h"
#include "calls/signals.h"
#include "process/process.h"
#include "rings/descriptors.h"
#include "rings/reached.h"
#include "traces/callers.h"
#include "waiting/sleepers.h"

#include <errno.h>
#include <pthread.h>
#include <signal.h>
#include <stdarg.h>
#include <sys/syscall.h>
#include <unistd.h>

#define SEEN __attribute__((visibility("default"), externally_visible))
SEEN long wulgach_syscall(long call, ...);
SEEN long wulgach_polled_syscall(long call, ...);
SEEN long wulgach_blocked_enter(const long words[6], const sigset_t *signals);
SEEN const void *wulgach_note_caller(const void *now);
SEEN void *wulgach_mmap(void *at, size_t size, int protection, int flags, int fd, off_t offset);
SEEN int wulgach_close(int fd);
SEEN bool wulgach_may_name_ring(int fd);
SEEN void wulgach_look_for_closed(void);
SEEN void wulgach_hear_closes(void);
SEEN bool wulgach_leaves_signals_open(const long words[6]);

/* A thread isn't cancelled in the middle of a call, as it isn't in the kernel's: the layer's own
 * calls of the C library would end there, with its locks held. Sleeps that were left by a jump are
 * left first. (it is inlined: where it stands on the stack is where the call does) */
__attribute__((always_inline)) static inline int forbid_cancellation(void)
{
    int before;
    pthread_setcancelstate(PTHREAD_CANCEL_DISABLE, &before);
    if (own_sleeps.innermost)
        before = leave_jumped_sleeps(caller ? caller : &before, before);
    else
        own_sleeps.cancel_state = before;
    return before;
}

static void allow_cancellation(int before)
{
    pthread_setcancelstate(before, NULL);
}

/* The way in which syscall() returns. */
static long returned(long result)
{
    if (result >= 0)
        return result;
    errno = (int)-result;
    return -1;
}

static long call_setup(va_list arguments, bool is_polled)
{
    uint32_t entries = va_arg(arguments, uint32_t);
    return setup(entries, va_arg(arguments, struct io_uring_params *), is_polled);
}

static long call_enter(va_list arguments)
{
    int fd = va_arg(arguments, int);
    uint32_t to_submit = va_arg(arguments, uint32_t);
    uint32_t min_complete = va_arg(arguments, uint32_t);
    uint32_t flags = va_arg(arguments, uint32_t);
    const void *argument = va_arg(arguments, const void *);
    return enter(fd, to_submit, min_complete, flags, argument, va_arg(arguments, size_t), NULL,
        leaves_signals_open(min_complete, flags));
}

static long call_register(va_list arguments)
{
    int fd = va_arg(arguments, int);
    uint32_t code = va_arg(arguments, uint32_t);
    void *argument = va_arg(arguments, void *);
    return register_at(fd, code, argument, va_arg(arguments, uint32_t));
}

static long hand_on(long call, va_list arguments)
{
    long words[6];
    for (int i = 0; i < 6; i++)
        words[i] = va_arg(arguments, long);
    return syscall(call, words[0], words[1], words[2], words[3], words[4], words[5]);
}

static long call_layer(long call, va_list arguments, bool is_polled)
{
    switch (call) {
    case SYS_io_uring_setup:
        return call_setup(arguments, is_polled);
    case SYS_io_uring_enter:
        return call_enter(arguments);
    default:
        return call_register(arguments);
    }
}

static long call_any(long call, va_list arguments, bool is_polled)
{
    if (call != SYS_io_uring_setup && call != SYS_io_uring_enter && call != SYS_io_uring_register)
        return hand_on(call, arguments);
    int before = forbid_cancellation();
    long result = call_layer(call, arguments, is_polled);
    allow_cancellation(before);
    return returned(result);
}

long wulgach_syscall(long call, ...)
{
    va_list arguments;
    note_caller(__builtin_return_address(0));
    va_start(arguments, call);
    long result = call_any(call, arguments, false);
    va_end(arguments);
    return result;
}

long wulgach_polled_syscall(long call, ...)
{
    va_list arguments;
    note_caller(__builtin_return_address(0));
    va_start(arguments, call);
    long result = call_any(call, arguments, true);
    va_end(arguments);
    return result;
}

/* Calls of this thread are made from here on, and run on another stack; or, if NULL, where they are
 * made. Returns what stood so before. */
const void *wulgach_note_caller(const void *now)
{
    const void *before = caller;
    caller = now;
    return before;
}

long wulgach_blocked_enter(const long words[6], const sigset_t *signals)
{
    note_caller(__builtin_return_address(0));
    int before = forbid_cancellation();
    long result = enter((int)words[0], (uint32_t)words[1], (uint32_t)words[2], (uint32_t)words[3],
        (const void *)words[4], (size_t)words[5], signals, !signals);
    allow_cancellation(before);
    return result;
}

void *wulgach_mmap(void *at, size_t size, int protection, int flags, int fd, off_t offset)
{
    int before = forbid_cancellation();
    void *mapped = map_file(at, size, protection, flags, fd, offset);
    allow_cancellation(before);
    return mapped;
}

int wulgach_close(int fd)
{
    int before = forbid_cancellation();
    long result = close_descriptor(fd);
    allow_cancellation(before);
    return (int)returned(result);
}

bool wulgach_leaves_signals_open(const long words[6])
{
    return leaves_signals_open((uint32_t)words[2], (uint32_t)words[3]);
}

bool wulgach_may_name_ring(int fd)
{
    return may_be_ring(fd);
}

/* (a child of vfork has its parent's memory, and descriptors of its own: its closes leave the
 * parent's rings. A process that isn't known has made none) */
void wulgach_look_for_closed(void)
{
    note_close();
    if (!is_known_process())
        return;
    int before = forbid_cancellation();
    let_go_in_handler();
    allow_cancellation(before);
}

void wulgach_hear_closes(void)
{
    hear_closes();
}
