/* Timers that call a function in a thread of its own (SIGEV_THREAD). The C library may start that
 * thread with all signals blocked, SIGSYS among them, as 2.36 does: SIGSYS is opened before the
 * program's function is called.
 *
 * Which function that is, and what it is given, is kept until the process ends, since a thread may
 * come after the end of its timer; the same two are kept once, unless two threads bring them at a
 * time.
 */
#define _GNU_SOURCE
#include "run.h"

#include <dlfcn.h>
#include <signal.h>
#include <stdlib.h>
#include <time.h>

struct notice {
    struct notice *next;
    void (*function)(union sigval);
    union sigval value;
};

enum { LISTS = 256 };
static struct notice *lists[LISTS];

static struct notice **list_of(union sigval value)
{
    return &lists[((uintptr_t)value.sival_ptr ^ (uintptr_t)value.sival_ptr >> 8) % LISTS];
}

static struct notice *find(
    struct notice *notice, void (*function)(union sigval), union sigval value)
{
    while (notice && (notice->function != function || notice->value.sival_ptr != value.sival_ptr))
        notice = notice->next;
    return notice;
}

/* NULL: out of memory. */
static struct notice *keep(void (*function)(union sigval), union sigval value)
{
    struct notice **list = list_of(value), *first = __atomic_load_n(list, __ATOMIC_ACQUIRE),
                  *notice = find(first, function, value);
    if (notice)
        return notice;
    notice = malloc(sizeof *notice);
    if (!notice)
        return NULL;
    *notice = (struct notice){first, function, value};
    while (!__atomic_compare_exchange_n(
        list, &notice->next, notice, true, __ATOMIC_RELEASE, __ATOMIC_RELAXED))
        ;
    return notice;
}

static void call_with_trap(union sigval value)
{
    const struct notice *notice = value.sival_ptr;
    unblock_trap();
    notice->function(notice->value);
}

SEEN int timer_create(clockid_t clock, struct sigevent *event, timer_t *timer)
{
    static int (*call)(clockid_t, struct sigevent *, timer_t *);
    if (!call)
        *(void **)&call = dlsym(RTLD_NEXT, "timer_create");
    if (!event || event->sigev_notify != SIGEV_THREAD)
        return call(clock, event, timer);
    struct sigevent own = *event;
    own.sigev_notify_function = call_with_trap;
    own.sigev_value.sival_ptr = keep(event->sigev_notify_function, event->sigev_value);
    return own.sigev_value.sival_ptr ? call(clock, &own, timer) : -1;
}
