/* Timers on the run's time. A timer of descriptors is an eventfd, into which is written as it is
 * due. One whose expiry is a signal raises it at a point, in the thread that it names or in one
 * that has it open. */
#define _GNU_SOURCE
#include "dates.h"
#include "descriptors.h"
#include "notices.h"

#include <errno.h>
#include <fcntl.h>
#include <poll.h>
#include <signal.h>
#include <string.h>
#include <sys/time.h>
#include <sys/timerfd.h>

enum { MOST_DATES = 256, OF_TIMER = -2 };

enum kind { NONE, INTERVAL, TIMER, DESCRIPTOR };

static struct date {
    enum kind kind;
    int number; /* of the descriptor, or of the signal */
    int thread; /* that has the signal, or 0 */
    bool is_date, is_quiet;
    union sigval value;
    uint64_t due, interval;
} dates[MOST_DATES];

void find_due(void)
{
    struct process *own = process_of(self);
    own->due = world->due = NEVER;
    for (int i = 0; i < MOST_DATES; i++)
        if (dates[i].kind != NONE && dates[i].due && dates[i].due < own->due)
            own->due = dates[i].due;
    for (int i = 0; i < world->process_count; i++)
        if (world->processes[i].takes_turns && world->processes[i].due < world->due)
            world->due = world->processes[i].due;
}

void forget_dates(void)
{
    memset(dates, 0, sizeof dates);
}

static struct date *take_date(enum kind kind)
{
    for (int i = 1; i < MOST_DATES; i++)
        if (dates[i].kind == NONE) {
            dates[i] = (struct date){.kind = kind};
            return dates + i;
        }
    return NULL;
}

static void raise_for(const struct date *date, int index)
{
    siginfo_t info;
    int process = (int)kernel(SYS_getpid);
    memset(&info, 0, sizeof info);
    info.si_signo = date->number;
    info.si_code = date->kind == TIMER ? OF_TIMER : SI_KERNEL;
    info.si_value = date->value;
    info.si_timerid = index;
    if (date->kind == TIMER)
        info.si_value = date->value;
    if (date->thread)
        kernel(SYS_rt_tgsigqueueinfo, process, date->thread, date->number, &info);
    else if (date->kind == TIMER)
        kernel(SYS_rt_sigqueueinfo, process, date->number, &info);
    else
        kernel(SYS_kill, process, date->number);
    note_raised(self->process, date->thread, date->number);
}

static void fire(struct date *date)
{
    const uint64_t one = 1;
    date->due = date->interval ? world->now + date->interval : 0;
    change_world();
    if (date->kind == DESCRIPTOR)
        kernel(SYS_write, date->number, &one, sizeof one);
    else if (!date->is_quiet)
        raise_for(date, (int)(date - dates));
}

void fire_own_dates(void)
{
    for (int i = 0; i < MOST_DATES; i++)
        if (dates[i].kind != NONE && dates[i].due && dates[i].due <= world->now)
            fire(dates + i);
    find_due();
}

void fire_dates(void)
{
    if (world->due > world->now)
        return;
    for (int i = 0; i < world->process_count; i++)
        if (world->processes[i].takes_turns && world->processes[i].due <= world->now) {
            if (i == self->process)
                fire_own_dates();
            else
                ask_process(i, FIRE_DATES);
        }
}

static uint64_t ns_of_value(const struct timeval *value)
{
    return (uint64_t)value->tv_sec * SECOND + (uint64_t)value->tv_usec * 1000;
}

static struct timeval value_of(uint64_t ns)
{
    return (struct timeval){(time_t)(ns / SECOND), (long)(ns % SECOND / 1000)};
}

static uint64_t left_of(const struct date *date)
{
    return date->due > world->now ? date->due - world->now : date->due ? 1 : 0;
}

/* ITIMER_REAL and alarm(2) are one timer, the first. */
static void set_interval(uint64_t first, uint64_t interval)
{
    dates[0] = (struct date){.kind = INTERVAL,
        .number = SIGALRM,
        .due = first ? world->now + first : 0,
        .interval = interval};
    find_due();
}

long serve_alarm(struct trap *trap)
{
    uint64_t left = left_of(dates);
    set_interval((uint64_t)(unsigned)trap->words[0] * SECOND, 0);
    return (long)((left + SECOND - 1) / SECOND);
}

static void tell_interval(struct itimerval *to)
{
    if (to)
        *to = (struct itimerval){value_of(dates[0].interval), value_of(left_of(dates))};
}

/* Those of the processor's time never come: a run has no such time. */
long serve_setitimer(struct trap *trap)
{
    const struct itimerval *value = (const struct itimerval *)trap->words[1];
    if (trap->words[0] != ITIMER_REAL) {
        tell_unserved(trap, "a timer of the processor's time isn't set");
        return 0;
    }
    tell_interval((struct itimerval *)trap->words[2]);
    if (value)
        set_interval(ns_of_value(&value->it_value), ns_of_value(&value->it_interval));
    return 0;
}

long serve_getitimer(struct trap *trap)
{
    if (trap->words[0] == ITIMER_REAL)
        tell_interval((struct itimerval *)trap->words[1]);
    else
        memset((void *)trap->words[1], 0, sizeof(struct itimerval));
    return 0;
}

static bool is_date_clock(long clock)
{
    return clock == CLOCK_REALTIME || clock == CLOCK_REALTIME_ALARM || clock == CLOCK_TAI;
}

long serve_timer_create(struct trap *trap)
{
    const struct sigevent *event = (const struct sigevent *)trap->words[1];
    struct date *date = take_date(TIMER);
    if (!date)
        return -EAGAIN;
    int index = (int)(date - dates);
    date->is_date = is_date_clock(trap->words[0]);
    date->number = event ? event->sigev_signo : SIGALRM;
    date->is_quiet = event && event->sigev_notify == SIGEV_NONE;
    date->thread = event && event->sigev_notify & SIGEV_THREAD_ID ? event->_sigev_un._tid : 0;
    if (event)
        date->value = event->sigev_value;
    else
        date->value.sival_int = index;
    *(int *)trap->words[2] = index;
    return 0;
}

static struct date *date_of(long index, enum kind kind)
{
    return index >= 0 && index < MOST_DATES && dates[index].kind == kind ? dates + index : NULL;
}

static struct timespec span_of(uint64_t ns)
{
    return (struct timespec){(time_t)(ns / SECOND), (long)(ns % SECOND)};
}

static void tell_date(const struct date *date, struct itimerspec *to)
{
    if (to)
        *to = (struct itimerspec){span_of(date->interval), span_of(left_of(date))};
}

static void set_date(struct date *date, bool is_absolute, const struct itimerspec *value)
{
    uint64_t first = ns_of(&value->it_value);
    date->due = !first ? 0 : !is_absolute ? world->now + first : limit_at(date->is_date, first) + 1;
    date->interval = ns_of(&value->it_interval);
    find_due();
}

long serve_timer_settime(struct trap *trap)
{
    struct date *date = date_of(trap->words[0], TIMER);
    if (!date)
        return -EINVAL;
    tell_date(date, (struct itimerspec *)trap->words[3]);
    set_date(date, trap->words[1] & TIMER_ABSTIME, (const struct itimerspec *)trap->words[2]);
    return 0;
}

long serve_timer_gettime(struct trap *trap)
{
    const struct date *date = date_of(trap->words[0], TIMER);
    if (!date)
        return -EINVAL;
    tell_date(date, (struct itimerspec *)trap->words[1]);
    return 0;
}

long serve_timer_overruns(struct trap *trap)
{
    return date_of(trap->words[0], TIMER) ? 0 : -EINVAL;
}

long serve_timer_delete(struct trap *trap)
{
    struct date *date = date_of(trap->words[0], TIMER);
    if (!date)
        return -EINVAL;
    date->kind = NONE;
    find_due();
    return 0;
}

static struct date *date_of_descriptor(int fd)
{
    for (int i = 1; i < MOST_DATES; i++)
        if (dates[i].kind == DESCRIPTOR && dates[i].number == fd)
            return dates + i;
    return NULL;
}

void forget_timer(int fd)
{
    struct date *date = date_of_descriptor(fd);
    if (date) {
        date->kind = NONE;
        find_due();
    }
}

long serve_timerfd_create(struct trap *trap)
{
    struct date *date = take_date(DESCRIPTOR);
    if (!date)
        return -EMFILE;
    long fd = kernel(SYS_eventfd2, 0, trap->words[1] & (O_NONBLOCK | O_CLOEXEC));
    if (fd < 0) {
        date->kind = NONE;
        return fd;
    }
    set_kind(fd, INSIDE);
    date->number = (int)fd;
    date->is_date = is_date_clock(trap->words[0]);
    return fd;
}

/* What it has counted is gone as it is set. */
static void empty(int fd)
{
    const struct timespec zero = {0, 0};
    struct pollfd polled = {fd, POLLIN, 0};
    uint64_t count;
    if (kernel(SYS_ppoll, &polled, 1, &zero, 0, sizeof(uint64_t)) > 0)
        kernel(SYS_read, fd, &count, sizeof count);
}

long serve_timerfd_settime(struct trap *trap)
{
    struct date *date = date_of_descriptor((int)trap->words[0]);
    if (!date)
        return -EINVAL;
    tell_date(date, (struct itimerspec *)trap->words[3]);
    empty(date->number);
    set_date(date, trap->words[1] & TFD_TIMER_ABSTIME, (const struct itimerspec *)trap->words[2]);
    return 0;
}

long serve_timerfd_gettime(struct trap *trap)
{
    const struct date *date = date_of_descriptor((int)trap->words[0]);
    if (!date)
        return -EINVAL;
    tell_date(date, (struct itimerspec *)trap->words[1]);
    return 0;
}
