/* Moments at which something happens by itself: alarms, intervals, timers of a process, and timers
 * that are descriptors. */
#ifndef TURNS_DATES_H
#define TURNS_DATES_H

#include "turns.h"

serving serve_alarm, serve_setitimer, serve_getitimer, serve_timer_create, serve_timer_settime,
    serve_timer_gettime, serve_timer_delete, serve_timer_overruns;
serving serve_timerfd_create, serve_timerfd_settime, serve_timerfd_gettime;

/* What is due by now happens, of all processes and of this one; when the next is due is found anew;
 * and a process that is made has none. */
void fire_dates(void);
void fire_own_dates(void);
void find_due(void);
void forget_dates(void);

/* A descriptor is closed: it is no timer. */
void forget_timer(int fd);

#endif
