/* Who computes for long without a call is left alone; who seems to spin is interrupted, which no
 * seed decides and is told. */
#ifndef TURNS_WATCH_H
#define TURNS_WATCH_H

#include <signal.h>
#include <stdbool.h>

void begin_watch(void);
void pause_watch(bool is_paused);
void on_tick(int number, siginfo_t *info, void *context);

#endif
