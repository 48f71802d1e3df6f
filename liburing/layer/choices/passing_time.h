/* Whether time passes before anything else goes on, by choice, as WULGACH_TIMEOUTS says. */
#ifndef PASSING_TIME_H
#define PASSING_TIME_H

#include "rings/ring.h"

/* What passes before anything else goes on. */
enum passing { NO_TIME_PASSES, A_TIMEOUT_ENDS, THE_WAIT_ENDS };

/* Reads the environment, once. */
void read_passing_time(void);

/* Chooses, where a timeout runs, or the call waits for a time at most, since it may not return. */
enum passing choose_passing(struct ring *ring, bool may_return);

#endif
