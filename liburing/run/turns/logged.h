/* Calls that change files, where the run has a log of these for power failures
 * (layer/traces/log.h). */
#ifndef TURNS_LOGGED_H
#define TURNS_LOGGED_H

#include "turns.h"

/* Puts a call into the log, and carries it out. False: it isn't logged. */
bool serve_logged(const struct trap *trap, long *result);

/* Whether a call is of the log's own. */
bool is_of_log(const struct trap *trap);

/* The process ends: what was written through memory is seen for the last time. */
void end_logged(void);

#endif
