/* The signals of a thread that calls; and those that a file grew too large, and that nobody reads
 * what was written. */
#ifndef SIGNALS_H
#define SIGNALS_H

#include "wulgach_enter.h"

#include <signal.h>
#include <stdbool.h>
#include <stdint.h>

/* Reads what the user says of the program's handlers. */
void read_handlers(void);

/* Whether a call of io_uring_enter(2), which waits for so many completions where its flags say so,
 * leaves signals open as it begins. */
bool leaves_signals_open(uint32_t min_complete, uint32_t flags);

/* The signals of a thread in a call. */
struct call_signals {
    sigset_t own; /* those that it has blocked else, */
    bool are_blocked; /* where all are */
};

/* A call begins and ends, with signals open or blocked. */
void begin_signals(struct call_signals *signals, bool is_open);
void end_signals(const struct call_signals *signals);

/* What comes now (enum wulgach_doing): from here on no signal may come, where the library says so.
 * The last two are of an operation. */
void block_signals_before(uint32_t doing, bool is_read, bool is_stream);

/* Whether a signal has ended what came to this, so that it is to be done once more: none may come
 * then. */
bool was_interrupted(int32_t res);

/* Takes the signals that wait, since they are blocked in the call, and that the process would have
 * dropped as they came to a thread with its own mask. */
void take_dropped(const sigset_t *own);

/* Lets them come instead, those too that will, and says which, which are blocked anew after a
 * sleep. A handler that another thread sets for one by then is called. */
void let_dropped(const sigset_t *own, sigset_t *dropped);

/* Takes back the signal of this number that a call has brought, which in a kernel goes to a worker
 * of its own: SIGXFSZ or SIGPIPE, or none (0). It is blocked. One that the program was sent stays
 * pending. */
void take_back_signal(uint32_t signal);

/* From here on a file that would get too long is an error, and not a signal; and no more, where the
 * call between was refused for that or wasn't. */
void hold_long_files(sigset_t *own);
void let_long_files(const sigset_t *own, bool is_refused);

#endif
