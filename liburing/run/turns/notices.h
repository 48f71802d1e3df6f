/* Signals. All are blocked while a call is served: one that the program sends comes as its thread
 * returns from a call, which is a place that the choices determine. */
#ifndef TURNS_NOTICES_H
#define TURNS_NOTICES_H

#include "turns.h"

serving serve_mask, serve_action, serve_signal_stack, serve_suspend, serve_pause, serve_timed_wait;

/* Signals that are sent (kills.c). */
serving serve_thread_kill, serve_kill, serve_queue, serve_thread_queue;
void end_by_signal(uint64_t mask);

static inline uint64_t bit_of(int signal)
{
    return (uint64_t)1 << (signal - 1);
}

/* Whether a process passes over a signal. */
bool does_nothing(int process, int signal);

/* Whether a thread has one open, or waits for it; and who of a process has one that is sent to it:
 * this thread, if it is open here, else the first that has it open, or waits for it. */
bool takes(const struct thread *thread, int signal);
struct thread *taker_of(int process, int signal);

/* A signal was raised in a process, in the thread of this number, or (0) in any: who waits and has
 * it open goes on. */
void note_raised(int process, int thread, int signal);

/* Signals for the process that another one has sent, while all threads wait: who has one open goes
 * on. */
void hear_outside(void);

/* Whether a call that this thread's signal has interrupted is made again after the handler
 * (SA_RESTART). */
bool is_restarted(void);

/* A wait that another mask goes with: a signal that only this lets through ends it, and has its
 * handler called under that mask. */
long wait_under_mask(struct trap *trap, const uint64_t *mask, long (*wait)(const long *words));

#endif
