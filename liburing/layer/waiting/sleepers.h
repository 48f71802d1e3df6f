/* The threads that sleep in calls. A signal's handler may leave a sleep by a jump, which ends it as
 * the end of its thread does: it is left when its thread calls next, or ends.
 */
#ifndef SLEEPERS_H
#define SLEEPERS_H

#include <poll.h>
#include <signal.h>
#include <stddef.h>
#include <stdint.h>

struct ring;

/* A thread that sleeps in a call on a ring. It stands in memory of the layer's: the call's stack is
 * gone after a jump. */
struct sleeper {
    int wake; /* an eventfd that another's call writes to; or negative */
    int instance; /* an epoll instance by which it sleeps; or negative */
    struct sleeper *next; /* of the same ring */
    struct sleeper
        *outer; /* of the same thread: the sleep in which a handler came that has called; or NULL */
    struct ring *ring;
    const volatile uint64_t
        *place; /* on the call's stack, where this mark stands while the sleep lasts */
    uint64_t mark;
    const volatile void *from; /* where its call was made, or this place */
    stack_t for_handlers; /* the stack on which the thread's handlers ran as it began */
    struct pollfd polled[]; /* what it polls */
};

/* What a thread has: the innermost sleep, or NULL; and of its outermost call, whether the thread
 * could be cancelled as it began, and how. */
struct sleeps {
    struct sleeper *innermost;
    int cancel_state, cancel_type;
};

extern __thread struct sleeps own_sleeps;

/* Where this thread's stack stood as the call was made that runs on another; or NULL: it runs on
 * that stack. */
extern __thread const void *caller;

/* Begins a sleep of this thread, which polls so many at most, and whose mark stands at this place;
 * NULL if memory was refused. */
struct sleeper *begin_sleep(struct ring *ring, size_t most, volatile uint64_t *place);

/* Ends this thread's sleep: first, without the ring's lock, those that a handler has begun in it
 * and left; and then, with that lock, itself. */
void leave_inner_sleeps(const struct sleeper *sleeper);
void end_sleep(struct sleeper *sleeper);

/* A call begins, with its frame here, of a thread that sleeps or has left a sleep by a jump: leaves
 * those that were left so. Returns whether the thread can be cancelled outside of its calls, which
 * it was told just now. */
int leave_jumped_sleeps(const void *here, int cancel_state);

#endif
