/* Sleeping in a call, without the ring's lock and with the application's signals. */
#ifndef SLEEP_H
#define SLEEP_H

#include "rings/ring.h"

#include <signal.h>

/* Whether the process may have another thread, which could call on a ring. */
bool has_threads(void);

/* The masks of a thread whose call sleeps: its own, and the one to sleep with. */
struct sleep_masks {
    const sigset_t *own, *asleep;
};

/* Sleeps until a stream is ready, another thread's call has changed something, or the ring's time
 * would be `until`. Adds the time that was slept to virtual time. Returns what it came to: the
 * negative of an error number, or how many descriptors have ended it. */
int sleep_until(
    struct ring *ring, const struct wulgach_limit *until, const struct sleep_masks *masks);

/* Wakes the threads that sleep on a ring, if anything has changed since they were last woken. */
void wake_sleepers(struct ring *ring);

#endif
