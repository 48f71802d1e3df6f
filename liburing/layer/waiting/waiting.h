/* Waiting for what the application can't go on without, and time. */
#ifndef WAITING_H
#define WAITING_H

#include "rings/ring.h"
#include "waiting/sleep.h"

/* Waits until something may go on: a stream is ready, a timeout has ended, or another thread's call
 * has changed something. Time is virtual, but where a stream or a thread is waited for. `deadline`
 * is in the ring's time, and the least time or the limit; `masks` the thread's. Returns what came
 * of it, as the library says, and writes the error number of a sleep that failed, or 0. */
enum wulgach_reply_kind wait_for_any(struct ring *ring, const struct wulgach_limit *deadline,
    bool is_least, const struct sleep_masks *masks, int *error);

/* Whether the time of a timeout is over that hasn't ended yet. */
bool has_expired(const struct ring *ring);

/* Whether a timeout runs and no stream is waited for, so that time can pass at once. */
bool can_pass_time(const struct ring *ring);

/* Ends the timeout that ends first, unless a stream is waited for. Where time is real, it is one
 * that is over. */
void pass_time(struct ring *ring);

/* Finds the timeout that ends first, whatever else could go on; and ends it. */
bool find_next_timeout(const struct ring *ring, struct wulgach_timeout *timeout);
void pass_by_choice(struct ring *ring);

/* Where time is real, ends all timeouts that are over. */
void pass_real_time(struct ring *ring);

#endif
