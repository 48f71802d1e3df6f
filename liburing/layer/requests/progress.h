/* Going on: requests are issued and finished, in an order that the policy chooses and the core
 * allows. */
#ifndef PROGRESS_H
#define PROGRESS_H

#include "rings/ring.h"

enum progress {
    WENT_ON, /* a request was issued or has ended */
    MAY_RETURN, /* the policy chose to return to the application */
    STUCK /* nothing can go on without waiting */
};

/* Whether a running request can be finished without waiting, as the library says. */
bool can_finish(struct ring *ring, struct request *request);

/* Goes on with a request that can be finished or issued, by one event, or by both if they are one
 * choice. */
void go_on_with(struct ring *ring, struct request *request);

/* Goes on by one choice. Returning is a choice only if `may_return`. */
enum progress go_on(struct ring *ring, bool may_return);

/* Whether a request can go on without waiting. */
bool can_go_on(struct ring *ring);

/* Ends the running requests that were cancelled. */
void end_cancelled(struct ring *ring);

/* Ends a running timeout. */
void finish_timeout(struct ring *ring, struct request *timeout);

#endif
