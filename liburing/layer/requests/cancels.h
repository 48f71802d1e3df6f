/* Requests that act on others: cancels by more than user data, removals and changes of polls and
 * timeouts. */
#ifndef CANCELS_H
#define CANCELS_H

#include "requests/requests.h"

struct ring;
struct wulgach_sought;

/* Whether a running request ends if it is cancelled: else it doesn't wait for anything. */
bool is_cancellable(const struct request *request);

/* A cancel found this request running. It ends when it is next gone on with. */
void cancel_request(struct ring *ring, struct request *request);

/* Whether a request that was submitted after this cancel or removal is to start before it, if the
 * core lets it. */
bool is_due_before(const struct request *seeker, const struct request *request);

/* The core has found that a request runs whose user data this cancel names, which is what `found`
 * tells: cancels the one that the library finds. Says whether that is cancelled; then it ends so
 * when it is next gone on with. If no cancel finds what the core has found, `found` tells that
 * then. */
bool cancel_running(struct ring *ring, const struct request *cancel, int32_t *found);

/* The request that a cancel or a removal finds among those that run and wait, and those that could
 * start; or NULL. */
struct request *find_request(struct ring *ring, const struct request *seeker);

/* Cancels what is sought, whose registered file is looked for, and returns what the canceller ends
 * with, or the call of io_uring_register(2), if there is none (NULL). */
int32_t cancel_sought(
    struct ring *ring, const struct request *canceller, const struct wulgach_sought *sought);

/* Carry out a cancel, the removal or the update of a poll, and of a timeout. */
int32_t cancel_by(struct ring *ring, const struct request *canceller);
int32_t remove_poll(struct ring *ring, const struct request *removal);
int32_t remove_timeout(struct ring *ring, const struct request *removal);

#endif
