/* Timeouts: when they end, those with a count, and those that are linked to a request. */
#ifndef TIMEOUTS_H
#define TIMEOUTS_H

#include "requests/requests.h"
#include "wulgach_times.h"

struct ring;

/* Whether a request is a timeout. It ends when time says so, or a count, and goes on by no choice.
 */
bool is_timeout(const struct request *request);
bool is_linked_timeout(const struct request *request);

/* Makes sure that so many timeouts can run; false if memory was refused. */
bool reserve_timeouts(struct ring *ring, size_t count);

/* A running timeout ends. Returns its result. */
int32_t end_timeout(struct ring *ring, const struct request *timeout);

/* The timeout that is linked to a request, or NULL. */
struct request *timeout_after(const struct ring *ring, const struct request *request);

/* A request has started, was found by a cancel, or has ended: what that makes of its time, and of
 * that of a timeout which is linked to it, is the library's decision. */
void note_started(struct ring *ring, const struct request *request);
void note_found(struct ring *ring, const struct request *request);
void note_ended(struct ring *ring, const struct request *request);

/* Whether as many completions were posted as a timeout counts. */
bool has_counted(const struct ring *ring, const struct request *timeout);

/* A completion was posted, or a timeout runs no more: notes whether any that runs has counted
 * enough, so that each needn't be asked. */
void note_counts(struct ring *ring);

/* The time of a linked timeout is over: the request that it limits is cancelled. */
void fire_linked_timeout(struct ring *ring, const struct wulgach_timeout *timeout);

/* Sets the time of a running timeout. And that of the linked one that the change names: returns
 * what the change ends with. */
void change_timeout(struct ring *ring, struct request *timeout, const struct request *change);
int32_t change_linked_timeout(struct ring *ring, const struct request *change);

#endif
