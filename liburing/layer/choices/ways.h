/* Going on by a choice of the policy's. */
#ifndef WAYS_H
#define WAYS_H

#include "requests/progress.h"

/* Whether the policy chooses between ways. */
bool is_by_choice(void);

/* Makes sure that so many requests may be outstanding; false if memory was refused. */
bool reserve_ways(struct ring *ring, size_t count);

/* A request runs: whether it may have to wait is known. One that would have waited is such a one.
 */
void note_running(struct ring *ring, struct request *request);
void note_patient(struct ring *ring, struct request *request);

/* Says what going on with a request means: before it is done, since it may free the request. */
void describe_way(char *text, size_t size, const struct request *request);

/* Goes on by one choice between all that can go on, of which this is first in order, and, if
 * `may_return`, returning. */
enum progress go_on_by_choice(struct ring *ring, struct request *first, bool may_return);

#endif
