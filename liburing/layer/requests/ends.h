/* The end of a request: what it makes of others, and what is seen of it. */
#ifndef ENDS_H
#define ENDS_H

#include "rings/ring.h"

/* A running request was carried out, and would have waited. */
void note_wait(struct ring *ring, struct request *request);

/* A request has ended: its completion is queued, and others are told of it. */
void end_of(struct ring *ring, struct request *request, int32_t res, int32_t told);

/* What the application sees of a request that the core ends without letting it start. `next`: of a
 * cancel, what it would have found that could start, or NULL. */
int32_t shown_of(
    struct ring *ring, const struct request *request, struct request *next, int32_t res);

#endif
