/* Issuing: a request starts, or ends without being carried out, as the core says. */
#ifndef ISSUING_H
#define ISSUING_H

#include "rings/ring.h"

/* Issues a request that can be issued, after those that a kernel issues before it. True if it has
 * started. */
bool issue_waiting(struct ring *ring, struct request *request);

#endif
