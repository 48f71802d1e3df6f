/* Which rules of the core a run meets: how requests stand is what the core says of them, and how
 * they end is what it answers.
 */
#ifndef RULES_H
#define RULES_H

#include "rings/ring.h"

/* How a request stands, when it is accepted and whenever it is to be issued. */
void note_standing(struct ring *ring, const struct request *request);

/* A call has accepted the requests from this number on. */
void note_accepted(struct ring *ring, uint64_t first);

/* A request ends, with what the core was told or says. */
void note_outcome(const struct request *request, int32_t told);

#endif
