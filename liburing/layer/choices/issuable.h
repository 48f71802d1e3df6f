/* Which requests the core lets start: asked of it, and kept as long as that holds. */
#ifndef ISSUABLE_H
#define ISSUABLE_H

#include "rings/ring.h"

/* How many there are, the one at a place among them, by rising number, and the place of one. */
uint32_t how_many_issuable(struct ring *ring);
struct request *issuable_at(struct ring *ring, uint32_t place);
uint32_t place_of_issuable(struct ring *ring, const struct request *request);

/* As `issuable_at`, of one after the other, of which this stands before it, or NULL. */
struct request *issuable_after(struct ring *ring, uint32_t place, const struct request *before);

/* The least of them, or NULL. */
struct request *first_issuable(struct ring *ring);

/* Requests were accepted, this number and those after it. Room was reserved. */
void note_issuable(struct ring *ring, uint64_t first);

/* One was issued. */
void note_issued(struct ring *ring, const struct request *request);

/* One has ended, of which the core was told this: what that makes of others. */
void note_issuable_after(struct ring *ring, const struct request *ended, int32_t told);

#endif
