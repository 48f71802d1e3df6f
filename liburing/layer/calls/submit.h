/* Submitting: from the entries that stand in ring memory to requests that the core has accepted. */
#ifndef SUBMIT_H
#define SUBMIT_H

#include "rings/ring.h"

/* Submits at most this many positions. Returns how many requests were accepted, or the error that
 * the library says where memory was refused. */
int submit(struct ring *ring, uint32_t count);

/* Makes room for this many more requests in all that grows with them, so that nothing after the
 * call has to fail. False if memory was refused. */
bool reserve_all(struct ring *ring, uint32_t count);

#endif
