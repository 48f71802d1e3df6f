/* Whole calls of the core: it takes a submission at once, and reaps at once what the application
 * has reaped. The steps are made one by one if memory is refused to a whole call, and if a
 * submission has a word that names no slot or goes on with one that was refused. The trace is the
 * same either way: it has each step.
 */
#ifndef WHOLE_CALLS_H
#define WHOLE_CALLS_H

#include "rings/ring.h"

/* Room for what the core is given of as many requests as the ring has slots. False: out of memory.
 */
bool make_entries(struct ring *ring, uint32_t slots);
void free_entries(struct ring *ring);

/* Notes what the core is to have of the request that is staged next. */
void note_entry(struct ring *ring, const struct request *request);

/* Has the core take what is staged, of which it has the first `given` already: those wait for a
 * call. The answer is that of the call's end. False if memory was refused: all of it waits in the
 * core. */
bool submit_staged(struct ring *ring, uint32_t given, struct wulgach_taken *taken);

/* Has the core reap as many completions, of those that are shown the oldest. */
void reap_oldest(struct ring *ring, uint32_t count);

#endif
