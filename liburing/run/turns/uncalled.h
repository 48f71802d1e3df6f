/* Rings on which no thread calls: a request that was submitted goes on all the same. One that can
 * is a candidate as a thread is, once the thread that has called on it last waits elsewhere or has
 * ended; a thread that waits goes on with it. */
#ifndef TURNS_UNCALLED_H
#define TURNS_UNCALLED_H

#include "turns.h"

/* Looks at those of this process. */
void look_at_rings(void);

/* Adds those that can go on to as many candidates, by their places, and returns how many there are
 * then; and the next moment at which one can is among those that are waited for. */
int find_rings(int count, uint64_t *moment);

/* Whether there was any as the next turn was chosen last, whether it could go on or not. */
bool has_uncalled(void);

/* Of the ring at a place: its number, its priority, and the thread that goes on with it. */
uint32_t number_of_ring(int place);
uint64_t *priority_of_ring(int place);
struct thread *thread_for_ring(int place);

/* This thread goes on with the ring that it was given, and waits then as before. */
void go_on_with_ring(void);

#endif
