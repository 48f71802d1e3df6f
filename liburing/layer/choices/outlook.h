/* What could go on at each choice, for whoever leaves out runs that only repeat others: under
 * WULGACH_WAYS lines stand among those of WULGACH_CHOICES.
 *
 *   request RING NUMBER OPCODE FLAGS ADDRESS OFFSET LENGTH KIND
 *                       a request that was accepted: its code, its flags, where its bytes lie in
 *                       memory (0: nobody says) and in a file, and how many they are. KIND is
 *                       `plain` if all that it does is to move these bytes, or nothing; else `other`
 *   ways AT RING WAY..  what can go on at choice AT, or at none (-), since there is one way: `i3`
 *                       starts request 3, `e3` ends it without starting it, `f3` finishes it, `b3`
 *                       does both, and `r` returns. Amid the end of request 3 it may be chosen
 *                       which fault that has: `n3` none, `x3.1` the first kind. Before a step it
 *                       may be chosen whether time passes: `n` it doesn't, `t` it does
 *   silent RING NUMBER  a request has ended without a completion
 *   break               time passes; or a peek begins that finds nothing, and returns once anything
 *                       has gone on. What could go on before means something else after it
 */
#ifndef OUTLOOK_H
#define OUTLOOK_H

#include "choices/injection.h"
#include "rings/ring.h"

void record_accepted(const struct ring *ring, const struct request *request);

/* The parts of a line of ways, where they are recorded: that it is of choice `at`, or of none; each
 * way; whether returning is one. */
void record_ways(const struct ring *ring, const uint64_t *at);
void record_way(struct ring *ring, const struct request *way);
void record_return(bool may_return);

/* The faults that a request can have, as choice `at`. */
void record_faults(const struct ring *ring, const struct request *request, uint64_t at,
    const enum injection *faults, uint32_t count);

/* Whether time passes, as choice `at`. */
void record_passing(const struct ring *ring, uint64_t at);

void record_silent_end(const struct ring *ring, const struct request *request);

void record_break(void);

#endif
