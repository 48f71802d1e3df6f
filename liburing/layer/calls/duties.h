/* What a call does besides submitting, going on and sleeping. */
#ifndef DUTIES_H
#define DUTIES_H

#include "rings/ring.h"

/* As a call begins, or has slept; before it sleeps, unless it is to fail, where it is told whether
 * a poll was told of a write; as it falls asleep; and as it returns. */
void do_duties_at_begin(struct ring *ring, bool has_slept);
bool do_duties_before_sleep(struct ring *ring, bool has_fault);
void do_duties_at_rest(struct ring *ring);
void do_duties_at_return(struct ring *ring);

/* Before a call is told what became of what it wanted. */
void do_duties_at_reply(struct ring *ring, const struct wulgach_reply *reply);

/* Where nothing can go on. True: something was done, so that it is to be asked once more. */
bool do_duties_when_stuck(struct ring *ring);

/* As a call of io_uring_register(2) begins, and returns. */
void do_duties_at_register_begin(struct ring *ring, uint32_t code);
void do_duties_at_register_return(struct ring *ring, uint32_t code);

/* Before a completion is posted that no operation has just ended with, and after those that were
 * posted outside a call. */
void do_duties_before_posting(struct ring *ring);
void do_duties_after_posting(struct ring *ring);

/* After completions that were stored into ring memory, of so many of which an eventfd is told. */
void do_duties_after_storing(struct ring *ring, uint64_t told);

/* Before the operation of a request is carried out. */
void do_duties_before(struct ring *ring, const struct request *request);

#endif
