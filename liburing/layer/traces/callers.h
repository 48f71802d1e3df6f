/* Who calls: the program's places that a traced submission came from. */
#ifndef CALLERS_H
#define CALLERS_H

struct ring;

/* Where the call that this thread is in returns to. */
void note_caller(const void *address);

/* Notes in the trace, if there is one, the addresses that the call came from: each as
 * FILE+0xOFFSET, the nearest first. */
void trace_callers(struct ring *ring);

#endif
