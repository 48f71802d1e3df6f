/* A ring's time: virtual, or real under WULGACH_TIME=real. */
#ifndef CLOCK_H
#define CLOCK_H

#include "rings/ring.h"

#include <time.h>

/* Whether timeouts and limits last as long as they say. */
bool is_time_real(void);

/* Nanoseconds of a real clock. */
uint64_t real_time(void);

/* What a clock of the program says, in nanoseconds: it may go with the time that is moved. */
uint64_t time_of_clock(clockid_t clock);

/* Time was moved on, without a sleep. */
void note_moved(uint64_t before, uint64_t after);

/* For behind/clocks.c: that the program's clocks go with it, and how far time was moved on so far.
 */
#define SEEN __attribute__((visibility("default"), externally_visible))
SEEN void wulgach_move_clocks(void);
SEEN uint64_t wulgach_moved_time(void);
#undef SEEN

/* Lets a ring's time begin. */
void start_clock(struct ring *ring);

/* Moves a ring's time on to now, where it is real. */
void catch_up(struct ring *ring);

#endif
