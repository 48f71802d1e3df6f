/* Time of a run: each look and each point takes a microsecond, and where nobody can go on it moves
 * to the next moment that is waited for. */
#ifndef TURNS_CLOCKS_H
#define TURNS_CLOCKS_H

#include "turns.h"

serving serve_clock, serve_timeofday, serve_time, serve_processor, serve_nanosleep,
    serve_clock_nanosleep, serve_usage, serve_times, serve_system;

/* What a clock says, without a look. */
uint64_t time_at_clock(int clock);

/* What is left of a span that ends then. */
struct timespec left_until(uint64_t limit);

#endif
