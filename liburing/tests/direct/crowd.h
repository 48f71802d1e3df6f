/* Rings on which a crowd of requests waits. */
#ifndef CROWD_H
#define CROWD_H

#include "engines.h"

#include <poll.h>

/* Polls of a pipe that nobody writes to, and their user data from this on: so many more at a time,
 * and so many so far. */
enum { CROWD = 40, OTHERS = 1000, MOST = 2000 };

static int quiet[2];
static unsigned crowd;

/* The same beside a crowd that has just come, so that whatever waits is one of many. */
static inline void rest(struct ring *ring)
{
    for (unsigned i = 0; i < CROWD; i++)
        put_plain(ring, IORING_OP_POLL_ADD, OTHERS + crowd++, quiet[0])->poll32_events = POLLIN;
    check(crowd <= MOST && enter(ring, CROWD, 0, 0) == CROWD);
    settle(ring);
}

static inline void make_crowded(struct ring *ring, unsigned entries)
{
    check(pipe(quiet) == 0);
    make_ring(ring, entries, 0, 0);
    crowd = 0;
    rest(ring);
}

/* The crowd waits still: once their pipe is written to each of them ends. */
static inline void leave_crowded(struct ring *ring)
{
    bool has_ended[MOST] = {false};
    settle(ring);
    check(write(quiet[1], "x", 1) == 1);
    for (unsigned i = 0; i < crowd; i++) {
        struct seen found = next_of(ring);
        check(found.user_data >= OTHERS && found.user_data < OTHERS + crowd &&
              found.res == POLLIN && !has_ended[found.user_data - OTHERS]);
        has_ended[found.user_data - OTHERS] = true;
    }
    check(close(quiet[0]) == 0 && close(quiet[1]) == 0);
    close_ring(ring);
}

static inline void expect(struct ring *ring, uint64_t user_data, int32_t res, uint32_t flags)
{
    struct seen found = next_of(ring);
    check(found.user_data == user_data && found.res == res && found.flags == flags);
}

#endif
