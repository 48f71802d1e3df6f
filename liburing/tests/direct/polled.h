/* What tests of a ring's descriptor that polls share. */
#ifndef POLLED_H
#define POLLED_H

#include "engines.h"

#include <poll.h>
#include <pthread.h>
#include <sys/epoll.h>

static inline bool is_readable(const struct ring *ring, int patience)
{
    struct pollfd at = {.fd = ring->fd, .events = POLLIN};
    int result = poll(&at, 1, patience);
    check(result == 0 || (result == 1 && at.revents == POLLIN));
    return result == 1;
}

/* What an event loop does: reaps by peeks until a peek finds nothing. */
static inline unsigned reap_by_peeks(struct ring *ring)
{
    unsigned reaped = 0;
    for (;;) {
        if (count_ready(ring) == 0 && flags_of(ring) & (IORING_SQ_TASKRUN | IORING_SQ_CQ_OVERFLOW))
            check(enter(ring, 0, 0, IORING_ENTER_GETEVENTS) == 0);
        if (count_ready(ring) == 0)
            return reaped;
        reap(ring);
        reaped++;
    }
}

#endif
