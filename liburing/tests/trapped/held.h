/* Rings that keep a pipe's end open, by which a test sees whether they are gone. */
#ifndef HELD_H
#define HELD_H

#include "trapped.h"

#include <fcntl.h>

static inline void unmap(const struct ring *ring)
{
    size_t size = ring->params.cq_off.cqes + ring->params.cq_entries * sizeof(struct io_uring_cqe);
    WANT(munmap(ring->sq, size) == 0 && munmap(ring->cq, size) == 0);
    WANT(munmap(ring->entries, ring->params.sq_entries * sizeof *ring->entries) == 0);
}

/* A ring that keeps a pipe's end open; the other one goes to `read`. */
static inline struct ring holding(int *read)
{
    int ends[2];
    struct ring ring = set_up(0);
    WANT(pipe2(ends, O_CLOEXEC) == 0);
    WANT(call(SYS_io_uring_register, ring.fd, IORING_REGISTER_FILES, (long)&ends[1], 1, 0, 0) == 0);
    WANT(close(ends[1]) == 0);
    unmap(&ring);
    *read = ends[0];
    return ring;
}

/* Whether a pipe's other end is open still. */
static inline bool is_held(int read)
{
    struct pollfd polled = {.fd = read, .events = POLLIN};
    return poll(&polled, 1, 0) == 0;
}

#endif
