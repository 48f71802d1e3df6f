/* Calls in which a ring of such a program posts a completion, and how often the process has
 * written. */
#ifndef POSTS_H
#define POSTS_H

#include "trapped.h"

#include <fcntl.h>
#include <stdlib.h>

static inline void put(const struct ring *ring, struct io_uring_sqe entry)
{
    uint32_t *tail = (uint32_t *)(ring->sq + ring->params.sq_off.tail);
    uint32_t at = *tail & (ring->params.sq_entries - 1);
    ring->entries[at] = entry;
    ((uint32_t *)(ring->sq + ring->params.sq_off.array))[at] = at;
    __atomic_store_n(tail, *tail + 1, __ATOMIC_RELEASE);
}

/* Stores the head behind what is there, and returns the last result. */
static inline int reap(const struct ring *ring)
{
    uint32_t *head = (uint32_t *)(ring->cq + ring->params.cq_off.head);
    uint32_t tail = __atomic_load_n(
        (uint32_t *)(ring->cq + ring->params.cq_off.tail), __ATOMIC_ACQUIRE);
    const struct io_uring_cqe *completions = (const void *)(ring->cq + ring->params.cq_off.cqes);
    WANT(tail != *head);
    __atomic_store_n(head, tail, __ATOMIC_RELEASE);
    return completions[(tail - 1) & (ring->params.cq_entries - 1)].res;
}

/* A call in which one completion is posted, which is reaped then: the descriptor stays readable,
 * since no call has heard of that. */
static inline void post(const struct ring *ring)
{
    put(ring, (struct io_uring_sqe){.opcode = IORING_OP_NOP});
    WANT(enter(ring, 1, 1, NULL) == 1 && reap(ring) == 0);
}

/* The number after a name in a file that tells of this process; 0: it isn't told. */
static inline long told_number(const char *path, const char *name)
{
    char text[4096] = "";
    int file = open(path, O_RDONLY | O_CLOEXEC);
    WANT(file >= 0 && read(file, text, sizeof text - 1) > 0 && close(file) == 0);
    const char *at = strstr(text, name);
    return at ? atol(at + strlen(name)) : 0;
}

/* How many calls of write(2) and its like the process has made, and how many filters it has. */
static inline long count_writes(void)
{
    return told_number("/proc/self/io", "syscw:");
}

static inline long count_filters(void)
{
    return told_number("/proc/self/status", "Seccomp_filters:");
}

#endif
