/* One ring and a pipe, for tests of the rules in which Linux differs from the manual pages: what
 * has come is expected in order. They are run on a real ring too, if the kernel gives one. */
#ifndef PROFILE_H
#define PROFILE_H

#include "engines.h"

enum { NO_OPERATION = 99 };

static struct ring ring;
static int ends[2]; /* of a pipe */
static char byte;

static inline void begin(unsigned flags)
{
    check(pipe(ends) == 0);
    make_ring(&ring, 16, 0, flags);
}

static inline void stop(void)
{
    check(enter(&ring, 0, 0, IORING_ENTER_GETEVENTS) == 0 && count_ready(&ring) == 0);
    close_ring(&ring);
    close(ends[0]);
    close(ends[1]);
}

/* A read that waits until the pipe is written to. */
static inline void put_waiting(uint64_t user_data, uint8_t flags)
{
    put_transfer(&ring, IORING_OP_READ, user_data, flags, ends[0], &byte, 1, 0);
}

static inline void put_failing(uint64_t user_data, uint8_t flags)
{
    put(&ring, IORING_OP_FSYNC, user_data, flags)->fd = -1;
}

static inline void submit(unsigned count)
{
    check(enter(&ring, count, 0, 0) == (long)count);
}

/* What can go on has, and no other completions than these have come, in this order. */
static inline void expect(unsigned count, const struct completion *wanted)
{
    check(count == 0 || enter(&ring, 0, count, IORING_ENTER_GETEVENTS) == 0);
    for (int i = 0; i < 8; i++)
        check(enter(&ring, 0, 0, IORING_ENTER_GETEVENTS) == 0);
    check(count_ready(&ring) == count);
    for (unsigned i = 0; i < count; i++) {
        struct completion found = reap(&ring);
        check(found.user_data == wanted[i].user_data && found.res == wanted[i].res);
    }
}

#define EXPECT(...) \
    expect(sizeof((struct completion[]){__VA_ARGS__}) / sizeof(struct completion), \
        (struct completion[]){__VA_ARGS__})

static inline void feed(void)
{
    check(write(ends[1], "x", 1) == 1);
}

#endif
