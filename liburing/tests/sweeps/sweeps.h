/* What sweeps share. A case is some requests on a ring, and prints one line: what it is, a colon,
 * and what came of it, the same on any ring. */
#ifndef SWEEPS_H
#define SWEEPS_H

#define _GNU_SOURCE
#include "../direct/engines.h"
#include "../direct/sockets.h"

#include <netinet/in.h>
#include <signal.h>
#include <sys/eventfd.h>
#include <sys/uio.h>

#define count_of(list) (sizeof(list) / sizeof *(list))

/* The user data of the request that a case is about, by which what is late of another case is
 * passed over; and that of a cancel of it. */
static uint64_t subject = 1000;
#define ASIDE UINT64_MAX

/* How many nanoseconds a case waits for what may never come. */
static inline long long limit(void)
{
    const char *said = getenv("SWEEP_LIMIT");
    return (said ? atoi(said) : 15) * 1000000LL;
}

/* Whether a completion is there, or comes in time, of this case. */
static inline bool comes(struct ring *ring, struct seen *seen)
{
    for (;;) {
        if (count_ready(ring) == 0)
            enter_for(ring, 1, limit());
        if (count_ready(ring) == 0)
            return false;
        *seen = next_of(ring);
        if (seen->user_data >= subject)
            return true;
    }
}

/* Prints a completion's result, and its flags but that a socket has more. */
static inline void tell(const struct seen *seen)
{
    uint32_t flags = seen->flags & ~IORING_CQE_F_SOCK_NONEMPTY;
    printf(" %d", seen->res);
    if (flags)
        printf(" (flags %x)", flags);
}

/* Cancels the request of the case, and prints what it ends with. */
static inline void tell_cancelled(struct ring *ring)
{
    struct seen seen;
    put(ring, IORING_OP_ASYNC_CANCEL, ASIDE, 0)->addr = subject;
    enter(ring, 1, 0, 0);
    for (bool is_over = false; !is_over && comes(ring, &seen);) {
        is_over = seen.user_data != ASIDE && !(seen.flags & IORING_CQE_F_MORE);
        if (seen.user_data != ASIDE)
            tell(&seen);
    }
}

/* The entry of a case. */
static inline struct io_uring_sqe *begin(
    struct ring *ring, uint8_t code, int fd, const void *at, unsigned length, uint64_t offset)
{
    struct io_uring_sqe *entry = put(ring, code, ++subject, 0);
    entry->fd = fd;
    entry->addr = (uintptr_t)at;
    entry->len = length;
    entry->off = offset;
    return entry;
}

/* Prints what the request of a case ends with: or that it waits, and what it ends with when it is
 * cancelled. */
static inline void tell_end(struct ring *ring)
{
    struct seen seen = {.flags = IORING_CQE_F_MORE};
    check(enter(ring, 1, 0, 0) == 1);
    while (seen.flags & IORING_CQE_F_MORE && comes(ring, &seen))
        tell(&seen);
    if (seen.flags & IORING_CQE_F_MORE) {
        printf(" waits");
        tell_cancelled(ring);
    }
    printf("\n");
}

static inline int by_number(const void *left, const void *right)
{
    const struct seen *a = left, *b = right;
    return a->user_data != b->user_data ? a->user_data < b->user_data ? -1 : 1 : 0;
}

/* Prints completions, those of one number together, by how much it is above the first's. */
static inline void tell_sorted(struct seen *found, size_t count)
{
    for (size_t i = 1; i < count; i++)
        for (size_t at = i; at > 0 && by_number(&found[at - 1], &found[at]) > 0; at--) {
            struct seen one = found[at];
            found[at] = found[at - 1];
            found[at - 1] = one;
        }
    for (size_t i = 0; i < count; i++) {
        if (i == 0 || found[i].user_data != found[i - 1].user_data)
            printf(" %d.", (int)(found[i].user_data - subject));
        tell(&found[i]);
    }
}

/* Submits what was put, and prints the completions of this case that come in time. */
static inline void tell_all(struct ring *ring, const char *after)
{
    struct seen found[32];
    size_t count = 0;
    enter(ring, 16, 0, 0);
    while (count < count_of(found) && comes(ring, &found[count]))
        count++;
    printf(" %s:", after);
    tell_sorted(found, count);
    printf(";");
}

/* The same of what is there at once. */
static inline void tell_now(struct ring *ring, const char *after)
{
    struct seen found[32];
    size_t count = 0;
    enter(ring, 16, 0, IORING_ENTER_GETEVENTS);
    enter(ring, 0, 0, IORING_ENTER_GETEVENTS);
    while (count < count_of(found) && count_ready(ring) > 0)
        found[count++] = next_of(ring);
    printf(" %s:", after);
    tell_sorted(found, count);
    printf(";");
}

/* A file of ten bytes that has no name. */
static inline int make_digits(int flags)
{
    char path[] = "/tmp/sweep.XXXXXX";
    int fd = mkostemp(path, flags);
    check(fd >= 0);
    check(unlink(path) == 0 && write(fd, "0123456789", 10) == 10);
    return fd;
}

/* Fills what is written to by pieces of so many bytes. */
static inline void fill(int fd, size_t piece)
{
    static const char bytes[65536];
    int flags = fcntl(fd, F_GETFL);
    fcntl(fd, F_SETFL, flags | O_NONBLOCK);
    for (int i = 0; i < 3; i++, usleep(2000))
        while (write(fd, bytes, piece) > 0)
            ;
    fcntl(fd, F_SETFL, flags);
}

/* Takes what can be read. */
static inline void empty(int fd)
{
    char bytes[65536];
    int flags = fcntl(fd, F_GETFL);
    fcntl(fd, F_SETFL, flags | O_NONBLOCK);
    for (int i = 0; i < 2; i++, usleep(2000))
        while (read(fd, bytes, sizeof bytes) > 0)
            ;
    fcntl(fd, F_SETFL, flags);
}

#endif
