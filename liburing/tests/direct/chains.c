/* Calls with as many requests as a ring takes: a chain's members end in order, and loose requests
 * each once; and small calls beside as many that wait.
 *
 *   chains [KIND [LENGTH]]       one call of a kind, of so many requests, or small calls beside so
 *                                many; tests/speed/growth counts its instructions
 */
#define _GNU_SOURCE
#include "engines.h"

#include <poll.h>

enum { LONGEST = 4096, OTHERS = LONGEST }; /* the user data of what isn't a no-op of the call */

/* A kind of call, of no-ops or of updates. */
struct kind {
    const char *name;
    uint8_t code;
    void (*before)(
        struct ring *ring, int pipe, unsigned length); /* what is submitted before it, and waits */
    uint8_t link; /* what links its members, if anything */
};

/* A read, and an hour. */
static void submit_waiting(struct ring *ring, int pipe, unsigned length)
{
    static const struct __kernel_timespec hour = {3600, 0};
    static char byte;
    (void)length;
    put_transfer(ring, IORING_OP_READ, OTHERS, 0, pipe, &byte, 1, 0);
    put_transfer(ring, IORING_OP_TIMEOUT, OTHERS, 0, -1, (void *)(uintptr_t)&hour, 1, 0);
    check(enter(ring, 2, 0, 0) == 2);
}

static void submit_polls(struct ring *ring, int pipe, unsigned length)
{
    for (unsigned i = 0; i < length; i++)
        put_plain(ring, IORING_OP_POLL_ADD, OTHERS, pipe)->poll32_events = POLLIN;
    check(enter(ring, length, 0, 0) == (long)length);
}

static const struct kind kinds[] = {
    {"linked", IORING_OP_NOP, NULL, IOSQE_IO_LINK},
    {"hard", IORING_OP_NOP, NULL, IOSQE_IO_HARDLINK},
    {"loose", IORING_OP_NOP, NULL, 0},
    {"linked-beside", IORING_OP_NOP, submit_waiting, IOSQE_IO_LINK},
    {"loose-beside", IORING_OP_NOP, submit_waiting, 0},
    {"loose-polls", IORING_OP_NOP, submit_polls, 0},
    {"updates", IORING_OP_POLL_REMOVE, submit_polls, 0},
};

/* An update finds the first of the polls, and changes nothing of it. */
static void put_one(struct ring *ring, const struct kind *kind, unsigned number, uint8_t link)
{
    struct io_uring_sqe *entry = put(ring, kind->code, number, link);
    if (kind->code == IORING_OP_NOP)
        return;
    entry->addr = OTHERS;
    entry->len = IORING_POLL_UPDATE_EVENTS;
    entry->poll32_events = POLLIN;
}

static void call_of(const struct kind *kind, unsigned length)
{
    static bool has_ended[LONGEST];
    struct ring ring;
    int ends[2];
    check(pipe(ends) == 0);
    make_ring(&ring, LONGEST, 0, 0);
    if (kind->before)
        kind->before(&ring, ends[0], length);
    for (unsigned i = 0; i < length; i++)
        put_one(&ring, kind, i, i < length - 1 ? kind->link : 0);
    check(enter(&ring, length, length, IORING_ENTER_GETEVENTS) == (long)length);
    memset(has_ended, 0, sizeof has_ended);
    for (unsigned i = 0; i < length; i++) {
        struct completion ended = reap(&ring);
        check(ended.res == 0 && ended.user_data < length && !has_ended[ended.user_data]);
        check(!kind->link || ended.user_data == i);
        has_ended[ended.user_data] = true;
    }
    close_ring(&ring);
    close_pair(ends);
}

/* A call of its own for a no-op, for a poll that ends once its pipe is written to, and for the
 * update of one that waits. */
static void make_calls(struct ring *ring, const int *ends, unsigned calls)
{
    char byte;
    for (unsigned i = 0; i < calls; i++) {
        put(ring, IORING_OP_NOP, 0, 0);
        check(enter(ring, 1, 1, IORING_ENTER_GETEVENTS) == 1 && reap(ring).res == 0);
        put_plain(ring, IORING_OP_POLL_ADD, 1, ends[0])->poll32_events = POLLIN;
        check(enter(ring, 1, 0, 0) == 1);
        check(write(ends[1], "x", 1) == 1);
        check(enter(ring, 0, 1, IORING_ENTER_GETEVENTS) == 0 && reap(ring).res == POLLIN);
        check(read(ends[0], &byte, 1) == 1);
        struct io_uring_sqe *entry = put(ring, IORING_OP_POLL_REMOVE, 2, 0);
        entry->addr = OTHERS;
        entry->len = IORING_POLL_UPDATE_EVENTS;
        entry->poll32_events = POLLIN;
        check(enter(ring, 1, 1, IORING_ENTER_GETEVENTS) == 1 && reap(ring).res == 0);
    }
}

/* Small calls, or none, beside as many polls that wait. */
enum { CALLS = 256 };

static void calls_beside(unsigned calls, unsigned length)
{
    struct ring ring;
    int quiet[2], ends[2];
    check(pipe(quiet) == 0 && pipe(ends) == 0);
    make_ring(&ring, LONGEST, 0, 0);
    submit_polls(&ring, quiet[0], length);
    check(enter_for(&ring, 1, 1000) == -ETIME);
    make_calls(&ring, ends, calls);
    close_ring(&ring);
    for (int i = 0; i < 2; i++)
        check(close(quiet[i]) == 0 && close(ends[i]) == 0);
}

int main(int count, char **words)
{
    long length = count > 2 ? atol(words[2]) : LONGEST;
    alarm((unsigned)(PATIENCE * patience()));
    check(length >= 1 && length <= LONGEST);
    for (size_t i = 0; i < sizeof kinds / sizeof *kinds; i++) {
        test = kinds[i].name;
        if (count < 2 || strcmp(words[1], test) == 0)
            call_of(&kinds[i], (unsigned)length);
    }
    for (unsigned calls = 0; calls <= CALLS; calls += CALLS) {
        test = calls > 0 ? "calls" : "polls";
        if (count < 2 || strcmp(words[1], test) == 0)
            calls_beside(calls, (unsigned)length);
    }
    return 0;
}
