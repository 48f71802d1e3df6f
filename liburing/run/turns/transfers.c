/* Reads, writes and the like: none sleeps in the kernel. One that would wait is a candidate once
 * its descriptor is ready; a large write to a pipe goes in parts that a pipe with room takes at
 * once. */
#define _GNU_SOURCE
#include "chance.h"
#include "descriptors.h"
#include "waits.h"

#include <errno.h>
#include <fcntl.h>
#include <poll.h>
#include <sys/socket.h>
#include <sys/time.h>
#include <sys/uio.h>

enum { PART = 4096 };

/* How long a socket waits (SO_RCVTIMEO, SO_SNDTIMEO). */
static uint64_t limit_of_socket(int fd, int which)
{
    struct timeval time = {0, 0};
    socklen_t size = sizeof time;
    if (kernel(SYS_getsockopt, fd, SOL_SOCKET, which, &time, &size) < 0 ||
        (time.tv_sec == 0 && time.tv_usec == 0))
        return NEVER;
    return world->now + (uint64_t)time.tv_sec * SECOND + (uint64_t)time.tv_usec * 1000;
}

/* 0 where it goes on, or the result of a call that doesn't. */
static long wait_to(int fd, short events, int which)
{
    if (kind_of(fd) == ON_DISK || !is_blocking(fd))
        return 0;
    uint64_t limit = limit_of_socket(fd, which);
    while (!is_fd_ready(fd, events)) {
        enum reason reason = wait_for_fd(fd, events, limit);
        if (reason == INTERRUPTED)
            return RESTARTS;
        if (reason == TIME_IS_OVER)
            return -EAGAIN;
    }
    return 0;
}

static long move(struct trap *trap, short events, int which)
{
    long refused = wait_to((int)trap->words[0], events, which);
    long result = refused < 0 ? refused : pass_on(trap);
    change_world();
    return result;
}

long serve_read(struct trap *trap)
{
    if (trap->call == SYS_read && kind_of((int)trap->words[0]) == RANDOM) {
        fill_by_chance((void *)trap->words[1], (size_t)trap->words[2]);
        return trap->words[2];
    }
    return move(trap, POLLIN, SO_RCVTIMEO);
}

static int flags_of_message(const struct trap *trap)
{
    switch (trap->call) {
    case SYS_recvfrom:
    case SYS_sendto:
    case SYS_recvmmsg:
    case SYS_sendmmsg:
        return (int)trap->words[3];
    default:
        return (int)trap->words[2];
    }
}

/* MSG_WAITALL may wait for more than is there: what is there is told of as one that ends early,
 * unless all is. */
long serve_receive(struct trap *trap)
{
    struct trap at_once = *trap;
    int flags = flags_of_message(trap);
    if (flags & MSG_DONTWAIT || !is_blocking((int)trap->words[0]))
        return pass_on(trap);
    long refused = wait_to(
        (int)trap->words[0], flags & MSG_ERRQUEUE ? POLLERR : POLLIN, SO_RCVTIMEO);
    if (refused < 0)
        return refused;
    at_once.words[trap->call == SYS_recvmsg ? 2 : 3] |= MSG_DONTWAIT;
    size_t wanted = trap->call == SYS_recvfrom && flags & MSG_WAITALL ? (size_t)trap->words[2] : 0,
           done = 0;
    for (;;) {
        long result = pass_on(&at_once);
        change_world();
        if (result > 0)
            done += (size_t)result;
        if (result <= 0 || done >= wanted)
            return done > 0 ? (long)done : result;
        at_once.words[1] += result;
        at_once.words[2] -= result;
        if (wait_to((int)trap->words[0], POLLIN, SO_RCVTIMEO) < 0)
            return (long)done;
    }
}

long serve_accept(struct trap *trap)
{
    long fd = move(trap, POLLIN, SO_RCVTIMEO);
    set_kind(fd, OUTSIDE);
    return fd;
}

/* A pipe that polls as writable takes PART at once. Standard output and errors go where a user
 * reads, and are written as they come. */
static long write_in_parts(struct trap *trap)
{
    int fd = (int)trap->words[0];
    size_t size = (size_t)trap->words[2], done = 0;
    while (done < size) {
        long refused = wait_to(fd, POLLOUT, SO_SNDTIMEO);
        size_t part = size - done < PART ? size - done : PART;
        long result = refused < 0 ? refused
                                  : kernel(SYS_write, fd, trap->words[1] + (long)done, part);
        change_world();
        if (result < 0)
            return done > 0 ? (long)done : result;
        done += (size_t)result;
    }
    return (long)done;
}

long serve_write(struct trap *trap)
{
    int fd = (int)trap->words[0];
    bool is_shown = (fd == 1 || fd == 2) && kind_of(fd) != INSIDE;
    if (is_shown || kind_of(fd) == ON_DISK || !is_blocking(fd)) {
        long result = pass_on(trap);
        change_world();
        return result;
    }
    if (trap->call == SYS_write && trap->words[2] > PART)
        return write_in_parts(trap);
    return move(trap, POLLOUT, SO_SNDTIMEO);
}

/* Of a stream all is sent, in as many parts as that takes. */
long serve_send(struct trap *trap)
{
    struct trap at_once = *trap;
    int fd = (int)trap->words[0], flags = flags_of_message(trap);
    bool is_plain = trap->call == SYS_sendto;
    size_t done = 0, size = is_plain ? (size_t)trap->words[2] : 0;
    if (flags & MSG_DONTWAIT || !is_blocking(fd))
        return pass_on(trap);
    at_once.words[is_plain || trap->call == SYS_sendmmsg ? 3 : 2] |= MSG_DONTWAIT;
    for (;;) {
        long result = pass_on(&at_once);
        change_world();
        if (result >= 0) {
            done += (size_t)result;
            if (!is_plain || done >= size)
                return (long)done;
            at_once.words[1] += result;
            at_once.words[2] -= result;
            continue;
        }
        if (result != -EAGAIN)
            return done > 0 ? (long)done : result;
        long refused = wait_to(fd, POLLOUT, SO_SNDTIMEO);
        if (refused < 0)
            return done > 0 ? (long)done : refused;
    }
}

/* A connection that isn't made at once is waited for without blocking; one to a full queue of a
 * local socket is tried again. */
long serve_connect(struct trap *trap)
{
    int fd = (int)trap->words[0], error = 0;
    uint64_t span = FIRST_WHILE;
    socklen_t size = sizeof error;
    if (!is_blocking(fd))
        return pass_on(trap);
    long flags = kernel(SYS_fcntl, fd, F_GETFL), result;
    for (;;) {
        kernel(SYS_fcntl, fd, F_SETFL, flags | O_NONBLOCK);
        result = pass_on(trap);
        kernel(SYS_fcntl, fd, F_SETFL, flags);
        change_world();
        if (result != -EAGAIN)
            break;
        if (wait_a_while(&span, NEVER) == INTERRUPTED)
            return -EINTR;
    }
    if (result != -EINPROGRESS)
        return result;
    while (!is_fd_ready(fd, POLLOUT))
        if (wait_for_fd(fd, POLLOUT, limit_of_socket(fd, SO_SNDTIMEO)) != IS_READY)
            return -EINTR;
    kernel(SYS_getsockopt, fd, SOL_SOCKET, SO_ERROR, &error, &size);
    return -error;
}

/* From one descriptor to another: both are waited for, and then nothing waits. */
static long move_between(struct trap *trap, int from, int to)
{
    long refused = wait_to(from, POLLIN, SO_RCVTIMEO);
    if (refused == 0)
        refused = wait_to(to, POLLOUT, SO_SNDTIMEO);
    if (refused < 0)
        return refused;
    long result = pass_on(trap);
    change_world();
    return result;
}

long serve_splice(struct trap *trap)
{
    struct trap at_once = *trap;
    at_once.words[5] |= SPLICE_F_NONBLOCK;
    return move_between(trap->words[5] & SPLICE_F_NONBLOCK ? trap : &at_once, (int)trap->words[0],
        (int)trap->words[2]);
}

long serve_tee(struct trap *trap)
{
    struct trap at_once = *trap;
    at_once.words[3] |= SPLICE_F_NONBLOCK;
    return move_between(&at_once, (int)trap->words[0], (int)trap->words[1]);
}

/* To a pipe, a part at a time: the kernel would wait for room for all. */
long serve_sendfile(struct trap *trap)
{
    struct trap part = *trap;
    if (kind_of((int)trap->words[0]) != ON_DISK && is_blocking((int)trap->words[0]) &&
        part.words[3] > PART)
        part.words[3] = PART;
    return move_between(&part, (int)trap->words[1], (int)trap->words[0]);
}
