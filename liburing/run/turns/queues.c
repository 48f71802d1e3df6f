/* The kernel is asked without waiting, and again once another has gone on. */
#define _GNU_SOURCE
#include "descriptors.h"
#include "waits.h"

#include <errno.h>
#include <fcntl.h>
#include <poll.h>
#include <string.h>
#include <sys/ipc.h>
#include <sys/msg.h>
#include <sys/sem.h>

/* A call that is tried: what it had as result; -EAGAIN or -ENOMSG, it would wait. */
struct attempt {
    struct trap trap;
    long refusal, result;
};

static bool is_done(struct attempt *attempt)
{
    attempt->result = pass_on(&attempt->trap);
    return attempt->result != attempt->refusal;
}

/* A try that succeeds has happened: so it is made by who has the baton, and not as it is looked who
 * may go on. */
static long try_until(struct attempt *attempt, uint64_t limit)
{
    uint64_t span = FIRST_WHILE;
    for (;;) {
        change_world();
        if (is_done(attempt))
            break;
        if (limit <= world->now)
            return attempt->refusal;
        if (wait_a_while(&span, limit) == INTERRUPTED)
            return -EINTR;
    }
    change_world();
    return attempt->result;
}

static long operate(struct trap *trap, uint64_t limit)
{
    enum { MOST = 500 };
    struct sembuf operations[MOST];
    size_t count = (size_t)trap->words[2];
    struct attempt attempt = {
        {SYS_semop, {trap->words[0], (long)operations, trap->words[2]}, trap->at}, -EAGAIN, 0};
    if (count > MOST)
        return -E2BIG;
    memcpy(operations, (const void *)trap->words[1], count * sizeof *operations);
    for (size_t i = 0; i < count; i++) {
        if (operations[i].sem_flg & IPC_NOWAIT)
            return pass_on(trap);
        operations[i].sem_flg |= IPC_NOWAIT;
    }
    return try_until(&attempt, limit);
}

long serve_semop(struct trap *trap)
{
    return operate(trap, NEVER);
}

long serve_semtimedop(struct trap *trap)
{
    return operate(trap, limit_after((const struct timespec *)trap->words[3]));
}

static long try_message(struct trap *trap, int flags_at, long refusal)
{
    struct attempt attempt = {*trap, refusal, 0};
    if (trap->words[flags_at] & IPC_NOWAIT)
        return pass_on(trap);
    attempt.trap.words[flags_at] |= IPC_NOWAIT;
    return try_until(&attempt, NEVER);
}

long serve_msgsnd(struct trap *trap)
{
    return try_message(trap, 3, -EAGAIN);
}

long serve_msgrcv(struct trap *trap)
{
    return try_message(trap, 4, -ENOMSG);
}

/* A queue of POSIX is a descriptor that polls. Its time is a date. */
static long move_message(struct trap *trap, short events)
{
    int fd = (int)trap->words[0];
    const struct timespec *time = (const struct timespec *)trap->words[4];
    uint64_t limit = time ? limit_at(true, ns_of(time)) : NEVER;
    while (is_blocking(fd) && !is_fd_ready(fd, events)) {
        enum reason reason = wait_for_fd(fd, events, limit);
        if (reason == INTERRUPTED)
            return -EINTR;
        if (reason == TIME_IS_OVER)
            return -ETIMEDOUT;
    }
    long result = kernel(trap->call, fd, trap->words[1], trap->words[2], trap->words[3]);
    change_world();
    return result;
}

long serve_mq_send(struct trap *trap)
{
    return move_message(trap, POLLOUT);
}

long serve_mq_receive(struct trap *trap)
{
    return move_message(trap, POLLIN);
}

long serve_mq_open(struct trap *trap)
{
    long fd = pass_on(trap);
    set_kind(fd, OUTSIDE);
    return fd;
}
