/* poll, select, epoll, and waiting for processes. */
#define _GNU_SOURCE
#include "waits.h"
#include "clocks.h"
#include "descriptors.h"
#include "notices.h"

#include <errno.h>
#include <poll.h>
#include <string.h>
#include <sys/resource.h>
#include <sys/select.h>
#include <sys/time.h>
#include <sys/wait.h>

static const struct timespec no_time = {0, 0};

static long ask_poll(struct pollfd *polled, long count)
{
    return kernel(SYS_ppoll, polled, count, &no_time, 0, sizeof(uint64_t));
}

struct one {
    int fd;
    short events;
};

static bool is_one_ready(void *argument)
{
    const struct one *one = argument;
    struct pollfd polled = {one->fd, one->events, 0};
    return ask_poll(&polled, 1) > 0;
}

bool is_fd_ready(int fd, short events)
{
    struct one one = {fd, events};
    return is_one_ready(&one);
}

enum reason wait_for_fd(int fd, short events, uint64_t limit)
{
    struct one one = {fd, events};
    return wait_until(is_one_ready, &one, is_outside(fd), limit);
}

static bool is_never(void *argument)
{
    (void)argument;
    return false;
}

enum reason wait_a_while(uint64_t *span, uint64_t limit)
{
    uint64_t next = world->now + *span;
    if (*span < SECOND)
        *span *= 2;
    return wait_until(is_never, NULL, true, next < limit ? next : limit);
}

struct many {
    struct pollfd *polled;
    long count;
};

static bool is_any_ready(void *argument)
{
    const struct many *many = argument;
    return ask_poll(many->polled, many->count) != 0;
}

static bool is_any_outside(const struct many *many)
{
    for (long i = 0; i < many->count; i++)
        if (many->polled[i].fd >= 0 && is_outside(many->polled[i].fd))
            return true;
    return false;
}

static long poll_until(struct pollfd *polled, long count, uint64_t limit)
{
    struct many many = {polled, count};
    change_world();
    long ready = ask_poll(polled, count);
    if (ready != 0 || limit <= world->now)
        return ready;
    if (wait_until(is_any_ready, &many, is_any_outside(&many), limit) == INTERRUPTED)
        return -EINTR;
    return ask_poll(polled, count);
}

static uint64_t limit_of_ms(long milliseconds)
{
    return (int)milliseconds < 0 ? NEVER : world->now + (uint64_t)(int)milliseconds * 1000000;
}

long serve_poll(struct trap *trap)
{
    return poll_until((struct pollfd *)trap->words[0], trap->words[1], limit_of_ms(trap->words[2]));
}

static long ppoll_words(const long *words)
{
    return poll_until(
        (struct pollfd *)words[0], words[1], limit_after((const struct timespec *)words[2]));
}

long serve_ppoll(struct trap *trap)
{
    return wait_under_mask(trap, (const uint64_t *)trap->words[3], ppoll_words);
}

/* The sets of select(2), as they are polled and as they are answered. */
enum { MOST_SELECTED = 512 };

static int read_sets(int count, fd_set *const sets[3], struct pollfd *polled)
{
    static const short events[3] = {POLLIN | POLLRDNORM, POLLOUT | POLLWRNORM, POLLPRI};
    int found = 0;
    for (int fd = 0; fd < count && found < MOST_SELECTED; fd++) {
        short wanted = 0;
        for (int set = 0; set < 3; set++)
            if (sets[set] && FD_ISSET(fd, sets[set]))
                wanted |= events[set];
        if (wanted)
            polled[found++] = (struct pollfd){fd, wanted, 0};
    }
    return found;
}

static long write_sets(int count, fd_set *const sets[3], const struct pollfd *polled, int found)
{
    static const short events[3] = {POLLIN, POLLOUT, POLLPRI},
                       ready[3] = {POLLIN | POLLRDNORM | POLLHUP | POLLERR,
                           POLLOUT | POLLWRNORM | POLLERR, POLLPRI};
    long told = 0;
    for (int set = 0; set < 3; set++)
        if (sets[set])
            memset(sets[set], 0, (size_t)((count + 63) / 64) * sizeof(uint64_t));
    for (int i = 0; i < found; i++) {
        if (polled[i].revents & POLLNVAL)
            return -EBADF;
        for (int set = 0; set < 3; set++)
            if (polled[i].events & events[set] && polled[i].revents & ready[set]) {
                FD_SET(polled[i].fd, sets[set]);
                told++;
            }
    }
    return told;
}

static long select_until(const long *words, uint64_t limit)
{
    struct pollfd polled[MOST_SELECTED];
    fd_set *const sets[3] = {(fd_set *)words[1], (fd_set *)words[2], (fd_set *)words[3]};
    int count = (int)words[0];
    if (count < 0 || count > FD_SETSIZE)
        return -EINVAL;
    int found = read_sets(count, sets, polled);
    long ready = poll_until(polled, found, limit);
    return ready < 0 ? ready : write_sets(count, sets, polled, found);
}

long serve_select(struct trap *trap)
{
    struct timeval *time = (struct timeval *)trap->words[4];
    uint64_t limit = time ? world->now + (uint64_t)time->tv_sec * SECOND +
                                (uint64_t)time->tv_usec * 1000
                          : NEVER;
    long ready = select_until(trap->words, limit);
    if (time) {
        uint64_t left = limit > world->now ? limit - world->now : 0;
        *time = (struct timeval){(time_t)(left / SECOND), (long)(left % SECOND / 1000)};
    }
    return ready;
}

/* (the kernel's says what is left of the time, of which the C library's function says nothing) */
static long pselect_words(const long *words)
{
    struct timespec *time = (struct timespec *)words[4];
    uint64_t limit = limit_after(time);
    long ready = select_until(words, limit);
    if (time)
        *time = left_until(limit);
    return ready;
}

long serve_pselect(struct trap *trap)
{
    const uint64_t *const *mask = (const uint64_t *const *)trap->words[5];
    return wait_under_mask(trap, mask ? *mask : NULL, pselect_words);
}

static long epoll_until(const long *words, uint64_t limit)
{
    change_world();
    for (;;) {
        long ready = kernel(SYS_epoll_wait, words[0], words[1], words[2], 0);
        if (ready != 0 || limit <= world->now)
            return ready;
        if (wait_for_fd((int)words[0], POLLIN, limit) == INTERRUPTED)
            return -EINTR;
    }
}

static long epoll_words(const long *words)
{
    return epoll_until(words, limit_of_ms(words[3]));
}

static long epoll_words_of_time(const long *words)
{
    return epoll_until(words, limit_after((const struct timespec *)words[3]));
}

long serve_epoll_wait(struct trap *trap)
{
    return epoll_words(trap->words);
}

long serve_epoll_pwait(struct trap *trap)
{
    return wait_under_mask(trap, (const uint64_t *)trap->words[4], epoll_words);
}

long serve_epoll_pwait2(struct trap *trap)
{
    return wait_under_mask(trap, (const uint64_t *)trap->words[4], epoll_words_of_time);
}

/* Whether a process has ended for which is waited. */
static bool has_ended(void *argument)
{
    const long *words = argument;
    siginfo_t info;
    info.si_pid = 0;
    long result = kernel(SYS_waitid, words[0], words[1], &info, words[3] | WNOHANG | WNOWAIT);
    return result < 0 || info.si_pid != 0;
}

static long wait_for_process(struct trap *trap, long which, long number, long options)
{
    long asked[4] = {which, number, 0, options};
    if (!(options & WNOHANG))
        while (!has_ended(asked))
            if (wait_until(has_ended, asked, false, NEVER) == INTERRUPTED)
                return RESTARTS;
    change_world();
    return pass_on(trap);
}

long serve_wait4(struct trap *trap)
{
    int process = (int)trap->words[0];
    long options = WEXITED | (trap->words[2] & (WNOHANG | WUNTRACED | WCONTINUED | __WALL |
                                                   __WCLONE | __WNOTHREAD));
    long which = process == -1 ? P_ALL
                 : process > 0 ? P_PID
                               : P_PGID,
         number = process == -1 ? 0
                  : process > 0 ? process
                                : -process;
    long result = wait_for_process(trap, which, number, options);
    if (result > 0 && trap->words[3])
        memset((void *)trap->words[3], 0, sizeof(struct rusage));
    return result;
}

long serve_waitid(struct trap *trap)
{
    return wait_for_process(trap, trap->words[0], trap->words[1], trap->words[3]);
}
