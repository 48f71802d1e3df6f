/* poll(2) takes no more entries than the process may have descriptors (RLIMIT_NOFILE), which a
 * sandbox sets to 0 once it has opened all that it needs. select(2) looks at whatever is open, and
 * tells less: of the end of a stream that it can be read, and of an error that it can be read and
 * written.
 */
#define _GNU_SOURCE
#include "waiting/glance.h"
#include "calls/signals.h"
#include "wulgach_sleeps.h"

#include <errno.h>
#include <fcntl.h>
#include <limits.h>
#include <stdbool.h>
#include <stdlib.h>
#include <sys/select.h>

enum { BITS = CHAR_BIT * sizeof(fd_mask) };

/* The sets of select(2), of as many descriptors as there are. */
struct sets {
    fd_mask *readable, *writable, *urgent;
    int end;
};

static void add(fd_mask *set, int fd)
{
    set[fd / BITS] |= (fd_mask)(1ul << fd % BITS);
}

static bool has(const fd_mask *set, int fd)
{
    return (unsigned long)set[fd / BITS] >> fd % BITS & 1;
}

/* Begins sets that are empty. False: there is no memory for them. */
static bool begin_sets(struct sets *sets, const struct pollfd *polled, nfds_t count)
{
    for (nfds_t i = 0; i < count; i++)
        if (sets->end <= polled[i].fd)
            sets->end = polled[i].fd + 1;
    size_t words = (size_t)sets->end / BITS + 1;
    sets->readable = calloc(3 * words, sizeof *sets->readable);
    if (!sets->readable)
        return false;
    sets->writable = sets->readable + words;
    sets->urgent = sets->writable + words;
    return true;
}

static void ask_of(struct sets *sets, const struct pollfd *at)
{
    struct wulgach_sets asked;
    wulgach_select_sets((uint16_t)at->events, &asked);
    if (asked.is_readable)
        add(sets->readable, at->fd);
    if (asked.is_writable)
        add(sets->writable, at->fd);
    if (asked.is_urgent)
        add(sets->urgent, at->fd);
}

/* Adds what is asked of each. Returns how many show something already, since they aren't open. */
static int ask_sets(struct sets *sets, struct pollfd *polled, nfds_t count)
{
    static const struct wulgach_sets none;
    int shown = 0;
    for (struct pollfd *at = polled; at < polled + count; at++) {
        at->revents = 0;
        if (at->fd < 0)
            continue;
        if (fcntl(at->fd, F_GETFD) >= 0)
            ask_of(sets, at);
        else
            at->revents = (short)wulgach_told_by_select((uint16_t)at->events, false, &none);
        shown += at->revents != 0;
    }
    return shown;
}

/* Tells what was found of each. Returns how many show something. */
static int tell_found(const struct sets *sets, struct pollfd *polled, nfds_t count)
{
    int found = 0;
    for (struct pollfd *at = polled; at < polled + count; at++) {
        if (at->fd >= 0 && at->revents == 0) {
            struct wulgach_sets in = {has(sets->readable, at->fd), has(sets->writable, at->fd),
                has(sets->urgent, at->fd)};
            at->revents = (short)wulgach_told_by_select((uint16_t)at->events, true, &in);
        }
        found += at->revents != 0;
    }
    return found;
}

static int ask_select(
    struct pollfd *polled, nfds_t count, const struct timespec *time, const sigset_t *signals)
{
    static const struct timespec now;
    struct sets sets = {0};
    if (!begin_sets(&sets, polled, count))
        return -1;
    if (ask_sets(&sets, polled, count) > 0)
        time = &now;
    int came = pselect(sets.end, (fd_set *)sets.readable, (fd_set *)sets.writable,
        (fd_set *)sets.urgent, time, signals);
    if (came >= 0)
        came = tell_found(&sets, polled, count);
    int error = errno;
    free(sets.readable);
    errno = error;
    return came;
}

int poll_now(struct pollfd *polled, nfds_t count)
{
    static const struct timespec now;
    block_signals_before(WULGACH_DOES_LOOK, false, false);
    int came = poll(polled, count, 0);
    return came < 0 && wulgach_asks_select(-errno) ? ask_select(polled, count, &now, NULL) : came;
}

int poll_until(
    struct pollfd *polled, nfds_t count, const struct timespec *time, const sigset_t *signals)
{
    int came = ppoll(polled, count, time, signals);
    return came < 0 && wulgach_asks_select(-errno) ? ask_select(polled, count, time, signals)
                                                   : came;
}
