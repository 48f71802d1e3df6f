/* Polls of streams, with each kind of events, after what makes them ready; their updates; and polls
 * of rings and of their eventfds. */
#include "sweeps.h"

#include <poll.h>
#include <sys/epoll.h>

static const struct {
    const char *name;
    uint32_t events;
} wanted[] = {{"in", POLLIN}, {"in, once", POLLIN | EPOLLONESHOT},
    {"in, by edges", POLLIN | EPOLLET}, {"in, exclusively", POLLIN | EPOLLEXCLUSIVE},
    {"in, waking up", POLLIN | EPOLLWAKEUP}, {"out", POLLOUT}, {"in and out", POLLIN | POLLOUT},
    {"urgent", EPOLLPRI}, {"in and urgent", POLLIN | EPOLLPRI}, {"normal", EPOLLRDNORM},
    {"band", EPOLLRDBAND}, {"hung up", EPOLLRDHUP}, {"nothing", 0}};

static const struct {
    const char *name;
    uint32_t flags;
} ways[] = {{"one", 0}, {"many", IORING_POLL_ADD_MULTI}, {"one, by levels", IORING_POLL_ADD_LEVEL},
    {"many, by levels", IORING_POLL_ADD_MULTI | IORING_POLL_ADD_LEVEL}};

enum { STREAM, DATAGRAMS, TCP, PIPE, KINDS };

static const char *const kinds[KINDS] = {"local stream", "local datagrams", "TCP", "pipe"};

static void make_ends(unsigned kind, int *ends)
{
    if (kind == TCP)
        make_tcp_pair(ends);
    else
        check((kind == PIPE ? pipe(ends)
                            : socketpair(AF_UNIX, kind == DATAGRAMS ? SOCK_DGRAM : SOCK_STREAM, 0,
                                  ends)) == 0);
}

static void begin_poll(struct ring *ring, int fd, uint32_t events, uint32_t flags)
{
    begin(ring, IORING_OP_POLL_ADD, fd, NULL, flags, 0)->poll32_events = events;
}

static void remove_poll(struct ring *ring)
{
    put(ring, IORING_OP_POLL_REMOVE, subject + 1, 0)->addr = subject;
    tell_all(ring, "removed");
    printf("\n");
    subject += 10;
}

static void try(struct ring *ring, unsigned kind, unsigned events, unsigned way)
{
    int ends[2];
    make_ends(kind, ends);
    printf("%s, %s, %s:", kinds[kind], wanted[events].name, ways[way].name);
    begin_poll(ring, ends[0], wanted[events].events, ways[way].flags);
    tell_all(ring, "waits");
    check(write(ends[1], "x", 1) == 1);
    tell_all(ring, "written");
    check(write(ends[1], "x", 1) == 1);
    tell_all(ring, "written");
    empty(ends[0]);
    tell_all(ring, "read");
    close(ends[1]);
    tell_all(ring, "closed");
    remove_poll(ring);
    close(ends[0]);
}

/* A poll that goes on or not is updated to one that does or doesn't, or to another number. */
static void try_update(
    struct ring *ring, uint32_t from, uint32_t flags, uint32_t to, uint32_t update)
{
    int ends[2];
    make_ends(STREAM, ends);
    printf("poll for %x, flags %x, updated to %x, flags %x:", from, flags, to, update);
    begin_poll(ring, ends[0], from, flags);
    tell_all(ring, "waits");
    struct io_uring_sqe *entry = put(ring, IORING_OP_POLL_REMOVE, subject + 1, 0);
    entry->addr = subject;
    entry->len = update;
    entry->off = subject + 2;
    entry->poll32_events = to;
    tell_all(ring, "updated");
    check(write(ends[1], "x", 1) == 1);
    tell_all(ring, "written");
    check(write(ends[1], "x", 1) == 1);
    tell_all(ring, "written");
    put(ring, IORING_OP_POLL_REMOVE, subject + 3, 0)->addr = subject + 2;
    remove_poll(ring);
    close_pair(ends);
}

static void sweep_updates(struct ring *ring)
{
    static const uint32_t events[] = {POLLIN, POLLIN | EPOLLONESHOT, POLLOUT};
    for (unsigned from = 0; from < 2; from++)
        for (unsigned to = 0; to < count_of(events); to++)
            for (uint32_t flags = 0; flags < 2; flags++)
                for (uint32_t update = 0; update < 8; update++)
                    try_update(ring, events[from], flags, events[to], update);
}

/* A poll of a ring's descriptor, or of its eventfd, after completions there. */
static void try_ring(
    const char *name, bool is_own, bool has_eventfd, uint32_t events, uint32_t flags)
{
    struct ring own, other;
    int told = eventfd(0, EFD_NONBLOCK);
    uint64_t count;
    make_ring(&own, 16, 0, 0);
    make_ring(&other, 16, 0, 0);
    struct ring *it = is_own ? &own : &other;
    if (has_eventfd)
        check(register_at(it->fd, IORING_REGISTER_EVENTFD, &told, 1) == 0);
    printf("%s, for %x, flags %x:", name, events, flags);
    begin_poll(&own, has_eventfd ? told : it->fd, events, flags);
    tell_all(&own, "waits");
    for (int i = 0; i < 3; i++) {
        put(it, IORING_OP_NOP, subject + 5, 0);
        check(enter(it, 1, 0, 0) == 1);
        tell_all(&own, "a completion");
        if (has_eventfd && read(told, &count, sizeof count) > 0)
            tell_all(&own, "read");
    }
    remove_poll(&own);
    close_ring(&own);
    close_ring(&other);
    close(told);
}

int main(void)
{
    struct ring ring;
    signal(SIGPIPE, SIG_IGN);
    make_ring(&ring, 16, 0, 0);
    for (unsigned kind = 0; kind < KINDS; kind++)
        for (unsigned events = 0; events < count_of(wanted); events++)
            for (unsigned way = 0; way < count_of(ways); way++)
                try(&ring, kind, events, way);
    sweep_updates(&ring);
    for (uint32_t flags = 0; flags < 2; flags++)
        for (unsigned i = 0; i < 3; i++) {
            static const uint32_t events[] = {POLLIN, POLLOUT, POLLIN | POLLOUT};
            try_ring("own ring", true, false, events[i], flags);
            try_ring("another ring", false, false, events[i], flags);
            try_ring("own eventfd", true, true, events[i], flags);
            try_ring("another's eventfd", false, true, events[i], flags);
        }
}
