/* Reads and writes of some lengths of descriptors that are no files, plainly, without waiting and
 * at an offset. */
#include "sweeps.h"

#include <sys/epoll.h>
#include <sys/inotify.h>
#include <sys/signalfd.h>
#include <sys/timerfd.h>

enum kind {
    SIGNALFD,
    EPOLL,
    PROCESS,
    INOTIFY,
    TIMERFD,
    TIMERFD_FIRED,
    TIMERFD_HASTY,
    EVENTFD_HASTY,
    FULL_DEVICE,
    RANDOM_DEVICE,
    PATH_ALONE,
    OWN_RING,
    OTHER_RING,
    READY_RING,
    DATAGRAMS,
    PACKETS,
    CLOSED,
    KINDS
};

static const char *const kinds[KINDS] = {"signalfd", "epoll", "pidfd", "inotify", "timerfd",
    "timerfd that fired", "timerfd that isn't to wait", "eventfd that isn't to wait", "/dev/full",
    "/dev/urandom", "path", "own ring", "other ring", "ring with a completion", "datagrams",
    "packets", "nothing"};

static struct ring own, other, ready;

static int timer_of(enum kind kind)
{
    int fd = timerfd_create(CLOCK_MONOTONIC, kind == TIMERFD_HASTY ? TFD_NONBLOCK : 0);
    const struct itimerspec at = {.it_value = {0, 1}};
    if (kind == TIMERFD_FIRED)
        check(timerfd_settime(fd, 0, &at, NULL) == 0 && usleep(1000) == 0);
    return fd;
}

static int socket_of(enum kind kind, int *peer)
{
    int two[2];
    check(socketpair(AF_UNIX, kind == PACKETS ? SOCK_SEQPACKET : SOCK_DGRAM, 0, two) == 0);
    *peer = two[1];
    return two[0];
}

static int descriptor_of(enum kind kind, int *peer)
{
    sigset_t signals;
    sigemptyset(&signals);
    sigaddset(&signals, SIGUSR1);
    switch (kind) {
    case SIGNALFD:
        return signalfd(-1, &signals, 0);
    case EPOLL:
        return epoll_create1(0);
    case PROCESS:
        return (int)syscall(SYS_pidfd_open, getpid(), 0);
    case INOTIFY:
        return inotify_init();
    case TIMERFD:
    case TIMERFD_FIRED:
    case TIMERFD_HASTY:
        return timer_of(kind);
    case EVENTFD_HASTY:
        return eventfd(0, EFD_NONBLOCK);
    case FULL_DEVICE:
        return open("/dev/full", O_RDWR);
    case RANDOM_DEVICE:
        return open("/dev/urandom", O_RDWR);
    case PATH_ALONE:
        return open("/tmp", O_PATH);
    case OWN_RING:
        return dup(own.fd);
    case OTHER_RING:
        return dup(other.fd);
    case READY_RING:
        return dup(ready.fd);
    case CLOSED:
        return -1;
    default:
        return socket_of(kind, peer);
    }
}

static void try(enum kind kind, uint8_t code, unsigned length, unsigned way)
{
    static const char *const ways[] = {"", ", not to wait", ", at 5", ", at -1"};
    static const uint64_t offsets[] = {0, 0, 5, -1};
    char bytes[128] = {1};
    int peer = -1, fd = descriptor_of(kind, &peer);
    begin(&own, code, fd, bytes, length, offsets[way])->rw_flags = way == 1 ? RWF_NOWAIT : 0;
    printf("%s of %u, %s%s:", code == IORING_OP_READ ? "read" : "write", length, kinds[kind],
        ways[way]);
    tell_end(&own);
    if (fd >= 0)
        close(fd);
    if (peer >= 0)
        close(peer);
}

int main(void)
{
    static const unsigned lengths[] = {0, 4, 8, 127, 128};
    signal(SIGPIPE, SIG_IGN);
    make_ring(&own, 8, 0, 0);
    make_ring(&other, 8, 0, 0);
    make_ring(&ready, 8, 0, 0);
    submit_nop(&ready, 0);
    for (enum kind kind = 0; kind < KINDS; kind++)
        for (unsigned i = 0; i < count_of(lengths); i++)
            for (unsigned way = 0; way < 4; way++) {
                try(kind, IORING_OP_READ, lengths[i], way);
                try(kind, IORING_OP_WRITE, lengths[i], way);
            }
}
