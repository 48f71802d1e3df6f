/* Operations of sockets of each kind in each state, with each flag of a message. */
#include "sweeps.h"

enum {
    STREAMS,
    DATAGRAMS,
    PACKETS,
    TCP,
    UDP,
    TCP_ALONE,
    UDP_ALONE,
    STREAMS_ALONE,
    DATAGRAMS_ALONE,
    LISTENER,
    KINDS
};
enum {
    PLAIN,
    WITH_SOME,
    PEER_GONE,
    SHUT_TO_READ,
    SHUT_TO_WRITE,
    PEER_SHUT,
    HASTY,
    SOME_AND_GONE,
    STATES
};

static const char *const kinds[KINDS] = {"local stream", "local datagrams", "local packets", "TCP",
    "UDP", "TCP alone", "UDP alone", "local stream alone", "local datagrams alone", "TCP listener"};
static const char *const states[STATES] = {"plain", "with some", "its peer gone", "shut to read",
    "shut to write", "its peer shut", "not to wait", "with some and its peer gone"};

static const struct {
    const char *name;
    uint8_t code;
} operations[] = {{"send", IORING_OP_SEND}, {"receive", IORING_OP_RECV},
    {"message sent", IORING_OP_SENDMSG}, {"message received", IORING_OP_RECVMSG},
    {"send without a copy", IORING_OP_SEND_ZC}, {"read", IORING_OP_READ},
    {"write", IORING_OP_WRITE}, {"accept", IORING_OP_ACCEPT}, {"poll", IORING_OP_POLL_ADD},
    {"shutdown", IORING_OP_SHUTDOWN}};

static const unsigned flags_of_messages[] = {0, MSG_DONTWAIT, MSG_WAITALL, MSG_PEEK, MSG_OOB,
    MSG_TRUNC, MSG_ERRQUEUE, MSG_NOSIGNAL, MSG_MORE, MSG_CONFIRM, MSG_EOR};

static void udp_of(int *ends)
{
    for (int i = 0; i < 2; i++) {
        struct sockaddr_in at = {.sin_family = AF_INET, .sin_addr.s_addr = htonl(INADDR_LOOPBACK)};
        ends[i] = socket(AF_INET, SOCK_DGRAM, 0);
        check(bind(ends[i], (void *)&at, sizeof at) == 0);
    }
    for (int i = 0; i < 2; i++) {
        struct sockaddr_in at;
        socklen_t size = sizeof at;
        check(getsockname(ends[!i], (void *)&at, &size) == 0 &&
              connect(ends[i], (void *)&at, size) == 0);
    }
}

/* A socket, and its peer or -1. */
static void make_socket(unsigned kind, int *ends)
{
    static const int local[] = {SOCK_STREAM, SOCK_DGRAM, SOCK_SEQPACKET};
    ends[1] = -1;
    if (kind <= PACKETS)
        check(socketpair(AF_UNIX, local[kind], 0, ends) == 0);
    else if (kind == TCP)
        make_tcp_pair(ends);
    else if (kind == UDP)
        udp_of(ends);
    else
        ends[0] = socket(kind == STREAMS_ALONE || kind == DATAGRAMS_ALONE ? AF_UNIX : AF_INET,
            kind == UDP_ALONE || kind == DATAGRAMS_ALONE ? SOCK_DGRAM : SOCK_STREAM, 0);
    if (kind == LISTENER)
        check(listen(ends[0], 2) == 0);
}

static void bring_into(unsigned state, int *ends)
{
    if ((state == WITH_SOME || state == SOME_AND_GONE) && ends[1] >= 0)
        check(write(ends[1], "abcdef", 6) == 6);
    if ((state == PEER_GONE || state == SOME_AND_GONE) && ends[1] >= 0) {
        close(ends[1]);
        ends[1] = -1;
    }
    if (state == SHUT_TO_READ)
        shutdown(ends[0], SHUT_RD);
    if (state == SHUT_TO_WRITE)
        shutdown(ends[0], SHUT_WR);
    if (state == PEER_SHUT && ends[1] >= 0)
        shutdown(ends[1], SHUT_WR);
    if (state == HASTY)
        fcntl(ends[0], F_SETFL, O_NONBLOCK);
}

/* Puts an operation: of the first five with these flags, of the others in one of three ways. */
static void put_operation(struct ring *ring, uint8_t code, unsigned way, int fd)
{
    static char bytes[8];
    static struct iovec vector = {bytes, sizeof bytes};
    static struct msghdr message = {.msg_iov = &vector, .msg_iovlen = 1};
    static const unsigned events[] = {0x001, 0x004, 0x002};
    bool is_message = code == IORING_OP_SENDMSG || code == IORING_OP_RECVMSG;
    struct io_uring_sqe *entry = begin(ring, code, fd, NULL, 0, 0);
    if (code == IORING_OP_ACCEPT)
        entry->accept_flags = way == 1 ? SOCK_NONBLOCK : 0;
    else if (code == IORING_OP_POLL_ADD)
        entry->poll32_events = events[way];
    else if (code == IORING_OP_SHUTDOWN)
        entry->len = way;
    else {
        bool is_plain = code == IORING_OP_READ || code == IORING_OP_WRITE;
        entry->addr = is_message ? (uintptr_t)&message : (uintptr_t)bytes;
        entry->len = is_message ? 1 : is_plain && way == 2 ? 0 : sizeof bytes;
        entry->msg_flags = is_plain ? way == 1 ? RWF_NOWAIT : 0 : flags_of_messages[way];
    }
}

/* Prints as `tell_end` does, but of a socket that was accepted that it is one, and of a notice that
 * it came. */
static void tell_of(struct ring *ring, uint8_t code)
{
    struct seen seen = {0};
    enter(ring, 1, 0, 0);
    if (!comes(ring, &seen)) {
        printf(" waits");
        tell_cancelled(ring);
    } else if (code == IORING_OP_ACCEPT && seen.res > 0) {
        close(seen.res);
        printf(" a socket");
    } else
        tell(&seen);
    if (seen.flags & IORING_CQE_F_MORE)
        printf(comes(ring, &seen) && seen.flags & IORING_CQE_F_NOTIF ? ", then a notice"
                                                                     : ", and no notice");
    printf("\n");
}

static void sweep_of(struct ring *ring, unsigned kind, unsigned state)
{
    for (unsigned i = 0; i < count_of(operations); i++)
        for (unsigned way = 0; way < (i < 5 ? count_of(flags_of_messages) : 3); way++) {
            int ends[2];
            make_socket(kind, ends);
            bring_into(state, ends);
            put_operation(ring, operations[i].code, way, ends[0]);
            printf("%s, %s, %s, %s %x:", kinds[kind], states[state], operations[i].name,
                i < 5 ? "flags" : "way", i < 5 ? flags_of_messages[way] : way);
            tell_of(ring, operations[i].code);
            close_pair(ends);
        }
}

int main(void)
{
    struct ring ring;
    signal(SIGPIPE, SIG_IGN);
    make_ring(&ring, 8, 0, 0);
    for (unsigned kind = 0; kind < KINDS; kind++)
        for (unsigned state = 0; state < STATES; state++)
            sweep_of(&ring, kind, state);
}
