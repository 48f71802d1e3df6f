/* Transfers of sockets that wait until these are shut down, have enough bytes or have room. */
#include "sweeps.h"

static char bytes[4096];
static struct iovec vector = {bytes, sizeof bytes};
static struct msghdr message = {.msg_iov = &vector, .msg_iovlen = 1};

enum { STREAM, DATAGRAMS, PACKETS, TCP, KINDS };

static const char *const kinds[KINDS] = {"local stream", "local datagrams", "local packets", "TCP"};

static const struct {
    const char *name;
    uint8_t code;
    bool is_write, has_vector, has_message;
} operations[] = {
    {"send", IORING_OP_SEND, true, false, false},
    {"message sent", IORING_OP_SENDMSG, true, false, true},
    {"write", IORING_OP_WRITE, true, false, false},
    {"writev", IORING_OP_WRITEV, true, true, false},
    {"receive", IORING_OP_RECV, false, false, false},
    {"message received", IORING_OP_RECVMSG, false, false, true},
    {"read", IORING_OP_READ, false, false, false},
    {"readv", IORING_OP_READV, false, true, false},
};

static void make_ends(unsigned kind, int *ends)
{
    static const int types[] = {SOCK_STREAM, SOCK_DGRAM, SOCK_SEQPACKET};
    if (kind == TCP)
        make_tcp_pair(ends);
    else
        check(socketpair(AF_UNIX, types[kind], 0, ends) == 0);
}

static void begin_transfer(struct ring *ring, unsigned operation, int fd, bool polls_first)
{
    bool has_message = operations[operation].has_message,
         has_vector = operations[operation].has_vector;
    struct io_uring_sqe *entry = begin(ring, operations[operation].code, fd,
        has_message  ? (void *)&message
        : has_vector ? (void *)&vector
                     : bytes,
        has_message || has_vector ? 1 : sizeof bytes, 0);
    entry->ioprio = polls_first ? IORING_RECVSEND_POLL_FIRST : 0;
}

static void over(struct ring *ring, int *ends)
{
    printf(" cancelled:");
    tell_cancelled(ring);
    printf("\n");
    close_pair(ends);
}

/* One that waits, since there is no room or there are no bytes, until either end is shut down. */
static void try_shut(struct ring *ring, unsigned kind, unsigned operation, bool is_peer, int how)
{
    int ends[2];
    make_ends(kind, ends);
    printf("%s, %s, %s shut for %d:", kinds[kind], operations[operation].name,
        is_peer ? "the peer" : "it", how);
    if (operations[operation].is_write)
        fill(ends[0], 4096);
    begin_transfer(ring, operation, ends[0], false);
    tell_all(ring, "waits");
    shutdown(ends[is_peer], how);
    tell_all(ring, "shut");
    over(ring, ends);
}

/* A receive of a socket that counts as ready with 8 bytes alone. */
static void try_few(
    struct ring *ring, unsigned kind, unsigned operation, bool polls_first, bool has_some)
{
    int ends[2], least = 8;
    make_ends(kind, ends);
    setsockopt(ends[0], SOL_SOCKET, SO_RCVLOWAT, &least, sizeof least);
    printf("%s, %s of a socket that wants 8%s%s:", kinds[kind], operations[operation].name,
        polls_first ? ", polled first" : "", has_some ? ", 4 there" : "");
    if (has_some)
        check(send(ends[1], bytes, 4, 0) == 4 && usleep(2000) == 0);
    begin_transfer(ring, operation, ends[0], polls_first);
    tell_all(ring, "begun");
    for (int i = 0; i < 2; i++) {
        check(send(ends[1], bytes, 4, 0) == 4);
        tell_all(ring, "4 more");
    }
    over(ring, ends);
}

/* A transfer beside a full socket, of which the peer takes what there is. */
static void try_room(struct ring *ring, unsigned kind, unsigned operation, bool polls_first)
{
    int ends[2];
    make_ends(kind, ends);
    fill(ends[0], 4096);
    printf("%s, %s to a full socket%s:", kinds[kind], operations[operation].name,
        polls_first ? ", polled first" : "");
    begin_transfer(ring, operation, ends[0], polls_first);
    tell_all(ring, "begun");
    empty(ends[1]);
    tell_all(ring, "taken");
    over(ring, ends);
}

int main(void)
{
    struct ring ring;
    signal(SIGPIPE, SIG_IGN);
    make_ring(&ring, 8, 0, 0);
    for (unsigned kind = 0; kind < KINDS; kind++)
        for (unsigned operation = 0; operation < count_of(operations); operation++) {
            bool can_poll = operation % 4 < 2;
            for (int how = SHUT_RD; how <= SHUT_RDWR; how++)
                for (unsigned is_peer = 0; is_peer < 2; is_peer++)
                    try_shut(&ring, kind, operation, is_peer, how);
            for (int polls_first = 0; polls_first <= can_poll; polls_first++)
                if (operations[operation].is_write)
                    try_room(&ring, kind, operation, polls_first);
                else
                    for (int has_some = 0; has_some < 2; has_some++)
                        try_few(&ring, kind, operation, polls_first, has_some);
        }
}
