/* Messages and addresses: which lengths of an address, of its place, of control data and of vectors
 * are taken, and what is told of a message that is received. */
#include "sweeps.h"

static const unsigned lengths[] = {0, 1, 2, 15, 16, 17, 110, 128, 129, 4000, UINT32_MAX};

/* A TCP socket that listens on loopback, and its address. */
static int listener(struct sockaddr_in *at)
{
    socklen_t size = sizeof *at;
    int fd = socket(AF_INET, SOCK_STREAM, 0);
    *at = (struct sockaddr_in){.sin_family = AF_INET, .sin_addr.s_addr = htonl(INADDR_LOOPBACK)};
    check(bind(fd, (void *)at, size) == 0 && listen(fd, 4) == 0 &&
          getsockname(fd, (void *)at, &size) == 0);
    return fd;
}

/* Prints whether the one that was put ends well; what it opened is closed. */
static void tell_well(struct ring *ring)
{
    struct seen seen;
    check(enter(ring, 1, 0, 0) == 1);
    if (!comes(ring, &seen)) {
        printf(" waits");
        tell_cancelled(ring);
    } else if (seen.res > 2) {
        close(seen.res);
        printf(" a socket");
    } else
        tell(&seen);
}

static void try_accept(struct ring *ring, unsigned length, bool has_place)
{
    struct sockaddr_in at;
    struct sockaddr_storage place = {0};
    socklen_t told = length;
    int fd = listener(&at), other = socket(AF_INET, SOCK_STREAM, 0);
    check(connect(other, (void *)&at, sizeof at) == 0);
    begin(ring, IORING_OP_ACCEPT, fd, has_place ? &place : NULL, 0, (uintptr_t)&told);
    printf("accept, %u bytes%s:", length, has_place ? "" : " nowhere");
    tell_well(ring);
    printf(", told %u, family %u\n", told, place.ss_family);
    close(fd);
    close(other);
}

static void try_connect(struct ring *ring, int type, uint64_t length, unsigned short family)
{
    struct {
        struct sockaddr_in at;
        char rest[4096];
    } it = {0};
    int fd = listener(&it.at), own = socket(AF_INET, type, 0);
    it.at.sin_family = family;
    begin(ring, IORING_OP_CONNECT, own, &it, 0, length);
    printf("connect, type %d, family %u, %llx bytes:", type, family, (unsigned long long)length);
    tell_well(ring);
    printf("\n");
    close(fd);
    close(own);
}

/* A socket that is given a name, and listens then. */
static void try_bind(struct ring *ring, int type, uint64_t length, unsigned short family)
{
    enum { BIND = 56, LISTEN }; /* (which most headers don't have) */
    struct {
        struct sockaddr_in at;
        char rest[4096];
    } it = {.at = {.sin_family = family, .sin_addr.s_addr = htonl(INADDR_LOOPBACK)}};
    int own = socket(AF_INET, type, 0);
    begin(ring, BIND, own, &it, 0, length);
    printf("bind, type %d, family %u, %llx bytes:", type, family, (unsigned long long)length);
    tell_well(ring);
    begin(ring, LISTEN, own, NULL, 4, 0);
    printf(", listens:");
    tell_well(ring);
    printf("\n");
    close(own);
}

/* A message without a name is one to whom the socket is connected. */
static void try_send(struct ring *ring, unsigned length, unsigned vectors, unsigned control)
{
    char bytes[8] = {0}, more[64] = {0};
    struct sockaddr_in at = {.sin_family = AF_INET, .sin_addr.s_addr = htonl(INADDR_LOOPBACK)};
    struct iovec list[2] = {{bytes, 3}, {bytes, 0}};
    socklen_t size = sizeof at;
    int fd = socket(AF_INET, SOCK_DGRAM, 0), own = socket(AF_INET, SOCK_DGRAM, 0);
    check(bind(fd, (void *)&at, size) == 0 && getsockname(fd, (void *)&at, &size) == 0);
    struct msghdr message = {.msg_name = &at,
        .msg_namelen = length,
        .msg_iov = list,
        .msg_iovlen = vectors,
        .msg_control = control ? more : NULL,
        .msg_controllen = control};
    begin(ring, IORING_OP_SENDMSG, own, &message, 1, 0);
    printf("message sent to %u bytes, %u vectors, control %u:", length, vectors, control);
    tell_end(ring);
    close(fd);
    close(own);
}

/* The same by a send, or by one without copies. */
static void try_send_to(
    struct ring *ring, uint8_t code, unsigned length, unsigned bytes, int domain)
{
    char text[8] = {0};
    struct {
        struct sockaddr_in at;
        char rest[4096];
    } it = {.at = {.sin_family = AF_INET, .sin_addr.s_addr = htonl(INADDR_LOOPBACK)}};
    socklen_t size = sizeof it.at;
    int fd = socket(AF_INET, SOCK_DGRAM, 0), own = socket(domain, SOCK_DGRAM, 0);
    check(bind(fd, (void *)&it.at, size) == 0 && getsockname(fd, (void *)&it.at, &size) == 0);
    begin(ring, code, own, text, bytes, (uintptr_t)&it)->file_index = length;
    printf("operation %u of %u bytes to %u of an address, domain %d:", code, bytes, length, domain);
    tell_end(ring);
    close(fd);
    close(own);
}

static void try_receive(struct ring *ring, unsigned length, unsigned bytes, unsigned flags)
{
    char text[8] = {0};
    struct sockaddr_storage place = {0};
    struct iovec vector = {text, bytes};
    struct msghdr message = {.msg_name = length ? &place : NULL,
        .msg_namelen = length,
        .msg_iov = &vector,
        .msg_iovlen = 1,
        .msg_flags = 0x55};
    int ends[2];
    check(socketpair(AF_UNIX, SOCK_DGRAM, 0, ends) == 0 && write(ends[1], "abcdef", 6) == 6);
    begin(ring, IORING_OP_RECVMSG, ends[0], &message, 1, 0)->msg_flags = flags;
    printf(
        "message received, %u bytes for its address, %u for it, flags %x:", length, bytes, flags);
    check(enter(ring, 1, 0, 0) == 1);
    struct seen seen = {0};
    if (comes(ring, &seen))
        tell(&seen);
    printf(", told %u, control %zu, flags %x\n", message.msg_namelen, message.msg_controllen,
        (unsigned)message.msg_flags);
    close_pair(ends);
}

int main(void)
{
    static const unsigned flags[] = {
        0, MSG_TRUNC, MSG_PEEK, MSG_DONTWAIT, MSG_WAITALL, MSG_CMSG_CLOEXEC};
    struct ring ring;
    signal(SIGPIPE, SIG_IGN);
    make_ring(&ring, 8, 0, 0);
    for (unsigned i = 0; i < count_of(lengths); i++) {
        try_accept(&ring, lengths[i], true);
        try_accept(&ring, lengths[i], false);
        for (int type = SOCK_STREAM; type <= SOCK_DGRAM; type++)
            for (unsigned short family = AF_UNSPEC; family <= AF_INET; family++)
                for (uint64_t upper = 0; upper < 2; upper++) {
                    try_connect(&ring, type, lengths[i] | upper << 32, family);
                    try_bind(&ring, type, lengths[i] | upper << 32, family);
                }
        for (unsigned vectors = 0; vectors < 3; vectors++)
            for (unsigned control = 0; control < 33; control += 8)
                try_send(&ring, lengths[i], vectors, control);
        for (unsigned bytes = 0; bytes <= 8; bytes += 4) {
            try_send_to(&ring, IORING_OP_SEND, lengths[i], bytes, AF_INET);
            try_send_to(&ring, IORING_OP_SEND_ZC, lengths[i], bytes, AF_INET);
            try_send_to(&ring, IORING_OP_SEND, lengths[i], bytes, AF_UNIX);
        }
        for (unsigned bytes = 0; bytes <= 8; bytes += 4)
            for (unsigned at = 0; at < count_of(flags); at++)
                try_receive(&ring, lengths[i], bytes, flags[at]);
    }
}
