/* Splices and tees from each kind of descriptor to each, by offsets and without, of no bytes, and
 * such as aren't to wait. */
#include "sweeps.h"

enum kind {
    EMPTY,
    SOME,
    ENDED,
    FULL,
    OTHER_END,
    DIGITS,
    APPENDED,
    READ_ONLY,
    SOCKET,
    SOCKET_WITH_SOME,
    SOCKET_ENDED,
    EVENTFD,
    NULL_DEVICE,
    FOLDER,
    ZERO_DEVICE,
    CLOSED,
    DATAGRAMS,
    KINDS
};

static const char *const kinds[KINDS] = {"empty pipe", "pipe with some", "pipe that ended",
    "full pipe", "pipe's other end", "file", "file to append to", "file to be read", "socket",
    "socket with some", "socket that ended", "eventfd", "/dev/null", "folder", "/dev/zero",
    "nothing", "datagrams"};

static const struct {
    const char *name;
    uint8_t code;
    uint64_t in, out;
    unsigned length, flags;
} ways[] = {
    {"splice", IORING_OP_SPLICE, -1, -1, 5, 0},
    {"splice from 1", IORING_OP_SPLICE, 1, -1, 5, 0},
    {"splice to 1", IORING_OP_SPLICE, -1, 1, 5, 0},
    {"splice from 1 to 1", IORING_OP_SPLICE, 1, 1, 5, 0},
    {"splice of no bytes", IORING_OP_SPLICE, -1, -1, 0, 0},
    {"splice that isn't to wait", IORING_OP_SPLICE, -1, -1, 5, SPLICE_F_NONBLOCK},
    {"tee", IORING_OP_TEE, 0, 0, 5, 0},
};

/* What a case has open besides the two. */
static int kept[2], count_kept;

static int pipe_of(enum kind kind, bool is_source)
{
    int ends[2];
    check(pipe(ends) == 0);
    if (kind == SOME || kind == ENDED)
        check(write(ends[1], "abcdefgh", 8) == 8);
    if (kind == FULL)
        fill(ends[1], 4096);
    if (kind == ENDED && is_source)
        empty(ends[0]);
    bool is_read = is_source != (kind == OTHER_END);
    if (kind == ENDED)
        close(ends[is_read]);
    else
        kept[count_kept++] = ends[is_read];
    return ends[!is_read];
}

static int socket_of(enum kind kind)
{
    int ends[2];
    check(socketpair(AF_UNIX, kind == DATAGRAMS ? SOCK_DGRAM : SOCK_STREAM, 0, ends) == 0);
    if (kind == SOCKET_WITH_SOME || kind == DATAGRAMS)
        check(write(ends[1], "abcdefgh", 8) == 8);
    if (kind == SOCKET_ENDED)
        shutdown(ends[1], SHUT_RDWR);
    kept[count_kept++] = ends[1];
    return ends[0];
}

static int descriptor_of(enum kind kind, bool is_source)
{
    int fd;
    switch (kind) {
    case DIGITS:
    case APPENDED:
        fd = make_digits(kind == APPENDED ? O_APPEND : 0);
        check(lseek(fd, 2, SEEK_SET) == 2);
        return fd;
    case READ_ONLY:
        return open("/etc/passwd", O_RDONLY);
    case SOCKET:
    case SOCKET_WITH_SOME:
    case SOCKET_ENDED:
    case DATAGRAMS:
        return socket_of(kind);
    case EVENTFD:
        return eventfd(3, 0);
    case NULL_DEVICE:
        return open("/dev/null", O_RDWR);
    case FOLDER:
        return open("/tmp", O_RDONLY | O_DIRECTORY);
    case ZERO_DEVICE:
        return open("/dev/zero", O_RDWR);
    case CLOSED:
        return 999;
    default:
        return pipe_of(kind, is_source);
    }
}

/* Where a file stands after it. */
static long position(enum kind kind, int fd)
{
    return kind == DIGITS || kind == APPENDED || kind == READ_ONLY ? (long)lseek(fd, 0, SEEK_CUR)
                                                                   : 0;
}

static void try(struct ring *ring, enum kind from, enum kind to, unsigned way)
{
    count_kept = 0;
    int in = descriptor_of(from, true), out = descriptor_of(to, false);
    struct io_uring_sqe *entry = begin(
        ring, ways[way].code, out, NULL, ways[way].length, ways[way].out);
    entry->splice_fd_in = in;
    entry->splice_off_in = ways[way].in;
    entry->splice_flags = ways[way].flags;
    printf("%s, %s -> %s:", ways[way].name, kinds[from], kinds[to]);
    tell_end(ring);
    printf("positions after %s, %s -> %s: %ld %ld\n", ways[way].name, kinds[from], kinds[to],
        position(from, in), position(to, out));
    close(in);
    close(out);
    while (count_kept > 0)
        close(kept[--count_kept]);
}

int main(void)
{
    struct ring ring;
    signal(SIGPIPE, SIG_IGN);
    make_ring(&ring, 8, 0, 0);
    for (enum kind from = 0; from < KINDS; from++)
        for (enum kind to = 0; to < KINDS; to++)
            for (unsigned way = 0; way < count_of(ways); way++)
                try(&ring, from, to, way);
}
