/* Reads and writes of each kind of descriptor with each flag of preadv2(2), and at each kind of
 * offset. */
#include "sweeps.h"

enum kind {
    DIGITS,
    MEMORY,
    READ_ONLY,
    APPENDED,
    PIPE,
    PIPE_EMPTY,
    SOCKET,
    SOCKET_EMPTY,
    EVENTFD,
    EVENTFD_EMPTY,
    NULL_DEVICE,
    FOLDER,
    TERMINAL,
    KINDS
};

static const char *const kinds[KINDS] = {"file", "memory", "file to be read", "file to append to",
    "pipe", "empty pipe", "socket", "empty socket", "eventfd", "empty eventfd", "/dev/null",
    "folder", "terminal"};

static const struct {
    const char *name;
    uint8_t code;
    bool is_vector;
} operations[] = {{"read", IORING_OP_READ, false}, {"readv", IORING_OP_READV, true},
    {"write", IORING_OP_WRITE, false}, {"writev", IORING_OP_WRITEV, true}};

static const struct {
    const char *name;
    uint64_t at;
} offsets[] = {{"0", 0}, {"7", 7}, {"-1", -1}, {"-2", -2}, {"2^63", 1ull << 63},
    {"2^63 - 1", (1ull << 63) - 1}, {"2^63 - 8", (1ull << 63) - 8}, {"2^63 - 9", (1ull << 63) - 9}};

/* The ends by which a case reads and writes, and what it has open besides. */
struct ends {
    int read, write, peer, lead;
};

static struct ends terminal(void)
{
    int lead = posix_openpt(O_RDWR | O_NOCTTY);
    if (lead < 0 || grantpt(lead) != 0 || unlockpt(lead) != 0)
        return (struct ends){-1, -1, -1, lead};
    int fd = open(ptsname(lead), O_RDWR | O_NOCTTY);
    check(write(lead, "ab\n", 3) == 3);
    return (struct ends){fd, fd, -1, lead};
}

static struct ends streams_of(enum kind kind)
{
    int two[2];
    bool is_pipe = kind == PIPE || kind == PIPE_EMPTY;
    check((is_pipe ? pipe(two) : socketpair(AF_UNIX, SOCK_STREAM, 0, two)) == 0);
    if (kind == PIPE || kind == SOCKET)
        check(write(two[1], "abcdefgh", 8) == 8);
    return is_pipe ? (struct ends){two[0], two[1], -1, -1}
                   : (struct ends){two[0], two[0], two[1], -1};
}

static struct ends ends_of(enum kind kind)
{
    int fd = -1;
    char path[] = "/tmp/sweep.XXXXXX";
    switch (kind) {
    case PIPE:
    case PIPE_EMPTY:
    case SOCKET:
    case SOCKET_EMPTY:
        return streams_of(kind);
    case TERMINAL:
        return terminal();
    case READ_ONLY:
        close(mkstemp(path));
        fd = open(path, O_RDONLY);
        unlink(path);
        break;
    case EVENTFD:
    case EVENTFD_EMPTY:
        fd = eventfd(kind == EVENTFD ? 5 : 0, 0);
        break;
    case NULL_DEVICE:
        fd = open("/dev/null", O_RDWR);
        break;
    case FOLDER:
        fd = open("/tmp", O_RDONLY | O_DIRECTORY);
        break;
    case MEMORY:
        fd = make_file();
        check(write(fd, "0123456789", 10) == 10);
        break;
    default:
        fd = make_digits(kind == APPENDED ? O_APPEND : 0);
    }
    return (struct ends){fd, fd, -1, -1};
}

static void try(struct ring *ring, enum kind kind, unsigned operation, unsigned length,
    uint64_t offset, unsigned flags)
{
    char bytes[8] = {1};
    struct iovec vector = {bytes, length};
    struct ends ends = ends_of(kind);
    bool is_write = operation >= 2, is_vector = operations[operation].is_vector;
    struct io_uring_sqe *entry = begin(ring, operations[operation].code,
        is_write ? ends.write : ends.read, is_vector ? (void *)&vector : bytes,
        is_vector ? 1 : length, offset);
    entry->rw_flags = flags;
    tell_end(ring);
    close(ends.read);
    if (ends.write != ends.read)
        close(ends.write);
    if (ends.peer >= 0)
        close(ends.peer);
    if (ends.lead >= 0)
        close(ends.lead);
}

int main(void)
{
    struct ring ring;
    signal(SIGPIPE, SIG_IGN);
    make_ring(&ring, 8, 0, 0);
    for (enum kind kind = 0; kind < KINDS; kind++)
        for (unsigned operation = 0; operation < count_of(operations); operation++) {
            for (unsigned bit = 0; bit < 32; bit++) {
                printf("%s, %s, flag %u:", kinds[kind], operations[operation].name, bit);
                try(&ring, kind, operation, 8, 0, 1u << bit);
            }
            for (unsigned i = 0; i < count_of(offsets); i++)
                for (unsigned length = 0; length <= 8; length += 8) {
                    printf("%s, %s of %u, offset %s:", kinds[kind], operations[operation].name,
                        length, offsets[i].name);
                    try(&ring, kind, operation, length, offsets[i].at, 0);
                }
        }
}
