/* A small program of a seed: one or two submissions of one to four requests in all, of which some
 * are linked, drain, skip success, fail, cancel others or meet in a file and in memory; under an
 * even seed most move bytes and skip success. Under a seed that 3 divides it is one submission,
 * without links, whose first two requests meet in a way that is rolled. It prints all that it sees.
 * For runs of every order.
 *
 *   small SEED
 */
#include <fcntl.h>
#include <liburing.h>
#include <stdint.h>
#include <stdio.h>
#include <stdlib.h>
#include <string.h>
#include <sys/mman.h>
#include <unistd.h>

static uint64_t state;
static struct io_uring ring;
static int file, appending, ends[2];
static char bytes[24] = "abcdefghijklmnopqrstuvw";
static struct __kernel_timespec times[4];
static unsigned prepared;
static int is_moving; /* most move bytes and skip success */

/* Two that meet: in the file, in the place in memory, by their order at the file's end, as one
 * lengthens the file, or as one cancels the other (its length is 0). */
struct transfer {
    int is_write, is_vector, is_appending;
    unsigned length;
    uint64_t offset;
    unsigned place;
};
static const struct transfer meetings[][2] = {
    {{1, 0, 0, 8, 0, 0}, {1, 0, 0, 8, 4, 8}},
    {{1, 0, 0, 8, 0, 0}, {0, 0, 0, 8, 4, 8}},
    {{0, 0, 0, 8, 8, 0}, {1, 0, 0, 4, 16, 8}},
    {{0, 0, 0, 8, 0, 0}, {0, 0, 0, 8, 0, 4}},
    {{0, 0, 0, 8, 4, 0}, {1, 0, 0, 4, 0, 4}},
    {{0, 1, 0, 8, 0, 0}, {0, 0, 0, 8, 0, 4}},
    {{1, 0, 1, 4, 0, 0}, {1, 0, 1, 4, 8, 8}},
    {{0}, {0, 0, 0, 8, 0, 0}},
};
static const struct transfer *meeting;

static unsigned roll(unsigned count)
{
    uint64_t z = state += 0x9e3779b97f4a7c15u;
    z = (z ^ z >> 30) * 0xbf58476d1ce4e5b9u;
    z = (z ^ z >> 27) * 0x94d049bb133111ebu;
    return (unsigned)((z ^ z >> 31) >> 33) % count;
}

static void prepare_transfer(struct io_uring_sqe *entry, struct transfer it)
{
    static struct iovec vectors[4];
    struct iovec *vector = &vectors[prepared];
    int to = it.is_appending ? appending : file;
    *vector = (struct iovec){bytes + it.place, it.length};
    if (it.length == 0)
        io_uring_prep_cancel64(entry, 1 - prepared, 0);
    else if (it.is_vector && it.is_write)
        io_uring_prep_writev(entry, to, vector, 1, it.offset);
    else if (it.is_vector)
        io_uring_prep_readv(entry, to, vector, 1, it.offset);
    else if (it.is_write)
        io_uring_prep_write(entry, to, vector->iov_base, it.length, it.offset);
    else
        io_uring_prep_read(entry, to, vector->iov_base, it.length, it.offset);
}

static struct transfer rolled_transfer(int is_write)
{
    struct transfer it = {.is_write = is_write};
    it.is_appending = !roll(6);
    it.offset = roll(8) ? 4 * roll(4) : (uint64_t)-1;
    it.place = 4 * roll(4);
    it.length = 4 + 4 * roll(2);
    it.is_vector = roll(6) == 0;
    return it;
}

static void prepare_operation(struct io_uring_sqe *entry)
{
    struct __kernel_timespec *time = &times[prepared];
    switch (is_moving && roll(5) ? roll(6) : roll(12)) {
    case 0:
    case 1:
    case 2:
        prepare_transfer(entry, rolled_transfer(1));
        break;
    case 3:
    case 4:
    case 5:
        prepare_transfer(entry, rolled_transfer(0));
        break;
    case 6:
        io_uring_prep_fsync(entry, file, 0);
        break;
    case 7:
        io_uring_prep_fsync(entry, -1, 0);
        break;
    case 8:
        io_uring_prep_cancel64(entry, roll(4), 0);
        break;
    case 9:
        *time = (struct __kernel_timespec){.tv_nsec = 1000 * (1 + roll(2))};
        io_uring_prep_timeout(entry, time, 0, 0);
        break;
    case 10:
        io_uring_prep_read(entry, ends[0], bytes, 2, 0);
        break;
    default:
        io_uring_prep_nop(entry);
    }
}

static unsigned rolled_flags(void)
{
    static const unsigned flags[10] = {IOSQE_IO_LINK, IOSQE_IO_LINK, IOSQE_IO_HARDLINK,
        IOSQE_IO_DRAIN, IOSQE_CQE_SKIP_SUCCESS, IOSQE_CQE_SKIP_SUCCESS | IOSQE_IO_LINK};
    if (meeting)
        return roll(4) ? IOSQE_CQE_SKIP_SUCCESS : 0;
    return is_moving && roll(3) ? IOSQE_CQE_SKIP_SUCCESS : flags[roll(10)];
}

static void prepare(void)
{
    struct io_uring_sqe *entry = io_uring_get_sqe(&ring);
    if (meeting && prepared < 2)
        prepare_transfer(entry, meeting[(prepared + is_moving) % 2]);
    else
        prepare_operation(entry);
    io_uring_sqe_set_flags(entry, rolled_flags());
    entry->user_data = prepared++;
}

static void print_file(void)
{
    char found[64];
    ssize_t length = pread(file, found, sizeof found, 0);
    printf("file");
    for (ssize_t i = 0; i < length; i++)
        printf(" %02x", (unsigned char)found[i]);
    printf("\nmemory %.24s\n", bytes);
}

static int see_one(void)
{
    struct io_uring_cqe *completion;
    if (io_uring_peek_cqe(&ring, &completion) != 0)
        return 0;
    printf("%d: %d\n", (int)completion->user_data, completion->res);
    io_uring_cqe_seen(&ring, completion);
    return 1;
}

/* What an application does between two submissions. */
static void look(void)
{
    switch (roll(4)) {
    case 0:
        print_file();
        break;
    case 1:
        memset(bytes, 'z', 8);
        break;
    case 2:
        if (write(ends[1], "12", 2) != 2)
            exit(3);
        break;
    default:
        break;
    }
}

int main(int argc, char **argv)
{
    struct io_uring_cqe *completion;
    state = argc > 1 ? strtoull(argv[1], NULL, 10) : 1;
    is_moving = state % 2 == 0;
    if (state % 3 == 0)
        meeting = meetings[state / 3 % (sizeof meetings / sizeof *meetings)];
    file = memfd_create("small", 0);
    char path[64];
    snprintf(path, sizeof path, "/proc/self/fd/%d", file);
    appending = open(path, O_RDWR | O_APPEND);
    if (file < 0 || appending < 0 || write(file, "0123456789+-", meeting ? 12 : 4) < 4 ||
        pipe(ends) < 0 || write(ends[1], "87654321", 8) != 8 ||
        io_uring_queue_init(4, &ring, 0) != 0)
        return 3;
    unsigned first = meeting ? 2 + roll(2) : 1 + roll(3), second = meeting ? 0 : roll(3);
    for (unsigned i = 0; i < first; i++)
        prepare();
    printf("submitted %d\n", io_uring_submit_and_wait(&ring, roll(first + 1)));
    while (roll(3) && see_one())
        ;
    look();
    for (unsigned i = 0; i < second && prepared < 4; i++)
        prepare();
    printf("submitted %d\n", io_uring_submit(&ring));
    look();
    while (io_uring_wait_cqe(&ring, &completion) == 0)
        see_one();
    print_file();
    return 0;
}
