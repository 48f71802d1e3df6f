/* Tests of how reads that go on end, by direct calls: by a fault of their file or their entry, a
 * cancel, a full ring, or at the end of the file. All hold under every policy, which the
 * environment says, and on a real ring of Linux 6.18.
 *
 *   multishot_ends [NAME]    with a name: that test alone. Status 0 also where the kernel makes no
 *                            rings, or doesn't know the operation
 */
#define _GNU_SOURCE
#include "multishot.h"

#include <sys/socket.h>

static int32_t end_of(const struct io_uring_sqe *asked, int kind, int count)
{
    struct ring ring;
    make_with(&ring, 0, kind, count);
    *put(&ring, 0, 0, 0) = *asked;
    check(enter(&ring, 1, 0, 0) == 1);
    struct seen found = next_of(&ring);
    check(found.user_data == 1);
    close_ring(&ring);
    return found.flags ? INT32_MAX : found.res;
}

static struct io_uring_sqe read_of(int fd)
{
    return (struct io_uring_sqe){.opcode = READ_MULTISHOT,
        .flags = IOSQE_BUFFER_SELECT,
        .fd = fd,
        .user_data = 1,
        .buf_group = BY_LIST};
}

static int32_t end_on(int fd, int count)
{
    struct io_uring_sqe asked = read_of(fd);
    int32_t res = end_of(&asked, BY_LIST, count);
    close(fd);
    return res;
}

/* What can't be polled fails before a buffer is looked for; what isn't open for reading after that.
 */
static void test_files(void)
{
    for (int count = 1; count <= 2; count++) {
        int ends[2];
        make_pipe(ends, "01");
        check(end_on(make_file(), count) == -EBADFD);
        check(end_on(open("/tmp", O_RDONLY | O_DIRECTORY), count) == -EBADFD);
        check(end_on(open("/dev/null", O_WRONLY), count) == -EBADFD);
        check(end_on(open("/tmp", O_PATH), count) == -EBADF);
        check(end_on(999, count) == -EBADF);
        check(end_on(dup(ends[1]), count) == -EBADF);
        struct io_uring_sqe none = read_of(make_file());
        none.buf_group = NO_GROUP;
        check(end_of(&none, BY_LIST, count) == -EBADFD);
        close(none.fd);
        none.fd = ends[1];
        check(end_of(&none, BY_LIST, count) == -ENOBUFS);
        none.fd = 999;
        check(end_of(&none, BY_LIST, count) == -EBADF);
        close_pair(ends);
    }
}

/* An entry has no address, no length and no priority of its own, and takes a provided buffer. */
static void test_fields(void)
{
    int ends[2], sockets[2];
    make_pipe(ends, "");
    check(socketpair(AF_UNIX, SOCK_STREAM, 0, sockets) == 0);
    struct io_uring_sqe asked = read_of(ends[0]);
    asked.addr = 1;
    check(end_of(&asked, BY_LIST, 1) == -EINVAL);
    asked = read_of(ends[0]);
    asked.len = 1;
    check(end_of(&asked, BY_RING, 1) == -EINVAL);
    asked = read_of(ends[0]);
    asked.ioprio = 0x4000;
    check(end_of(&asked, BY_LIST, 1) == -EINVAL);
    asked = read_of(ends[0]);
    asked.flags = 0;
    check(end_of(&asked, BY_LIST, 1) == -EINVAL);
    asked = read_of(ends[0]);
    asked.off = 1ull << 63;
    check(end_of(&asked, BY_LIST, 1) == -EINVAL);
    asked = read_of(sockets[0]);
    asked.off = 1;
    check(end_of(&asked, BY_LIST, 1) == -ESPIPE);
    close_pair(ends);
    close_pair(sockets);
}

static void test_cancel(void)
{
    struct ring ring;
    int ends[2];
    make_pipe(ends, "ab");
    make_with(&ring, 0, BY_LIST, 2);
    begin_read(&ring, ends[0], BY_LIST);
    expect_bytes(&ring, "ab", 0);
    expect_nothing(&ring);
    put(&ring, IORING_OP_ASYNC_CANCEL, 2, 0)->addr = 1;
    check(enter(&ring, 1, 0, 0) == 1);
    for (int i = 0; i < 2; i++) {
        struct seen found = next_of(&ring);
        check(found.flags == 0 && found.res == (found.user_data == 1 ? -ECANCELED : 0));
    }
    /* its buffer is there still */
    check(write(ends[1], "cd", 2) == 2);
    begin_read(&ring, ends[0], BY_LIST);
    expect_bytes(&ring, "cd", 1);
    close_pair(ends);
    close_ring(&ring);
}

/* The completion that finds the ring full is the last. (A lazy ring may have carried no more out by
 * then.) */
static void test_overflow(void)
{
    struct ring ring;
    int ends[2];
    char left[5] = "";
    make_pipe(ends, "");
    make_with(&ring, 4, BY_LIST, 8);
    begin_read(&ring, ends[0], BY_LIST);
    check(write(ends[1], "000011112222333344445555", 24) == 24);
    check(enter(&ring, 0, 4, IORING_ENTER_GETEVENTS) == 0 && count_ready(&ring) == 4);
    bool is_full = flags_of(&ring) & IORING_SQ_CQ_OVERFLOW;
    expect_bytes(&ring, "0000", 0);
    expect_bytes(&ring, "1111", 1);
    expect_bytes(&ring, "2222", 2);
    expect_bytes(&ring, "3333", 3);
    struct seen last = next_of(&ring);
    check(
        last.res == SIZE && last.flags == (IORING_CQE_F_BUFFER | (is_full ? 0 : IORING_CQE_F_MORE) |
                                              (FIRST + 4u) << IORING_CQE_BUFFER_SHIFT));
    if (is_full) {
        expect_nothing(&ring);
        check(read(ends[0], left, 4) == 4 && strcmp(left, "5555") == 0);
    } else {
        expect_bytes(&ring, "5555", 5);
    }
    close_pair(ends);
    close_ring(&ring);
}

/* An end of the file is a success to what is linked to it; what finds no buffer isn't. */
static void test_links(void)
{
    for (int count = 1; count <= 2; count++) {
        struct ring ring;
        int ends[2];
        make_pipe(ends, "0123");
        make_with(&ring, 0, BY_LIST, count);
        put_read(&ring, 1, ends[0], BY_LIST)->flags |= IOSQE_IO_LINK;
        put(&ring, IORING_OP_NOP, 2, 0);
        check(enter(&ring, 2, 0, 0) == 2);
        expect_bytes(&ring, "0123", 0);
        expect_nothing(&ring);
        close(ends[1]);
        expect_end(&ring, count == 1 ? -ENOBUFS : 0);
        check(wait_for_one(&ring) == (count == 1 ? -ECANCELED : 0));
        close(ends[0]);
        close_ring(&ring);
    }
}

int main(int count, char **words)
{
    static const struct named tests[] = {
        {"files", test_files},
        {"fields", test_fields},
        {"cancel", test_cancel},
        {"overflow", test_overflow},
        {"links", test_links},
    };
    return run_multishot(tests, sizeof tests / sizeof *tests, count > 1 ? words[1] : NULL);
}
