/* Tests of reads that go on, IORING_OP_READ_MULTISHOT, by direct calls: what is read into buffers
 * of a list and of a ring in memory, of pipes, files, counts and sockets. All hold under every
 * policy, which the environment says, and on a real ring of Linux 6.18.
 *
 *   multishot [NAME]         with a name: that test alone. Status 0 also where the kernel makes no
 *                            rings, or doesn't know the operation
 */
#define _GNU_SOURCE
#include "multishot.h"

#include <sys/eventfd.h>
#include <sys/socket.h>

/* What comes is read, as much as each buffer has room for, until the writer closes. That end takes
 * no buffer. */
static void test_pipe(void)
{
    for (int kind = BY_LIST; kind <= BY_RING; kind++) {
        struct ring ring;
        int ends[2], other[2];
        make_pipe(ends, "");
        make_pipe(other, "z");
        make_with(&ring, 0, kind, 5);
        begin_read(&ring, ends[0], kind);
        expect_nothing(&ring);
        check(write(ends[1], "0123456789", 10) == 10);
        expect_bytes(&ring, "0123", 0);
        expect_bytes(&ring, "4567", 1);
        expect_bytes(&ring, "89", 2);
        expect_nothing(&ring);
        check(write(ends[1], "ab", 2) == 2);
        close(ends[1]);
        expect_bytes(&ring, "ab", 3);
        expect_end(&ring, 0);
        expect_nothing(&ring);
        begin_read(&ring, other[0], kind);
        expect_bytes(&ring, "z", 4);
        close(ends[0]);
        close_pair(other);
        close_ring(&ring);
    }
}

/* Where there is no buffer a read ends at once; one that has had one ends when more has come. */
static void test_buffers(void)
{
    for (int kind = BY_LIST; kind <= NO_GROUP; kind++) {
        struct ring ring;
        int ends[2];
        make_pipe(ends, "01234567");
        make_with(&ring, 0, kind, 2);
        begin_read(&ring, ends[0], kind);
        if (kind != NO_GROUP) {
            expect_bytes(&ring, "0123", 0);
            expect_bytes(&ring, "4567", 1);
            expect_nothing(&ring);
            check(write(ends[1], "8", 1) == 1);
        }
        expect_end(&ring, -ENOBUFS);
        char left;
        check(kind == NO_GROUP || (read(ends[0], &left, 1) == 1 && left == '8'));
        begin_read(&ring, ends[0], kind);
        expect_end(&ring, -ENOBUFS);
        close_pair(ends);
        close_ring(&ring);
    }
}

/* A pipe passes over an offset; what is asked not to wait reads what there is, and ends. */
static void test_offsets(void)
{
    static const uint64_t offsets[] = {0, 1, 4096, UINT64_MAX};
    for (size_t i = 0; i < sizeof offsets / sizeof *offsets; i++) {
        struct ring ring;
        int ends[2];
        make_pipe(ends, "0123");
        make_with(&ring, 0, BY_LIST, 4);
        struct io_uring_sqe *entry = put_read(&ring, 1, ends[0], BY_LIST);
        entry->off = offsets[i];
        entry->rw_flags = 8; /* RWF_NOWAIT */
        check(enter(&ring, 1, 0, 0) == 1);
        expect_bytes(&ring, "0123", 0);
        expect_end(&ring, -EAGAIN);
        close_pair(ends);
        close_ring(&ring);
    }
}

/* What has offsets and can be polled is read on after what was read. */
static void test_mounts(void)
{
    struct ring ring;
    char bytes[3 * SIZE + 1] = "";
    int fd = open("/proc/self/mounts", O_RDONLY);
    check(fd >= 0 && pread(fd, bytes, 3 * SIZE, 2) == 3 * SIZE);
    make_with(&ring, 0, BY_RING, 3);
    put_read(&ring, 1, fd, BY_RING)->off = 2;
    check(enter(&ring, 1, 0, 0) == 1);
    for (int i = 0; i < 3; i++) {
        struct seen found = next_of(&ring);
        check(found.res == SIZE && found.flags & IORING_CQE_F_MORE);
    }
    expect_end(&ring, -ENOBUFS);
    check(memcmp(memory, bytes, 3 * SIZE) == 0);
    close(fd);
    close_ring(&ring);
}

/* Each count of an eventfd is one read, and a descriptor that isn't to wait is waited for too. */
static void test_counts(void)
{
    for (int flags = 0; flags <= EFD_NONBLOCK; flags += EFD_NONBLOCK) {
        struct ring ring;
        static uint64_t counts[4];
        int fd = eventfd(2, EFD_SEMAPHORE | flags);
        make_ring(&ring, 4, 0, 0);
        put_transfer(&ring, IORING_OP_PROVIDE_BUFFERS, 0, 0, 4, counts, 8, 0)->buf_group = BY_LIST;
        check(result_of_one(&ring, 1) == 0);
        begin_read(&ring, fd, BY_LIST);
        for (uint32_t i = 0; i < 3; i++) {
            check(i < 2 || eventfd_write(fd, 1) == 0);
            struct seen found = next_of(&ring);
            check(found.res == 8 &&
                  found.flags ==
                      (IORING_CQE_F_MORE | IORING_CQE_F_BUFFER | i << IORING_CQE_BUFFER_SHIFT) &&
                  counts[i] == 1);
            check(i == 0 || (expect_nothing(&ring), true));
        }
        close(fd);
        close_ring(&ring);
    }
}

/* A socket is read as a stream, by its slot, until its peer shuts down. */
static void test_slot(void)
{
    struct ring ring;
    int sockets[2];
    check(socketpair(AF_UNIX, SOCK_STREAM, 0, sockets) == 0);
    make_with(&ring, 0, BY_RING, 4);
    check(register_at(ring.fd, IORING_REGISTER_FILES, sockets, 1) == 0);
    put_read(&ring, 1, 0, BY_RING)->flags |= IOSQE_FIXED_FILE;
    check(enter(&ring, 1, 0, 0) == 1);
    close(sockets[0]);
    check(write(sockets[1], "01234", 5) == 5);
    expect_bytes(&ring, "0123", 0);
    expect_bytes(&ring, "4", 1);
    expect_nothing(&ring);
    check(shutdown(sockets[1], SHUT_WR) == 0);
    expect_end(&ring, 0);
    close(sockets[1]);
    close_ring(&ring);
}

int main(int count, char **words)
{
    static const struct named tests[] = {
        {"pipe", test_pipe},
        {"buffers", test_buffers},
        {"offsets", test_offsets},
        {"mounts", test_mounts},
        {"counts", test_counts},
        {"slot", test_slot},
    };
    return run_multishot(tests, sizeof tests / sizeof *tests, count > 1 ? words[1] : NULL);
}
