/* Tests of provided buffers, by direct calls: of lists and of rings in memory. All hold under every
 * policy, which the environment says; and on a real ring, if the kernel gives one and it is built
 * for that.
 *
 *   provided [NAME]          with a name: that test alone
 */
#define _GNU_SOURCE
#include "engines.h"

#include <malloc.h>
#include <sys/socket.h>
#include <sys/uio.h>

/* (not in most headers) */
enum { READ_MULTISHOT = 49 };

/* The group 2, a ring, has no buffer left, and without one nothing is waited for; there is no
 * group 3. The ring goes. */
static void expect_no_buffers(struct ring *ring, struct io_uring_buf_reg *asked)
{
    int ends[2];
    check(pipe(ends) == 0);
    put_transfer(ring, IORING_OP_READ, 0, IOSQE_BUFFER_SELECT, ends[0], NULL, 4, 0)->buf_group = 2;
    check(result_of_one(ring, 1) == -ENOBUFS);
    close_pair(ends);
    put_plain(ring, IORING_OP_REMOVE_BUFFERS, 0, 1)->buf_group = 3;
    check(result_of_one(ring, 1) == -ENOENT);
    check(register_at(ring->fd, IORING_UNREGISTER_PBUF_RING, asked, 1) == 0);
    check(register_at(ring->fd, IORING_UNREGISTER_PBUF_RING, asked, 1) == -ENOENT);
    put(ring, IORING_OP_NOP, 0, IOSQE_BUFFER_SELECT);
    check(result_of_one(ring, 1) == -EOPNOTSUPP);
}

/* Buffers of a list and of a ring in memory: each is taken once, and its number is told. */
static void test_provided(void)
{
    struct ring ring;
    static char memory[4][16];
    struct io_uring_buf_ring *cells = mmap(
        NULL, 4096, PROT_READ | PROT_WRITE, MAP_PRIVATE | MAP_ANONYMOUS, -1, 0);
    struct io_uring_buf_reg asked = {.ring_addr = (uintptr_t)cells, .ring_entries = 4, .bgid = 2};
    int fd = make_file();
    check(pwrite(fd, "0123456789", 10, 0) == 10);
    make_ring(&ring, 8, 0, 0);
    struct io_uring_sqe *provide = put_plain(&ring, IORING_OP_PROVIDE_BUFFERS, 0, 2);
    provide->addr = (uintptr_t)memory;
    provide->len = 4;
    provide->off = 7;
    provide->buf_group = 1;
    check(result_of_one(&ring, 1) == 0);
    check(register_at(ring.fd, IORING_REGISTER_PBUF_RING, &asked, 1) == 0);
    check(register_at(ring.fd, IORING_REGISTER_PBUF_RING, &asked, 1) == -EEXIST);
    cells->bufs[0] = (struct io_uring_buf){.addr = (uintptr_t)memory[3], .len = 8, .bid = 30};
    __atomic_store_n(&cells->tail, 1, __ATOMIC_RELEASE);
    static const struct {
        uint16_t group, id;
        uint32_t asked;
        int32_t res;
    } rows[] = {{1, 7, 10, 4}, {1, 8, 3, 3}, {1, 0, 3, -ENOBUFS}, {2, 30, 10, 8},
        {2, 0, 10, -ENOBUFS}, {3, 0, 10, -ENOBUFS}};
    for (size_t i = 0; i < sizeof rows / sizeof *rows; i++) {
        put_transfer(&ring, IORING_OP_READ, 5, IOSQE_BUFFER_SELECT, fd, NULL, rows[i].asked, 0)
            ->buf_group = rows[i].group;
        check(enter(&ring, 1, 0, 0) == 1);
        struct seen found = next_of(&ring);
        check(found.res == rows[i].res);
        check(found.flags == (found.res < 0 ? 0
                                            : IORING_CQE_F_BUFFER |
                                                  (uint32_t)rows[i].id << IORING_CQE_BUFFER_SHIFT));
    }
    check(memcmp(memory[3], "01234567", 8) == 0);
    expect_no_buffers(&ring, &asked);
    munmap(cells, 4096);
    close(fd);
    close_ring(&ring);
}

static int32_t provide(
    struct ring *ring, uint64_t address, uint32_t size, int count, uint64_t id, uint16_t group)
{
    struct io_uring_sqe *entry = put_plain(ring, IORING_OP_PROVIDE_BUFFERS, 0, count);
    entry->addr = address;
    entry->len = size;
    entry->off = id;
    entry->buf_group = group;
    return result_of_one(ring, 1);
}

static int32_t remove_buffers(struct ring *ring, int count, uint16_t group)
{
    put_plain(ring, IORING_OP_REMOVE_BUFFERS, 0, count)->buf_group = group;
    return result_of_one(ring, 1);
}

static long register_group(
    const struct ring *ring, const void *cells, uint32_t entries, uint16_t group)
{
    struct io_uring_buf_reg asked = {
        .ring_addr = (uintptr_t)cells, .ring_entries = entries, .bgid = group};
    return register_at(ring->fd, IORING_REGISTER_PBUF_RING, &asked, 1);
}

static long unregister_group(const struct ring *ring, uint16_t group)
{
    struct io_uring_buf_reg asked = {.bgid = group};
    return register_at(ring->fd, IORING_UNREGISTER_PBUF_RING, &asked, 1);
}

/* What is refused of groups, and how many buffers a list takes up. */
static void test_groups(void)
{
    struct ring ring;
    static char memory[16];
    uint64_t at = (uintptr_t)memory;
    char *cells = mmap(NULL, 8192, PROT_READ | PROT_WRITE, MAP_PRIVATE | MAP_ANONYMOUS, -1, 0);
    make_ring(&ring, 8, 0, 0);
    munmap(cells + 4096, 4096);
    check(remove_buffers(&ring, 1, 1) == -ENOENT && unregister_group(&ring, 1) == -ENOENT);
    check(provide(&ring, at, 1, 2, 65535, 1) == -EINVAL &&
          provide(&ring, UINT64_MAX - 5, 4096, 2, 0, 1) == -EOVERFLOW);
    check(register_group(&ring, cells, 3, 1) == -EINVAL &&
          register_group(&ring, cells, 0, 1) == -EINVAL &&
          register_group(&ring, cells, 65536, 1) == -EINVAL);
    check(register_group(&ring, NULL, 3, 1) == -EINVAL &&
          register_group(&ring, NULL, 8, 1) == -EFAULT &&
          register_group(&ring, cells + 8, 8, 1) == -EINVAL);
    check(register_group(&ring, cells + 4096, 8, 1) == -EFAULT &&
          unregister_group(&ring, 1) == -ENOENT);
    check(register_group(&ring, cells, 8, 1) == 0);
    check(register_group(&ring, cells, 3, 1) == -EINVAL &&
          register_group(&ring, NULL, 8, 1) == -EEXIST &&
          register_group(&ring, cells + 8, 8, 1) == -EEXIST);
    check(provide(&ring, at, 1, 1, 0, 1) == -EINVAL && remove_buffers(&ring, 1, 1) == -EINVAL);
    struct io_uring_buf_reg with_rest = {.bgid = 1, .resv = {1ull << 32}},
                            with_least = {.bgid = 1, .resv = {5}};
    check(register_at(ring.fd, IORING_UNREGISTER_PBUF_RING, NULL, 1) == -EINVAL &&
          register_at(ring.fd, IORING_UNREGISTER_PBUF_RING, &with_rest, 1) == -EINVAL);
    check(register_at(ring.fd, IORING_UNREGISTER_PBUF_RING, &with_least, 1) == 0 &&
          unregister_group(&ring, 1) == -ENOENT);
    check(provide(&ring, at, 1, 3, 0, 2) == 0 && register_group(&ring, cells, 8, 2) == -EEXIST &&
          unregister_group(&ring, 2) == -EINVAL);
    check(remove_buffers(&ring, 2, 2) == 2 && remove_buffers(&ring, 2, 2) == 1 &&
          remove_buffers(&ring, 2, 2) == 0);
    check(register_group(&ring, cells, 8, 2) == 0 && unregister_group(&ring, 2) == 0);
    check(provide(&ring, at, 1, 65536, 0, 3) == 0 && provide(&ring, at, 1, 1, 0, 3) == -EOVERFLOW);
    check(remove_buffers(&ring, 65536, 3) == 65535 && remove_buffers(&ring, 1, 3) == 0);
    munmap(cells, 4096);
    close_ring(&ring);
}

/* A group whose ring of buffers goes is gone: nothing of it is kept. */
static void test_unregistered(void)
{
    enum { EACH = 16, MOST_KEPT = 16384 };
    struct ring ring;
    char *cells = mmap(NULL, 4096, PROT_READ | PROT_WRITE, MAP_PRIVATE | MAP_ANONYMOUS, -1, 0);
    make_ring(&ring, 8, 0, 0);
    check(register_group(&ring, cells, 8, 0) == 0 && unregister_group(&ring, 0) == 0);
    size_t before = mallinfo2().uordblks;
    for (uint32_t group = 0; group <= UINT16_MAX; group += EACH)
        check(register_group(&ring, cells, 8, (uint16_t)group) == 0 &&
              unregister_group(&ring, (uint16_t)group) == 0);
    check(mallinfo2().uordblks <= before + MOST_KEPT);
    munmap(cells, 4096);
    close_ring(&ring);
}

/* A list without buffers goes where a ring of a good size is to take its place, though that is
 * refused for its address or its pages. */
static void test_empty_lists(void)
{
    struct ring ring;
    static char memory[16];
    char *cells = mmap(NULL, 8192, PROT_READ | PROT_WRITE, MAP_PRIVATE | MAP_ANONYMOUS, -1, 0);
    char *refused[] = {NULL, cells + 8, cells + 4096};
    make_ring(&ring, 8, 0, 0);
    munmap(cells + 4096, 4096);
    for (int i = 0; i < 3; i++) {
        check(
            provide(&ring, (uintptr_t)memory, 1, 1, 0, 1) == 0 && remove_buffers(&ring, 1, 1) == 1);
        check(register_group(&ring, cells, 3, 1) == -EINVAL && remove_buffers(&ring, 1, 1) == 0);
        check(register_group(&ring, refused[i], 8, 1) == (i == 1 ? -EINVAL : -EFAULT));
        check(remove_buffers(&ring, 1, 1) == -ENOENT && unregister_group(&ring, 1) == -ENOENT);
    }
    munmap(cells, 4096);
    close_ring(&ring);
}

enum { BY_LIST = 1, BY_RING = 2 };

/* A list and a ring of eight buffers of 8 bytes each, of which the first stands elsewhere. */
static void make_both(struct ring *ring, uint64_t first)
{
    static char memory[8][8];
    static _Alignas(4096) struct io_uring_buf_ring cells[8];
    make_ring(ring, 8, 0, 0);
    check(provide(ring, first, 8, 1, 0, BY_LIST) == 0 &&
          provide(ring, (uintptr_t)memory[1], 8, 7, 1, BY_LIST) == 0 &&
          register_group(ring, cells, 8, BY_RING) == 0);
    for (uint16_t i = 0; i < 8; i++)
        cells->bufs[i] = (struct io_uring_buf){
            .addr = i == 0 ? first : (uintptr_t)memory[i], .len = 8, .bid = i};
    __atomic_store_n(&cells->tail, 8, __ATOMIC_RELEASE);
}

/* What takes a buffer, and with which result. */
struct taking {
    uint8_t code;
    int fd;
    uint64_t offset;
    uint32_t flags;
    int32_t res;
    int takers; /* of which kinds it takes its buffer */
};

static void check_taking(struct ring *ring, const struct taking *of, uint16_t group, uint32_t id)
{
    struct iovec vector = {NULL, 8};
    bool is_vector = of->code == IORING_OP_READV;
    struct io_uring_sqe *entry = put_transfer(ring, of->code, 0, IOSQE_BUFFER_SELECT, of->fd,
        is_vector ? &vector : NULL,
        is_vector                    ? 1
        : of->code == READ_MULTISHOT ? 0
                                     : 8,
        of->offset);
    entry->rw_flags = (int)of->flags;
    entry->buf_group = group;
    check(enter(ring, 1, 0, 0) == 1);
    struct seen found = next_of(ring);
    check(found.res == of->res &&
          found.flags ==
              (of->takers & group ? IORING_CQE_F_BUFFER | id << IORING_CQE_BUFFER_SHIFT : 0));
}

/* A read that fails takes its buffer: of a list, and of a ring where its descriptor can't be
 * polled. */
static void test_failing(void)
{
    int ends[2], folder = open("/", O_RDONLY | O_DIRECTORY), to_write = open("/dev/null", O_WRONLY),
                 alone = socket(AF_UNIX, SOCK_STREAM, 0);
    check(pipe(ends) == 0);
    const struct taking takings[] = {
        {IORING_OP_READ, to_write, 0, 0, -EBADF, BY_LIST | BY_RING},
        {IORING_OP_READ, ends[1], 0, 0, -EBADF, BY_LIST},
        {IORING_OP_READV, ends[1], 0, 0, -EBADF, BY_LIST},
        {IORING_OP_READ, folder, 0, 0, -EISDIR, BY_LIST | BY_RING},
        {IORING_OP_READ, ends[0], 0, RWF_NOWAIT, -EAGAIN, BY_LIST},
        {IORING_OP_READ, ends[0], (uint64_t)-2, 0, -EINVAL, BY_LIST},
        {IORING_OP_READ, 999, 0, 0, -EBADF, 0},
        {READ_MULTISHOT, ends[1], 0, 0, -EBADF, 0},
        {IORING_OP_RECV, alone, 0, 0, -EINVAL, 0},
        {IORING_OP_READ, alone, 0, 0, -EINVAL, BY_LIST},
    };
    for (uint16_t group = BY_LIST; group <= BY_RING; group++) {
        struct ring ring;
        static char first[8];
        uint32_t taken = 0;
        make_both(&ring, (uintptr_t)first);
        for (size_t i = 0; i < sizeof takings / sizeof *takings; i++) {
            check_taking(&ring, &takings[i], group, taken);
            taken += (takings[i].takers & group) != 0;
        }
        close_ring(&ring);
    }
    close_pair(ends);
    close(folder);
    close(to_write);
    close(alone);
}

/* A read of 8 bytes from a slot of the ring's, of which the first alone has a file, or from a file.
 */
static void put_into_buffer(struct ring *ring, uint16_t group, uint8_t flags, int fd)
{
    put_transfer(ring, IORING_OP_READ, 0, IOSQE_BUFFER_SELECT | flags, fd, NULL, 8, 0)
        ->buf_group = group;
}

static void check_next(struct ring *ring, int32_t res, uint32_t flags)
{
    struct seen found = next_of(ring);
    check(found.res == res && found.flags == flags);
}

/* So does a read from a slot that has a file, also within a chain and after others, and none that
 * is cancelled, or whose slot is empty. */
static void test_failing_in_chains(void)
{
    enum { HAD = IORING_CQE_F_BUFFER, NEXT = 1 << IORING_CQE_BUFFER_SHIFT };
    int slots[] = {open("/dev/null", O_WRONLY), -1}, file = open("/dev/zero", O_RDONLY);
    for (uint16_t group = BY_LIST; group <= BY_RING; group++) {
        struct ring ring;
        static char first[8];
        make_both(&ring, (uintptr_t)first);
        check(register_at(ring.fd, IORING_REGISTER_FILES, slots, 2) == 0);
        put_into_buffer(&ring, group, IOSQE_FIXED_FILE | IOSQE_IO_HARDLINK, 0);
        put_into_buffer(&ring, group, 0, file);
        check(enter(&ring, 2, 0, 0) == 2);
        check_next(&ring, -EBADF, HAD);
        check_next(&ring, 8, HAD | NEXT);
        put_into_buffer(&ring, group, IOSQE_FIXED_FILE | IOSQE_IO_LINK, 0);
        put_into_buffer(&ring, group, 0, file);
        check(enter(&ring, 2, 0, 0) == 2);
        check_next(&ring, -EBADF, HAD | 2 * NEXT);
        check_next(&ring, -ECANCELED, 0);
        put_into_buffer(&ring, group, IOSQE_FIXED_FILE, 1);
        check(enter(&ring, 1, 0, 0) == 1);
        check_next(&ring, -EBADF, 0);
        put_into_buffer(&ring, group, IOSQE_FIXED_FILE | IOSQE_IO_DRAIN, 0);
        put_into_buffer(&ring, group, IOSQE_IO_DRAIN, file);
        check(enter(&ring, 2, 0, 0) == 2);
        check_next(&ring, -EBADF, HAD | 3 * NEXT);
        check_next(&ring, 8, HAD | 4 * NEXT);
        close_ring(&ring);
    }
    close(slots[0]);
    close(file);
}

/* So it is of a buffer that can't be written, and of one at address 0, which is none: a receive
 * takes neither. */
static void test_unusable(void)
{
    char *pages[] = {mmap(NULL, 4096, PROT_READ, MAP_PRIVATE | MAP_ANONYMOUS, -1, 0), NULL};
    for (int i = 0; i < 2; i++)
        for (uint16_t group = BY_LIST; group <= BY_RING; group++) {
            int ends[2], pair[2], file = make_file();
            int32_t res = pages[i] ? -EFAULT : -ENOBUFS;
            check(pipe(ends) == 0 && socketpair(AF_UNIX, SOCK_STREAM, 0, pair) == 0 &&
                  write(file, "12345678", 8) == 8 && write(pair[1], "12345678", 8) == 8 &&
                  (!pages[i] || write(ends[1], "12345678", 8) == 8));
            const struct taking takings[] = {{IORING_OP_RECV, pair[0], 0, 0, res, 0},
                {IORING_OP_READ, ends[0], 0, 0, res, BY_LIST},
                {IORING_OP_READ, file, 0, 0, res, BY_RING},
                {IORING_OP_READ, file, 0, 0, 8, BY_LIST | BY_RING}};
            struct ring ring;
            make_both(&ring, (uintptr_t)pages[i]);
            check_taking(&ring, &takings[0], group, 0);
            check_taking(&ring, &takings[1], group, 0);
            if (group == BY_RING)
                check_taking(&ring, &takings[2], group, 0);
            check_taking(&ring, &takings[3], group, 1);
            close_ring(&ring);
            close_pair(ends);
            close_pair(pair);
            close(file);
        }
    munmap(pages[0], 4096);
}

int main(int count, char **words)
{
    static const struct named tests[] = {
        {"provided", test_provided},
        {"groups", test_groups},
        {"unregistered", test_unregistered},
        {"empty lists", test_empty_lists},
        {"failing", test_failing},
        {"failing in chains", test_failing_in_chains},
        {"unusable", test_unusable},
    };
    return !are_rings_there()
               ? 0
               : run_tests(tests, sizeof tests / sizeof *tests, count > 1 ? words[1] : NULL);
}
