/* Tests of messages between rings, by direct calls: with data, with registered files, and between
 * threads. All hold under every policy, which the environment says.
 *
 *   messages [NAME]          with a name: that test alone
 */
#define _GNU_SOURCE
#include "engines.h"

#include <pthread.h>

static void test_messages(void)
{
    struct ring ring, other;
    make_ring(&ring, 8, 0, 0);
    make_ring(&other, 8, 0, 0);
    struct io_uring_sqe *entry = put_plain(&ring, IORING_OP_MSG_RING, 0, other.fd);
    entry->len = 77;
    entry->off = 5;
    check(result_of_one(&ring, 1) == 0);
    struct seen found = next_of(&other);
    check(found.user_data == 5 && found.res == 77 && found.flags == 0);
    /* The other ring takes entries as before. */
    put(&other, IORING_OP_NOP, 0, 0);
    check(result_of_one(&other, 1) == 0);
    put_plain(&ring, IORING_OP_MSG_RING, 0, make_file());
    check(result_of_one(&ring, 1) == -EBADFD);
    close_ring(&ring);
    close_ring(&other);
}

/* A registered file goes to another ring's table: into a slot, or where there is room. */
static void test_messages_of_files(void)
{
    struct ring ring, other;
    struct io_uring_rsrc_register sparse = {.nr = 2, .flags = IORING_RSRC_REGISTER_SPARSE};
    int file = make_file();
    char text[4];
    make_ring(&ring, 8, 0, 0);
    make_ring(&other, 8, 0, 0);
    check(pwrite(file, "sent", 4, 0) == 4);
    check(register_at(ring.fd, IORING_REGISTER_FILES, &file, 1) == 0);
    for (int i = 0; i < 6; i++) {
        static const struct {
            uint32_t from, slot, flags;
            int32_t res;
        } rows[6] = {{0, 1, 0, -ENXIO}, {0, 1, 0, 0},
            {0, IORING_FILE_INDEX_ALLOC, IORING_MSG_RING_CQE_SKIP, 1},
            {0, IORING_FILE_INDEX_ALLOC, 0, -ENFILE}, {1, 1, 0, -EBADF}, {0, 3, 0, -EINVAL}};
        struct io_uring_sqe *entry = put_plain(&ring, IORING_OP_MSG_RING, 0, other.fd);
        entry->addr = IORING_MSG_SEND_FD;
        entry->addr3 = rows[i].from;
        entry->file_index = rows[i].slot;
        entry->msg_ring_flags = rows[i].flags;
        entry->off = 5;
        check(result_of_one(&ring, 1) == rows[i].res);
        if (i == 0)
            check(register_at(other.fd, IORING_REGISTER_FILES2, &sparse, sizeof sparse) == 0);
        if (i == 1) {
            struct seen found = next_of(&other);
            check(found.user_data == 5 && found.res == 0 && found.flags == 0);
        }
    }
    put_plain(&ring, IORING_OP_MSG_RING, 0, ring.fd)->addr = IORING_MSG_SEND_FD;
    check(result_of_one(&ring, 1) == -EINVAL);
    check(register_at(ring.fd, IORING_UNREGISTER_FILES, NULL, 0) == 0);
    for (int slot = 0; slot < 2; slot++) {
        put_transfer(&other, IORING_OP_READ, 0, IOSQE_FIXED_FILE, slot, text, 4, 0);
        check(result_of_one(&other, 1) == 4 && memcmp(text, "sent", 4) == 0);
    }
    close(file);
    close_ring(&ring);
    close_ring(&other);
}

/* The faults of a message, in the kernel's order; and that only 32 bits of two fields count. */
static void test_faults(void)
{
    struct ring ring, other;
    int file = make_file(), closed = dup(file);
    make_ring(&ring, 8, 0, 0);
    make_ring(&other, 8, 0, 0);
    close(closed);
    check(register_at(ring.fd, IORING_REGISTER_FILES, &file, 1) == 0);
    check(register_at(other.fd, IORING_REGISTER_FILES, &file, 1) == 0);
    const struct {
        int fd;
        uint64_t addr, addr3;
        uint32_t len;
        uint8_t flags;
        int32_t res;
    } rows[] = {
        {closed, IORING_MSG_DATA, 0, 7, 0, -EBADF},
        {closed, 9, 0, 7, 0, -EBADF},
        {file, 9, 0, 7, 0, -EBADFD},
        {other.fd, 9, 0, 7, 0, -EINVAL},
        {other.fd, IORING_MSG_DATA, 1, 7, 0, -EINVAL},
        {other.fd, IORING_MSG_SEND_FD, 0, 1, 0, -EINVAL},
        {other.fd, IORING_MSG_SEND_FD, 1, 1, 0, -EINVAL},
        {ring.fd, IORING_MSG_SEND_FD, 1, 0, 0, -EINVAL},
        {other.fd, IORING_MSG_SEND_FD, 1, 0, 0, -EBADF},
        {0, IORING_MSG_DATA, 0, 7, IOSQE_FIXED_FILE, -EBADFD},
        {other.fd, IORING_MSG_DATA, 0, 7, IOSQE_FIXED_FILE, -EBADF},
        {other.fd, (uint64_t)1 << 32, (uint64_t)1 << 32, 7, 0, 0},
    };
    for (size_t i = 0; i < sizeof rows / sizeof *rows; i++) {
        struct io_uring_sqe *entry = put_plain(&ring, IORING_OP_MSG_RING, 0, rows[i].fd);
        entry->addr = rows[i].addr;
        entry->addr3 = rows[i].addr3;
        entry->len = rows[i].len;
        entry->flags = rows[i].flags;
        entry->file_index = rows[i].addr == IORING_MSG_SEND_FD;
        check(result_of_one(&ring, 1) == rows[i].res);
    }
    check(next_of(&other).res == 7 && count_ready(&other) == 0);
    /* (IORING_MSG_RING_FLAGS_PASS) */
    struct io_uring_sqe *entry = put_plain(&ring, IORING_OP_MSG_RING, 0, other.fd);
    entry->msg_ring_flags = 2;
    entry->file_index = 6;
    check(result_of_one(&ring, 1) == 0 && next_of(&other).flags == 6);
    close(file);
    close_ring(&ring);
    close_ring(&other);
}

/* Two threads with a ring each send messages to each other's, and wait for all of them. */
struct side {
    struct ring ring;
    int other_fd;
};

enum { MANY_MESSAGES = 300 };

static void *exchange(void *argument)
{
    struct side *side = argument;
    unsigned sent = 0, ended = 0, received = 0;
    int64_t sum = 0;
    while (ended + received < 2 * MANY_MESSAGES) {
        if (sent < MANY_MESSAGES) {
            struct io_uring_sqe *entry = put_plain(
                &side->ring, IORING_OP_MSG_RING, 1, side->other_fd);
            entry->len = sent++;
            entry->off = 2;
            check(enter(&side->ring, 1, 0, 0) == 1);
        }
        if (sent == MANY_MESSAGES || count_ready(&side->ring) > 0) {
            struct seen found = next_of(&side->ring);
            check(found.user_data == 2 || found.res == 0);
            sum += found.res;
            found.user_data == 1 ? ended++ : received++;
        }
    }
    check(ended == MANY_MESSAGES && sum == MANY_MESSAGES * (MANY_MESSAGES - 1) / 2);
    return NULL;
}

static void test_messages_of_threads(void)
{
    struct side sides[2];
    pthread_t other;
    make_ring(&sides[0].ring, 8, 1024, 0);
    make_ring(&sides[1].ring, 8, 1024, 0);
    sides[0].other_fd = sides[1].ring.fd;
    sides[1].other_fd = sides[0].ring.fd;
    check(pthread_create(&other, NULL, exchange, &sides[1]) == 0);
    exchange(&sides[0]);
    pthread_join(other, NULL);
    close_ring(&sides[0].ring);
    close_ring(&sides[1].ring);
}

int main(int count, char **words)
{
    static const struct named tests[] = {
        {"messages", test_messages},
        {"messages of files", test_messages_of_files},
        {"faults of messages", test_faults},
        {"messages of threads", test_messages_of_threads},
    };
    return run_tests(tests, sizeof tests / sizeof *tests, count > 1 ? words[1] : NULL);
}
