/* Tests of the layer by direct calls of setup, enter and register: set-ups, entries, chains and
 * what a call takes. They need no sources of liburing. All hold under every policy, which the
 * environment says.
 *
 *   direct [NAME]        one test alone
 */
#define _GNU_SOURCE
#include "engines.h"

static void test_setup(void)
{
    struct io_uring_params none = {0}, apart = {.flags = IORING_SETUP_SQ_AFF},
                           small = {.flags = IORING_SETUP_CQSIZE, .cq_entries = 4},
                           reserved = {.resv = {0, 1}};
    check(set_up(0, &none) == -EINVAL);
    check(set_up(4097, &none) == -EINVAL);
    check(set_up(8, &apart) == -EINVAL);
    check(set_up(8, &small) == -EINVAL);
    check(set_up(8, &reserved) == -EINVAL);
    check(set_up(8, NULL) == -EFAULT);
    struct io_uring_params flag = {.flags = IORING_SETUP_TASKRUN_FLAG},
                           closed = {.flags = IORING_SETUP_ATTACH_WQ, .wq_fd = 1000000},
                           other = {
                               .flags = IORING_SETUP_ATTACH_WQ, .wq_fd = (uint32_t)make_file()};
    check(set_up(8, &flag) == -EINVAL);
    check(set_up(8, &closed) == -ENXIO && set_up(0, &closed) == -EINVAL);
    check(set_up(8, &other) == -EINVAL);
    close((int)other.wq_fd);
    struct ring ring;
    make_ring(&ring, 8, 0, 0);
    struct io_uring_params shared = {
        .flags = IORING_SETUP_ATTACH_WQ | IORING_SETUP_SQPOLL, .wq_fd = (uint32_t)ring.fd};
    check(set_up(8, &shared) == -EINVAL);
    close_ring(&ring);
    make_ring(&ring, 5, 0, 0);
    check(ring.params.sq_entries == 8 && ring.params.cq_entries == 16);
    close_ring(&ring);
    make_ring(&ring, 10000, 0, IORING_SETUP_CLAMP);
    check(ring.params.sq_entries == 4096 && ring.params.cq_entries == 8192);
    close_ring(&ring);
    make_ring(&ring, 3, 9, 0);
    check(ring.params.sq_entries == 4 && ring.params.cq_entries == 16);
    check(*sq_word(&ring, ring.params.sq_off.ring_mask) == 3 &&
          *cq_word(&ring, ring.params.cq_off.ring_mask) == 15);
    close_ring(&ring);
}

static void test_calls(void)
{
    struct ring ring;
    make_ring(&ring, 4, 0, 0);
    check(enter(&ring, 0, 0, 1u << 20) == -EINVAL);
    check(enter(&ring, 1, 0, 0) == 0);
    check(enter(&ring, 0, 0, IORING_ENTER_GETEVENTS) == 0);
    check(enter(&ring, 0, 1, IORING_ENTER_GETEVENTS) == -EDEADLK);
    check(enter_for(&ring, 1, 1000) == -ETIME);
    struct ring other = {.fd = make_file()};
    check(enter(&other, 0, 0, 0) == -EOPNOTSUPP);
    check(register_at(other.fd, IORING_REGISTER_PROBE, NULL, 0) == -EOPNOTSUPP);
    close(other.fd);
    check(register_at(other.fd, IORING_REGISTER_PROBE, NULL, 0) == -EBADF);
    check(register_at(ring.fd, IORING_REGISTER_BUFFERS, NULL, 0) == -EFAULT);
    struct io_uring_probe *probe = calloc(1, sizeof *probe + 256 * sizeof *probe->ops);
    check(register_at(ring.fd, IORING_REGISTER_PROBE, probe, 256) == 0);
    check(probe->ops[IORING_OP_READ].flags == IO_URING_OP_SUPPORTED &&
          probe->ops[IORING_OP_SENDMSG].flags == IO_URING_OP_SUPPORTED &&
          probe->ops[IORING_OP_URING_CMD].flags == 0);
    check(register_at(ring.fd, IORING_REGISTER_PROBE, probe, 256) == -EINVAL);
    free(probe);
    check(wulgach_syscall(SYS_getpid) == getpid());
    close_ring(&ring);
    check(enter(&ring, 0, 0, 0) == -EBADF);
    ring.fd = -1;
    check(enter(&ring, 0, 0, 0) == -EBADF);
}

static long enter_with(const struct ring *ring, unsigned to_submit, unsigned min_complete,
    unsigned flags, const void *argument, size_t size)
{
    long result = wulgach_syscall(
        SYS_io_uring_enter, ring->fd, to_submit, min_complete, flags, argument, size);
    return result < 0 ? -errno : result;
}

/* The last argument is read after the submission, by a call that gets events and has submitted all;
 * and a mask where the call sleeps. */
static void test_last_argument(void)
{
    enum {
        GETS = IORING_ENTER_GETEVENTS,
        EXTENDED = IORING_ENTER_GETEVENTS | IORING_ENTER_EXT_ARG
    };
    struct ring ring;
    const void *bad = (const void *)16;
    struct io_uring_getevents_arg extended = {0}, late = {.ts = 16},
                                  masked = {.sigmask = 16, .sigmask_sz = 8};
    make_ring(&ring, 8, 0, 0);
    put(&ring, IORING_OP_NOP, 0, 0);
    check(enter_with(&ring, 1, 0, IORING_ENTER_EXT_ARG, &extended, 8) == 1 &&
          enter_with(&ring, 0, 0, IORING_ENTER_EXT_ARG, bad, 24) == 0);
    check(enter_with(&ring, 0, 0, 0, bad, 3) == 0 && enter(&ring, 0, 1, GETS) == 0);
    check(enter_with(&ring, 0, 0, EXTENDED, bad, 8) == -EINVAL &&
          enter_with(&ring, 0, 1, EXTENDED, bad, 24) == -EFAULT);
    check(enter_with(&ring, 0, 1, EXTENDED, &late, 24) == -EFAULT &&
          enter_with(&ring, 0, 1, EXTENDED, &masked, 24) == 0);
    check(enter_with(&ring, 0, 1, GETS, bad, 8) == 0 && enter_with(&ring, 0, 1, GETS, bad, 3) == 0);
    put(&ring, IORING_OP_NOP, 1, 0);
    check(enter_with(&ring, 1, 3, EXTENDED, bad, 24) == 1 &&
          *sq_word(&ring, ring.params.sq_off.head) == 2);
    put(&ring, IORING_OP_NOP, 2, 0);
    check(enter_with(&ring, 2, 4, EXTENDED, bad, 8) == 1);
    check(enter(&ring, 0, 3, GETS) == 0);
    check(enter_with(&ring, 0, 4, GETS, bad, 8) == -EFAULT &&
          enter_with(&ring, 0, 4, GETS, bad, 3) == -EINVAL);
    check(enter_with(&ring, 0, 4, EXTENDED, &masked, 24) == -EFAULT);
    masked.sigmask_sz = 3;
    check(enter_with(&ring, 0, 4, EXTENDED, &masked, 24) == -EINVAL);
    close_ring(&ring);
}

/* A chain whose second member fails, a drain and a loose request. */
static void test_chain(void)
{
    struct ring ring;
    int32_t results[8];
    make_ring(&ring, 8, 0, 0);
    put(&ring, IORING_OP_NOP, 0, IOSQE_IO_LINK);
    put(&ring, IORING_OP_FSYNC, 1, IOSQE_IO_LINK)->fd = -1;
    put(&ring, IORING_OP_NOP, 2, 0);
    put(&ring, IORING_OP_NOP, 3, IOSQE_IO_DRAIN);
    put(&ring, IORING_OP_NOP, 4, 0);
    check(enter(&ring, 5, 0, 0) == 5);
    check(*sq_word(&ring, ring.params.sq_off.head) == 5);
    check(enter(&ring, 0, 5, IORING_ENTER_GETEVENTS) == 0);
    uint64_t order[5];
    for (int i = 0; i < 5; i++) {
        struct completion found = reap(&ring);
        order[i] = found.user_data;
        results[found.user_data] = found.res;
    }
    check(order[0] == 0 && order[1] == 1 && order[2] == 2 && order[3] == 3 && order[4] == 4);
    check(results[0] == 0 && results[1] == -EBADF && results[2] == -ECANCELED && results[3] == 0 &&
          results[4] == 0);
    check(is_at_rest(&ring));
    close_ring(&ring);
}

static void test_skipped_success(void)
{
    struct ring ring;
    int32_t results[4];
    make_ring(&ring, 4, 0, 0);
    put(&ring, IORING_OP_NOP, 0, IOSQE_IO_LINK | IOSQE_CQE_SKIP_SUCCESS);
    put(&ring, IORING_OP_NOP, 1, 0);
    put(&ring, IORING_OP_FSYNC, 2, IOSQE_CQE_SKIP_SUCCESS)->fd = -1;
    check(enter(&ring, 3, 0, 0) == 3);
    reap_all(&ring, 2, results);
    check(results[1] == 0 && results[2] == -EBADF);
    close_ring(&ring);
}

static void test_faulty(void)
{
    struct ring ring;
    int32_t results[4];
    make_ring(&ring, 4, 0, 0);
    put(&ring, IORING_OP_NOP, 0, 0);
    put(&ring, IORING_OP_URING_CMD, 1, 0);
    put(&ring, IORING_OP_NOP, 2, 0);
    check(enter(&ring, 3, 0, 0) == 2);
    check(enter(&ring, 1, 0, 0) == 1);
    reap_all(&ring, 3, results);
    check(results[0] == 0 && results[1] == -EINVAL && results[2] == 0);
    close_ring(&ring);
    make_ring(&ring, 4, 0, IORING_SETUP_SUBMIT_ALL);
    put(&ring, IORING_OP_NOP, 0, IOSQE_IO_LINK);
    put(&ring, IORING_OP_NOP, 1, 128);
    put(&ring, IORING_OP_NOP, 2, 0);
    check(enter(&ring, 3, 0, 0) == 3);
    reap_all(&ring, 3, results);
    check(results[0] == -ECANCELED && results[1] == -EINVAL && results[2] == 0);
    close_ring(&ring);
}

/* A faulty entry that is linked to the next doesn't end the call, whichever link it is. */
static void test_faulty_link(void)
{
    static const uint8_t links[] = {IOSQE_IO_LINK, IOSQE_IO_HARDLINK};
    for (int i = 0; i < 2; i++) {
        struct ring ring;
        int32_t results[3];
        make_ring(&ring, 4, 0, 0);
        put(&ring, IORING_OP_NOP, 0, 0);
        put(&ring, IORING_OP_URING_CMD, 1, links[i]);
        put(&ring, IORING_OP_NOP, 2, 0);
        check(enter(&ring, 3, 0, 0) == 3);
        reap_all(&ring, 3, results);
        check(results[0] == 0 && results[1] == -EINVAL && results[2] == -ECANCELED);
        close_ring(&ring);
    }
}

/* A word that names no slot is dropped, and ends the call. */
static void test_dropped_word(void)
{
    struct ring ring;
    int32_t results[4];
    make_ring(&ring, 4, 0, 0);
    put(&ring, IORING_OP_NOP, 0, 0);
    publish(&ring, 77);
    put(&ring, IORING_OP_NOP, 2, 0);
    check(enter(&ring, 3, 0, 0) == 1);
    check(*sq_word(&ring, ring.params.sq_off.dropped) == 1 &&
          *sq_word(&ring, ring.params.sq_off.head) == 2);
    check(enter(&ring, 1, 0, 0) == 1);
    reap_all(&ring, 2, results);
    check(results[0] == 0 && results[2] == 0);
    close_ring(&ring);
}

/* Many entries at once, whose words name slots in any order, one of them twice; and many
 * completions reaped at once. */
static void test_whole_calls(void)
{
    enum { COUNT = 100 };
    struct ring ring;
    make_ring(&ring, 128, 0, 0);
    for (unsigned round = 0; round < 3; round++) {
        unsigned seen[COUNT] = {0};
        for (unsigned i = 0; i < COUNT; i++)
            put_at(&ring, (7 * i + round) % 128, i % 3 ? IORING_OP_NOP : IORING_OP_FSYNC, i, 0);
        publish(&ring, round);
        check(enter(&ring, COUNT + 1, COUNT + 1, IORING_ENTER_GETEVENTS) == COUNT + 1);
        while (count_ready(&ring) > 0) {
            struct completion found = reap(&ring);
            check(found.user_data < COUNT && found.res == (found.user_data % 3 ? 0 : -EBADF));
            seen[found.user_data]++;
        }
        for (unsigned i = 0; i < COUNT; i++)
            check(seen[i] == 1 + (i == 0));
    }
    check(enter(&ring, 0, 0, IORING_ENTER_GETEVENTS) == 0 && is_at_rest(&ring));
    close_ring(&ring);
}

/* The flags of a no-op, as Linux 6.18 was seen to have them. <linux/io_uring.h> of this machine may
 * know none of them. */
static void test_no_ops(void)
{
    enum { INJECTS = 1, HAS_FILE = 2, BY_SLOT = 4, HAS_BUFFER = 8, LATER = 16, LARGE = 32 };
    static const struct {
        uint32_t flags, length;
        uint8_t entry, slot;
        int32_t res;
    } rows[] = {
        {0, 7, 0, 0, 0},
        {INJECTS, 7, 0, 0, 7},
        {INJECTS, (uint32_t)-5, 0, 0, -5},
        {HAS_FILE, 7, 0, 99, -EBADF},
        {HAS_FILE | INJECTS, 7, 0, 99, -EBADF},
        {HAS_FILE, 0, 0, 1, 0},
        {BY_SLOT, 0, 0, 1, 0},
        {HAS_FILE | BY_SLOT, 0, 0, 0, 0},
        {HAS_FILE | BY_SLOT, 0, 0, 1, -EBADF},
        {HAS_FILE, 0, IOSQE_FIXED_FILE, 1, -EBADF},
        {0, 0, IOSQE_FIXED_FILE, 1, 0},
        {HAS_BUFFER | INJECTS, 3, 0, 0, 3},
        {HAS_BUFFER | INJECTS, 3, 0, 1, -EFAULT},
        {HAS_FILE | HAS_BUFFER, 0, 0, 99, -EBADF},
        {LATER, 0, 0, 0, 0},
        {LARGE, 0, 0, 0, -EINVAL},
        {64, 0, 0, 0, -EINVAL},
    };
    static char bytes[64];
    struct iovec vector = {bytes, sizeof bytes};
    int fds[2] = {1, -1};
    struct ring ring;
    make_ring(&ring, 8, 0, IORING_SETUP_SUBMIT_ALL);
    check(register_at(ring.fd, IORING_REGISTER_FILES, fds, 2) == 0 &&
          register_at(ring.fd, IORING_REGISTER_BUFFERS, &vector, 1) == 0);
    for (size_t i = 0; i < sizeof rows / sizeof *rows; i++) {
        int32_t results[2];
        bool is_faulty = rows[i].res == -EINVAL;
        struct io_uring_sqe *entry = put(
            &ring, IORING_OP_NOP, 0, (uint8_t)(rows[i].entry | (is_faulty ? 0 : IOSQE_IO_LINK)));
        entry->rw_flags = (int)rows[i].flags;
        entry->len = rows[i].length;
        entry->fd = rows[i].slot;
        entry->buf_index = rows[i].slot;
        put(&ring, IORING_OP_NOP, 1, 0);
        check(enter(&ring, 2, 0, 0) == 2);
        reap_all(&ring, 2, results);
        check(results[0] == rows[i].res &&
              results[1] == (rows[i].res < 0 && !is_faulty ? -ECANCELED : 0));
    }
    close_ring(&ring);
}

/* Beside an older request that waits, two chains go on. */
static void test_beside_one_that_waits(void)
{
    struct ring ring;
    char byte;
    int ends[2];
    check(pipe(ends) == 0);
    for (int round = 0; round < 20; round++) {
        int32_t results[5];
        make_ring(&ring, 8, 0, 0);
        put_transfer(&ring, IORING_OP_READ, 4, 0, ends[0], &byte, 1, 0);
        for (unsigned i = 0; i < 4; i++)
            put(&ring, IORING_OP_NOP, i, i % 2 ? 0 : IOSQE_IO_LINK);
        check(enter(&ring, 5, 0, 0) == 5);
        reap_all(&ring, 4, results);
        check(results[0] == 0 && results[1] == 0 && results[2] == 0 && results[3] == 0);
        close_ring(&ring);
    }
    close_pair(ends);
}

int main(int count, char **words)
{
    static const struct named tests[] = {
        {"setup", test_setup},
        {"calls", test_calls},
        {"last argument", test_last_argument},
        {"chain", test_chain},
        {"skipped success", test_skipped_success},
        {"faulty", test_faulty},
        {"faulty link", test_faulty_link},
        {"dropped word", test_dropped_word},
        {"whole calls", test_whole_calls},
        {"no-ops", test_no_ops},
        {"beside one that waits", test_beside_one_that_waits},
    };
    return run_tests(tests, sizeof tests / sizeof *tests, count > 1 ? words[1] : NULL);
}
