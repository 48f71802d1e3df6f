/* Tests of cancels by io_uring_register(2), by direct calls: what such a call takes, and does
 * besides. All hold under every policy, which the environment says; and on a real ring, if the
 * kernel gives one and it is built for that.
 *
 *   sync_cancels [NAME]      with a name: that test alone
 */
#define _GNU_SOURCE
#include "engines.h"

#include <poll.h>

/* What a pipe had between a call in which the ring wrote to another one and a cancel that finds
 * nobody is told to the poll. */
static void test_come_and_gone(void)
{
    struct ring ring;
    struct io_uring_sync_cancel_reg nobody = {.addr = 77, .timeout = {-1, -1}};
    int ends[2], others[2];
    char byte = 'x';
    check(pipe(ends) == 0 && pipe(others) == 0);
    make_ring(&ring, 4, 0, 0);
    for (int round = 0; round < 3; round++) {
        put_plain(&ring, IORING_OP_POLL_ADD, 0, ends[0])->poll32_events = POLLIN;
        check(enter(&ring, 1, 0, 0) == 1);
        check(enter_for(&ring, 1, 1000) == -ETIME);
        put_transfer(&ring, IORING_OP_WRITE, 1, 0, others[1], &byte, 1, 0);
        check(enter(&ring, 1, 1, IORING_ENTER_GETEVENTS) == 1 && reap(&ring).res == 1);
        check(write(ends[1], &byte, 1) == 1 && read(ends[0], &byte, 1) == 1);
        check(register_at(ring.fd, IORING_REGISTER_SYNC_CANCEL, &nobody, 1) == -ENOENT);
        check(enter_for(&ring, 1, 1000000000) == 0 && reap(&ring).res == POLLIN);
    }
    close_pair(ends);
    close_pair(others);
    close_ring(&ring);
}

/* Of many that wait one is cancelled, and is shown at once; the others go on waiting, and are told
 * of a write. */
static void test_cancelled_among_many(void)
{
    enum { MANY = 40 };
    struct ring ring;
    struct io_uring_sync_cancel_reg one = {.timeout = {-1, -1}};
    int ends[2];
    check(pipe(ends) == 0);
    make_ring(&ring, MANY, 0, 0);
    for (unsigned i = 0; i < MANY; i++)
        put_plain(&ring, IORING_OP_POLL_ADD, i, ends[0])->poll32_events = POLLIN;
    check(enter(&ring, MANY, 0, 0) == MANY && enter_for(&ring, 1, 1000) == -ETIME);
    for (one.addr = 0; one.addr < MANY; one.addr += 13) {
        check(register_at(ring.fd, IORING_REGISTER_SYNC_CANCEL, &one, 1) == 0 &&
              count_ready(&ring) == 1);
        struct completion found = reap(&ring);
        check(found.user_data == one.addr && found.res == -ECANCELED);
        check(enter_for(&ring, 1, 1000) == -ETIME);
    }
    check(write(ends[1], "x", 1) == 1);
    check(enter(&ring, 0, MANY - 4, IORING_ENTER_GETEVENTS) == 0 && count_ready(&ring) == MANY - 4);
    for (unsigned i = 0; i < MANY - 4; i++) {
        struct completion found = reap(&ring);
        check(found.user_data % 13 != 0 && found.res == POLLIN);
    }
    close_pair(ends);
    close_ring(&ring);
}

/* An operation's code doesn't count without its flag; what stands after it is reserved. */
static void test_code(void)
{
    struct ring ring;
    struct io_uring_sync_cancel_reg by_data = {.timeout = {-1, -1}, .pad = {IORING_OP_WRITE}};
    int ends[2];
    char byte;
    check(pipe(ends) == 0);
    make_ring(&ring, 4, 0, 0);
    put_transfer(&ring, IORING_OP_READ, 0, 0, ends[0], &byte, 1, 0);
    check(enter(&ring, 1, 0, 0) == 1 && enter_for(&ring, 1, 1000) == -ETIME);
    check(register_at(ring.fd, IORING_REGISTER_SYNC_CANCEL, &by_data, 1) == 0 &&
          reap(&ring).res == -ECANCELED);
    check(register_at(ring.fd, IORING_REGISTER_SYNC_CANCEL, &by_data, 1) == -ENOENT);
    by_data.pad[0] = 256;
    check(register_at(ring.fd, IORING_REGISTER_SYNC_CANCEL, &by_data, 1) == -EINVAL);
    close_pair(ends);
    close_ring(&ring);
}

/* One of any may name a file, which is looked for, and finds what is on others too; an entry may
 * not. */
static void test_any_beside_file(void)
{
    struct ring ring;
    struct io_uring_sync_cancel_reg any = {
        .timeout = {-1, -1}, .flags = IORING_ASYNC_CANCEL_ANY | IORING_ASYNC_CANCEL_FD};
    int ends[2];
    char bytes[2];
    check(pipe(ends) == 0);
    make_ring(&ring, 4, 0, 0);
    put_transfer(&ring, IORING_OP_READ, 0, 0, ends[0], &bytes[0], 1, 0);
    put_transfer(&ring, IORING_OP_READ, 1, 0, ends[0], &bytes[1], 1, 0);
    check(enter(&ring, 2, 0, 0) == 2 && enter_for(&ring, 1, 1000) == -ETIME);
    any.fd = -1;
    check(register_at(ring.fd, IORING_REGISTER_SYNC_CANCEL, &any, 1) == -EBADF);
    any.flags |= IORING_ASYNC_CANCEL_FD_FIXED;
    any.fd = 0;
    check(register_at(ring.fd, IORING_REGISTER_SYNC_CANCEL, &any, 1) == -EBADF &&
          count_ready(&ring) == 0);
    put(&ring, IORING_OP_ASYNC_CANCEL, 2, 0)->cancel_flags = IORING_ASYNC_CANCEL_ANY |
                                                             IORING_ASYNC_CANCEL_FD;
    check(enter(&ring, 1, 1, IORING_ENTER_GETEVENTS) == 1 && reap(&ring).res == -EINVAL);
    any.flags &= ~(uint32_t)IORING_ASYNC_CANCEL_FD_FIXED;
    any.fd = ends[1];
    check(
        register_at(ring.fd, IORING_REGISTER_SYNC_CANCEL, &any, 1) == 2 && count_ready(&ring) == 2);
    check(reap(&ring).res == -ECANCELED && reap(&ring).res == -ECANCELED);
    close_pair(ends);
    close_ring(&ring);
}

int main(int count, char **words)
{
    static const struct named tests[] = {
        {"come and gone", test_come_and_gone},
        {"cancelled among many", test_cancelled_among_many},
        {"code", test_code},
        {"any beside a file", test_any_beside_file},
    };
    return !are_rings_there()
               ? 0
               : run_tests(tests, sizeof tests / sizeof *tests, count > 1 ? words[1] : NULL);
}
