/* Tests of cancels, by direct calls: which requests they find, by user data, by a descriptor or a
 * slot, and any. All hold under every policy, which the environment says.
 *
 *   cancels [NAME]           with a name: that test alone
 */
#define _GNU_SOURCE
#include "engines.h"

#include <poll.h>

static void test_cancels(void)
{
    struct ring ring;
    int32_t results[8];
    int ends[2];
    check(pipe(ends) == 0);
    make_ring(&ring, 8, 0, 0);
    put_plain(&ring, IORING_OP_ASYNC_CANCEL, 0, ends[0])->cancel_flags = IORING_ASYNC_CANCEL_FD;
    check(result_of_one(&ring, 1) == -ENOENT);
    put_plain(&ring, IORING_OP_ASYNC_CANCEL, 0, -1)->cancel_flags = IORING_ASYNC_CANCEL_FD;
    check(result_of_one(&ring, 1) == -EBADF);
    for (int i = 0; i < 3; i++)
        put_plain(&ring, IORING_OP_POLL_ADD, (uint64_t)i, ends[0])->poll32_events = POLLIN;
    check(enter(&ring, 3, 0, 0) == 3);
    check(enter_for(&ring, 1, 1000) == -ETIME);
    put_plain(&ring, IORING_OP_ASYNC_CANCEL, 3, ends[0])->cancel_flags = IORING_ASYNC_CANCEL_FD;
    check(enter(&ring, 1, 0, 0) == 1);
    reap_all(&ring, 2, results);
    check(results[0] == -ECANCELED && results[3] == 0);
    put_plain(&ring, IORING_OP_ASYNC_CANCEL, 3, ends[0])->cancel_flags = IORING_ASYNC_CANCEL_FD |
                                                                         IORING_ASYNC_CANCEL_ALL;
    check(enter(&ring, 1, 0, 0) == 1);
    reap_all(&ring, 3, results);
    check(results[1] == -ECANCELED && results[2] == -ECANCELED && results[3] == 2);
    put_plain(&ring, IORING_OP_POLL_ADD, 1, ends[0])->poll32_events = POLLIN;
    check(enter(&ring, 1, 0, 0) == 1);
    check(enter_for(&ring, 1, 1000) == -ETIME);
    /* One that skips its success posts nothing. */
    put(&ring, IORING_OP_ASYNC_CANCEL, 3, IOSQE_CQE_SKIP_SUCCESS)->addr = 1;
    check(enter(&ring, 1, 0, 0) == 1);
    reap_all(&ring, 1, results);
    check(results[1] == -ECANCELED && enter_for(&ring, 1, 1000) == -ETIME);
    put_plain(&ring, IORING_OP_POLL_ADD, 1, ends[0])->poll32_events = POLLIN;
    check(enter(&ring, 1, 0, 0) == 1);
    check(enter_for(&ring, 1, 1000) == -ETIME);
    struct io_uring_sync_cancel_reg now = {.flags = IORING_ASYNC_CANCEL_ANY, .timeout = {-1, -1}};
    check(register_at(ring.fd, IORING_REGISTER_SYNC_CANCEL, &now, 1) == 1);
    check(count_ready(&ring) == 1 && reap(&ring).res == -ECANCELED);
    close_pair(ends);
    close_ring(&ring);
}

/* What needs no file isn't found by a descriptor, whatever its entry names. */
static void test_cancel_by_unused_descriptor(void)
{
    struct ring ring;
    int32_t results[3];
    struct __kernel_timespec hour = {.tv_sec = 3600};
    int ends[2];
    check(pipe(ends) == 0);
    make_ring(&ring, 8, 0, 0);
    put_transfer(&ring, IORING_OP_TIMEOUT, 0, 0, ends[0], &hour, 1, 0);
    put_plain(&ring, IORING_OP_POLL_ADD, 1, ends[0])->poll32_events = POLLIN;
    check(enter(&ring, 2, 0, 0) == 2);
    check(enter_for(&ring, 1, 1000) == -ETIME);
    put_plain(&ring, IORING_OP_ASYNC_CANCEL, 2, ends[0])->cancel_flags = IORING_ASYNC_CANCEL_FD |
                                                                         IORING_ASYNC_CANCEL_ALL;
    check(enter(&ring, 1, 0, 0) == 1);
    reap_all(&ring, 2, results);
    check(results[1] == -ECANCELED && results[2] == 1);
    put(&ring, IORING_OP_TIMEOUT_REMOVE, 2, 0)->addr = 0;
    check(enter(&ring, 1, 0, 0) == 1);
    reap_all(&ring, 2, results);
    check(results[0] == -ECANCELED && results[2] == 0);
    close_pair(ends);
    close_ring(&ring);
}

/* Of two cancels of any in one submission neither finds the other. */
static void test_cancels_of_any(void)
{
    struct ring ring;
    int32_t results[4];
    int ends[2];
    check(pipe(ends) == 0);
    make_ring(&ring, 8, 0, 0);
    for (int i = 0; i < 2; i++)
        put_plain(&ring, IORING_OP_POLL_ADD, (uint64_t)i, ends[0])->poll32_events = POLLIN;
    check(enter(&ring, 2, 0, 0) == 2);
    check(enter_for(&ring, 1, 1000) == -ETIME);
    for (int i = 2; i < 4; i++)
        put(&ring, IORING_OP_ASYNC_CANCEL, (uint64_t)i, 0)->cancel_flags = IORING_ASYNC_CANCEL_ANY;
    check(enter(&ring, 2, 0, 0) == 2);
    reap_all(&ring, 4, results);
    check(results[0] == -ECANCELED && results[1] == -ECANCELED);
    check(results[2] >= 0 && results[3] >= 0 && results[2] + results[3] == 2);
    close_pair(ends);
    close_ring(&ring);
}

/* By the manual pages' rules a cancel ends a member in the middle of a chain before the one in
 * front of it has ended; once that has, the one after starts. */
static void test_cancelled_middle(void)
{
    struct ring ring;
    int32_t results[4];
    int ends[2];
    char byte;
    check(pipe(ends) == 0);
    make_ring(&ring, 8, 0, 0);
    put_transfer(&ring, IORING_OP_READ, 0, IOSQE_IO_HARDLINK, ends[0], &byte, 1, 0);
    put(&ring, IORING_OP_NOP, 1, IOSQE_IO_HARDLINK);
    put(&ring, IORING_OP_NOP, 2, 0);
    check(enter(&ring, 3, 0, 0) == 3);
    put(&ring, IORING_OP_ASYNC_CANCEL, 3, 0)->addr = 1;
    check(enter(&ring, 1, 1, IORING_ENTER_GETEVENTS) == 1);
    check(write(ends[1], "a", 1) == 1);
    reap_all(&ring, 4, results);
    check(results[0] == 1 && results[2] == 0);
    check(is_by_manual() ? results[1] == -ECANCELED && results[3] == 0
                         : results[1] == 0 && results[3] == -ENOENT);
    close_pair(ends);
    close_ring(&ring);
}

/* A cancel by io_uring_register(2) waits for all that it has found, also for what hasn't started.
 */
static void test_awaited(void)
{
    struct ring ring;
    char text[4];
    int ends[2];
    struct io_uring_sync_cancel_reg any = {.flags = IORING_ASYNC_CANCEL_ANY, .timeout = {-1, -1}};
    check(pipe(ends) == 0);
    for (int has_started = 0; has_started < 2; has_started++) {
        make_ring(&ring, 8, 0, 0);
        for (uint64_t i = 0; i < 3; i++)
            put_transfer(&ring, IORING_OP_READ, i, 0, ends[0], text, 4, 0);
        check(enter(&ring, 3, 0, 0) == 3);
        if (has_started)
            check(enter_for(&ring, 1, 1000) == -ETIME);
        check(register_at(ring.fd, IORING_REGISTER_SYNC_CANCEL, &any, 1) == 3 &&
              count_ready(&ring) == 3);
        for (int i = 0; i < 3; i++)
            check(reap(&ring).res == -ECANCELED);
        close_ring(&ring);
    }
    close_pair(ends);
}

static bool is_in_turn(void)
{
    return is_in_order() || strcmp(getenv("WULGACH_POLICY"), "lazy") == 0;
}

/* What was submitted after a cancel or a removal, also in one call with it, isn't found unless it
 * has started: in order it never has. */
static void test_after_a_cancel(void)
{
    struct ring ring;
    int32_t results[2];
    struct __kernel_timespec moment = {.tv_nsec = 1000000};
    make_ring(&ring, 8, 0, 0);
    put(&ring, IORING_OP_ASYNC_CANCEL, 0, 0)->cancel_flags = IORING_ASYNC_CANCEL_ANY |
                                                             IORING_ASYNC_CANCEL_ALL;
    put(&ring, IORING_OP_NOP, 1, 0);
    check(enter(&ring, 2, 0, 0) == 2);
    reap_all(&ring, 2, results);
    check(results[0] == 0 && results[1] == 0);
    for (int cancels = 0; cancels < 2; cancels++) {
        put(&ring, cancels ? IORING_OP_ASYNC_CANCEL : IORING_OP_TIMEOUT_REMOVE, 0, 0)->addr = 1;
        put_transfer(&ring, IORING_OP_TIMEOUT, 1, 0, -1, &moment, 1, 0);
        check(enter(&ring, 2, 0, 0) == 2);
        reap_all(&ring, 2, results);
        bool is_found = results[0] == 0;
        check(is_found ? !is_in_turn() || is_by_manual() : results[0] == -ENOENT);
        check(results[1] == (is_found ? -ECANCELED : -ETIME));
    }
    close_ring(&ring);
}

/* Whether a cancel finds the poll of this descriptor or slot by that one. It is removed then, if it
 * is still there. */
static bool finds(struct ring *ring, uint32_t cancel_flags, int fd, uint8_t flags, int polled)
{
    int32_t results[3];
    struct io_uring_sqe *poll = put_plain(ring, IORING_OP_POLL_ADD, 1, polled);
    poll->poll32_events = POLLIN;
    poll->flags = flags;
    check(enter(ring, 1, 0, 0) == 1 && enter_for(ring, 1, 1000) == -ETIME);
    put_plain(ring, IORING_OP_ASYNC_CANCEL, 0, fd)->cancel_flags = cancel_flags |
                                                                   IORING_ASYNC_CANCEL_FD;
    check(enter(ring, 1, 1, IORING_ENTER_GETEVENTS) == 1);
    put(ring, IORING_OP_POLL_REMOVE, 2, 0)->addr = 1;
    check(enter(ring, 1, 0, 0) == 1);
    reap_all(ring, 3, results);
    check(results[1] == -ECANCELED && (results[0] == 0) == (results[2] == -ENOENT));
    return results[0] == 0;
}

/* By a descriptor or a slot what is carried out on its file is found, however that is named, and
 * nothing that is carried out on another. */
static void test_cancel_by_file(void)
{
    struct ring ring;
    int ends[2], others[2];
    check(pipe(ends) == 0 && pipe(others) == 0);
    int copy = dup(ends[0]);
    make_ring(&ring, 8, 0, 0);
    check(register_at(ring.fd, IORING_REGISTER_FILES, ends, 2) == 0);
    check(finds(&ring, 0, ends[0], 0, ends[0]) && finds(&ring, 0, copy, 0, ends[0]) &&
          !finds(&ring, 0, others[0], 0, ends[0]));
    check(finds(&ring, 0, copy, IOSQE_FIXED_FILE, 0) &&
          finds(&ring, IORING_ASYNC_CANCEL_FD_FIXED, 0, 0, copy));
    check(!finds(&ring, IORING_ASYNC_CANCEL_FD_FIXED, 1, 0, copy) &&
          !finds(&ring, 0, others[0], IOSQE_FIXED_FILE, 0));
    put_plain(&ring, IORING_OP_POLL_ADD, 0, ends[0])->poll32_events = POLLIN;
    check(enter(&ring, 1, 0, 0) == 1 && enter_for(&ring, 1, 1000) == -ETIME &&
          dup2(others[0], ends[0]) == ends[0]);
    put_plain(&ring, IORING_OP_ASYNC_CANCEL, 1, ends[0])->cancel_flags = IORING_ASYNC_CANCEL_FD;
    check(enter(&ring, 1, 1, IORING_ENTER_GETEVENTS) == 1 && reap(&ring).res == -ENOENT);
    close_ring(&ring);
    close_pair(ends);
    close_pair(others);
    close(copy);
}

int main(int count, char **words)
{
    static const struct named tests[] = {
        {"cancels", test_cancels},
        {"cancels of any", test_cancels_of_any},
        {"after a cancel", test_after_a_cancel},
        {"cancel by an unused descriptor", test_cancel_by_unused_descriptor},
        {"cancel by a file", test_cancel_by_file},
        {"cancelled middle", test_cancelled_middle},
        {"awaited", test_awaited},
    };
    return run_tests(tests, sizeof tests / sizeof *tests, count > 1 ? words[1] : NULL);
}
