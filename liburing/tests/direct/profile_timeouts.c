/* The rules of timeouts in which Linux differs from the manual pages, under each profile, which
 * WULGACH_PROFILE says: what a linked one posts and who finds it, and what one with a count counts.
 * All hold under every policy; and Linux's on a real ring, if the kernel gives one and it is built
 * for that.
 */
#define _GNU_SOURCE
#include "profile.h"

#include <poll.h>

/* By Linux's rules a linked timeout posts as its own flags say, whatever those of its request. */
static void test_linked_timeouts(void)
{
    struct __kernel_timespec time = {.tv_nsec = 1000};
    for (int skips = 0; skips < 4; skips++) {
        int32_t results[2] = {0};
        bool is_silent = !is_by_manual() && skips & 2;
        begin(0);
        put_waiting(0, IOSQE_IO_LINK | (skips & 1 ? IOSQE_CQE_SKIP_SUCCESS : 0));
        put_transfer(&ring, IORING_OP_LINK_TIMEOUT, 1, skips & 2 ? IOSQE_CQE_SKIP_SUCCESS : 0, -1,
            &time, 1, 0);
        submit(2);
        reap_all(&ring, is_silent ? 1 : 2, results);
        check(results[0] == -ECANCELED && results[1] == (is_silent ? 0 : -ETIME));
        stop();
    }
}

/* After a first entry with a fault too, and a drain is refused after one of them that asks to skip,
 * unless that has an unknown operation. */
static void test_timeouts_after_faults(void)
{
    struct __kernel_timespec hour = {.tv_sec = 3600};
    for (int way = 0; way < 16; way++) {
        int32_t results[2] = {0}, drain;
        bool skips_fault = way & 1, skips_timeout = way & 2, is_unknown = way & 4;
        bool is_silent = !is_by_manual() && skips_timeout;
        begin(0);
        struct io_uring_sqe *fault = put(&ring, is_unknown ? NO_OPERATION : IORING_OP_NOP, 0,
            (way & 8 ? IOSQE_IO_HARDLINK : IOSQE_IO_LINK) |
                (skips_fault ? IOSQE_CQE_SKIP_SUCCESS : 0));
        fault->ioprio = is_unknown ? 0 : 0x9000;
        put_transfer(&ring, IORING_OP_LINK_TIMEOUT, 1, skips_timeout ? IOSQE_CQE_SKIP_SUCCESS : 0,
            -1, &hour, 1, 0);
        submit(2);
        reap_all(&ring, is_silent ? 1 : 2, results);
        check(results[0] == -EINVAL && results[1] == (is_silent ? 0 : -ECANCELED));
        put(&ring, IORING_OP_NOP, 0, IOSQE_IO_DRAIN);
        submit(1);
        reap_all(&ring, 1, &drain);
        check(
            drain ==
            (!is_by_manual() && (skips_timeout || (skips_fault && !is_unknown)) ? -EOPNOTSUPP : 0));
        stop();
    }
}

/* After a fault that isn't the first of its chain it posts as the first one's flags say. */
static void test_timeouts_after_later_faults(void)
{
    struct __kernel_timespec hour = {.tv_sec = 3600};
    for (int skips = 0; skips < 8; skips++) {
        int32_t results[3] = {0};
        bool is_silent = !is_by_manual() && skips & 1;
        begin(0);
        put(&ring, IORING_OP_NOP, 0, IOSQE_IO_LINK | (skips & 1 ? IOSQE_CQE_SKIP_SUCCESS : 0));
        put(&ring, NO_OPERATION, 1, IOSQE_IO_LINK | (skips & 2 ? IOSQE_CQE_SKIP_SUCCESS : 0));
        put_transfer(&ring, IORING_OP_LINK_TIMEOUT, 2, skips & 4 ? IOSQE_CQE_SKIP_SUCCESS : 0, -1,
            &hour, 1, 0);
        submit(3);
        reap_all(&ring, is_silent ? 1 : 3, results);
        check(results[0] == -ECANCELED &&
              (is_silent || (results[1] == -EINVAL && results[2] == -ECANCELED)));
        stop();
    }
}

/* A cancel of what has the user data of a linked timeout doesn't find that, whatever has become of
 * its request, and the chain goes on after it; it finds what else has the same. (by the manual
 * pages' rules one without flags may find it) */
static void test_cancels_of_linked_timeouts(void)
{
    struct __kernel_timespec hour = {.tv_sec = 3600};
    for (int way = is_by_manual() ? 2 : 0; way < 4; way++) {
        int32_t results[4];
        bool has_other = way & 1, is_of_all = way & 2;
        begin(0);
        feed();
        put_waiting(0, IOSQE_IO_LINK);
        put_transfer(&ring, IORING_OP_LINK_TIMEOUT, 1, IOSQE_IO_LINK, -1, &hour, 1, 0);
        put(&ring, IORING_OP_NOP, 2, 0);
        if (has_other)
            put_transfer(&ring, IORING_OP_TIMEOUT, 1, 0, -1, &hour, 1, 0);
        struct io_uring_sqe *cancel = put(&ring, IORING_OP_ASYNC_CANCEL, 3, 0);
        cancel->addr = 1;
        cancel->cancel_flags = is_of_all ? IORING_ASYNC_CANCEL_ALL : 0;
        submit(has_other ? 5 : 4);
        reap_all(&ring, has_other ? 5 : 4, results);
        check(results[0] == 1 && results[1] == -ECANCELED && results[2] == 0);
        check(results[3] == (is_of_all ? has_other : has_other ? 0 : -ENOENT));
        stop();
    }
}

/* A timeout counts what ends in its own submission, wherever that stands; but not what is posted
 * before it as it comes, nor where it is issued later, after a link or a drain. (under other
 * policies it may start before such) */
static void test_counts_of_a_submission(void)
{
    struct __kernel_timespec hour = {.tv_sec = 3600}, moment = {.tv_nsec = 1000000};
    for (int way = 0; way < (is_in_order() ? 9 : 6); way++) {
        int32_t results[4] = {0};
        bool is_counted = way < 6;
        begin(0);
        if (way == 0)
            put(&ring, IORING_OP_NOP, 0, 0);
        else if (way == 1)
            put_failing(0, 0);
        else if (way == 2)
            put(&ring, IORING_OP_ASYNC_CANCEL, 0, 0)->addr = 77;
        else if (way == 3)
            put_plain(&ring, IORING_OP_POLL_ADD, 0, ends[1])->poll32_events = POLLOUT;
        else if (way == 4 || way == 7)
            put(&ring, IORING_OP_NOP, 0, IOSQE_IO_LINK);
        else if (way == 6) {
            struct io_uring_sqe *message = put(
                &ring, IORING_OP_MSG_RING, 1, IOSQE_CQE_SKIP_SUCCESS);
            message->fd = ring.fd;
            message->off = 0;
        }
        if (way == 4)
            put(&ring, IORING_OP_NOP, 2, 0);
        if (way == 8)
            put(&ring, IORING_OP_NOP, 0, 0);
        put_transfer(&ring, IORING_OP_TIMEOUT, 3, way == 8 ? IOSQE_IO_DRAIN : 0, -1,
            is_counted ? &hour : &moment, 1, way == 4 ? 2 : 1);
        if (way == 5)
            put(&ring, IORING_OP_NOP, 0, 0);
        unsigned count = way == 4 ? 3 : 2;
        submit(count);
        reap_all(&ring, count, results);
        check(results[3] == (is_counted ? 0 : -ETIME));
        stop();
    }
}

int main(int count, char **words)
{
    static const struct named tests[] = {
        {"linked timeouts", test_linked_timeouts},
        {"timeouts after faults", test_timeouts_after_faults},
        {"timeouts after later faults", test_timeouts_after_later_faults},
        {"cancels of linked timeouts", test_cancels_of_linked_timeouts},
        {"counts of a submission", test_counts_of_a_submission},
    };
    return are_rings_there()
               ? run_tests(tests, sizeof tests / sizeof *tests, count > 1 ? words[1] : NULL)
               : 0;
}
