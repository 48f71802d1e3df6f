/* Tests by direct calls: timeouts and the limits of calls where time is virtual, up to the largest
 * times. All hold under every policy.
 */
#define _GNU_SOURCE
#include "engines.h"

#include <linux/time_types.h>

static void put_timeout(struct ring *ring, uint64_t user_data, const struct __kernel_timespec *time)
{
    struct io_uring_sqe *entry = put(ring, IORING_OP_TIMEOUT, user_data, 0);
    entry->addr = (uintptr_t)time;
    entry->len = 1;
}

/* Virtual time passes in a wait that ends without anything, and of equal timeouts the first ends
 * first. A limit counts beside a mask of signals. */
static void test_virtual_time(void)
{
    struct ring ring;
    struct __kernel_timespec hour = {3600, 0};
    make_ring(&ring, 4, 0, 0);
    put_timeout(&ring, 0, &hour);
    check(enter(&ring, 1, 0, 0) == 1);
    check(enter_for(&ring, 1, 2400 * 1000000000ll) == -ETIME);
    check(enter_for(&ring, 1, 2400 * 1000000000ll) == 0);
    check(reap(&ring).res == -ETIME);
    put_timeout(&ring, 1, &hour);
    put_timeout(&ring, 2, &hour);
    put_timeout(&ring, 3, &hour);
    check(enter(&ring, 3, 0, 0) == 3);
    check(enter_for(&ring, 3, 3599 * 1000000000ll) == -ETIME);
    check(enter(&ring, 0, 3, IORING_ENTER_GETEVENTS) == 0);
    for (unsigned i = 1; i <= 3; i++)
        check(reap(&ring).user_data == i);
    uint64_t signals = 0;
    struct io_uring_getevents_arg argument = {
        .ts = (uintptr_t)&hour, .sigmask = (uintptr_t)&signals, .sigmask_sz = sizeof signals};
    check(wulgach_syscall(SYS_io_uring_enter, ring.fd, 0u, 1u,
              IORING_ENTER_GETEVENTS | IORING_ENTER_EXT_ARG, &argument, sizeof argument) == -1 &&
          errno == ETIME);
    close_ring(&ring);
}

static void test_timeouts(void)
{
    struct ring ring;
    struct __kernel_timespec hour = {3600, 0}, day = {86400, 0};
    make_ring(&ring, 4, 0, 0);
    /* It has no priority. */
    put_timeout(&ring, 2, &hour);
    ring.entries[0].ioprio = 1;
    check(enter(&ring, 1, 1, IORING_ENTER_GETEVENTS) == 1);
    check(reap(&ring).res == -EINVAL);
    put_timeout(&ring, 0, &day);
    put_timeout(&ring, 1, &hour);
    check(enter(&ring, 2, 0, 0) == 2);
    /* A timeout that ends meanwhile ends the wait. */
    check(enter_for(&ring, 2, 7200 * 1000000000ll) == 0 && count_ready(&ring) == 1);
    struct completion found = reap(&ring);
    check(found.user_data == 1 && found.res == -ETIME);
    check(enter(&ring, 0, 1, IORING_ENTER_GETEVENTS) == 0);
    found = reap(&ring);
    check(found.user_data == 0 && found.res == -ETIME);
    close_ring(&ring);
}

static int32_t end_of_timeout(struct ring *ring, int64_t seconds, int64_t nanoseconds)
{
    struct __kernel_timespec time = {seconds, nanoseconds};
    struct io_uring_sqe *entry = put(ring, IORING_OP_TIMEOUT, 0, 0);
    entry->addr = (uintptr_t)&time;
    entry->len = 1;
    check(enter(ring, 1, 0, 0) == 1);
    return wait_for_one(ring);
}

/* A time past the largest is no short one: an hour ends before. */
static void check_largest(struct ring *ring, const struct __kernel_timespec *largest)
{
    struct __kernel_timespec hour = {3600, 0};
    struct io_uring_getevents_arg argument = {.ts = (uintptr_t)largest};
    unsigned flags = IORING_ENTER_GETEVENTS | IORING_ENTER_EXT_ARG;
    for (uint64_t i = 0; i < 2; i++) {
        struct io_uring_sqe *entry = put(ring, IORING_OP_TIMEOUT, i, 0);
        entry->addr = i == 0 ? (uintptr_t)largest : (uintptr_t)&hour;
        entry->len = 1;
    }
    check(enter(ring, 2, 0, 0) == 2);
    check(wulgach_syscall(
              SYS_io_uring_enter, ring->fd, 0u, 1u, flags, &argument, sizeof argument) == 0);
    check(reap(ring).user_data == 1 && count_ready(ring) == 0);
    check(enter(ring, 0, 1, IORING_ENTER_GETEVENTS) == 0 && reap(ring).user_data == 0);
}

static void test_largest_times(void)
{
    static const struct __kernel_timespec largest = {INT64_MAX, 999999999};
    struct ring ring;
    make_ring(&ring, 4, 0, 0);
    check_largest(&ring, &largest);
    close_ring(&ring);
    make_ring(&ring, 4, 0, 0);
    check(end_of_timeout(&ring, INT64_MAX / 1000000000, INT64_MAX) == -ETIME);
    check(end_of_timeout(&ring, INT64_MAX, 999999999) == -ETIME);
    check(end_of_timeout(&ring, 3600, 0) == -ETIME);
    check(end_of_timeout(&ring, -1, 0) == -EINVAL);
    check(end_of_timeout(&ring, 0, -1) == -EINVAL);
    static const struct __kernel_timespec limits[] = {
        {INT64_MAX, INT64_MAX}, {INT64_MIN, 0}, {0, INT64_MIN}, {-1, 0}};
    for (int i = 0; i < 4; i++) {
        struct io_uring_getevents_arg argument = {.ts = (uintptr_t)&limits[i]};
        unsigned flags = IORING_ENTER_GETEVENTS | IORING_ENTER_EXT_ARG;
        check(wulgach_syscall(
                  SYS_io_uring_enter, ring.fd, 0u, 1u, flags, &argument, sizeof argument) == -1 &&
              errno == ETIME);
    }
    close_ring(&ring);
}

/* Waits for one completion, this long at most. */
static long wait_at_most(const struct ring *ring, int64_t seconds, int64_t nanoseconds)
{
    struct __kernel_timespec time = {seconds, nanoseconds};
    struct io_uring_getevents_arg argument = {.ts = (uintptr_t)&time};
    unsigned flags = IORING_ENTER_GETEVENTS | IORING_ENTER_EXT_ARG;
    long result = wulgach_syscall(
        SYS_io_uring_enter, ring->fd, 0u, 1u, flags, &argument, sizeof argument);
    return result < 0 ? -errno : result;
}

/* The time of a wait is the sum of its seconds and nanoseconds, whichever is negative: so one of 20
 * ms ends before that of two seconds is over. */
static void test_negative_parts(void)
{
    static const struct __kernel_timespec longer[] = {
        {-5, 7000000000}, {-1, INT64_MAX}, {7, -5000000000}, {INT64_MAX / 1000000000, INT64_MIN}};
    static const struct __kernel_timespec over[] = {
        {-5, 4000000000}, {-5, 5000000000}, {5, -6000000000}, {-1, -1}, {-3600, 0}};
    struct __kernel_timespec moment = {0, 20000000};
    struct ring ring;
    make_ring(&ring, 4, 0, 0);
    for (unsigned i = 0; i < sizeof longer / sizeof *longer; i++) {
        put_timeout(&ring, i, &moment);
        check(enter(&ring, 1, 0, 0) == 1);
        check(wait_at_most(&ring, longer[i].tv_sec, longer[i].tv_nsec) == 0);
        check(reap(&ring).res == -ETIME);
    }
    for (unsigned i = 0; i < sizeof over / sizeof *over; i++)
        check(wait_at_most(&ring, over[i].tv_sec, over[i].tv_nsec) == -ETIME);
    check(end_of_timeout(&ring, -5, 7000000000) == -EINVAL);
    check(end_of_timeout(&ring, 7, -5000000000) == -EINVAL);
    close_ring(&ring);
}

int main(int count, char **words)
{
    static const struct named tests[] = {
        {"virtual time", test_virtual_time},
        {"timeouts", test_timeouts},
        {"largest times", test_largest_times},
        {"negative parts", test_negative_parts},
    };
    alarm((unsigned)(PATIENCE * patience()));
    return run_tests(tests, sizeof tests / sizeof *tests, count > 1 ? words[1] : NULL);
}
