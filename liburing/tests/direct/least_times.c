/* Tests of waits with a least time (`min_wait_usec`, IORING_FEAT_MIN_TIMEOUT), after which one
 * completion is enough, by direct calls. All hold under every policy, which the environment says,
 * in virtual and in real time, and on a real ring of Linux 6.18.
 *
 *   least_times [NAME]       with a name: that test alone
 */
#define _GNU_SOURCE
#include "clocks.h"
#include "engines.h"

#include <pthread.h>

enum { MICROSECOND = 1000, MILLISECOND = 1000000, MANY = 4, FEATURE = 1 << 15 };

static const int64_t never = -1;

/* The structure as newer headers have it. */
struct argument {
    uint64_t sigmask;
    uint32_t sigmask_sz, min_wait_usec;
    uint64_t ts;
};

static struct ring ring;
static int ends[2]; /* of a pipe */
static int64_t start; /* of the last wait */
static unsigned found; /* how many completions were there as it returned */

static void begin(void)
{
    check(pipe(ends) == 0);
    make_ring(&ring, 16, 0, 0);
}

static void stop(void)
{
    close_ring(&ring);
    close_pair(ends);
}

/* Waits for so many, or for one after the least time, until the limit. Both are in nanoseconds. */
static long wait_for(unsigned to_submit, unsigned count, int64_t least, int64_t limit)
{
    struct __kernel_timespec time = {limit / 1000000000, limit % 1000000000};
    struct argument argument = {.min_wait_usec = (uint32_t)(least / MICROSECOND),
        .ts = limit == never ? 0 : (uintptr_t)&time};
    start = real_time();
    long result = wulgach_syscall(SYS_io_uring_enter, ring.fd, to_submit, count,
        IORING_ENTER_GETEVENTS | IORING_ENTER_EXT_ARG, &argument, sizeof argument);
    int error = errno;
    found = count_ready(&ring);
    return result < 0 ? -error : result;
}

static void put_read(uint64_t user_data)
{
    static char byte;
    put_transfer(&ring, IORING_OP_READ, user_data, 0, ends[0], &byte, 1, 0);
}

static void *write_later(void *bytes)
{
    usleep(40000);
    check(write(ends[1], "xy", (uintptr_t)bytes) == (ssize_t)(uintptr_t)bytes);
    return NULL;
}

/* Waits while another thread writes so many bytes after 40 milliseconds. */
static long wait_meanwhile(
    size_t bytes, unsigned to_submit, unsigned count, int64_t least, int64_t limit)
{
    pthread_t thread;
    check(pthread_create(&thread, NULL, write_later, (void *)bytes) == 0);
    long result = wait_for(to_submit, count, least, limit);
    check(pthread_join(thread, NULL) == 0);
    return result;
}

static _Atomic bool is_over; /* the wait beside another thread */

static void *write_behind(void *none)
{
    (void)none;
    while (!is_over)
        usleep(1000);
    check(write(ends[1], "x", 1) == 1);
    return NULL;
}

/* Waits beside another thread, which writes a byte once the wait is over. */
static long wait_before(unsigned to_submit, unsigned count, int64_t least, int64_t limit)
{
    pthread_t thread;
    is_over = false;
    check(pthread_create(&thread, NULL, write_behind, NULL) == 0);
    long result = wait_for(to_submit, count, least, limit);
    is_over = true;
    check(pthread_join(thread, NULL) == 0);
    return result;
}

/* Nothing comes: the limit counts once the least time is over, and without one the wait ends then.
 */
static void test_nothing_comes(void)
{
    begin();
    check(ring.params.features & FEATURE);
    check(wait_for(0, MANY, 20 * MILLISECOND, never) == -ETIME &&
          has_lasted(start, 20 * MILLISECOND));
    check(wait_for(0, 1, 20 * MILLISECOND, never) == -ETIME && has_lasted(start, 20 * MILLISECOND));
    check(wait_for(0, MANY, 20 * MILLISECOND, 60 * MILLISECOND) == -ETIME &&
          has_lasted(start, 60 * MILLISECOND));
    check(wait_for(0, MANY, 60 * MILLISECOND, 20 * MILLISECOND) == -ETIME &&
          has_lasted(start, 60 * MILLISECOND));
    check(wait_for(0, MANY, 20 * MILLISECOND, 0) == -ETIME && has_lasted(start, 20 * MILLISECOND));
    check(wait_for(0, 0, 20 * MILLISECOND, never) == 0);
    stop();
}

/* One completion that is there, or comes of what the call submits, is enough after the least time
 * and not before, whatever the limit. */
static void test_one_is_there(void)
{
    static const int64_t limits[] = {never, 0, 10 * MILLISECOND, 3600ll * 1000 * MILLISECOND};
    begin();
    for (size_t i = 0; i < sizeof limits / sizeof *limits; i++)
        for (unsigned is_there = 0; is_there < 2; is_there++) {
            put(&ring, IORING_OP_NOP, 5, 0);
            check(!is_there || enter(&ring, 1, 1, IORING_ENTER_GETEVENTS) == 1);
            check(wait_for(!is_there, MANY, 20 * MILLISECOND, limits[i]) == !is_there);
            check(has_lasted(start, 20 * MILLISECOND) && found == 1 && reap(&ring).user_data == 5);
        }
    stop();
}

/* One that comes after the least time ends the wait at once; without a limit that is over by then.
 */
static void test_one_comes_later(void)
{
    begin();
    put_read(6);
    check(enter(&ring, 1, 0, 0) == 1);
    check(wait_meanwhile(1, 0, MANY, 5 * MILLISECOND, 3600ll * 1000 * MILLISECOND) == 0);
    check(found == 1 && reap(&ring).user_data == 6);
    put_read(7);
    check(wait_before(1, MANY, 5 * MILLISECOND, never) == 1 && found == 0);
    check(wait_for_one(&ring) == 1);
    stop();
}

/* As many as it waits for end it before the least time. */
static void test_enough_come(void)
{
    begin();
    put_read(6);
    check(wait_meanwhile(1, 1, 1, 3600ll * 1000 * MILLISECOND, never) == 1 && found == 1);
    check(reap(&ring).user_data == 6);
    put_read(7);
    put_read(8);
    check(wait_meanwhile(2, 2, 2, 3600ll * 1000 * MILLISECOND, never) == 2 && found == 2);
    reap(&ring);
    reap(&ring);
    put(&ring, IORING_OP_NOP, 9, 0);
    check(wait_for(1, 1, 3600ll * 1000 * MILLISECOND, never) == 1 && found == 1);
    stop();
}

/* A timeout that ends is enough, before the least time and after it. */
static void test_timeouts(void)
{
    begin();
    for (int ends_later = 0; ends_later < 2; ends_later++) {
        struct __kernel_timespec time = {.tv_nsec = 20 * MILLISECOND};
        put_transfer(&ring, IORING_OP_TIMEOUT, 1, 0, -1, &time, 1, 0);
        check(wait_for(1, MANY, (ends_later ? 5 : 3600 * 1000) * (int64_t)MILLISECOND,
                  3600ll * 1000 * MILLISECOND) == 1 &&
              has_lasted(start, 20 * MILLISECOND));
        check(found == 1 && reap(&ring).res == -ETIME);
    }
    stop();
}

/* What can't be read is refused as without a least time, once all is submitted. */
static void test_faults(void)
{
    struct argument argument = {.min_wait_usec = 1, .ts = 8};
    unsigned flags = IORING_ENTER_GETEVENTS | IORING_ENTER_EXT_ARG;
    begin();
    if (!is_under_valgrind()) {
        check(wulgach_syscall(
                  SYS_io_uring_enter, ring.fd, 0u, 1u, flags, &argument, sizeof argument) == -1 &&
              errno == EFAULT);
        put(&ring, IORING_OP_NOP, 5, 0);
        check(wulgach_syscall(
                  SYS_io_uring_enter, ring.fd, 1u, 3u, flags, &argument, sizeof argument) == 1);
        check(next_of(&ring).user_data == 5);
    }
    check(wulgach_syscall(
              SYS_io_uring_enter, ring.fd, 0u, 1u, flags, &argument, sizeof argument - 1) == -1 &&
          errno == EINVAL);
    stop();
}

int main(int count, char **words)
{
    static const struct named tests[] = {
        {"nothing comes", test_nothing_comes},
        {"one is there", test_one_is_there},
        {"one comes later", test_one_comes_later},
        {"enough come", test_enough_come},
        {"timeouts", test_timeouts},
        {"faults", test_faults},
    };
    return are_rings_there()
               ? run_tests(tests, sizeof tests / sizeof *tests, count > 1 ? words[1] : NULL)
               : 0;
}
