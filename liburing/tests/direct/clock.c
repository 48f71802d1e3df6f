/* Under WULGACH_TIME=real timeouts, linked ones and the limits of calls last as long as they say,
 * and a wait lasts until a signal comes; else an hour takes no time.
 *
 *   clock
 */
#define _GNU_SOURCE
#include "asleep.h"
#include "clocks.h"
#include "engines.h"

enum { MILLISECOND = 1000000 };

static void test_timeout(void)
{
    struct ring ring;
    struct __kernel_timespec time = {.tv_nsec = 50 * MILLISECOND};
    make_ring(&ring, 8, 0, 0);
    int64_t start = real_time();
    put_transfer(&ring, IORING_OP_TIMEOUT, 0, 0, -1, &time, 1, 0);
    check(enter(&ring, 1, 1, IORING_ENTER_GETEVENTS) == 1);
    check(reap(&ring).res == -ETIME && has_lasted(start, 50 * MILLISECOND));
    /* A peek ends none that isn't over. */
    put_transfer(&ring, IORING_OP_TIMEOUT, 0, 0, -1, &time, 1, 0);
    start = real_time();
    check(enter(&ring, 1, 0, IORING_ENTER_GETEVENTS) == 1);
    for (int i = 0; count_ready(&ring) == 0; i++) {
        usleep(1000);
        enter(&ring, 0, 0, IORING_ENTER_GETEVENTS);
        check(i < 100000);
    }
    check(reap(&ring).res == -ETIME && has_lasted(start, 50 * MILLISECOND));
    close_ring(&ring);
}

static void test_limit(void)
{
    struct ring ring;
    make_ring(&ring, 8, 0, 0);
    int64_t start = real_time();
    check(enter_for(&ring, 1, 50 * MILLISECOND) == -ETIME && has_lasted(start, 50 * MILLISECOND));
    close_ring(&ring);
}

static void test_linked(void)
{
    struct ring ring;
    int ends[2];
    char text[4];
    int32_t results[2];
    struct __kernel_timespec time = {.tv_nsec = 50 * MILLISECOND};
    check(pipe(ends) == 0);
    make_ring(&ring, 8, 0, 0);
    int64_t start = real_time();
    put_transfer(&ring, IORING_OP_READ, 0, IOSQE_IO_LINK, ends[0], text, 4, 0);
    put_transfer(&ring, IORING_OP_LINK_TIMEOUT, 1, 0, -1, &time, 1, 0);
    check(enter(&ring, 2, 0, 0) == 2);
    reap_all(&ring, 2, results);
    check(results[0] == -ECANCELED && results[1] == -ETIME && has_lasted(start, 50 * MILLISECOND));
    close_pair(ends);
    close_ring(&ring);
}

/* A write that has started can't be cancelled: it ends with what it wrote, whenever the time of its
 * timeout is over. */
static void test_linked_to_write(void)
{
    struct __kernel_timespec time = {.tv_nsec = MILLISECOND};
    int32_t results[2];
    for (int i = 0; i < 40; i++) {
        struct ring ring;
        int fd = make_file();
        make_ring(&ring, 8, 0, 0);
        put_transfer(&ring, IORING_OP_WRITE, 0, IOSQE_IO_LINK, fd, "text", 4, 0);
        put_transfer(&ring, IORING_OP_LINK_TIMEOUT, 1, 0, -1, &time, 1, 0);
        check(enter(&ring, 2, 0, 0) == 2);
        usleep(2000);
        reap_all(&ring, 2, results);
        check(results[0] == 4 && results[1] == -ECANCELED);
        close(fd);
        close_ring(&ring);
    }
}

/* A timeout that is over by then isn't cancelled by a call of io_uring_register(2). */
static void test_cancelled_late(void)
{
    struct ring ring;
    struct __kernel_timespec time = {.tv_nsec = 20 * MILLISECOND};
    struct io_uring_sync_cancel_reg cancel = {.addr = 3, .timeout = {-1, -1}};
    make_ring(&ring, 8, 0, 0);
    put_transfer(&ring, IORING_OP_TIMEOUT, 3, 0, -1, &time, 1, 0);
    check(enter(&ring, 1, 0, IORING_ENTER_GETEVENTS) == 1);
    usleep(40000);
    long found = register_at(ring.fd, IORING_REGISTER_SYNC_CANCEL, &cancel, 1);
    check(found == -ENOENT || (found == 0 && !is_time_real()));
    check(wait_for_one(&ring) == (found == 0 ? -ECANCELED : -ETIME));
    close_ring(&ring);
}

static volatile sig_atomic_t heard;

static void hear_signal(int number)
{
    (void)number;
    heard++;
}

/* Where time is real, a signal alone may end a wait: nothing else can. */
static void test_signal(void)
{
    struct sigaction action = {.sa_handler = hear_signal};
    struct ring ring;
    make_ring(&ring, 8, 0, 0);
    check(sigaction(SIGALRM, &action, NULL) == 0);
    pid_t child = is_time_real() ? signal_asleep(SIGALRM) : 0;
    check(enter(&ring, 0, 1, IORING_ENTER_GETEVENTS) == (is_time_real() ? -EINTR : -EDEADLK));
    check(heard == is_time_real() && (!is_time_real() || has_signalled(child)));
    close_ring(&ring);
}

int main(int count, char **words)
{
    static const struct named tests[] = {{"timeout", test_timeout}, {"limit", test_limit},
        {"linked", test_linked}, {"linked to a write", test_linked_to_write},
        {"cancelled late", test_cancelled_late}, {"signal", test_signal}};
    return run_tests(tests, sizeof tests / sizeof *tests, count > 1 ? words[1] : NULL);
}
