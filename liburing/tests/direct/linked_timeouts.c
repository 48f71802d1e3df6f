/* Tests of linked timeouts and of those with a count, by direct calls: how they end, and what their
 * removals and updates do. All hold under every policy, which the environment says.
 *
 *   linked_timeouts [NAME]   with a name: that test alone
 */
#define _GNU_SOURCE
#include "engines.h"

#include <time.h>

/* A read that nobody feeds is limited by a timeout: the chain after them is cancelled. One that is
 * fed isn't, and the chain goes on. */
static void test_linked_timeout(void)
{
    struct ring ring;
    int32_t results[3];
    char text[4];
    int ends[2];
    struct __kernel_timespec second = {.tv_sec = 1};
    check(pipe(ends) == 0);
    make_ring(&ring, 8, 0, 0);
    for (int is_fed = 0; is_fed < 2; is_fed++) {
        if (is_fed)
            check(write(ends[1], "four", 4) == 4);
        put_transfer(&ring, IORING_OP_READ, 0, IOSQE_IO_LINK, ends[0], text, 4, 0);
        put_transfer(&ring, IORING_OP_LINK_TIMEOUT, 1, IOSQE_IO_LINK, -1, &second, 1, 0);
        put(&ring, IORING_OP_NOP, 2, 0);
        check(enter(&ring, 3, 0, 0) == 3);
        reap_all(&ring, 3, results);
        check(results[0] == (is_fed ? 4 : -ECANCELED));
        check(results[1] == (is_fed ? -ECANCELED : -ETIME));
        check(results[2] == (is_fed ? 0 : -ECANCELED));
    }
    put_transfer(&ring, IORING_OP_LINK_TIMEOUT, 0, 0, -1, &second, 1, 0);
    check(result_of_one(&ring, 1) == -EINVAL);
    close_pair(ends);
    close_ring(&ring);
}

static struct io_uring_sqe *put_update(struct ring *ring, uint64_t user_data, uint64_t sought,
    uint32_t flags, const struct __kernel_timespec *time)
{
    struct io_uring_sqe *entry = put(ring, IORING_OP_TIMEOUT_REMOVE, user_data, 0);
    entry->addr = sought;
    entry->off = (uintptr_t)time;
    entry->timeout_flags = flags;
    return entry;
}

/* An update changes the linked timeout with its user data, and looks at nothing else that has that;
 * without IORING_TIMEOUT_UPDATE a timeout is removed. */
static void test_linked_update(void)
{
    enum { LINKED = IORING_LINK_TIMEOUT_UPDATE | IORING_TIMEOUT_UPDATE };
    struct ring ring;
    char text[4];
    int ends[2], others[2];
    struct __kernel_timespec hour = {.tv_sec = 3600}, second = {.tv_sec = 1};
    check(pipe(ends) == 0 && pipe(others) == 0);
    make_ring(&ring, 8, 0, 0);
    struct io_uring_sqe *poll = put(&ring, IORING_OP_POLL_ADD, 1, 0);
    poll->fd = others[0];
    poll->poll32_events = 1;
    check(enter(&ring, 1, 0, IORING_ENTER_GETEVENTS) == 1);
    put_update(&ring, 4, 1, LINKED, &second);
    check(enter(&ring, 1, 1, IORING_ENTER_GETEVENTS) == 1 && reap(&ring).res == -ENOENT);
    put_transfer(&ring, IORING_OP_READ, 0, IOSQE_IO_LINK, ends[0], text, 4, 0);
    put_transfer(&ring, IORING_OP_LINK_TIMEOUT, 1, 0, -1, &hour, 1, 0);
    check(enter(&ring, 2, 0, IORING_ENTER_GETEVENTS) == 2);
    put_update(&ring, 4, 1, LINKED, &second);
    check(enter(&ring, 1, 1, IORING_ENTER_GETEVENTS) == 1);
    struct completion first = reap(&ring);
    check(first.user_data == 4 && first.res == 0);
    put_transfer(&ring, IORING_OP_TIMEOUT, 5, 0, -1, &hour, 1, 0);
    put_update(&ring, 6, 5, IORING_LINK_TIMEOUT_UPDATE, &second);
    check(enter(&ring, 2, 0, IORING_ENTER_GETEVENTS) == 2);
    int32_t results[7] = {0};
    check(enter(&ring, 0, 4, IORING_ENTER_GETEVENTS) == 0);
    for (int i = 0; i < 4; i++) {
        struct completion found = reap(&ring);
        check(found.user_data < 7);
        results[found.user_data] = found.res;
    }
    check(results[6] == 0 && results[5] == -ECANCELED && results[1] == -ETIME &&
          results[0] == -ECANCELED);
    close_pair(ends);
    close_pair(others);
    close_ring(&ring);
}

/* Of two linked timeouts of one user data an update changes the one whose time began first: that of
 * a chain's second member began later than that of a younger chain's first. */
static void test_first_linked_update(void)
{
    struct ring ring;
    char text[4];
    int ends[3][2];
    struct __kernel_timespec hour = {.tv_sec = 3600}, instant = {.tv_nsec = 1};
    make_ring(&ring, 8, 0, 0);
    for (int i = 0; i < 3; i++)
        check(pipe(ends[i]) == 0);
    put_transfer(&ring, IORING_OP_READ, 0, IOSQE_IO_LINK, ends[0][0], text, 4, 0);
    put_transfer(&ring, IORING_OP_READ, 1, IOSQE_IO_LINK, ends[1][0], text, 4, 0);
    put_transfer(&ring, IORING_OP_LINK_TIMEOUT, 4, 0, -1, &hour, 1, 0);
    put_transfer(&ring, IORING_OP_READ, 2, IOSQE_IO_LINK, ends[2][0], text, 4, 0);
    put_transfer(&ring, IORING_OP_LINK_TIMEOUT, 4, 0, -1, &hour, 1, 0);
    check(enter(&ring, 5, 0, IORING_ENTER_GETEVENTS) == 5 && enter_for(&ring, 1, 1000) == -ETIME);
    check(write(ends[0][1], "four", 4) == 4 && wait_for_one(&ring) == 4);
    put_update(&ring, 3, 4, IORING_LINK_TIMEOUT_UPDATE | IORING_TIMEOUT_UPDATE, &instant);
    check(enter(&ring, 1, 1, IORING_ENTER_GETEVENTS) == 1);
    int32_t results[5] = {0};
    check(enter(&ring, 0, 3, IORING_ENTER_GETEVENTS) == 0);
    for (int i = 0; i < 3; i++) {
        struct completion found = reap(&ring);
        check(found.user_data < 5);
        results[found.user_data] = found.res;
    }
    check(results[3] == 0 && results[4] == -ETIME && results[2] == -ECANCELED && results[1] == 0);
    close_ring(&ring);
    for (int i = 0; i < 3; i++) {
        close(ends[i][0]);
        close(ends[i][1]);
    }
}

/* A timeout ends with 0 once as many completions were posted as it counts; one is removed; one is
 * changed. */
static void test_timeouts(void)
{
    struct ring ring;
    struct __kernel_timespec hour = {.tv_sec = 3600}, instant = {.tv_nsec = 1};
    make_ring(&ring, 8, 0, 0);
    put_transfer(&ring, IORING_OP_TIMEOUT, 0, 0, -1, &hour, 1, 2);
    check(enter(&ring, 1, 0, 0) == 1);
    check(enter_for(&ring, 1, 1000) == -ETIME);
    put(&ring, IORING_OP_NOP, 1, 0);
    put(&ring, IORING_OP_NOP, 2, 0);
    check(enter(&ring, 2, 0, 0) == 2);
    int32_t results[4];
    reap_all(&ring, 3, results);
    check(results[0] == 0);
    put_transfer(&ring, IORING_OP_TIMEOUT, 0, 0, -1, &hour, 1, 0);
    check(enter(&ring, 1, 0, 0) == 1);
    check(enter_for(&ring, 1, 1000) == -ETIME);
    put(&ring, IORING_OP_TIMEOUT_REMOVE, 1, 0)->addr = 77;
    put(&ring, IORING_OP_TIMEOUT_REMOVE, 2, 0)->addr = 0;
    check(enter(&ring, 2, 0, 0) == 2);
    reap_all(&ring, 3, results);
    check(results[0] == -ECANCELED && results[1] == -ENOENT && results[2] == 0);
    put_transfer(&ring, IORING_OP_TIMEOUT, 0, 0, -1, &hour, 1, 0);
    check(enter(&ring, 1, 0, 0) == 1);
    check(enter_for(&ring, 1, 1000) == -ETIME);
    struct io_uring_sqe *change = put(&ring, IORING_OP_TIMEOUT_REMOVE, 1, 0);
    change->timeout_flags = IORING_TIMEOUT_UPDATE;
    change->addr2 = (uintptr_t)&instant;
    check(enter(&ring, 1, 0, 0) == 1);
    check(enter_for(&ring, 2, 1000000) == 0);
    reap_all(&ring, 2, results);
    check(results[0] == -ETIME && results[1] == 0);
    close_ring(&ring);
}

/* The completion of a timeout that is removed counts for another. */
static void test_count_of_removed(void)
{
    struct ring ring;
    int32_t results[3];
    struct __kernel_timespec hour = {.tv_sec = 3600};
    make_ring(&ring, 8, 0, 0);
    put_transfer(&ring, IORING_OP_TIMEOUT, 0, 0, -1, &hour, 1, 0);
    put_transfer(&ring, IORING_OP_TIMEOUT, 1, 0, -1, &hour, 1, 2);
    check(enter(&ring, 2, 0, 0) == 2);
    check(enter_for(&ring, 1, 1000) == -ETIME);
    put(&ring, IORING_OP_TIMEOUT_REMOVE, 2, 0)->addr = 0;
    check(enter(&ring, 1, 0, 0) == 1);
    check(enter_for(&ring, 3, 1000) == 0);
    reap_all(&ring, 3, results);
    check(results[0] == -ECANCELED && results[1] == 0 && results[2] == 0);
    close_ring(&ring);
}

/* An update keeps the clock of a timeout, and names none: a time that is over by that clock ends it
 * before another. */
static void test_updated_clock(void)
{
    struct ring ring;
    struct timespec now;
    struct __kernel_timespec hour = {3600, 0}, minute = {60, 0}, past;
    make_ring(&ring, 8, 0, IORING_SETUP_SUBMIT_ALL);
    check(clock_gettime(CLOCK_REALTIME, &now) == 0);
    past = (struct __kernel_timespec){now.tv_sec - 5, 0};
    put_transfer(&ring, IORING_OP_TIMEOUT, 1, 0, -1, &hour, 1, 0)
        ->timeout_flags = IORING_TIMEOUT_REALTIME;
    put_transfer(&ring, IORING_OP_TIMEOUT, 2, 0, -1, &minute, 1, 0);
    check(enter(&ring, 2, 0, 0) == 2);
    check(enter_for(&ring, 1, 1000) == -ETIME);
    put_update(&ring, 3, 1, IORING_TIMEOUT_UPDATE | IORING_TIMEOUT_REALTIME, &past);
    put_update(&ring, 4, 1, IORING_TIMEOUT_UPDATE | IORING_TIMEOUT_ABS, &past);
    check(enter(&ring, 2, 0, 0) == 2);
    int32_t ends = 0;
    for (int i = 0; i < 3; i++) {
        struct seen found = next_of(&ring);
        check(found.res == (found.user_data == 3      ? -EINVAL
                               : found.user_data == 4 ? 0
                                                      : -ETIME) &&
              found.user_data != 2);
        ends += found.user_data == 1;
    }
    check(ends == 1);
    close_ring(&ring);
}

int main(int count, char **words)
{
    static const struct named tests[] = {
        {"linked timeout", test_linked_timeout},
        {"linked update", test_linked_update},
        {"first linked update", test_first_linked_update},
        {"timeouts", test_timeouts},
        {"count of removed", test_count_of_removed},
        {"updated clock", test_updated_clock},
    };
    return run_tests(tests, sizeof tests / sizeof *tests, count > 1 ? words[1] : NULL);
}
