/* Requests that share their user data: which of them a cancel or a removal finds, by Linux's rules
 * and by the manual pages', as WULGACH_PROFILE says. All hold under every policy; and Linux's on a
 * real ring, if the kernel gives one and it is built for that.
 */
#define _GNU_SOURCE
#include "profile.h"

#include <poll.h>

enum { SHARED = 1, SEEKER = 2, OTHER = 3 };

static struct __kernel_timespec hour = {.tv_sec = 3600};

/* What can go on has, and so many completions have come: all before an hour is over. */
static void settle_to(unsigned count)
{
    long result = enter_for(&ring, 16, 1000000);
    check(result == 0 || result == -ETIME);
    check(count_ready(&ring) == count);
}

static void reap_one(uint64_t user_data, int32_t res)
{
    struct completion found = reap(&ring);
    check(found.user_data == user_data && found.res == res);
}

static void put_timeout(unsigned count)
{
    put_transfer(&ring, IORING_OP_TIMEOUT, SHARED, 0, -1, &hour, 1, count);
}

/* Something is found, and ends. */
static void seek(uint8_t code)
{
    put(&ring, code, SEEKER, 0)->addr = SHARED;
    submit(1);
    settle_to(2);
    reap_one(SEEKER, 0);
    reap_one(SHARED, -ECANCELED);
}

static void end_timeout(void)
{
    seek(IORING_OP_TIMEOUT_REMOVE);
    stop();
}

/* Of two polls the newer goes, though a timeout is older than both; by the manual pages' rules the
 * older. */
static void find_poll(uint8_t code)
{
    int others[2];
    begin(0);
    check(pipe(others) == 0);
    put_timeout(0);
    put_poll(&ring, SHARED, ends[0], POLLIN, 0);
    put_poll(&ring, SHARED, others[0], POLLIN, 0);
    submit(3);
    settle_to(0);
    seek(code);
    check(write(is_by_manual() ? others[1] : ends[1], "x", 1) == 1);
    settle_to(1);
    reap_one(SHARED, POLLIN);
    end_timeout();
    close_pair(others);
}

/* (to the core of the manual pages' rules the running request that is the oldest is the timeout) */
static void test_cancel(void)
{
    if (!is_by_manual())
        find_poll(IORING_OP_ASYNC_CANCEL);
}

static void test_removal_of_a_poll(void)
{
    find_poll(IORING_OP_POLL_REMOVE);
}

/* Of two timeouts that with a count goes, though the other is older; by the manual pages' rules the
 * older, and then that with a count has counted enough: the two completions of the removal, and
 * seven. */
static void test_removal_of_a_timeout(void)
{
    unsigned more = is_by_manual();
    begin(0);
    put_timeout(0);
    put_timeout(9);
    submit(2);
    settle_to(0);
    seek(IORING_OP_TIMEOUT_REMOVE);
    for (unsigned i = 0; i < 7; i++)
        put(&ring, IORING_OP_NOP, OTHER, 0);
    submit(7);
    settle_to(7 + more);
    for (unsigned i = 0; i < 7; i++)
        reap_one(OTHER, 0);
    if (more)
        reap_one(SHARED, 0);
    if (more)
        stop();
    else
        end_timeout();
}

/* Where many wait, which are found by their user data, the newest of these goes too, and then the
 * next one. */
static void test_among_many(void)
{
    enum { MANY = 80 };
    int pipes[3][2];
    begin(0);
    for (int i = 0; i < MANY; i++) {
        put_plain(&ring, IORING_OP_POLL_ADD, (uint64_t)(OTHER + i), ends[0])
            ->poll32_events = POLLIN;
        submit(1);
    }
    for (int i = 0; i < 3; i++) {
        check(pipe(pipes[i]) == 0);
        put_poll(&ring, SHARED, pipes[i][0], POLLIN, 0);
        submit(1);
    }
    settle_to(0);
    seek(IORING_OP_POLL_REMOVE);
    seek(IORING_OP_POLL_REMOVE);
    check(write(pipes[is_by_manual() ? 2 : 0][1], "x", 1) == 1);
    settle_to(1);
    reap_one(SHARED, POLLIN);
    close_ring(&ring);
    close_pair(ends);
    for (int i = 0; i < 3; i++) {
        close(pipes[i][0]);
        close(pipes[i][1]);
    }
}

int main(int count, char **words)
{
    static const struct named tests[] = {
        {"cancel", test_cancel},
        {"removal of a poll", test_removal_of_a_poll},
        {"removal of a timeout", test_removal_of_a_timeout},
        {"among many", test_among_many},
    };
    return are_rings_there()
               ? run_tests(tests, sizeof tests / sizeof *tests, count > 1 ? words[1] : NULL)
               : 0;
}
