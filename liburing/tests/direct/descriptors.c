/* Tests of descriptors that requests wait for, by direct calls: how many there may be, which
 * numbers the layer's own have, what a pipe had that nothing tells of, and what can't be written
 * to, and the ring's own eventfd. All hold under every policy, which the environment says.
 *
 *   descriptors [NAME]       with a name: that test alone
 */
#define _GNU_SOURCE
#include "asleep.h"
#include "engines.h"

#include <poll.h>
#include <pthread.h>
#include <sys/eventfd.h>
#include <sys/resource.h>
#include <sys/timerfd.h>

static int lowest_free(void)
{
    int fd = dup(0);
    check(fd >= 0 && close(fd) == 0);
    return fd;
}

/* More requests wait for a pipe than the process may have descriptors: a call sleeps, and each
 * ends. */
static void test_more_than_descriptors(void)
{
    enum { POLLS = 300, DESCRIPTORS = 100 };
    struct ring ring;
    struct rlimit limit, low;
    int ends[2];
    bool has_ended[POLLS] = {false};
    check(pipe(ends) == 0 && getrlimit(RLIMIT_NOFILE, &limit) == 0);
    make_ring(&ring, 512, 0, 0);
    low = (struct rlimit){DESCRIPTORS, limit.rlim_max};
    check(setrlimit(RLIMIT_NOFILE, &low) == 0);
    for (unsigned i = 0; i < POLLS; i++)
        put_poll(&ring, i, ends[0], i % 2 ? POLLIN : POLLIN | POLLPRI, 0);
    check(enter(&ring, POLLS, 0, 0) == POLLS);
    settle(&ring);
    settle(&ring);
    check(write(ends[1], "x", 1) == 1);
    for (unsigned i = 0; i < POLLS; i++) {
        struct seen found = next_of(&ring);
        check(found.user_data < POLLS && found.res == POLLIN && !has_ended[found.user_data]);
        has_ended[found.user_data] = true;
    }
    check(setrlimit(RLIMIT_NOFILE, &limit) == 0);
    close_pair(ends);
    close_ring(&ring);
}

/* A program that closes a number which it closed before closes nothing of the layer's. */
static void test_closed_twice(void)
{
    struct ring ring;
    char byte;
    int ends[2];
    check(pipe(ends) == 0);
    make_ring(&ring, 8, 0, 0);
    int low = lowest_free();
    put_poll(&ring, 1, ends[0], POLLIN, IORING_POLL_ADD_MULTI);
    check(enter(&ring, 1, 0, 0) == 1);
    settle(&ring);
    for (int round = 0; round < 3; round++) {
        check(close(low) == -1 && errno == EBADF && lowest_free() == low);
        check(write(ends[1], "x", 1) == 1);
        struct seen found = next_of(&ring);
        check(found.user_data == 1 && found.res == POLLIN && found.flags == IORING_CQE_F_MORE);
        check(read(ends[0], &byte, 1) == 1);
        settle(&ring);
    }
    close_pair(ends);
    close_ring(&ring);
}

static pid_t sleeper;

static void *wait_for_nop(void *ring)
{
    __atomic_store_n(&sleeper, gettid(), __ATOMIC_RELEASE);
    check(enter(ring, 0, 1, IORING_ENTER_GETEVENTS) == 0);
    return NULL;
}

/* The same while a thread sleeps, whom another's call wakes. */
static void test_closed_twice_asleep(void)
{
    struct ring ring;
    pthread_t thread;
    make_ring(&ring, 8, 0, 0);
    for (int round = 0; round < 3; round++) {
        int low = lowest_free();
        sleeper = 0;
        check(pthread_create(&thread, NULL, wait_for_nop, &ring) == 0);
        await_sleep(&sleeper);
        check(close(low) == -1 && errno == EBADF);
        submit_nop(&ring, 1);
        check(pthread_join(thread, NULL) == 0 && next_of(&ring).user_data == 1);
    }
    close_ring(&ring);
}

static void write_and_read(const int ends[2])
{
    char byte;
    check(write(ends[1], "x", 1) == 1 && read(ends[0], &byte, 1) == 1);
}

/* So many writes to two pipes that nothing tells of one to a third: its poll is told of that all
 * the same. */
static void test_dropped_writes(void)
{
    struct ring ring;
    unsigned most = 0;
    int ends[3][2];
    FILE *file = fopen("/proc/sys/fs/inotify/max_queued_events", "re");
    check(!file || (fscanf(file, "%u", &most) == 1 && fclose(file) == 0));
    if (most == 0 || most > 200000)
        return;
    make_ring(&ring, 8, 0, 0);
    for (unsigned i = 0; i < 3; i++) {
        check(pipe(ends[i]) == 0);
        put_poll(&ring, i, ends[i][0], POLLIN, 0);
    }
    check(enter(&ring, 3, 0, 0) == 3);
    settle(&ring);
    for (unsigned i = 0; i < most + 10; i++)
        write_and_read(ends[i % 2]);
    write_and_read(ends[2]);
    unsigned seen = 0;
    check(enter_for(&ring, 3, 1000000) == 0);
    for (int i = 0; i < 3; i++) {
        struct seen found = next_of(&ring);
        check(found.user_data < 3 && found.res == POLLIN && !(seen & 1u << found.user_data));
        seen |= 1u << found.user_data;
    }
    for (int i = 0; i < 3; i++) {
        close(ends[i][0]);
        close(ends[i][1]);
    }
    close_ring(&ring);
}

/* A write of no bytes to an eventfd ends with 0, and one of fewer than 8 with an error; so does any
 * to a timerfd or a ring, and none waits. */
static void test_unwritable(void)
{
    struct ring ring, other;
    uint64_t one = 1;
    int counter = eventfd(0, 0), timer = timerfd_create(CLOCK_MONOTONIC, 0);
    check(counter >= 0 && timer >= 0);
    make_ring(&ring, 8, 0, 0);
    make_ring(&other, 8, 0, 0);
    for (unsigned length = 0; length <= 8; length += 4) {
        put_transfer(&ring, IORING_OP_WRITE, 0, 0, counter, &one, length, 0);
        check(result_of_one(&ring, 1) == (length == 4 ? -EINVAL : (int)length));
        put_transfer(&ring, IORING_OP_WRITE, 0, 0, timer, &one, length, 0);
        check(result_of_one(&ring, 1) == -EINVAL);
        if (!getenv(
                "WULGACH_TEST_POLLED")) /* (another is a file in memory, which can be written) */
            continue;
        put_transfer(&ring, IORING_OP_WRITE, 0, 0, other.fd, &one, length, 0);
        check(result_of_one(&ring, 1) == -EINVAL);
    }
    put_transfer(&ring, IORING_OP_READ, 0, 0, counter, &one, 0, 0);
    check(result_of_one(&ring, 1) == -EINVAL);
    close(counter);
    close(timer);
    close_ring(&other);
    close_ring(&ring);
}

/* A poll that goes on, of the eventfd that is registered with its own ring, ends with the first
 * event of which the ring has told it: a completion of the ring's, or of the poll's own event. */
static void test_own_eventfd(void)
{
    struct ring ring;
    int counter = eventfd(0, EFD_NONBLOCK);
    uint64_t one = 1;
    check(counter >= 0);
    make_ring(&ring, 8, 0, 0);
    check(register_at(ring.fd, IORING_REGISTER_EVENTFD, &counter, 1) == 0);
    for (int is_written = 0; is_written < 2; is_written++) {
        struct io_uring_sqe *entry = put_plain(&ring, IORING_OP_POLL_ADD, 1, counter);
        entry->poll32_events = POLLIN;
        entry->len = IORING_POLL_ADD_MULTI;
        check(enter(&ring, 1, 0, 0) == 1 && enter_for(&ring, 1, 1000) == -ETIME);
        if (is_written)
            check(write(counter, &one, sizeof one) == sizeof one);
        else
            submit_nop(&ring, 0);
        struct seen first = next_of(&ring), last = next_of(&ring);
        check(is_written
                  ? first.user_data == 1 && first.res == POLLIN && first.flags == IORING_CQE_F_MORE
                  : first.user_data == 0 && first.res == 0);
        check(last.user_data == 1 && last.res == POLLIN && last.flags == 0);
        check(read(counter, &one, sizeof one) == sizeof one);
        one = 1;
        check(enter_for(&ring, 1, 1000) == -ETIME);
    }
    close(counter);
    close_ring(&ring);
}

int main(int count, char **words)
{
    static const struct named tests[] = {
        {"more than descriptors", test_more_than_descriptors},
        {"closed twice", test_closed_twice},
        {"closed twice asleep", test_closed_twice_asleep},
        {"dropped writes", test_dropped_writes},
        {"unwritable", test_unwritable},
        {"own eventfd", test_own_eventfd},
    };
    alarm((unsigned)(PATIENCE * patience()));
    return run_tests(tests, sizeof tests / sizeof *tests, count > 1 ? words[1] : NULL);
}
