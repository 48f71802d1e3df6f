/* Tests of rings on which many requests wait, by direct calls: of those the layer doesn't look at
 * each in every call. All hold under every policy, which the environment says.
 *
 *   many [NAME]              with a name: that test alone
 */
#define _GNU_SOURCE
#include "crowd.h"

#include <pthread.h>
#include <sys/eventfd.h>
#include <sys/socket.h>
#include <sys/wait.h>

/* Each kind of request ends once its descriptor is ready, and one that goes on has each event once.
 */
static void test_kinds(void)
{
    struct ring ring;
    int ends[3][2], pair[2], counter = eventfd(0, EFD_NONBLOCK);
    char bytes[8], received[8];
    uint64_t count = 0;
    for (int i = 0; i < 3; i++)
        check(pipe(ends[i]) == 0);
    check(socketpair(AF_UNIX, SOCK_STREAM, 0, pair) == 0 && counter >= 0);
    make_crowded(&ring, 64);
    put_plain(&ring, IORING_OP_POLL_ADD, 0, ends[0][0])->poll32_events = POLLIN;
    struct io_uring_sqe *entry = put_plain(&ring, IORING_OP_POLL_ADD, 1, ends[1][0]);
    entry->poll32_events = POLLIN;
    entry->len = IORING_POLL_ADD_MULTI;
    put_transfer(&ring, IORING_OP_READ, 2, 0, ends[2][0], bytes, 8, 0);
    put_transfer(&ring, IORING_OP_RECV, 3, 0, pair[0], received, 8, 0);
    put_transfer(&ring, IORING_OP_POLL_ADD, 4, 0, counter, NULL, 0, 0)->poll32_events = POLLIN;
    check(enter(&ring, 5, 0, 0) == 5);
    rest(&ring);
    check(write(pair[1], "socket", 6) == 6);
    expect(&ring, 3, 6, 0);
    check(memcmp(received, "socket", 6) == 0);
    rest(&ring);
    check(write(ends[2][1], "read", 4) == 4);
    expect(&ring, 2, 4, 0);
    check(memcmp(bytes, "read", 4) == 0);
    for (int round = 0; round < 3; round++) {
        check(write(ends[1][1], "x", 1) == 1);
        expect(&ring, 1, POLLIN, IORING_CQE_F_MORE);
        rest(&ring);
    }
    check(write(ends[0][1], "x", 1) == 1);
    expect(&ring, 0, POLLIN, 0);
    count = 1;
    check(write(counter, &count, sizeof count) == sizeof count);
    expect(&ring, 4, POLLIN, 0);
    leave_crowded(&ring);
    for (int i = 0; i < 3; i++)
        close(ends[i][0]), close(ends[i][1]);
    close(pair[0]), close(pair[1]), close(counter);
}

/* Requests on one registered file, and requests on one descriptor, are told each. */
static void test_shared(void)
{
    struct ring ring;
    int pair[2];
    char bytes[4][4];
    check(socketpair(AF_UNIX, SOCK_SEQPACKET, 0, pair) == 0);
    make_crowded(&ring, 64);
    check(register_at(ring.fd, IORING_REGISTER_FILES, pair, 1) == 0);
    for (unsigned i = 0; i < 4; i++) {
        put_transfer(&ring, IORING_OP_RECV, i, i < 3 ? IOSQE_FIXED_FILE : 0, i < 3 ? 0 : pair[0],
            bytes[i], 4, 0);
        check(enter(&ring, 1, 0, 0) == 1);
    }
    rest(&ring);
    for (unsigned i = 0, seen = 0; i < 4; i++) {
        check(write(pair[1], "four", 4) == 4);
        struct seen found = next_of(&ring);
        check(found.res == 4 && found.user_data < 4 && !(seen & 1u << found.user_data));
        seen |= 1u << found.user_data;
        rest(&ring);
    }
    close(pair[0]), close(pair[1]);
    leave_crowded(&ring);
}

static struct io_uring_sqe *put_cancel(
    struct ring *ring, uint64_t user_data, uint64_t sought, uint32_t flags)
{
    struct io_uring_sqe *entry = put_plain(ring, IORING_OP_ASYNC_CANCEL, user_data, (int)sought);
    entry->addr = flags ? 0 : sought;
    entry->cancel_flags = flags;
    return entry;
}

/* What waits is found by cancels, and by the timeout that is linked to it. */
static void test_cancelled(void)
{
    struct ring ring;
    int32_t results[8];
    int ends[2], pair[2];
    char bytes[8];
    struct __kernel_timespec second = {.tv_sec = 1};
    check(pipe(ends) == 0 && socketpair(AF_UNIX, SOCK_STREAM, 0, pair) == 0);
    make_crowded(&ring, 64);
    for (int by_descriptor = 0; by_descriptor < 2; by_descriptor++) {
        put_transfer(&ring, IORING_OP_READ, 0, 0, ends[0], bytes, 8, 0);
        check(enter(&ring, 1, 0, 0) == 1);
        rest(&ring);
        if (by_descriptor)
            put_cancel(&ring, 1, (uint64_t)ends[0], IORING_ASYNC_CANCEL_FD);
        else
            put_cancel(&ring, 1, 0, 0);
        check(enter(&ring, 1, 0, 0) == 1);
        reap_all(&ring, 2, results);
        check(results[0] == -ECANCELED && results[1] == 0);
        rest(&ring);
    }
    put_transfer(&ring, IORING_OP_RECV, 0, IOSQE_IO_LINK, pair[0], bytes, 8, 0);
    put_transfer(&ring, IORING_OP_LINK_TIMEOUT, 1, 0, -1, &second, 1, 0);
    check(enter(&ring, 2, 0, 0) == 2);
    reap_all(&ring, 2, results);
    check(results[0] == -ECANCELED && results[1] == -ETIME);
    rest(&ring);
    close(ends[0]), close(ends[1]), close(pair[0]), close(pair[1]);
    leave_crowded(&ring);
}

/* A cancel of all finds the whole crowd. */
static void test_all_cancelled(void)
{
    struct ring ring;
    unsigned cancelled = 0;
    make_crowded(&ring, 64);
    put_cancel(&ring, 0, 0, IORING_ASYNC_CANCEL_ANY | IORING_ASYNC_CANCEL_ALL);
    check(enter(&ring, 1, 0, 0) == 1);
    for (unsigned i = 0; i <= crowd; i++) {
        struct seen found = next_of(&ring);
        check(found.res == (found.user_data >= OTHERS ? -ECANCELED : (int32_t)crowd));
        cancelled += found.user_data >= OTHERS;
    }
    check(cancelled == crowd);
    close(quiet[0]), close(quiet[1]);
    close_ring(&ring);
}

/* A poll that is updated is looked at again: for other events, and under another name. */
static void test_updated(void)
{
    struct ring ring;
    int32_t results[8];
    int pair[2];
    check(socketpair(AF_UNIX, SOCK_STREAM, 0, pair) == 0);
    make_crowded(&ring, 64);
    for (uint32_t flags = 0; flags < 2; flags++) {
        struct io_uring_sqe *entry = put_plain(&ring, IORING_OP_POLL_ADD, 0, pair[0]);
        entry->poll32_events = POLLIN;
        entry->len = flags ? IORING_POLL_ADD_MULTI : 0;
        check(enter(&ring, 1, 0, 0) == 1);
        rest(&ring);
        entry = put(&ring, IORING_OP_POLL_REMOVE, 1, 0);
        entry->len = IORING_POLL_UPDATE_USER_DATA;
        entry->off = 2;
        check(enter(&ring, 1, 0, 0) == 1);
        expect(&ring, 1, 0, 0);
        rest(&ring);
        entry = put(&ring, IORING_OP_POLL_REMOVE, 3, 0);
        entry->addr = 2;
        entry->len = IORING_POLL_UPDATE_EVENTS | (flags ? IORING_POLL_ADD_MULTI : 0);
        entry->poll32_events = POLLOUT;
        check(enter(&ring, 1, 0, 0) == 1);
        for (int i = 0; i < 2; i++) {
            struct seen found = next_of(&ring);
            check(found.user_data == 2 || found.user_data == 3);
            results[found.user_data] = found.res;
        }
        check(results[2] == POLLOUT && results[3] == 0);
        if (!flags)
            continue;
        put(&ring, IORING_OP_POLL_REMOVE, 4, 0)->addr = 2;
        check(enter(&ring, 1, 0, 0) == 1);
        reap_all(&ring, 2, results);
        check(results[2] == -ECANCELED && results[4] == 0);
    }
    close(pair[0]), close(pair[1]);
    leave_crowded(&ring);
}

/* A request keeps its file, whatever the program closes, and opens under the same number. */
static void test_closed(void)
{
    struct ring ring;
    int ends[2], others[2];
    char bytes[8];
    check(pipe(ends) == 0);
    make_crowded(&ring, 64);
    put_transfer(&ring, IORING_OP_READ, 0, 0, ends[0], bytes, 8, 0);
    check(enter(&ring, 1, 0, 0) == 1);
    rest(&ring);
    check(close(ends[0]) == 0 && pipe(others) == 0);
    check(write(others[1], "other", 5) == 5);
    rest(&ring);
    check(write(ends[1], "own", 3) == 3);
    expect(&ring, 0, 3, 0);
    check(memcmp(bytes, "own", 3) == 0);
    close(ends[1]), close(others[0]), close(others[1]);
    leave_crowded(&ring);
}

/* What a pipe had between two calls is told too. */
static void test_come_and_gone(void)
{
    struct ring ring;
    int ends[2];
    char byte;
    check(pipe(ends) == 0);
    make_crowded(&ring, 64);
    for (int round = 0; round < 4; round++) {
        struct io_uring_sqe *entry = put_plain(&ring, IORING_OP_POLL_ADD, 0, ends[0]);
        entry->poll32_events = POLLIN;
        entry->len = round & 1 ? IORING_POLL_ADD_MULTI : 0;
        check(enter(&ring, 1, 0, 0) == 1);
        rest(&ring);
        check(write(ends[1], "x", 1) == 1 && read(ends[0], &byte, 1) == 1);
        expect(&ring, 0, POLLIN, round & 1 ? IORING_CQE_F_MORE : 0);
        rest(&ring);
        if (round & 1) {
            put(&ring, IORING_OP_POLL_REMOVE, 1, 0);
            check(enter(&ring, 1, 0, 0) == 1);
            int32_t results[2];
            reap_all(&ring, 2, results);
            check(results[0] == -ECANCELED && results[1] == 0);
        }
    }
    close(ends[0]), close(ends[1]);
    leave_crowded(&ring);
}

static void *write_later(void *end)
{
    usleep(20000);
    check(write(*(int *)end, "late", 4) == 4);
    return NULL;
}

/* A call that sleeps is woken: by another thread, and by a child, whose end closes nothing of the
 * ring's. */
static void test_woken(void)
{
    struct ring ring;
    pthread_t thread;
    int ends[2], status;
    char bytes[8];
    check(pipe(ends) == 0);
    make_crowded(&ring, 64);
    for (int by_child = 0; by_child < 2; by_child++) {
        put_transfer(&ring, IORING_OP_READ, 0, 0, ends[0], bytes, 8, 0);
        check(enter(&ring, 1, 0, 0) == 1);
        rest(&ring);
        pid_t child = by_child ? fork() : -1;
        if (child == 0) {
            write_later(&ends[1]);
            _exit(0);
        }
        check(by_child || pthread_create(&thread, NULL, write_later, &ends[1]) == 0);
        check(enter(&ring, 0, 1, IORING_ENTER_GETEVENTS) == 0);
        expect(&ring, 0, 4, 0);
        if (by_child)
            check(waitpid(child, &status, 0) == child && status == 0);
        else
            check(pthread_join(thread, NULL) == 0);
    }
    close(ends[0]), close(ends[1]);
    leave_crowded(&ring);
}

/* A ring's descriptor that polls is readable once one of them is ready. */
static void test_readable(void)
{
    struct ring ring;
    int ends[2];
    check(pipe(ends) == 0);
    make_crowded(&ring, 64);
    struct pollfd at = {.fd = ring.fd, .events = POLLIN};
    for (int round = 0; round < 3; round++) {
        char byte;
        put_plain(&ring, IORING_OP_POLL_ADD, 0, ends[0])->poll32_events = POLLIN;
        check(enter(&ring, 1, 0, 0) == 1);
        rest(&ring);
        check(!getenv("WULGACH_TEST_POLLED") || poll(&at, 1, 0) == 0);
        check(write(ends[1], "x", 1) == 1);
        check(poll(&at, 1, 1000 * patience()) == 1);
        expect(&ring, 0, POLLIN, 0);
        check(read(ends[0], &byte, 1) == 1);
    }
    close(ends[0]), close(ends[1]);
    leave_crowded(&ring);
}

/* Of many pipes some are written to, and just their polls end: those that end begin again. */
static void test_some(void)
{
    enum { PIPES = 200, ROUNDS = 30 };
    static int ends[PIPES][2];
    bool is_written[PIPES] = {false};
    struct ring ring;
    uint32_t roll = 1;
    char byte;
    make_ring(&ring, 256, 0, 0);
    for (unsigned i = 0; i < PIPES; i++) {
        check(pipe(ends[i]) == 0);
        put_plain(&ring, IORING_OP_POLL_ADD, i, ends[i][0])->poll32_events = POLLIN;
    }
    check(enter(&ring, PIPES, 0, 0) == PIPES);
    for (unsigned round = 0; round < ROUNDS; round++) {
        unsigned count = 0;
        settle(&ring);
        for (unsigned i = 0; i < round + 1; i++) {
            roll = roll * 1664525 + 1013904223;
            unsigned at = (roll >> 8) % PIPES;
            count += !is_written[at];
            if (!is_written[at])
                check(write(ends[at][1], "x", 1) == 1);
            is_written[at] = true;
        }
        for (unsigned i = 0; i < count; i++) {
            struct seen found = next_of(&ring);
            check(found.user_data < PIPES && found.res == POLLIN && is_written[found.user_data]);
            is_written[found.user_data] = false;
            check(read(ends[found.user_data][0], &byte, 1) == 1);
            put_plain(&ring, IORING_OP_POLL_ADD, found.user_data, ends[found.user_data][0])
                ->poll32_events = POLLIN;
        }
        check(enter(&ring, count, 0, 0) == (long)count);
    }
    settle(&ring);
    for (unsigned i = 0; i < PIPES; i++)
        close(ends[i][0]), close(ends[i][1]);
    close_ring(&ring);
}

/* How many descriptors are open while a ring is that was made just now. */
static unsigned count_open(void)
{
    struct ring ring;
    unsigned count = 0;
    make_ring(&ring, 4, 0, 0);
    for (int fd = 0; fd < 4096; fd++)
        count += fcntl(fd, F_GETFD) >= 0;
    close_ring(&ring);
    return count;
}

/* A ring may be closed while many wait: none of their descriptors is left once another is made. */
static void test_abandoned(void)
{
    struct ring ring;
    int pair[2];
    char bytes[8];
    check(socketpair(AF_UNIX, SOCK_STREAM, 0, pair) == 0);
    unsigned open = count_open();
    for (int round = 0; round < 3; round++) {
        make_crowded(&ring, 64);
        check(register_at(ring.fd, IORING_REGISTER_FILES, pair, 1) == 0);
        for (unsigned i = 0; i < 2; i++)
            put_transfer(&ring, IORING_OP_RECV, i, IOSQE_FIXED_FILE, 0, bytes, 8, 0);
        put_plain(&ring, IORING_OP_POLL_ADD, 2, quiet[0])->len = IORING_POLL_ADD_MULTI;
        check(enter(&ring, 3, 0, 0) == 3);
        rest(&ring);
        close(quiet[0]), close(quiet[1]);
        close_ring(&ring);
    }
    check(count_open() == open);
    close(pair[0]), close(pair[1]);
}

static const struct named tests[] = {
    {"kinds", test_kinds},
    {"shared", test_shared},
    {"cancelled", test_cancelled},
    {"all cancelled", test_all_cancelled},
    {"updated", test_updated},
    {"closed", test_closed},
    {"come and gone", test_come_and_gone},
    {"woken", test_woken},
    {"readable", test_readable},
    {"some", test_some},
    {"abandoned", test_abandoned},
};

int main(int count, char **words)
{
    alarm((unsigned)(PATIENCE * patience()));
    return run_tests(tests, sizeof tests / sizeof *tests, count > 1 ? words[1] : NULL);
}
