/* Tests of operations and polls that wait for one descriptor, by direct calls: what comes ends
 * both, though the operation takes it, and so does room. All hold under every policy, which the
 * environment says, and on a real ring of Linux 6.18.
 *
 *   rivals [NAME]            with a name: that test alone
 */
#define _GNU_SOURCE
#include "engines.h"

#include <fcntl.h>
#include <poll.h>
#include <sys/eventfd.h>
#include <sys/socket.h>
#include <sys/un.h>

enum kind { PIPE, STREAM, DATAGRAM, COUNTER, KINDS };
enum { OPERATION = 1, POLL = 2, OTHER = 3 };

static struct ring ring;
static int ends[2]; /* what is read, and what it is written by */
static char bytes[8], other_bytes[8];

static void begin(enum kind kind)
{
    if (kind == PIPE)
        check(pipe(ends) == 0);
    else if (kind == COUNTER)
        check((ends[0] = eventfd(0, 0)) >= 0 && (ends[1] = dup(ends[0])) >= 0);
    else
        check(socketpair(AF_UNIX, kind == STREAM ? SOCK_STREAM : SOCK_DGRAM, 0, ends) == 0);
    make_ring(&ring, 16, 0, 0);
}

static void stop(void)
{
    close_ring(&ring);
    close_pair(ends);
}

static void put_operation(enum kind kind, bool receives)
{
    put_transfer(&ring,
        receives && kind != PIPE && kind != COUNTER ? IORING_OP_RECV : IORING_OP_READ, OPERATION, 0,
        ends[0], bytes, 8, 0);
}

static void put_poll_of(int fd, bool goes_on)
{
    put_poll(&ring, POLL, fd, POLLIN, goes_on ? IORING_POLL_ADD_MULTI : 0);
}

static void feed(void)
{
    static const char one[8] = {1};
    check(write(ends[1], one, 8) == 8);
}

/* Waits for two completions, one of each. */
static void expect_both(bool goes_on)
{
    int32_t results[3] = {0};
    for (int i = 0; i < 2; i++) {
        struct seen found = next_of(&ring);
        check(found.user_data == OPERATION || found.user_data == POLL);
        check((found.flags & IORING_CQE_F_MORE) ==
              (found.user_data == POLL && goes_on ? IORING_CQE_F_MORE : 0));
        results[found.user_data] = found.res;
    }
    check(results[OPERATION] == 8 && results[POLL] == POLLIN);
}

/* Whichever was submitted first, in one call or two, by which descriptor of the file, and whether
 * the poll goes on. */
static void test_both_end(void)
{
    for (int way = 0; way < 32 * KINDS; way++) {
        enum kind kind = (enum kind)(way / 32);
        bool is_poll_first = way & 1, goes_on = way & 2, is_copy = way & 4, in_two = way & 8;
        begin(kind);
        int polled = is_copy ? dup(ends[0]) : ends[0];
        for (int i = 0; i < 2; i++) {
            if (i == is_poll_first)
                put_operation(kind, way & 16);
            else
                put_poll_of(polled, goes_on);
            check(!in_two || enter(&ring, 1, 0, 0) == 1);
        }
        check(in_two || enter(&ring, 2, 0, 0) == 2);
        check(enter_for(&ring, 1, 1000) == -ETIME);
        feed();
        expect_both(goes_on);
        check(enter_for(&ring, 1, 1000) == -ETIME);
        if (is_copy)
            close(polled);
        stop();
    }
}

/* An accept too. */
static void test_accept(void)
{
    for (int goes_on = 0; goes_on < 2; goes_on++) {
        struct sockaddr_un address = {.sun_family = AF_UNIX};
        socklen_t size = sizeof address;
        int32_t results[3] = {0};
        int listener = socket(AF_UNIX, SOCK_STREAM, 0), client = socket(AF_UNIX, SOCK_STREAM, 0);
        check(bind(listener, (struct sockaddr *)&address, sizeof(sa_family_t)) == 0 &&
              listen(listener, 4) == 0);
        check(getsockname(listener, (struct sockaddr *)&address, &size) == 0);
        make_ring(&ring, 16, 0, 0);
        put_plain(&ring, IORING_OP_ACCEPT, OPERATION, listener);
        put_poll_of(listener, goes_on);
        check(enter(&ring, 2, 0, 0) == 2 && enter_for(&ring, 1, 1000) == -ETIME);
        check(connect(client, (struct sockaddr *)&address, size) == 0);
        for (int i = 0; i < 2; i++) {
            struct seen found = next_of(&ring);
            results[found.user_data] = found.res;
        }
        check(results[OPERATION] >= 0 && results[POLL] == POLLIN);
        close(results[OPERATION]);
        close(client);
        close(listener);
        close_ring(&ring);
    }
}

/* What the ring itself writes ends both as well. */
static void test_own_write(void)
{
    static char one[8] = {1};
    for (enum kind kind = PIPE; kind < KINDS; kind++) {
        int32_t results[4] = {0};
        begin(kind);
        put_operation(kind, true);
        put_poll_of(ends[0], false);
        check(enter(&ring, 2, 0, 0) == 2 && enter_for(&ring, 1, 1000) == -ETIME);
        put_transfer(&ring, IORING_OP_WRITE, OTHER, 0, ends[1], one, 8, 0);
        check(enter(&ring, 1, 0, 0) == 1);
        for (int i = 0; i < 3; i++) {
            struct seen found = next_of(&ring);
            results[found.user_data] = found.res;
        }
        check(results[OPERATION] == 8 && results[POLL] == POLLIN && results[OTHER] == 8);
        stop();
    }
}

/* Fills a pipe, up to its last page. */
static void fill(int fd)
{
    static char page[4096];
    check(fcntl(fd, F_SETFL, O_NONBLOCK) == 0);
    while (write(fd, page, sizeof page) > 0)
        ;
    check(errno == EAGAIN && fcntl(fd, F_SETFL, 0) == 0);
}

/* Puts an operation and a poll, in either order, and has both end once a page was read of a pipe,
 * or bytes were written to one. */
static void expect_two(
    void (*put)(const int *to), const int to[2], int polled, short events, int way, int32_t result)
{
    static char page[4096];
    int32_t results[3] = {0};
    make_ring(&ring, 16, 0, 0);
    for (int i = 0; i < 2; i++) {
        if (i == (way & 1)) {
            put(to);
        } else {
            struct io_uring_sqe *poll = put_plain(&ring, IORING_OP_POLL_ADD, POLL, polled);
            poll->poll32_events = (unsigned)events;
            poll->len = way & 2 ? IORING_POLL_ADD_MULTI : 0;
        }
    }
    check(enter(&ring, 2, 0, 0) == 2 && enter_for(&ring, 1, 1000) == -ETIME);
    if (events == POLLIN)
        feed();
    else
        check(read(to[0], page, sizeof page) == sizeof page);
    for (int i = 0; i < 2; i++) {
        struct seen found = next_of(&ring);
        results[found.user_data] = found.res;
    }
    check(results[OPERATION] == result && results[POLL] == events);
    close_ring(&ring);
}

static void put_write(const int to[2])
{
    static char page[4096];
    put_transfer(&ring, IORING_OP_WRITE, OPERATION, 0, to[1], page, sizeof page, 0);
}

/* Room that a write fills. */
static void test_room(void)
{
    for (int way = 0; way < 8; way++) {
        int to[2];
        check(pipe(to) == 0);
        fill(to[1]);
        int polled = way & 4 ? dup(to[1]) : to[1];
        expect_two(put_write, to, polled, POLLOUT, way, 4096);
        if (way & 4)
            close(polled);
        close_pair(to);
    }
}

static void put_splice_to(const int to[2])
{
    put_splice(&ring, IORING_OP_SPLICE, OPERATION, ends[0], to[1], 8);
}

/* What a splice takes, and the room that it fills. */
static void test_splice(void)
{
    for (int way = 0; way < 16; way++) {
        int to[2];
        bool is_of_room = way & 8;
        check(pipe(ends) == 0 && pipe(to) == 0);
        if (is_of_room) {
            feed();
            fill(to[1]);
        }
        int end = is_of_room ? to[1] : ends[0], polled = way & 4 ? dup(end) : end;
        expect_two(put_splice_to, to, polled, is_of_room ? POLLOUT : POLLIN, way, 8);
        if (way & 4)
            close(polled);
        close_pair(ends);
        close_pair(to);
    }
}

/* One of another file waits on, and so does an operation for which nothing is left. */
static void test_others_wait(void)
{
    for (enum kind kind = PIPE; kind < COUNTER; kind++) {
        int other[2];
        begin(kind);
        check(pipe(other) == 0);
        put_operation(kind, false);
        put_poll_of(other[0], false);
        check(enter(&ring, 2, 0, 0) == 2 && enter_for(&ring, 1, 1000) == -ETIME);
        feed();
        struct seen found = next_of(&ring);
        check(
            found.user_data == OPERATION && found.res == 8 && enter_for(&ring, 1, 1000) == -ETIME);
        put_operation(kind, false);
        put_transfer(&ring, IORING_OP_READ, OPERATION, 0, ends[0], other_bytes, 8, 0);
        check(enter(&ring, 2, 0, 0) == 2 && enter_for(&ring, 1, 1000) == -ETIME);
        feed();
        found = next_of(&ring);
        check(
            found.user_data == OPERATION && found.res == 8 && enter_for(&ring, 1, 1000) == -ETIME);
        stop();
        close_pair(other);
    }
}

int main(int count, char **words)
{
    static const struct named tests[] = {
        {"both end", test_both_end},
        {"accept", test_accept},
        {"own write", test_own_write},
        {"room", test_room},
        {"splice", test_splice},
        {"others wait", test_others_wait},
    };
    return are_rings_there()
               ? run_tests(tests, sizeof tests / sizeof *tests, count > 1 ? words[1] : NULL)
               : 0;
}
