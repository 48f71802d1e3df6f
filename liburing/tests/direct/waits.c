/* Tests of what waits for descriptors, by direct calls: polls, also of what a pipe had between two
 * calls, and splices. All hold under every policy, which the environment says.
 *
 *   waits [NAME]             with a name: that test alone
 */
#define _GNU_SOURCE
#include "engines.h"

#include <poll.h>

static void test_polls(void)
{
    struct ring ring;
    int32_t results[4];
    int ends[2];
    char byte;
    check(pipe(ends) == 0);
    make_ring(&ring, 8, 0, 0);
    put_plain(&ring, IORING_OP_POLL_ADD, 0, ends[1])->poll32_events = POLLOUT;
    check(result_of_one(&ring, 1) == POLLOUT);
    put_plain(&ring, IORING_OP_POLL_ADD, 0, -1)->poll32_events = POLLOUT;
    check(result_of_one(&ring, 1) == -EBADF);
    /* One that goes on tells of each event once, and ends where it is removed. */
    struct io_uring_sqe *poll_entry = put_plain(&ring, IORING_OP_POLL_ADD, 1, ends[0]);
    poll_entry->poll32_events = POLLIN;
    poll_entry->len = IORING_POLL_ADD_MULTI;
    check(enter(&ring, 1, 0, 0) == 1);
    for (int i = 0; i < 3; i++) {
        check(enter_for(&ring, 1, 1000) == -ETIME);
        check(write(ends[1], "b", 1) == 1);
        struct seen found = next_of(&ring);
        check(found.user_data == 1 && found.res == POLLIN && found.flags == IORING_CQE_F_MORE);
        check(read(ends[0], &byte, 1) == 1);
    }
    put(&ring, IORING_OP_POLL_REMOVE, 2, 0)->addr = 99;
    put(&ring, IORING_OP_POLL_REMOVE, 3, 0)->addr = 1;
    check(enter(&ring, 2, 0, 0) == 2);
    reap_all(&ring, 3, results);
    check(results[1] == -ECANCELED && results[2] == -ENOENT && results[3] == 0);
    close_pair(ends);
    close_ring(&ring);
}

static void write_and_read(const int ends[2])
{
    char byte;
    check(write(ends[1], "b", 1) == 1 && read(ends[0], &byte, 1) == 1);
}

/* The poll of user data 1, whose descriptor is ready, gets another one, and is told by that at
 * once. It is removed. */
static void rename_poll(struct ring *ring)
{
    struct io_uring_sqe *change = put(ring, IORING_OP_POLL_REMOVE, 2, 0);
    change->addr = 1;
    change->off = 3;
    change->len = IORING_POLL_UPDATE_USER_DATA;
    check(enter(ring, 1, 0, 0) == 1);
    bool is_told = false, is_done = false;
    for (int i = 0; i < 2; i++) {
        struct seen found = next_of(ring);
        is_told |= found.user_data == 3 && found.res == POLLIN && found.flags == IORING_CQE_F_MORE;
        is_done |= found.user_data == 2 && found.res == 0;
    }
    check(is_told && is_done);
    put(ring, IORING_OP_POLL_REMOVE, 4, 0)->addr = 3;
    check(enter(ring, 1, 0, 0) == 1);
    next_of(ring);
    next_of(ring);
}

/* An update changes what a poll waits for, and neither whether it goes on nor how: what is there is
 * told at once, and again. */
static void test_updated_polls(void)
{
    struct ring ring;
    char byte;
    make_ring(&ring, 8, 0, 0);
    for (unsigned row = 0; row < 4; row++) {
        bool goes_on = row & 1;
        int ends[2];
        check(pipe(ends) == 0);
        put_poll(&ring, 1, ends[0], POLLIN, goes_on ? IORING_POLL_ADD_MULTI : 0);
        check(enter(&ring, 1, 0, 0) == 1);
        check(enter_for(&ring, 1, 1000) == -ETIME);
        struct io_uring_sqe *change = put(&ring, IORING_OP_POLL_REMOVE, 2, 0);
        change->addr = 1;
        change->len = IORING_POLL_UPDATE_EVENTS | (row & 2 ? IORING_POLL_ADD_MULTI : 0);
        change->poll32_events = POLLIN;
        check(enter(&ring, 1, 0, 0) == 1);
        check(next_of(&ring).user_data == 2 && enter_for(&ring, 1, 1000) == -ETIME);
        for (int round = 0; round < (goes_on ? 2 : 1); round++) {
            check(write(ends[1], "b", 1) == 1);
            struct seen found = next_of(&ring);
            check(found.user_data == 1 && found.res == POLLIN &&
                  found.flags == (goes_on ? IORING_CQE_F_MORE : 0));
            check(round == 1 || read(ends[0], &byte, 1) == 1);
        }
        if (goes_on)
            rename_poll(&ring);
        close_pair(ends);
    }
    close_ring(&ring);
}

/* A poll that is changed to what is there ends beside one that waits: in order, in the same call.
 */
static void test_poll_of_what_is_there(void)
{
    struct ring ring;
    int ends[2];
    const char *policy = getenv("WULGACH_POLICY");
    bool is_in_order = !policy || strcmp(policy, "order") == 0, is_told = false;
    check(pipe(ends) == 0);
    make_ring(&ring, 8, 0, 0);
    put_poll(&ring, 1, ends[1], POLLIN, 0);
    put_poll(&ring, 2, ends[0], POLLIN, 0);
    check(enter(&ring, 2, 0, 0) == 2);
    check(enter_for(&ring, 1, 1000) == -ETIME);
    struct io_uring_sqe *change = put(&ring, IORING_OP_POLL_REMOVE, 3, 0);
    change->addr = 1;
    change->len = IORING_POLL_UPDATE_EVENTS;
    change->poll32_events = POLLOUT;
    check(enter(&ring, 1, 0, 0) == 1);
    check(!is_in_order || count_ready(&ring) == 2);
    for (int i = 0; i < 2; i++) {
        struct seen found = next_of(&ring);
        is_told |= found.user_data == 1 && found.res == POLLOUT;
    }
    check(is_told && enter_for(&ring, 1, 1000) == -ETIME);
    close_pair(ends);
    close_ring(&ring);
}

/* A poll that runs is told of what a pipe had between two calls, and one that comes later isn't;
 * nor is one of another pipe. */
static void test_come_and_gone(void)
{
    struct ring ring;
    int ends[2], others[2];
    check(pipe(ends) == 0 && pipe(others) == 0);
    make_ring(&ring, 8, 0, 0);
    for (int round = 0; round < 3; round++) {
        put_poll(&ring, 0, others[0], POLLIN, 0);
        put_poll(&ring, 1, ends[0], POLLIN, 0);
        put_poll(&ring, 2, ends[0], POLLIN, IORING_POLL_ADD_MULTI);
        check(enter(&ring, 3, 0, 0) == 3);
        check(enter_for(&ring, 1, 1000) == -ETIME);
        write_and_read(ends);
        write_and_read(ends);
        check(enter(&ring, 0, 2, IORING_ENTER_GETEVENTS) == 0 && count_ready(&ring) == 2);
        for (int i = 0; i < 2; i++) {
            struct seen found = next_of(&ring);
            check(found.res == POLLIN &&
                  found.flags == (found.user_data == 2 ? IORING_CQE_F_MORE : 0) &&
                  found.user_data != 0);
        }
        write_and_read(ends);
        struct seen more = next_of(&ring);
        check(more.user_data == 2 && more.res == POLLIN && more.flags == IORING_CQE_F_MORE);
        put(&ring, IORING_OP_POLL_REMOVE, 3, 0)->addr = 2;
        check(enter(&ring, 1, 0, 0) == 1);
        check(enter(&ring, 0, 2, IORING_ENTER_GETEVENTS) == 0);
        for (int i = 0; i < 2; i++)
            next_of(&ring);
        write_and_read(ends);
        put_poll(&ring, 4, ends[0], POLLIN, 0);
        check(enter(&ring, 1, 0, 0) == 1);
        check(enter_for(&ring, 1, 1000) == -ETIME);
        write_and_read(others);
        check(next_of(&ring).user_data == 0);
        check(enter_for(&ring, 1, 1000) == -ETIME);
        check(write(ends[1], "b", 1) == 1);
        check(next_of(&ring).user_data == 4);
        char byte;
        check(read(ends[0], &byte, 1) == 1);
    }
    close_pair(ends);
    close_pair(others);
    close_ring(&ring);
}

/* One that starts after a write and a read of its pipe isn't told of them, though another was
 * running before. */
static void test_gone_before(void)
{
    struct ring ring;
    char byte = 'b';
    int ends[2];
    bool is_seen[4] = {false};
    check(pipe(ends) == 0);
    make_ring(&ring, 8, 0, 0);
    put_poll(&ring, 0, ends[0], POLLIN, 0);
    check(enter(&ring, 1, 0, 0) == 1);
    check(enter_for(&ring, 1, 1000) == -ETIME);
    put_transfer(&ring, IORING_OP_WRITE, 1, IOSQE_IO_LINK, ends[1], &byte, 1, 0);
    put_transfer(&ring, IORING_OP_READ, 2, IOSQE_IO_LINK, ends[0], &byte, 1, 0);
    put_poll(&ring, 3, ends[0], POLLIN, 0);
    check(enter(&ring, 3, 0, 0) == 3);
    while (!is_seen[1] || !is_seen[2])
        is_seen[next_of(&ring).user_data] = true;
    for (int i = 0; i < 3; i++) {
        enter_for(&ring, 1, 1000);
        if (count_ready(&ring) > 0)
            is_seen[next_of(&ring).user_data] = true;
    }
    check(!is_seen[3]);
    check(write(ends[1], "b", 1) == 1);
    while (!is_seen[0] || !is_seen[3])
        is_seen[next_of(&ring).user_data] = true;
    close_pair(ends);
    close_ring(&ring);
}

/* Polls that go on, and can at once, beside no-ops that run: in a turn of its own each is looked at
 * while the ways of a choice are listed, and may want room for its next event. */
static void test_events_in_choices(void)
{
    int ends[2];
    check(pipe(ends) == 0);
    for (int round = 0; round < 40; round++) {
        struct ring ring;
        make_ring(&ring, 8, 0, 0);
        for (unsigned i = 0; i < 4; i++) {
            if (i % 2 == 0) {
                put(&ring, IORING_OP_NOP, i, 0);
            } else {
                struct io_uring_sqe *entry = put_plain(&ring, IORING_OP_POLL_ADD, i, ends[1]);
                entry->poll32_events = POLLOUT;
                entry->len = IORING_POLL_ADD_MULTI;
            }
            check(enter(&ring, 1, 0, 0) == 1);
        }
        for (int events = 0; events < 4; events++)
            check(next_of(&ring).res >= 0);
        close_ring(&ring);
    }
    close_pair(ends);
}

/* A read of a pipe's end for writing, and the other way round, end at once, where a pipe may be a
 * registered file too. */
static void test_wrong_end(void)
{
    struct ring ring;
    char text[4] = "pipe";
    int ends[2];
    check(pipe(ends) == 0);
    make_ring(&ring, 8, 0, 0);
    check(register_at(ring.fd, IORING_REGISTER_FILES, ends, 2) == 0);
    for (int is_registered = 0; is_registered < 2; is_registered++) {
        uint8_t flags = is_registered ? IOSQE_FIXED_FILE : 0;
        put_transfer(&ring, IORING_OP_READ, 0, flags, is_registered ? 1 : ends[1], text, 4, 0);
        check(result_of_one(&ring, 1) == -EBADF);
        put_transfer(&ring, IORING_OP_WRITE, 0, flags, is_registered ? 0 : ends[0], text, 4, 0);
        check(result_of_one(&ring, 1) == -EBADF);
    }
    /* Nor has the end that writes anything to be read, whatever is written. */
    put_plain(&ring, IORING_OP_POLL_ADD, 0, ends[1])->poll_events = POLLIN;
    check(enter(&ring, 1, 0, 0) == 1 && write(ends[1], text, 4) == 4);
    check(enter_for(&ring, 1, 1000) == -ETIME);
    close_pair(ends);
    close_ring(&ring);
}

static void test_splice(void)
{
    struct ring ring;
    char text[8];
    int first[2], second[2];
    check(pipe(first) == 0 && pipe(second) == 0);
    make_ring(&ring, 8, 0, 0);
    for (int i = 0; i < 2; i++) {
        struct io_uring_sqe *entry = put_plain(
            &ring, i == 0 ? IORING_OP_TEE : IORING_OP_SPLICE, 0, second[1]);
        entry->splice_fd_in = first[0];
        entry->len = 5;
        if (i == 1)
            entry->off = entry->splice_off_in = (uint64_t)-1;
        check(enter(&ring, 1, 0, 0) == 1);
        if (i == 0) {
            check(enter_for(&ring, 1, 1000) == -ETIME);
            check(write(first[1], "piped", 5) == 5);
        }
        check(next_of(&ring).res == 5);
        check(read(second[0], text, 8) == 5 && memcmp(text, "piped", 5) == 0);
    }
    struct io_uring_sqe *bad = put_plain(&ring, IORING_OP_SPLICE, 0, second[1]);
    bad->splice_fd_in = first[0];
    bad->len = 5;
    check(result_of_one(&ring, 1) == -ESPIPE);
    close_pair(first);
    close_pair(second);
    close_ring(&ring);
}

/* One of no bytes, too, fails where either of its files isn't open. */
static void test_splice_of_nothing(void)
{
    struct ring ring;
    int ends[2], closed = 999;
    check(pipe(ends) == 0);
    make_ring(&ring, 8, 0, 0);
    for (int i = 0; i < 6; i++) {
        int of[][2] = {{ends[0], ends[1]}, {closed, ends[1]}, {ends[0], closed}};
        struct io_uring_sqe *entry = put_plain(
            &ring, i < 3 ? IORING_OP_TEE : IORING_OP_SPLICE, 0, of[i % 3][1]);
        entry->splice_fd_in = of[i % 3][0];
        entry->off = entry->splice_off_in = i < 3 ? 0 : UINT64_MAX;
        check(result_of_one(&ring, 1) == (i % 3 == 0 ? 0 : -EBADF));
    }
    close_pair(ends);
    close_ring(&ring);
}

/* An offset of a pipe is refused after what isn't open to be read, or written. */
static void test_splice_at_an_offset(void)
{
    struct ring ring;
    int ends[2], others[2];
    check(pipe(ends) == 0 && pipe(others) == 0);
    make_ring(&ring, 8, 0, 0);
    for (int i = 0; i < 8; i++) {
        struct io_uring_sqe *entry = put_plain(&ring, IORING_OP_SPLICE, 0, others[i & 1]);
        entry->splice_fd_in = ends[i >> 1 & 1];
        entry->off = i & 4 ? UINT64_MAX : 1;
        entry->splice_off_in = i & 4 ? 1 : UINT64_MAX;
        entry->len = 1;
        check(result_of_one(&ring, 1) == ((i & 3) == 1 ? -ESPIPE : -EBADF));
    }
    close_pair(ends);
    close_pair(others);
    close_ring(&ring);
}

/* A write to a pipe that shows no room ends, though, if the last page has room for it; one for
 * which that has none waits until it was read. */
static void test_last_page(void)
{
    struct ring ring;
    static char bytes[4096];
    int ends[2];
    check(pipe(ends) == 0 && fcntl(ends[1], F_SETPIPE_SZ, 4096) == 4096);
    make_ring(&ring, 8, 0, 0);
    put_transfer(&ring, IORING_OP_WRITE, 0, 0, ends[1], bytes, 1000, 0);
    check(result_of_one(&ring, 1) == 1000);
    struct pollfd at = {.fd = ends[1], .events = POLLOUT};
    check(poll(&at, 1, 0) == 0);
    put_transfer(&ring, IORING_OP_WRITE, 0, 0, ends[1], bytes, 100, 0);
    check(result_of_one(&ring, 1) == 100);
    put_transfer(&ring, IORING_OP_WRITE, 0, 0, ends[1], bytes, 4000, 0);
    check(enter(&ring, 1, 0, 0) == 1 && enter_for(&ring, 1, 1000) == -ETIME);
    check(read(ends[0], bytes, sizeof bytes) == 1100);
    check(wait_for_one(&ring) == 4000);
    close_pair(ends);
    close_ring(&ring);
}

int main(int count, char **words)
{
    static const struct named tests[] = {
        {"polls", test_polls},
        {"updated polls", test_updated_polls},
        {"poll of what is there", test_poll_of_what_is_there},
        {"come and gone", test_come_and_gone},
        {"gone before", test_gone_before},
        {"events in choices", test_events_in_choices},
        {"wrong end", test_wrong_end},
        {"splice", test_splice},
        {"splice of nothing", test_splice_of_nothing},
        {"splice at an offset", test_splice_at_an_offset},
        {"last page", test_last_page},
    };
    return run_tests(tests, sizeof tests / sizeof *tests, count > 1 ? words[1] : NULL);
}
