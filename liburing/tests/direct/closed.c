/* Tests of descriptors that are closed, by direct calls: while a request waits for them or hasn't
 * been carried out, and by the ring itself. All hold under every policy, which the environment
 * says.
 *
 *   closed [NAME]            with a name: that test alone
 */
#define _GNU_SOURCE
#include "asleep.h"
#include "engines.h"

#include <poll.h>
#include <pthread.h>
#include <sys/socket.h>
#include <sys/wait.h>

/* How the last descriptor of a pipe's end for writing goes. */
enum last { REGISTERED, KEPT, IN_THE_RING, LINKED, LASTS };

/* Has the end for writing be closed within the next call, which submits so many requests, with the
 * user data 2 on. */
static unsigned put_last(struct ring *ring, enum last last, int end)
{
    if (last == IN_THE_RING) {
        put_plain(ring, IORING_OP_CLOSE, 2, end);
        return 1;
    }
    if (last == REGISTERED)
        check(register_at(ring->fd, IORING_REGISTER_FILES, &end, 1) == 0);
    put_poll(ring, 3, last == REGISTERED ? 0 : end, POLLPRI, 0);
    ring->entries[(*sq_word(ring, ring->params.sq_off.tail) - 1) & (ring->params.sq_entries - 1)]
        .flags = last == REGISTERED ? IOSQE_FIXED_FILE : 0;
    check(enter(ring, 1, 0, 0) == 1);
    settle(ring);
    check(close(end) == 0);
    if (last == REGISTERED)
        check(register_at(ring->fd, IORING_UNREGISTER_FILES, NULL, 0) == 0);
    settle(ring);
    if (last == LINKED)
        put(ring, IORING_OP_NOP, 4, IOSQE_IO_LINK);
    put_plain(ring, IORING_OP_ASYNC_CANCEL, 2, 0)->addr = 3;
    return last == LINKED ? 2 : 1;
}

/* The last descriptor of a pipe's end goes within a call: who reads from the other is told in that
 * call. */
static void test_last_end(void)
{
    for (enum last last = 0; last < LASTS; last++) {
        struct ring ring;
        int ends[2];
        char byte;
        bool has_ended = false;
        check(pipe(ends) == 0);
        make_ring(&ring, 8, 0, 0);
        put_transfer(&ring, IORING_OP_READ, 0, 0, ends[0], &byte, 1, 0);
        check(enter(&ring, 1, 0, 0) == 1);
        settle(&ring);
        unsigned count = put_last(&ring, last, ends[1]), all = count + 1 + (last != IN_THE_RING);
        check(enter(&ring, count, 0, 0) == (long)count);
        check(!is_in_order() || count_ready(&ring) == all);
        for (unsigned i = 0; i < all; i++) {
            struct seen found = next_of(&ring);
            check(found.res == (found.user_data == 3 ? -ECANCELED : 0));
            has_ended |= found.user_data == 0;
        }
        check(has_ended && count_ready(&ring) == 0);
        close(ends[0]);
        close_ring(&ring);
    }
}

/* A poll that goes on keeps its file open: it is told of what comes after the close of the
 * program's own descriptor. */
static void test_kept_by_a_poll(void)
{
    struct ring ring;
    int ends[2];
    make_ring(&ring, 8, 0, 0);
    for (int is_socket = 0; is_socket < 2; is_socket++) {
        check((is_socket ? socketpair(AF_UNIX, SOCK_STREAM, 0, ends) : pipe(ends)) == 0);
        put_poll(&ring, 1, ends[0], POLLIN, IORING_POLL_ADD_MULTI);
        check(enter(&ring, 1, 0, 0) == 1);
        settle(&ring);
        check(close(ends[0]) == 0);
        settle(&ring);
        for (int round = 0; round < 2; round++) {
            check(write(ends[1], "x", 1) == 1);
            struct seen found = next_of(&ring);
            check(found.user_data == 1 && found.res == POLLIN && found.flags == IORING_CQE_F_MORE);
            settle(&ring);
        }
        put(&ring, IORING_OP_POLL_REMOVE, 2, 0)->addr = 1;
        check(enter(&ring, 1, 0, 0) == 1);
        for (int i = 0; i < 2; i++) {
            struct seen found = next_of(&ring);
            check(found.res == (found.user_data == 1 ? -ECANCELED : 0));
        }
        close(ends[1]);
    }
    close_ring(&ring);
}

/* What a pipe's descriptor is by the time something is written to the other end. */
enum instead { CLOSED, ANOTHER, FULL_ONE, INSTEADS };

static int read_from[2], opened[2];

static void *close_later(void *of)
{
    enum instead instead = *(const enum instead *)of;
    await_sleep(&(pid_t){getpid()});
    check(close(read_from[0]) == 0);
    if (instead != CLOSED)
        check(pipe(opened) == 0 && opened[0] == read_from[0]);
    if (instead == FULL_ONE)
        check(write(opened[1], "full", 4) == 4);
    usleep(10000);
    check(write(read_from[1], "own", 3) == 3);
    return NULL;
}

/* A call that has submitted a read sleeps, and another thread closes its descriptor: it reads what
 * it was submitted for. */
static void test_closed_in_a_sleep(void)
{
    for (enum instead instead = 0; instead < INSTEADS; instead++) {
        struct ring ring;
        pthread_t thread;
        char text[4];
        check(pipe(read_from) == 0);
        make_ring(&ring, 4, 0, 0);
        put_transfer(&ring, IORING_OP_READ, 1, 0, read_from[0], text, 4, 0);
        check(pthread_create(&thread, NULL, close_later, &instead) == 0);
        check(enter(&ring, 1, 1, IORING_ENTER_GETEVENTS) == 1);
        struct seen found = next_of(&ring);
        check(found.user_data == 1 && found.res == 3 && memcmp(text, "own", 3) == 0);
        check(pthread_join(thread, NULL) == 0);
        close(read_from[1]);
        if (instead != CLOSED)
            close(opened[0]), close(opened[1]);
        close_ring(&ring);
    }
}

/* The program closes a descriptor of which it has submitted a transfer, and opens another file, or
 * the ring does that in the same call: the transfer is one of what it was submitted for. */
enum { NUMBER_IS_TAKEN = 1, RING_CLOSES = 2, IS_WRITE = 4, WAYS = 8 };

static int make_named(const char *bytes)
{
    int fd = open(".", O_TMPFILE | O_RDWR, 0600);
    check(fd >= 0 && pwrite(fd, bytes, 4, 0) == 4);
    return fd;
}

static void test_closed_after_a_submission(void)
{
    for (unsigned way = 0; way < WAYS; way++) {
        struct ring ring;
        char text[5] = "mine", found[5] = "";
        int fd = make_named("file"), again = dup(fd), other = make_named("none"), taken = -1;
        make_ring(&ring, 4, 0, 0);
        put_transfer(
            &ring, way & IS_WRITE ? IORING_OP_WRITE : IORING_OP_READ, 1, 0, fd, text, 4, 0);
        if (way & RING_CLOSES)
            put_plain(&ring, IORING_OP_CLOSE, 2, fd);
        unsigned count = way & RING_CLOSES ? 2 : 1;
        check(enter(&ring, count, 0, 0) == (long)count);
        if (way & RING_CLOSES)
            check(enter(&ring, 0, 0, IORING_ENTER_GETEVENTS) == 0);
        else
            check(close(fd) == 0);
        if (way & NUMBER_IS_TAKEN)
            taken = dup(other);
        for (unsigned i = 0; i < count; i++) {
            struct seen seen = next_of(&ring);
            check(seen.res == (seen.user_data == 1 ? 4 : 0));
        }
        check(way & IS_WRITE || memcmp(text, "file", 4) == 0);
        check(
            pread(again, found, 4, 0) == 4 && strcmp(found, way & IS_WRITE ? "mine" : "file") == 0);
        check(pread(other, found, 4, 0) == 4 && strcmp(found, "none") == 0);
        close_ring(&ring);
        close(again);
        close(other);
        if (taken >= 0)
            close(taken);
    }
}

/* A read that waits keeps the pipe that an entry after it closes. */
static void test_closed_by_an_entry(void)
{
    struct ring ring;
    char text[4];
    int ends[2];
    check(pipe(ends) == 0);
    make_ring(&ring, 4, 0, 0);
    put_transfer(&ring, IORING_OP_READ, 1, 0, ends[0], text, 4, 0);
    put_plain(&ring, IORING_OP_CLOSE, 2, ends[0]);
    check(enter(&ring, 2, 0, 0) == 2);
    check(next_of(&ring).user_data == 2);
    check(write(ends[1], "own", 3) == 3);
    check(next_of(&ring).res == 3 && memcmp(text, "own", 3) == 0);
    close(ends[1]);
    close_ring(&ring);
}

static bool is_locked_for_others(int fd)
{
    struct flock lock = {.l_type = F_WRLCK, .l_whence = SEEK_SET};
    int status;
    pid_t child = fork();
    if (child == 0)
        _exit(fcntl(fd, F_GETLK, &lock) == 0 && lock.l_type != F_UNLCK);
    check(waitpid(child, &status, 0) == child && WIFEXITED(status));
    return WEXITSTATUS(status) == 1;
}

/* What a ring kept open that was closed unheard is let go before a call on another sleeps. */
static void test_closed_ring(void)
{
    struct ring ring, other;
    int ends[2];
    char byte;
    check(pipe(ends) == 0);
    make_ring(&ring, 8, 0, 0);
    make_ring(&other, 8, 0, 0);
    put_transfer(&other, IORING_OP_READ, 0, 0, ends[0], &byte, 1, 0);
    check(enter(&other, 1, 0, 0) == 1);
    settle(&other);
    put_poll(&ring, 1, ends[1], 0, 0);
    check(enter(&ring, 1, 0, 0) == 1);
    settle(&ring);
    check(close(ends[0]) == 0);
    close_ring(&other);
    struct seen found = next_of(&ring);
    check(found.user_data == 1 && found.res == POLLERR);
    close(ends[1]);
    close_ring(&ring);
}

/* A child has a lock too, until its end of a pipe is closed. */
static pid_t lock_in_child(int fd, int *until)
{
    struct flock lock = {.l_type = F_RDLCK, .l_whence = SEEK_SET};
    int said[2], ends[2];
    char byte;
    check(pipe(said) == 0 && pipe(ends) == 0);
    pid_t child = fork();
    if (child == 0) {
        close(ends[1]);
        _exit(fcntl(fd, F_SETLK, &lock) == 0 && write(said[1], "x", 1) == 1 &&
                      read(ends[0], &byte, 1) == 0
                  ? 0
                  : 1);
    }
    check(read(said[0], &byte, 1) == 1);
    close(said[0]), close(said[1]), close(ends[0]);
    *until = ends[1];
    return child;
}

/* A registered file that goes leaves the program's locks on it, which go with any descriptor of the
 * program's own. */
static void test_locks(void)
{
    struct ring ring;
    struct flock lock = {.l_type = F_RDLCK, .l_whence = SEEK_SET},
                 none = {.l_type = F_UNLCK, .l_whence = SEEK_SET};
    int fd = make_named("file"), until = -1, status;
    make_ring(&ring, 4, 0, 0);
    for (int round = 0; round < 4; round++) {
        pid_t child = round % 2 ? lock_in_child(fd, &until) : -1;
        check(fcntl(fd, F_SETLK, &lock) == 0 && is_locked_for_others(fd));
        check(register_at(ring.fd, IORING_REGISTER_FILES, &fd, 1) == 0);
        check(register_at(ring.fd, IORING_UNREGISTER_FILES, NULL, 0) == 0);
        if (child >= 0)
            check(close(until) == 0 && waitpid(child, &status, 0) == child && status == 0);
        check(is_locked_for_others(fd));
        check(fcntl(fd, F_SETLK, &none) == 0 && !is_locked_for_others(fd));
    }
    close(fd);
    close_ring(&ring);
}

/* So does one that a splice has waited for. */
static void test_locks_after_a_splice(void)
{
    struct ring ring;
    struct flock lock = {.l_type = F_WRLCK, .l_whence = SEEK_SET};
    int fd = make_named("file"), ends[2];
    check(pipe(ends) == 0 && fcntl(fd, F_SETLK, &lock) == 0);
    make_ring(&ring, 4, 0, 0);
    struct io_uring_sqe *entry = put_plain(&ring, IORING_OP_SPLICE, 0, fd);
    entry->splice_fd_in = ends[0];
    entry->splice_off_in = (uint64_t)-1;
    entry->len = 4;
    check(enter(&ring, 1, 0, 0) == 1 && write(ends[1], "abcd", 4) == 4);
    check(wait_for_one(&ring) == 4 && is_locked_for_others(fd));
    close_pair(ends);
    close(fd);
    close_ring(&ring);
}

int main(int count, char **words)
{
    static const struct named tests[] = {
        {"last end", test_last_end},
        {"kept by a poll", test_kept_by_a_poll},
        {"closed in a sleep", test_closed_in_a_sleep},
        {"closed after a submission", test_closed_after_a_submission},
        {"closed by an entry", test_closed_by_an_entry},
        {"closed ring", test_closed_ring},
        {"locks", test_locks},
        {"locks after a splice", test_locks_after_a_splice},
    };
    alarm((unsigned)(PATIENCE * patience()));
    return run_tests(tests, sizeof tests / sizeof *tests, count > 1 ? words[1] : NULL);
}
