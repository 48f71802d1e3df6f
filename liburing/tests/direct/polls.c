/* Tests of a ring's descriptor that polls, by direct calls. All hold under every policy. A test
 * that hangs ends by an alarm. They are run with WULGACH_TEST_POLLED, which has ring.h set such
 * rings up.
 *
 *   polls [NAME]             with a name: that test alone
 */
#define _GNU_SOURCE
#include "polled.h"

#include <sys/resource.h>
#include <sys/socket.h>
#include <sys/wait.h>

static void test_refused(void)
{
    struct ring ring;
    char bytes[8] = "";
    make_ring(&ring, 4, 0, 0);
    check(read(ring.fd, bytes, 8) == -1 && errno == EINVAL);
    check(write(ring.fd, bytes, 8) == -1 && errno == EINVAL);
    /* As a real ring has it: an offset names a part by its upper bits, and a mapping may be longer.
     */
    static const off_t offsets[] = {IORING_OFF_SQ_RING, IORING_OFF_CQ_RING, 4096, IORING_OFF_SQES};
    for (size_t i = 0; i < sizeof offsets / sizeof *offsets; i++) {
        unsigned *part = wulgach_mmap(NULL, 1 << 20, PROT_READ, MAP_SHARED, ring.fd, offsets[i]);
        check(
            part != MAP_FAILED && (i == 3 || part[ring.params.sq_off.ring_entries / sizeof *part] ==
                                                 ring.params.sq_entries));
        munmap(part, 1 << 20);
    }
    check(wulgach_mmap(NULL, 0, PROT_READ, MAP_SHARED, ring.fd, IORING_OFF_SQ_RING) == MAP_FAILED &&
          errno == EINVAL);
    check(wulgach_mmap(NULL, 64, PROT_READ, MAP_SHARED, ring.fd, 0x18000000) == MAP_FAILED &&
          errno == ENOMEM);
    int file = make_file();
    check(write(file, "file", 4) == 4);
    char *mapped = wulgach_mmap(NULL, 4, PROT_READ, MAP_SHARED, file, 0);
    check(mapped != MAP_FAILED && memcmp(mapped, "file", 4) == 0);
    munmap(mapped, 4);
    close(file);
    close_ring(&ring);
}

static void test_poll(void)
{
    struct ring ring;
    make_ring(&ring, 4, 0, 0);
    check(!is_readable(&ring, 0));
    for (int i = 0; i < 20; i++) {
        submit_nop(&ring, 0);
        submit_nop(&ring, 0);
        unsigned reaped = 0;
        while (reaped < 2) {
            check(is_readable(&ring, 0));
            reaped += reap_by_peeks(&ring);
        }
        check(reaped == 2 && !is_readable(&ring, 0));
    }
    close_ring(&ring);
}

/* Completions that have overflowed wait too: also if all in the ring are reaped, and the call
 * didn't ask for them. */
static void test_overflow(void)
{
    struct ring ring;
    unsigned reaped = 0;
    make_ring(&ring, 2, 2, 0);
    for (int i = 0; i < 4; i++)
        submit_nop(&ring, 0);
    while (reaped < 4) {
        for (; count_ready(&ring) > 0; reaped++)
            reap(&ring);
        check(enter(&ring, 0, 0, 0) == 0);
        check(reaped == 4 || is_readable(&ring, 0));
        check(enter(&ring, 0, 0, IORING_ENTER_GETEVENTS) == 0);
    }
    check(!is_readable(&ring, 0));
    close_ring(&ring);
}

static void test_epoll(void)
{
    struct ring ring;
    struct epoll_event event = {.events = EPOLLIN}, found;
    make_ring(&ring, 4, 0, 0);
    int loop = epoll_create1(EPOLL_CLOEXEC);
    check(loop >= 0 && epoll_ctl(loop, EPOLL_CTL_ADD, ring.fd, &event) == 0);
    check(epoll_wait(loop, &found, 1, 0) == 0);
    submit_nop(&ring, 0);
    check(epoll_wait(loop, &found, 1, 0) == 1);
    while (reap_by_peeks(&ring) == 0)
        ;
    check(epoll_wait(loop, &found, 1, 0) == 0);
    close(loop);
    close_ring(&ring);
}

/* A read that waits on a pipe makes the descriptor readable when the pipe is, and not before. */
static void test_pipe(void)
{
    struct ring ring;
    char byte;
    int ends[2];
    check(pipe(ends) == 0);
    make_ring(&ring, 4, 0, 0);
    for (int i = 0; i < 5; i++) {
        put_transfer(&ring, IORING_OP_READ, 0, 0, ends[0], &byte, 1, 0);
        check(enter(&ring, 1, 0, 0) == 1);
        check(reap_by_peeks(&ring) == 0 && !is_readable(&ring, 20));
        check(write(ends[1], "x", 1) == 1);
        check(is_readable(&ring, 0));
        while (reap_by_peeks(&ring) == 0)
            check(is_readable(&ring, 0));
        check(!is_readable(&ring, 0));
    }
    close_pair(ends);
    close_ring(&ring);
}

/* What a cancel by io_uring_register(2) ends makes the descriptor readable at once. */
static void test_cancelled_at_once(void)
{
    struct ring ring;
    char text[4];
    int ends[2];
    struct io_uring_sync_cancel_reg any = {.flags = IORING_ASYNC_CANCEL_ANY, .timeout = {-1, -1}};
    check(pipe(ends) == 0);
    make_ring(&ring, 4, 0, 0);
    put_transfer(&ring, IORING_OP_READ, 0, 0, ends[0], text, 4, 0);
    check(enter(&ring, 1, 0, 0) == 1 && reap_by_peeks(&ring) == 0 && !is_readable(&ring, 20));
    check(register_at(ring.fd, IORING_REGISTER_SYNC_CANCEL, &any, 1) == 1 && is_readable(&ring, 0));
    check(reap_by_peeks(&ring) == 1 && !is_readable(&ring, 0));
    close_pair(ends);
    close_ring(&ring);
}

/* Requests 2 and 3 wait for a number. When 5, whose number is their sum, waits for it in their
 * place, that is another pipe's: it makes the descriptor readable too. */
static void test_renewed(void)
{
    struct ring ring;
    int first[2], second[2], other[2], out[2];
    unsigned reaped = 0;
    check(pipe(first) == 0 && pipe(second) == 0 && pipe(other) == 0 && pipe(out) == 0);
    make_ring(&ring, 8, 0, 0);
    submit_nop(&ring, 0);
    submit_nop(&ring, 0);
    while (reaped < 2)
        reaped += reap_by_peeks(&ring);
    put_splice(&ring, IORING_OP_SPLICE, 2, first[0], out[1], 1);
    put_splice(&ring, IORING_OP_SPLICE, 3, first[0], out[1], 1);
    struct io_uring_sqe *entry = put(&ring, IORING_OP_POLL_ADD, 4, IOSQE_IO_LINK);
    entry->fd = other[0];
    entry->poll32_events = POLLIN;
    put_splice(&ring, IORING_OP_SPLICE, 5, first[0], out[1], 1);
    check(enter(&ring, 4, 0, 0) == 4);
    check(enter_for(&ring, 1, 1000) == -ETIME && !is_readable(&ring, 0));
    check(dup2(second[0], first[0]) == first[0] && write(other[1], "x", 1) == 1);
    put(&ring, IORING_OP_ASYNC_CANCEL, 6, 0)->addr = 2;
    put(&ring, IORING_OP_ASYNC_CANCEL, 7, 0)->addr = 3;
    check(enter(&ring, 2, 0, 0) == 2);
    for (reaped = 0; reaped < 5;)
        reaped += reap_by_peeks(&ring);
    check(enter_for(&ring, 1, 1000) == -ETIME && !is_readable(&ring, 0));
    check(write(second[1], "x", 1) == 1 && is_readable(&ring, 1000));
    check(enter(&ring, 0, 1, IORING_ENTER_GETEVENTS) == 0 && reap(&ring).res == 1);
    for (int i = 0; i < 2; i++) {
        close(first[i]);
        close(second[i]);
        close(other[i]);
        close(out[i]);
    }
    close_ring(&ring);
}

/* A call whose request waits for its descriptor. */
static void enter_and_wait(struct ring *ring)
{
    check(enter(ring, 1, 0, 0) == 1);
    while (is_readable(ring, 0))
        check(enter(ring, 0, 0, IORING_ENTER_GETEVENTS) == 0);
    check(count_ready(ring) == 0);
}

/* A poll of a socket that goes on, and is changed, makes the descriptor readable as before. */
static void test_changed(void)
{
    struct ring ring;
    int ends[2];
    check(socketpair(AF_UNIX, SOCK_STREAM, 0, ends) == 0);
    make_ring(&ring, 4, 0, 0);
    struct io_uring_sqe *entry = put(&ring, IORING_OP_POLL_ADD, 1, 0);
    entry->fd = ends[0];
    entry->poll32_events = POLLIN;
    entry->len = IORING_POLL_ADD_MULTI;
    enter_and_wait(&ring);
    entry = put(&ring, IORING_OP_POLL_REMOVE, 2, 0);
    entry->addr = 1;
    entry->poll32_events = POLLIN;
    entry->len = IORING_POLL_UPDATE_EVENTS | IORING_POLL_ADD_MULTI;
    check(enter(&ring, 1, 1, IORING_ENTER_GETEVENTS) == 1 && reap_by_peeks(&ring) == 1 &&
          !is_readable(&ring, 20));
    check(write(ends[1], "x", 1) == 1 && is_readable(&ring, 1000));
    check(next_of(&ring).user_data == 1);
    close_pair(ends);
    close_ring(&ring);
}

/* A splice waits for a pipe that is open by another number too, by its slot or by its own number,
 * which is then emptied or closed. Once it is cancelled, nothing tells of that pipe.
 */
static void end_splice(bool is_fixed)
{
    struct ring ring;
    int in[2], out[2], none = -1;
    check(pipe(in) == 0 && pipe(out) == 0);
    int kept = dup(in[0]);
    make_ring(&ring, 4, 0, 0);
    check(register_at(ring.fd, IORING_REGISTER_FILES, &in[0], 1) == 0);
    put_splice(&ring, IORING_OP_SPLICE, 1, is_fixed ? 0 : in[0], out[1], 1)
        ->splice_flags = is_fixed ? SPLICE_F_FD_IN_FIXED : 0;
    enter_and_wait(&ring);
    struct io_uring_files_update update = {.fds = (uintptr_t)&none};
    check(register_at(ring.fd, IORING_REGISTER_FILES_UPDATE, &update, 1) == 1);
    put(&ring, IORING_OP_ASYNC_CANCEL, 2, 0)->addr = 1;
    close(in[0]);
    check(enter(&ring, 1, 2, IORING_ENTER_GETEVENTS) == 1 && reap_by_peeks(&ring) == 2);
    check(write(in[1], "x", 1) == 1);
    check(enter(&ring, 0, 0, IORING_ENTER_GETEVENTS) == 0 && !is_readable(&ring, 20));
    close(in[1]);
    close(kept);
    close_pair(out);
    close_ring(&ring);
}

static void test_ended_splice(void)
{
    end_splice(true);
    end_splice(false);
}

static void *submit_later(void *ring)
{
    usleep(20000);
    submit_nop(ring, 0);
    return NULL;
}

/* A thread that polls is woken by another's submission. */
static void test_threads(void)
{
    struct ring ring;
    pthread_t thread;
    make_ring(&ring, 4, 0, 0);
    check(pthread_create(&thread, NULL, submit_later, &ring) == 0);
    check(is_readable(&ring, -1));
    check(pthread_join(thread, NULL) == 0);
    while (reap_by_peeks(&ring) == 0)
        ;
    close_ring(&ring);
}

/* Set-up makes no file, so a limit on the size of files doesn't matter; where it makes one, it ends
 * with -EFBIG. */
static void test_file_limit(void)
{
    pid_t child = fork();
    if (child == 0) {
        static const struct rlimit least = {1 << 20, 1 << 20};
        struct ring ring;
        check(setrlimit(RLIMIT_FSIZE, &least) == 0);
        make_ring(&ring, 4096, 0, 0);
        submit_nop(&ring, 0);
        check(enter(&ring, 0, 1, IORING_ENTER_GETEVENTS) == 0);
        struct io_uring_params params = {0};
        _exit(wulgach_syscall(SYS_io_uring_setup, 4u, &params) == -1 && errno == EFBIG ? 0 : 1);
    }
    int status;
    check(waitpid(child, &status, 0) == child && status == 0);
}

/* A poll of a ring by another that goes on ends with the first event for which it has waited, but
 * not with what is there as it starts. (after that it waits for an edge) */
static void test_by_another(void)
{
    struct ring ring, other;
    int most = getenv("WULGACH_EDGES") ? 1 : 2;
    make_ring(&ring, 4, 0, 0);
    make_ring(&other, 4, 0, 0);
    for (int is_there = 0; is_there < most; is_there++) {
        struct io_uring_sqe *entry = put_plain(&ring, IORING_OP_POLL_ADD, 1, other.fd);
        entry->poll32_events = POLLIN;
        entry->len = IORING_POLL_ADD_MULTI;
        check(enter(&ring, 1, 0, 0) == 1);
        if (is_there) {
            struct seen first = next_of(&ring);
            check(first.res == POLLIN && first.flags == IORING_CQE_F_MORE);
        }
        check(enter_for(&ring, 1, 1000) == -ETIME);
        put(&other, IORING_OP_NOP, 2, 0);
        check(enter(&other, 1, (unsigned)is_there + 1, IORING_ENTER_GETEVENTS) == 1);
        struct seen last = next_of(&ring);
        check(last.user_data == 1 && last.res == POLLIN && last.flags == 0);
    }
    close_ring(&other);
    close_ring(&ring);
}

int main(int count, char **words)
{
    static const struct named tests[] = {
        {"refused", test_refused},
        {"poll", test_poll},
        {"overflow", test_overflow},
        {"epoll", test_epoll},
        {"pipe", test_pipe},
        {"cancelled at once", test_cancelled_at_once},
        {"renewed", test_renewed},
        {"changed", test_changed},
        {"ended splice", test_ended_splice},
        {"threads", test_threads},
        {"file limit", test_file_limit},
        {"by another", test_by_another},
    };
    alarm((unsigned)(PATIENCE * patience()));
    return run_tests(tests, sizeof tests / sizeof *tests, count > 1 ? words[1] : NULL);
}
