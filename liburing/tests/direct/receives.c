/* Tests of receives, by direct calls: those that go on, take provided buffers or are polled first,
 * and what counts as cut. All hold under every policy, which the environment says.
 *
 *   receives [NAME]          with a name: that test alone
 */
#define _GNU_SOURCE
#include "engines.h"
#include "sockets.h"

#include <sys/uio.h>

static void provide(struct ring *ring, void *at, int count, uint64_t id)
{
    struct io_uring_sqe *provide = put_plain(ring, IORING_OP_PROVIDE_BUFFERS, 0, count);
    provide->addr = (uintptr_t)at;
    provide->len = 16;
    provide->off = id;
    check(result_of_one(ring, 1) == 0);
}

static void submit_receive_as(struct ring *ring, int fd, uint16_t how)
{
    struct io_uring_sqe *entry = put(ring, IORING_OP_RECV, 1, IOSQE_BUFFER_SELECT);
    entry->fd = fd;
    entry->ioprio = how;
    check(enter(ring, 1, 0, 0) == 1);
}

static void submit_receive(struct ring *ring, int fd, bool is_multishot)
{
    submit_receive_as(ring, fd, is_multishot ? IORING_RECV_MULTISHOT : 0);
}

/* The last completion of one that is cancelled has no buffer. */
static void want_cancelled(struct ring *ring, const int *ends, void *memory)
{
    provide(ring, memory, 1, 0);
    submit_receive(ring, ends[0], true);
    check(next_of(ring).flags == (IORING_CQE_F_MORE | IORING_CQE_F_BUFFER));
    put(ring, IORING_OP_ASYNC_CANCEL, 2, IOSQE_CQE_SKIP_SUCCESS)->addr = 1;
    check(enter(ring, 1, 0, 0) == 1);
    struct seen last = next_of(ring);
    check(last.user_data == 1 && last.res == -ECANCELED && last.flags == 0);
}

/* A receive that goes on takes a buffer for each piece, and ends where there is none. */
static void test_multishot_receive(void)
{
    struct ring ring;
    static char memory[2][16];
    int ends[2];
    make_pair(ends);
    make_ring(&ring, 8, 0, 0);
    provide(&ring, memory, 2, 0);
    submit_receive(&ring, ends[0], true);
    for (uint32_t i = 0; i < 2; i++) {
        check(enter_for(&ring, 1, 1000) == -ETIME);
        check(send(ends[1], "piece", 5, 0) == 5);
        struct seen found = next_of(&ring);
        check(found.res == 5 && found.flags == (IORING_CQE_F_MORE | IORING_CQE_F_BUFFER |
                                                   i << IORING_CQE_BUFFER_SHIFT));
    }
    check(send(ends[1], "piece", 5, 0) == 5);
    struct seen last = next_of(&ring);
    check(last.res == -ENOBUFS && last.flags == 0);
    want_cancelled(&ring, ends, memory);
    close_pair(ends);
    close_ring(&ring);
}

/* Its length, if it has one, says how much each takes at most. */
static void test_multishot_length(void)
{
    struct ring ring;
    static char memory[3][16];
    int ends[2];
    make_pair(ends);
    make_ring(&ring, 8, 0, 0);
    provide(&ring, memory, 3, 0);
    check(send(ends[1], "two pieces", 10, 0) == 10);
    struct io_uring_sqe *entry = put(&ring, IORING_OP_RECV, 1, IOSQE_BUFFER_SELECT);
    entry->fd = ends[0];
    entry->len = 4;
    entry->ioprio = IORING_RECV_MULTISHOT;
    check(enter(&ring, 1, 0, 0) == 1);
    for (int i = 0; i < 3; i++)
        check(next_of(&ring).res == (i < 2 ? 4 : 2));
    close_pair(ends);
    close_ring(&ring);
}

/* A receive that finds no buffer when it starts ends so. One that has found one waits for its
 * socket, and takes what its group has then: as on a real ring. */
static void test_buffers_that_go(void)
{
    static char memory[2][16];
    for (int is_multishot = 0; is_multishot < 2; is_multishot++) {
        struct ring ring;
        int ends[2];
        make_pair(ends);
        make_ring(&ring, 8, 0, 0);
        submit_receive(&ring, ends[0], is_multishot);
        check(wait_for_one(&ring) == -ENOBUFS);
        provide(&ring, memory[0], 1, 0);
        submit_receive(&ring, ends[0], is_multishot);
        check(enter_for(&ring, 1, 1000) == -ETIME);
        put_plain(&ring, IORING_OP_REMOVE_BUFFERS, 0, 1);
        check(result_of_one(&ring, 1) == 1);
        check(enter_for(&ring, 1, 1000) == -ETIME);
        provide(&ring, memory[1], 1, 3);
        check(send(ends[1], "piece", 5, 0) == 5);
        struct seen found = next_of(&ring);
        check(found.res == 5 && (found.flags & ~(uint32_t)IORING_CQE_F_MORE) ==
                                    (IORING_CQE_F_BUFFER | 3 << IORING_CQE_BUFFER_SHIFT));
        check(memcmp(memory[1], "piece", 5) == 0);
        provide(&ring, memory[0], 1, 0);
        if (!is_multishot)
            submit_receive(&ring, ends[0], false);
        check(enter_for(&ring, 1, 1000) == -ETIME);
        put_plain(&ring, IORING_OP_REMOVE_BUFFERS, 0, 1);
        check(result_of_one(&ring, 1) == 1);
        check(send(ends[1], "piece", 5, 0) == 5);
        check(wait_for_one(&ring) == -ENOBUFS);
        close_pair(ends);
        close_ring(&ring);
    }
}

/* What is to be polled first waits before anything else is looked at: it takes a buffer that was
 * provided meanwhile, and has its faults once something is there. As on a real ring. */
static void test_polled_first(void)
{
    static char memory[16], text[8];
    for (int is_multishot = 0; is_multishot < 2; is_multishot++) {
        struct ring ring;
        int ends[2];
        make_pair(ends);
        make_ring(&ring, 8, 0, 0);
        submit_receive_as(&ring, ends[0],
            IORING_RECVSEND_POLL_FIRST | (is_multishot ? IORING_RECV_MULTISHOT : 0));
        check(enter_for(&ring, 1, 1000) == -ETIME);
        provide(&ring, memory, 1, 3);
        check(enter_for(&ring, 1, 1000) == -ETIME);
        check(send(ends[1], "piece", 5, 0) == 5);
        struct seen found = next_of(&ring);
        check(
            found.res == 5 && found.flags & IORING_CQE_F_BUFFER && memcmp(memory, "piece", 5) == 0);
        if (is_multishot) {
            check(send(ends[1], "piece", 5, 0) == 5);
            check(wait_for_one(&ring) == -ENOBUFS);
            check(recv(ends[0], text, 8, MSG_DONTWAIT) == 5);
        }
        submit_receive_as(&ring, ends[0],
            IORING_RECVSEND_POLL_FIRST | (is_multishot ? IORING_RECV_MULTISHOT : 0));
        check(enter_for(&ring, 1, 1000) == -ETIME);
        check(send(ends[1], "piece", 5, 0) == 5);
        check(wait_for_one(&ring) == -ENOBUFS);
        close_pair(ends);
        make_pair(ends);
        struct io_uring_sqe *entry = put_transfer(&ring, IORING_OP_RECV, 0, 0, ends[0], text, 8, 0);
        entry->ioprio = IORING_RECVSEND_POLL_FIRST;
        entry->msg_flags = MSG_OOB;
        check(enter(&ring, 1, 0, 0) == 1);
        check(enter_for(&ring, 1, 1000) == -ETIME);
        check(send(ends[1], "piece", 5, 0) == 5);
        int32_t res = wait_for_one(&ring);
        check(res == -EINVAL || res == -EOPNOTSUPP);
        close_pair(ends);
        close_ring(&ring);
    }
}

/* So does one of a socket that listens, until somebody connects. */
static void test_listener_polled_first(void)
{
    struct ring ring;
    struct sockaddr address = {AF_UNIX, ""};
    socklen_t size = sizeof address;
    char text[8];
    int listener = socket(AF_UNIX, SOCK_STREAM, 0), caller = socket(AF_UNIX, SOCK_STREAM, 0);
    check(bind(listener, &address, sizeof(sa_family_t)) == 0 && listen(listener, 4) == 0 &&
          getsockname(listener, &address, &size) == 0);
    make_ring(&ring, 8, 0, 0);
    put_transfer(&ring, IORING_OP_RECV, 0, 0, listener, text, 8, 0);
    int32_t plain = result_of_one(&ring, 1);
    check(plain < 0);
    put_transfer(&ring, IORING_OP_RECV, 0, 0, listener, text, 8, 0)
        ->ioprio = IORING_RECVSEND_POLL_FIRST;
    check(enter(&ring, 1, 0, 0) == 1);
    check(enter_for(&ring, 1, 1000) == -ETIME);
    check(connect(caller, &address, size) == 0);
    check(wait_for_one(&ring) == plain);
    close(listener);
    close(caller);
    close_ring(&ring);
}

/* A message that goes on has no room in a buffer for what stands in front of it: that it is of no
 * socket counts before. As on a real ring. */
static void test_no_room_in_front(void)
{
    struct ring ring;
    static char memory[16];
    struct iovec vector = {NULL, 10};
    struct msghdr message = {.msg_iov = &vector, .msg_iovlen = 1};
    int ends[2], pipes[2];
    make_pair(ends);
    check(pipe(pipes) == 0 && send(ends[1], "piece", 5, 0) == 5);
    make_ring(&ring, 8, 0, 0);
    provide(&ring, memory, 1, 0);
    for (int i = 0; i < 2; i++) {
        struct io_uring_sqe *entry = put_transfer(&ring, IORING_OP_RECVMSG, 0, IOSQE_BUFFER_SELECT,
            i == 0 ? pipes[0] : ends[0], &message, 1, 0);
        entry->ioprio = IORING_RECV_MULTISHOT;
        check(result_of_one(&ring, 1) == (i == 0 ? -ENOTSOCK : -EFAULT));
    }
    close_pair(ends);
    close_pair(pipes);
    close_ring(&ring);
}

/* A receive that is to wait for all breaks its chain if what came was cut, and another doesn't: as
 * on a real ring. */
static void test_cut_receives(void)
{
    struct ring ring;
    char text[4];
    int ends[2];
    check(socketpair(AF_UNIX, SOCK_DGRAM, 0, ends) == 0);
    make_ring(&ring, 8, 0, 0);
    for (int row = 0; row < 6; row++) {
        int32_t results[2];
        struct iovec vector = {text, 4};
        struct msghdr message = {.msg_iov = &vector, .msg_iovlen = 1};
        bool is_whole = row & 1, is_short = row > 3;
        check(send(ends[1], "12345678", is_short ? 2 : 8, 0) > 0);
        struct io_uring_sqe *entry = put_transfer(&ring,
            row & 2 ? IORING_OP_RECVMSG : IORING_OP_RECV, 0, IOSQE_IO_LINK, ends[0],
            row & 2 ? (void *)&message : text, row & 2 ? 1 : 4, 0);
        entry->msg_flags = is_whole ? MSG_WAITALL : 0;
        put(&ring, IORING_OP_NOP, 1, 0);
        check(enter(&ring, 2, 0, 0) == 2);
        reap_all(&ring, 2, results);
        check(results[0] == (is_short ? 2 : 4) && results[1] == (is_whole ? -ECANCELED : 0));
    }
    close_pair(ends);
    close_ring(&ring);
}

int main(int count, char **words)
{
    static const struct named tests[] = {
        {"multishot receive", test_multishot_receive},
        {"multishot length", test_multishot_length},
        {"buffers that go", test_buffers_that_go},
        {"polled first", test_polled_first},
        {"listener polled first", test_listener_polled_first},
        {"no room in front", test_no_room_in_front},
        {"cut receives", test_cut_receives},
    };
    return run_tests(tests, sizeof tests / sizeof *tests, count > 1 ? words[1] : NULL);
}
