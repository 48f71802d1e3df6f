/* How operations end by Linux's rules that fail, or have nothing to wait for, under each profile,
 * which WULGACH_PROFILE says. All hold under every policy; and Linux's on a real ring, if the
 * kernel gives one and it is built for that.
 */
#define _GNU_SOURCE
#include "profile.h"
#include "sockets.h"

#include <fcntl.h>
#include <poll.h>
#include <sys/epoll.h>
#include <sys/eventfd.h>

/* By Linux's rules a failure that the kernel doesn't mark breaks no link, and is skipped as a
 * success is. */
static void expect_unmarked(uint8_t code, int fd, int32_t res)
{
    put(&ring, code, 0, IOSQE_IO_LINK)->fd = fd;
    put(&ring, IORING_OP_NOP, 1, 0);
    submit(2);
    EXPECT({0, res}, {1, is_by_manual() ? -ECANCELED : 0});
    put(&ring, code, 2, IOSQE_CQE_SKIP_SUCCESS)->fd = fd;
    submit(1);
    if (is_by_manual())
        EXPECT({2, res});
    else
        expect(0, NULL);
}

/* It is marked where its file is missing, or is no socket. */
static void expect_marked(uint8_t code, int fd, int32_t res)
{
    put(&ring, code, 0, IOSQE_IO_LINK | IOSQE_CQE_SKIP_SUCCESS)->fd = fd;
    put(&ring, IORING_OP_NOP, 1, 0);
    submit(2);
    if (is_by_manual())
        EXPECT({0, res}, {1, -ECANCELED});
    else
        EXPECT({0, res});
}

static void test_unmarked_failures(void)
{
    begin(0);
    int unconnected = socket(AF_INET, SOCK_STREAM, 0), path = open("/", O_PATH),
        for_reading = open("/proc/self/exe", O_RDONLY);
    check(unconnected >= 0 && path >= 0 && for_reading >= 0);
    expect_unmarked(IORING_OP_FSYNC, ends[0], -EINVAL);
    expect_unmarked(IORING_OP_SYNC_FILE_RANGE, ends[0], -ESPIPE);
    expect_unmarked(IORING_OP_SHUTDOWN, unconnected, -ENOTCONN);
    expect_marked(IORING_OP_SHUTDOWN, ends[0], -ENOTSOCK);
    expect_marked(IORING_OP_FSYNC, -1, -EBADF);
    expect_marked(IORING_OP_FSYNC, path, -EBADF);
    put_transfer(&ring, IORING_OP_FALLOCATE, 0, IOSQE_IO_LINK | IOSQE_CQE_SKIP_SUCCESS, for_reading,
        (void *)1, 0, 0);
    put(&ring, IORING_OP_NOP, 1, 0);
    submit(2);
    if (is_by_manual())
        EXPECT({0, -EBADF}, {1, -ECANCELED});
    else
        EXPECT({1, 0});
    close(unconnected);
    close(path);
    close(for_reading);
    stop();
}

/* Each poll is told that its peer has shut down, whatever it is for. */
static void test_shut_down(void)
{
    int pair[2];
    begin(0);
    make_pair(pair);
    put_plain(&ring, IORING_OP_POLL_ADD, 0, pair[0])->poll32_events = POLLPRI;
    submit(1);
    expect(0, NULL);
    check(shutdown(pair[1], SHUT_WR) == 0);
    EXPECT({0, POLLRDHUP});
    put_plain(&ring, IORING_OP_POLL_ADD, 1, pair[0])->poll32_events = POLLIN;
    submit(1);
    EXPECT({1, POLLIN | POLLRDHUP});
    close_pair(pair);
    stop();
}

/* A poll of a file, or of a device without events, ends with what such a one always has, also if it
 * goes on, or with -22. */
static void expect_unpolled(int fd)
{
    put_plain(&ring, IORING_OP_POLL_ADD, 0, fd)->poll32_events = POLLIN | POLLPRI;
    submit(1);
    EXPECT({0, POLLIN});
    struct io_uring_sqe *endless = put_plain(&ring, IORING_OP_POLL_ADD, 1, fd);
    endless->poll32_events = POLLIN | POLLOUT;
    endless->len = IORING_POLL_ADD_MULTI;
    submit(1);
    EXPECT({1, POLLIN | POLLOUT});
    for (uint32_t multi = 0; multi <= IORING_POLL_ADD_MULTI; multi++) {
        struct io_uring_sqe *urgent = put_plain(&ring, IORING_OP_POLL_ADD, 2, fd);
        urgent->poll32_events = POLLPRI;
        urgent->len = multi;
        submit(1);
        EXPECT({2, -EINVAL});
    }
}

static void test_unpolled(void)
{
    static const char *const paths[] = {"/proc/self/exe", "/", "/dev/zero"};
    begin(0);
    for (size_t i = 0; i < sizeof paths / sizeof *paths; i++) {
        int fd = open(paths[i], O_RDONLY);
        check(fd >= 0);
        expect_unpolled(fd);
        close(fd);
    }
    stop();
}

/* What isn't open, and what is no socket, counts before a buffer that isn't there, and that before
 * the direction of a file. */
static void expect_unbuffered(uint8_t code, uint8_t flags, int fd, int32_t res)
{
    struct io_uring_sqe *entry = put_transfer(&ring, code, 0, flags, fd, &byte, 1, 0);
    entry->buf_group = 9;
    submit(1);
    EXPECT({0, res});
}

static void test_unbuffered(void)
{
    int pair[2];
    begin(0);
    make_pair(pair);
    for (int is_fixed = 0; is_fixed < 2; is_fixed++) {
        uint8_t code = is_fixed ? IORING_OP_READ_FIXED : IORING_OP_READ,
                flags = is_fixed ? 0 : IOSQE_BUFFER_SELECT;
        int32_t missing = is_fixed ? -EFAULT : -ENOBUFS;
        expect_unbuffered(code, flags, -1, -EBADF);
        expect_unbuffered(code, flags, 999, -EBADF);
        expect_unbuffered(code, flags, ends[0], missing);
        expect_unbuffered(code, flags, ends[1], missing);
        expect_unbuffered(code, flags | IOSQE_FIXED_FILE, 5, -EBADF);
    }
    expect_unbuffered(IORING_OP_RECV, IOSQE_BUFFER_SELECT, -1, -EBADF);
    expect_unbuffered(IORING_OP_RECV, IOSQE_BUFFER_SELECT, ends[0], -ENOTSOCK);
    expect_unbuffered(IORING_OP_RECV, IOSQE_BUFFER_SELECT, pair[0], -ENOBUFS);
    close_pair(pair);
    stop();
}

/* A message that asks for a poll first, and isn't to wait, is never polled, whatever its socket
 * has. */
static void test_unpolled_messages(void)
{
    char bytes[4] = "abc";
    struct iovec part = {bytes, 3};
    struct msghdr message = {.msg_iov = &part, .msg_iovlen = 1};
    static const uint8_t codes[] = {
        IORING_OP_RECV, IORING_OP_SEND, IORING_OP_RECVMSG, IORING_OP_SENDMSG};
    int pair[2];
    begin(0);
    check(socketpair(AF_UNIX, SOCK_STREAM, 0, pair) == 0 && write(pair[1], "abc", 3) == 3);
    for (int i = 0; i < 8; i++) {
        uint8_t code = codes[i / 2];
        bool is_plain = i < 4;
        struct io_uring_sqe *entry = put_transfer(&ring, code, 0, i % 2 ? IOSQE_ASYNC : 0, pair[0],
            is_plain ? (void *)bytes : &message, is_plain ? 3 : 1, 0);
        entry->ioprio = IORING_RECVSEND_POLL_FIRST;
        entry->msg_flags = MSG_DONTWAIT;
        submit(1);
        EXPECT({0, -EAGAIN});
    }
    /* It takes no provided buffer, and finds none missing. */
    struct io_uring_sqe *entry = put_transfer(
        &ring, IORING_OP_RECV, 0, IOSQE_BUFFER_SELECT, pair[0], NULL, 3, 0);
    entry->ioprio = IORING_RECVSEND_POLL_FIRST;
    entry->msg_flags = MSG_DONTWAIT;
    entry->buf_group = 9;
    submit(1);
    EXPECT({0, -EAGAIN});
    close_pair(pair);
    stop();
}

/* A poll that is to go on, and has EPOLLONESHOT among its events, ends with the first, also if its
 * events were updated since. */
static void test_one_shot_polls(void)
{
    for (int is_updated = 0; is_updated < 2; is_updated++) {
        begin(0);
        struct io_uring_sqe *entry = put_plain(&ring, IORING_OP_POLL_ADD, 0, ends[0]);
        entry->poll32_events = POLLIN | EPOLLONESHOT;
        entry->len = IORING_POLL_ADD_MULTI;
        submit(1);
        expect(0, NULL);
        if (is_updated) {
            entry = put(&ring, IORING_OP_POLL_REMOVE, 1, 0);
            entry->len = IORING_POLL_UPDATE_EVENTS | IORING_POLL_ADD_MULTI;
            entry->poll32_events = POLLIN | POLLPRI;
            submit(1);
            EXPECT({1, 0});
        }
        feed();
        EXPECT({0, POLLIN});
        feed();
        expect(0, NULL);
        put(&ring, IORING_OP_POLL_REMOVE, 2, 0);
        submit(1);
        EXPECT({2, -ENOENT});
        stop();
    }
}

static int32_t connect_to(int fd, const struct sockaddr_in *address)
{
    struct io_uring_sqe *entry = put_plain(&ring, IORING_OP_CONNECT, 0, fd);
    entry->addr = (uintptr_t)address;
    entry->off = sizeof *address;
    return result_of_one(&ring, 1);
}

/* A connect after one that was refused, on the same socket, is a new one: it is refused too, or
 * succeeds if somebody listens by then. */
static void test_refused_connects(void)
{
    struct sockaddr_in address;
    begin(0);
    int listener = bind_here(SOCK_STREAM, &address), fd = socket(AF_INET, SOCK_STREAM, 0);
    check(fd >= 0);
    for (int i = 0; i < 3; i++)
        check(connect_to(fd, &address) == -ECONNREFUSED);
    check(listen(listener, 1) == 0);
    check(connect_to(fd, &address) == 0 && connect_to(fd, &address) == -EISCONN);
    close(listener);
    close(fd);
    stop();
}

/* Two sockets that are connected: local ones of this type, or, with 0, of the Internet. */
static void connect_pair(int type, int pair[2])
{
    if (type)
        check(socketpair(AF_UNIX, type, 0, pair) == 0);
    else
        make_tcp_pair(pair);
}

/* A splice from a socket that has nothing isn't to wait if the socket isn't; from a local stream
 * also by its flag, and by its pipe. */
static void test_splices_that_wait(void)
{
    enum { PLAIN, BY_SOCKET, BY_FLAG, BY_PIPE };
    static const int types[] = {SOCK_STREAM, SOCK_SEQPACKET, 0};
    for (int i = 0; i < 3; i++)
        for (int way = PLAIN; way <= BY_PIPE; way++) {
            int pair[2];
            bool waits = way == PLAIN || (way != BY_SOCKET && types[i] != SOCK_STREAM);
            begin(0);
            connect_pair(types[i], pair);
            check(fcntl(pair[0], F_SETFL, way == BY_SOCKET ? O_NONBLOCK : 0) == 0 &&
                  fcntl(ends[1], F_SETFL, way == BY_PIPE ? O_NONBLOCK : 0) == 0);
            put_splice(&ring, IORING_OP_SPLICE, 0, pair[0], ends[1], 8)
                ->splice_flags = way == BY_FLAG ? SPLICE_F_NONBLOCK : 0;
            submit(1);
            if (waits) {
                expect(0, NULL);
                check(write(pair[1], "four", 4) == 4);
                EXPECT({0, 4});
            } else {
                EXPECT({0, -EAGAIN});
            }
            close_pair(pair);
            stop();
        }
}

/* Nor does the flag of a splice count for a socket that takes no more. */
static void test_splice_to_full_socket(void)
{
    static char bytes[1 << 16];
    int pair[2];
    ssize_t taken = 0;
    begin(0);
    connect_pair(SOCK_STREAM, pair);
    while (send(pair[0], bytes, sizeof bytes, MSG_DONTWAIT) > 0)
        ;
    feed();
    put_splice(&ring, IORING_OP_SPLICE, 0, ends[0], pair[0], 8)->splice_flags = SPLICE_F_NONBLOCK;
    submit(1);
    expect(0, NULL);
    while ((taken = recv(pair[1], bytes, sizeof bytes, MSG_DONTWAIT)) > 0)
        ;
    check(taken < 0);
    EXPECT({0, 1});
    close_pair(pair);
    stop();
}

/* A poll of the eventfd that is registered with its own ring ends in the call in which that is
 * told, which is told of the poll too. */
static void test_own_eventfd(void)
{
    uint64_t told = 0;
    int fd = eventfd(0, EFD_NONBLOCK);
    begin(0);
    check(fd >= 0 && register_at(ring.fd, IORING_REGISTER_EVENTFD, &fd, 1) == 0);
    put_plain(&ring, IORING_OP_POLL_ADD, 0, fd)->poll32_events = POLLIN;
    submit(1);
    check(count_ready(&ring) == 0);
    put(&ring, IORING_OP_NOP, 1, 0);
    submit(1);
    check(count_ready(&ring) == 2);
    EXPECT({1, 0}, {0, POLLIN});
    check(read(fd, &told, sizeof told) == sizeof told && told == 2);
    close(fd);
    stop();
}

int main(int count, char **words)
{
    static const struct named tests[] = {
        {"unmarked failures", test_unmarked_failures},
        {"shut down", test_shut_down},
        {"unpolled", test_unpolled},
        {"unbuffered", test_unbuffered},
        {"unpolled messages", test_unpolled_messages},
        {"one-shot polls", test_one_shot_polls},
        {"refused connects", test_refused_connects},
        {"own eventfd", test_own_eventfd},
        {"splices that wait", test_splices_that_wait},
        {"splice to a full socket", test_splice_to_full_socket},
    };
    return are_rings_there()
               ? run_tests(tests, sizeof tests / sizeof *tests, count > 1 ? words[1] : NULL)
               : 0;
}
