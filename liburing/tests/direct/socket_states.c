/* Tests of what a socket's state makes of an operation, by direct calls: whether it listens or
 * isn't to wait, and how much room or how many bytes it has. All hold under every policy, which the
 * environment says; and on a real ring, if the kernel gives one and it is built for that.
 *
 *   socket_states [NAME]     with a name: that test alone
 */
#define _GNU_SOURCE
#include "engines.h"
#include "sockets.h"

#include <poll.h>
#include <signal.h>
#include <sys/uio.h>
#include <sys/un.h>

/* What a socket can't do ends with an error, and doesn't wait: an accept where it doesn't listen,
 * and a send or a write where it does. */
static void test_of_no_use(void)
{
    struct ring ring;
    int stream[2], datagrams[2], listener = make_local_listener(1);
    check(socketpair(AF_UNIX, SOCK_STREAM, 0, stream) == 0 &&
          socketpair(AF_UNIX, SOCK_DGRAM, 0, datagrams) == 0);
    make_ring(&ring, 8, 0, 0);
    put_plain(&ring, IORING_OP_ACCEPT, 0, stream[0]);
    check(result_of_one(&ring, 1) == -EINVAL);
    put_plain(&ring, IORING_OP_ACCEPT, 0, datagrams[0])->ioprio = IORING_ACCEPT_MULTISHOT;
    check(result_of_one(&ring, 1) == -EOPNOTSUPP);
    put_transfer(&ring, IORING_OP_SEND, 0, 0, listener, "four", 4, 0);
    check(result_of_one(&ring, 1) == -ENOTCONN);
    put_transfer(&ring, IORING_OP_WRITE, 0, 0, listener, "four", 4, 0);
    check(result_of_one(&ring, 1) == -ENOTCONN);
    put_plain(&ring, IORING_OP_ACCEPT, 0, listener);
    expect_waiting(&ring);
    close_pair(stream);
    close_pair(datagrams);
    close(listener);
    close_ring(&ring);
}

/* A connect to a local socket that takes no more ends so if its own socket isn't to wait, and else
 * waits until one was accepted. */
static void test_full_backlog(void)
{
    struct ring ring;
    struct sockaddr_un address;
    socklen_t size = sizeof address;
    int listener = make_local_listener(0), callers[3];
    check(getsockname(listener, (void *)&address, &size) == 0);
    make_ring(&ring, 8, 0, 0);
    for (int i = 0; i < 3; i++) {
        callers[i] = socket(AF_UNIX, SOCK_STREAM | (i == 1 ? SOCK_NONBLOCK : 0), 0);
        struct io_uring_sqe *entry = put_plain(&ring, IORING_OP_CONNECT, 0, callers[i]);
        entry->addr = (uintptr_t)&address;
        entry->off = size;
        if (i < 2)
            check(result_of_one(&ring, 1) == (i == 1 ? -EAGAIN : 0));
    }
    expect_waiting(&ring);
    int accepted = accept(listener, NULL, NULL);
    check(accepted >= 0 && wait_for_one(&ring) == 0);
    for (int i = 0; i < 3; i++)
        close(callers[i]);
    close(accepted);
    close(listener);
    close_ring(&ring);
}

/* Fills a socket until poll(2) finds no room in it, where some is left. */
static void fill(int fd)
{
    static char page[4096];
    struct pollfd room = {.fd = fd, .events = POLLOUT};
    while (poll(&room, 1, 0) > 0)
        check(send(fd, page, sizeof page, MSG_DONTWAIT) == sizeof page);
}

/* What there is some room for is sent and written at once, though no poll finds enough; but not
 * what asks to be polled for first. */
static void test_some_room(void)
{
    static char page[4096];
    struct ring ring;
    int ends[2];
    make_ring(&ring, 8, 0, 0);
    for (int type = SOCK_STREAM; type <= SOCK_DGRAM; type++) {
        check(socketpair(AF_UNIX, type, 0, ends) == 0);
        fill(ends[0]);
        put_transfer(&ring, IORING_OP_SEND, 0, 0, ends[0], page, sizeof page, 0);
        check(result_of_one(&ring, 1) == sizeof page);
        put_transfer(&ring, IORING_OP_WRITE, 0, 0, ends[0], page, sizeof page, 0);
        check(result_of_one(&ring, 1) == sizeof page);
        put_transfer(&ring, IORING_OP_SEND, 0, 0, ends[0], page, sizeof page, 0)
            ->ioprio = IORING_RECVSEND_POLL_FIRST;
        expect_waiting(&ring);
        while (recv(ends[1], page, sizeof page, MSG_DONTWAIT) > 0)
            ;
        check(wait_for_one(&ring) == sizeof page);
        close_pair(ends);
    }
    close_ring(&ring);
}

/* What a socket has is received and read as that starts, though it counts as ready with more; one
 * that waits waits for so much. */
static void test_low_mark(void)
{
    struct ring ring;
    int ends[2], least = 8;
    char text[16];
    make_tcp_pair(ends);
    check(setsockopt(ends[0], SOL_SOCKET, SO_RCVLOWAT, &least, sizeof least) == 0);
    make_ring(&ring, 8, 0, 0);
    for (int i = 0; i < 2; i++) {
        check(send(ends[1], "four", 4, 0) == 4);
        while (recv(ends[0], text, 16, MSG_PEEK | MSG_DONTWAIT) != 4)
            ;
        put_transfer(&ring, i == 0 ? IORING_OP_RECV : IORING_OP_READ, 0, 0, ends[0], text, 16, 0);
        check(result_of_one(&ring, 1) == 4);
    }
    put_transfer(&ring, IORING_OP_RECV, 0, 0, ends[0], text, 16, 0);
    expect_waiting(&ring);
    check(send(ends[1], "four", 4, 0) == 4 && enter_for(&ring, 1, 1000) == -ETIME);
    check(send(ends[1], "more", 4, 0) == 4 && wait_for_one(&ring) == 8);
    close_pair(ends);
    close_ring(&ring);
}

/* A write of no bytes sends an empty datagram, and waits for room; by a socket of streams it sends
 * nothing, and finds who has gone. */
static void test_empty_writes(void)
{
    struct ring ring;
    int ends[2];
    char text[8];
    struct iovec none = {text, 0};
    make_ring(&ring, 8, 0, 0);
    check(socketpair(AF_UNIX, SOCK_DGRAM, 0, ends) == 0);
    put_transfer(&ring, IORING_OP_WRITE, 0, 0, ends[0], text, 0, 0);
    check(result_of_one(&ring, 1) == 0 && recv(ends[1], text, 8, MSG_DONTWAIT) == 0);
    put_transfer(&ring, IORING_OP_WRITEV, 0, 0, ends[0], &none, 1, 0);
    check(result_of_one(&ring, 1) == 0 && recv(ends[1], text, 8, MSG_DONTWAIT) == 0);
    put_transfer(&ring, IORING_OP_READ, 0, 0, ends[0], text, 0, 0);
    check(result_of_one(&ring, 1) == 0);
    while (send(ends[0], "full", 4, MSG_DONTWAIT) == 4)
        ;
    put_transfer(&ring, IORING_OP_WRITE, 0, 0, ends[0], text, 0, 0);
    expect_waiting(&ring);
    while (recv(ends[1], text, 8, MSG_DONTWAIT) == 4)
        ;
    check(wait_for_one(&ring) == 0);
    close_pair(ends);
    make_pair(ends);
    put_transfer(&ring, IORING_OP_WRITE, 0, 0, ends[0], text, 0, 0);
    check(result_of_one(&ring, 1) == 0 && recv(ends[1], text, 8, MSG_DONTWAIT) == -1);
    close(ends[1]);
    signal(SIGPIPE, SIG_IGN);
    put_transfer(&ring, IORING_OP_WRITE, 0, 0, ends[0], text, 0, 0);
    check(result_of_one(&ring, 1) == -EPIPE);
    signal(SIGPIPE, SIG_DFL);
    close(ends[0]);
    close_ring(&ring);
}

/* A send and a message wait for room also in a socket that isn't to wait, as long as no poll finds
 * any. */
static void test_no_room_unwilling(void)
{
    static char page[4096];
    struct ring ring;
    int ends[2];
    struct iovec vector = {page, sizeof page};
    struct msghdr message = {.msg_iov = &vector, .msg_iovlen = 1};
    make_ring(&ring, 8, 0, 0);
    for (int type = SOCK_STREAM; type <= SOCK_DGRAM; type++) {
        for (int is_message = 0; is_message < 2; is_message++) {
            check(socketpair(AF_UNIX, type | SOCK_NONBLOCK, 0, ends) == 0);
            while (send(ends[0], page, sizeof page, 0) > 0)
                ;
            if (is_message)
                put_transfer(&ring, IORING_OP_SENDMSG, 0, 0, ends[0], &message, 1, 0);
            else
                put_transfer(&ring, IORING_OP_SEND, 0, 0, ends[0], page, sizeof page, 0);
            expect_waiting(&ring);
            while (recv(ends[1], page, sizeof page, 0) > 0)
                ;
            check(wait_for_one(&ring) == sizeof page);
            close_pair(ends);
        }
    }
    close_ring(&ring);
}

/* A datagram for a socket that takes no more, of which no poll tells: a message ends so if its own
 * socket isn't to wait, and a send waits. */
static void test_full_target(void)
{
    struct ring ring;
    struct sockaddr_un address;
    socklen_t size = sizeof address;
    char text[8];
    struct iovec vector = {"four", 4};
    struct msghdr message = {.msg_name = &address, .msg_iov = &vector, .msg_iovlen = 1};
    int target = socket(AF_UNIX, SOCK_DGRAM, 0),
        sender = socket(AF_UNIX, SOCK_DGRAM | SOCK_NONBLOCK, 0);
    check(bind(target, &(struct sockaddr){.sa_family = AF_UNIX}, sizeof(sa_family_t)) == 0 &&
          getsockname(target, (void *)&address, &size) == 0);
    message.msg_namelen = size;
    make_ring(&ring, 8, 0, 0);
    while (sendto(sender, "full", 4, 0, (void *)&address, size) == 4)
        ;
    put_transfer(&ring, IORING_OP_SENDMSG, 0, 0, sender, &message, 1, 0);
    check(result_of_one(&ring, 1) == -EAGAIN);
    put_transfer(&ring, IORING_OP_SEND, 0, 0, sender, "four", 4, (uintptr_t)&address)
        ->addr_len = (uint16_t)size;
    expect_waiting(&ring);
    while (recv(target, text, 8, MSG_DONTWAIT) == 4)
        ;
    /* (a kernel sends an empty datagram by then) */
    check(wait_for_one(&ring) >= 0);
    close(target);
    close(sender);
    close_ring(&ring);
}

static void put_receive(struct ring *ring, uint64_t user_data, int fd, char *text, uint32_t flags)
{
    put_transfer(ring, IORING_OP_RECV, user_data, 0, fd, text, 8, 0)->msg_flags = flags;
}

/* What a socket was told of errors is waited for, also of one that listens, until that is ready:
 * then there is something, or isn't. */
static void test_no_errors(void)
{
    struct ring ring;
    struct sockaddr_in address;
    char text[8];
    int listener = bind_here(SOCK_STREAM, &address), caller = socket(AF_INET, SOCK_STREAM, 0);
    check(listen(listener, 1) == 0);
    make_ring(&ring, 8, 0, 0);
    put_receive(&ring, 0, listener, text, MSG_ERRQUEUE);
    expect_waiting(&ring);
    check(connect(caller, (void *)&address, sizeof address) == 0);
    check(wait_for_one(&ring) == -EAGAIN);
    close(caller);
    close(listener);
    close_ring(&ring);
}

/* A local socket has no such errors: what is received of it is what it has, or nothing once it was
 * shut down. */
static void test_no_errors_of_local(void)
{
    struct ring ring;
    int ends[2];
    char text[8];
    struct iovec vector = {text, 8};
    struct msghdr message = {.msg_iov = &vector, .msg_iovlen = 1};
    check(socketpair(AF_UNIX, SOCK_DGRAM | SOCK_NONBLOCK, 0, ends) == 0);
    make_ring(&ring, 8, 0, 0);
    put_receive(&ring, 0, ends[0], text, MSG_ERRQUEUE);
    expect_waiting(&ring);
    check(send(ends[1], "four", 4, 0) == 4 && wait_for_one(&ring) == 4 &&
          shutdown(ends[0], SHUT_RD) == 0);
    put_receive(&ring, 0, ends[0], text, MSG_ERRQUEUE);
    check(result_of_one(&ring, 1) == 0);
    put_transfer(&ring, IORING_OP_RECVMSG, 0, 0, ends[0], &message, 1, 0)->msg_flags = MSG_ERRQUEUE;
    check(result_of_one(&ring, 1) == -EAGAIN);
    close_pair(ends);
    close_ring(&ring);
}

/* Urgent data of a socket of datagrams, which has none, is the next datagram, and is waited for
 * though that isn't to wait. */
static void test_urgent_datagram(void)
{
    struct ring ring;
    struct sockaddr_in address;
    char text[8];
    int fd = bind_here(SOCK_DGRAM | SOCK_NONBLOCK, &address);
    make_ring(&ring, 8, 0, 0);
    put_receive(&ring, 0, fd, text, MSG_OOB);
    expect_waiting(&ring);
    check(sendto(fd, "four", 4, 0, (void *)&address, sizeof address) == 4);
    check(wait_for_one(&ring) == 4 && memcmp(text, "four", 4) == 0);
    close(fd);
    close_ring(&ring);
}

int main(int count, char **words)
{
    static const struct named tests[] = {
        {"of no use", test_of_no_use},
        {"full backlog", test_full_backlog},
        {"some room", test_some_room},
        {"low mark", test_low_mark},
        {"empty writes", test_empty_writes},
        {"no room, unwilling", test_no_room_unwilling},
        {"full target", test_full_target},
        {"no errors", test_no_errors},
        {"no errors of a local socket", test_no_errors_of_local},
        {"urgent datagram", test_urgent_datagram},
    };
    return !are_rings_there()
               ? 0
               : run_tests(tests, sizeof tests / sizeof *tests, count > 1 ? words[1] : NULL);
}
