/* Tests of messages that are moved in parts, with MSG_WAITALL, by direct calls: their provided
 * buffers, a cancel or a timeout after a part, and control data. All hold under every policy, which
 * the environment says. Expected is what a ring of Linux 6.18 was seen to do.
 *
 *   parts [NAME]     with a name: that test alone
 */
#define _GNU_SOURCE
#include "engines.h"

#include <fcntl.h>
#include <sys/socket.h>
#include <sys/uio.h>

enum { ALL = 10, MANY = 100000 };

static void make_streams(int *ends)
{
    int little = 4608;
    check(socketpair(AF_UNIX, SOCK_STREAM, 0, ends) == 0);
    check(setsockopt(ends[1], SOL_SOCKET, SO_SNDBUF, &little, sizeof little) == 0);
}

static void close_all(struct ring *ring, const int *ends)
{
    close_pair(ends);
    close_ring(ring);
}

/* The request has had its try: it waits, for more. */
static void let_wait(struct ring *ring)
{
    for (int i = 0; i < 10; i++)
        check(enter(ring, 0, 0, IORING_ENTER_GETEVENTS) == 0 && count_ready(ring) == 0);
}

static void provide(struct ring *ring, char *memory, int count)
{
    struct io_uring_sqe *entry = put_plain(ring, IORING_OP_PROVIDE_BUFFERS, 0, count);
    entry->addr = (uintptr_t)memory;
    entry->len = ALL;
    check(result_of_one(ring, 1) == 0);
}

static struct io_uring_sqe *put_receive(
    struct ring *ring, uint64_t user_data, uint8_t flags, int fd, void *bytes)
{
    struct io_uring_sqe *entry = put_transfer(
        ring, IORING_OP_RECV, user_data, flags, fd, bytes, ALL, 0);
    entry->msg_flags = MSG_WAITALL;
    return entry;
}

/* A provided buffer that has a part is the request's, and the rest goes after that. */
static void test_parts_in_a_buffer(void)
{
    struct iovec piece = {NULL, ALL};
    struct msghdr message = {.msg_iov = &piece, .msg_iovlen = 1};
    for (int is_message = 0; is_message < 2; is_message++) {
        struct ring ring;
        char memory[2 * ALL], other[ALL] = "other";
        int ends[2], others[2];
        make_streams(ends);
        make_streams(others);
        make_ring(&ring, 8, 0, 0);
        provide(&ring, memory, 2);
        put_transfer(&ring, is_message ? IORING_OP_RECVMSG : IORING_OP_RECV, 1, IOSQE_BUFFER_SELECT,
            ends[0], is_message ? &message : NULL, is_message ? 1 : ALL, 0)
            ->msg_flags = MSG_WAITALL;
        check(enter(&ring, 1, 0, 0) == 1);
        check(send(ends[1], "hello", 5, 0) == 5);
        let_wait(&ring);
        put_transfer(&ring, IORING_OP_RECV, 2, IOSQE_BUFFER_SELECT, others[0], NULL, ALL, 0);
        check(enter(&ring, 1, 0, 0) == 1 && send(others[1], other, 5, 0) == 5);
        struct seen second = next_of(&ring);
        check(second.user_data == 2 && second.res == 5 &&
              second.flags == (IORING_CQE_F_BUFFER | 1 << IORING_CQE_BUFFER_SHIFT));
        check(send(ends[1], "world", 5, 0) == 5);
        struct seen first = next_of(&ring);
        check(first.user_data == 1 && first.res == ALL && first.flags == IORING_CQE_F_BUFFER &&
              memcmp(memory, "helloworldother", 15) == 0);
        close_pair(others);
        close_all(&ring, ends);
    }
}

/* The last completion names the buffer that has a part, if its peer closes, and if a cancel finds
 * it. */
static void test_end_after_a_part(void)
{
    for (int is_cancelled = 0; is_cancelled < 2; is_cancelled++) {
        struct ring ring;
        char memory[ALL];
        int ends[2];
        make_streams(ends);
        make_ring(&ring, 8, 0, 0);
        provide(&ring, memory, 1);
        put_receive(&ring, 1, IOSQE_BUFFER_SELECT, ends[0], NULL);
        check(enter(&ring, 1, 0, 0) == 1 && send(ends[1], "hello", 5, 0) == 5);
        let_wait(&ring);
        if (is_cancelled) {
            put(&ring, IORING_OP_ASYNC_CANCEL, 2, IOSQE_CQE_SKIP_SUCCESS)->addr = 1;
            check(enter(&ring, 1, 0, 0) == 1);
        } else {
            check(shutdown(ends[1], SHUT_WR) == 0);
        }
        struct seen last = next_of(&ring);
        check(last.user_data == 1 && last.res == 5 && last.flags == IORING_CQE_F_BUFFER &&
              memcmp(memory, "hello", 5) == 0);
        close_all(&ring, ends);
    }
}

/* What a cancel or a linked timeout ends that has moved bytes tells how many, and breaks its chain
 * all the same. */
static void test_cancel_after_a_part(void)
{
    struct ring ring;
    struct __kernel_timespec soon = {.tv_nsec = 1000000};
    char text[ALL];
    int ends[2];
    make_streams(ends);
    make_ring(&ring, 8, 0, 0);
    put_receive(&ring, 0, IOSQE_IO_LINK, ends[0], text);
    put(&ring, IORING_OP_NOP, 1, 0);
    check(enter(&ring, 2, 0, 0) == 2 && send(ends[1], "hello", 5, 0) == 5);
    let_wait(&ring);
    put(&ring, IORING_OP_ASYNC_CANCEL, 2, 0)->addr = 0;
    int32_t results[3];
    check(enter(&ring, 1, 0, 0) == 1);
    reap_all(&ring, 3, results);
    check(results[0] == 5 && results[1] == -ECANCELED && results[2] == 0);
    check(send(ends[1], "hello", 5, 0) == 5);
    put_receive(&ring, 0, IOSQE_IO_LINK, ends[0], text);
    struct io_uring_sqe *timeout = put(&ring, IORING_OP_LINK_TIMEOUT, 1, 0);
    timeout->addr = (uintptr_t)&soon;
    timeout->len = 1;
    check(enter(&ring, 2, 0, 0) == 2);
    reap_all(&ring, 2, results);
    check(results[0] == 5 && results[1] == -ETIME);
    close_all(&ring, ends);
}

/* Reads all that was sent, and returns how much that was. */
static int32_t drain(int fd)
{
    static char text[MANY];
    int32_t came = 0;
    for (ssize_t part; (part = recv(fd, text, sizeof text, MSG_DONTWAIT)) > 0;)
        came += (int32_t)part;
    return came;
}

static void test_cancelled_sends(void)
{
    static char memory[MANY];
    struct ring ring;
    int ends[2];
    make_streams(ends);
    make_ring(&ring, 8, 0, 0);
    for (int is_full = 0; is_full < 2; is_full++) {
        int32_t results[2];
        put_transfer(&ring, IORING_OP_SEND, 0, 0, ends[1], memory, MANY, 0)
            ->msg_flags = MSG_WAITALL;
        check(enter(&ring, 1, 0, 0) == 1);
        let_wait(&ring);
        put(&ring, IORING_OP_ASYNC_CANCEL, 1, 0)->addr = 0;
        check(enter(&ring, 1, 0, 0) == 1);
        reap_all(&ring, 2, results);
        check(results[1] == 0 &&
              (is_full ? results[0] == -ECANCELED : results[0] > 0 && results[0] < MANY));
        if (is_full)
            check(drain(ends[0]) > 0);
    }
    close_all(&ring, ends);
}

/* A send without copies that a cancel finds has both of its completions. */
static void test_cancelled_zero_copy(void)
{
    static char memory[MANY];
    struct ring ring;
    int ends[2];
    make_streams(ends);
    make_ring(&ring, 8, 0, 0);
    put_transfer(&ring, IORING_OP_SEND_ZC, 7, 0, ends[1], memory, MANY, 0)->msg_flags = MSG_WAITALL;
    check(enter(&ring, 1, 0, 0) == 1);
    let_wait(&ring);
    put(&ring, IORING_OP_ASYNC_CANCEL, 8, IOSQE_CQE_SKIP_SUCCESS)->addr = 7;
    check(enter(&ring, 1, 0, 0) == 1);
    struct seen sent = next_of(&ring), notice = next_of(&ring);
    check(
        sent.user_data == 7 && sent.res > 0 && sent.res < MANY && sent.flags == IORING_CQE_F_MORE);
    check(notice.user_data == 7 && notice.res == 0 && notice.flags == IORING_CQE_F_NOTIF);
    close_all(&ring, ends);
}

union control {
    struct cmsghdr header;
    char bytes[CMSG_SPACE(sizeof(int))];
};

static void hold_descriptor(union control *control, struct msghdr *message, int fd)
{
    memset(control, 0, sizeof *control);
    control->header = (struct cmsghdr){
        .cmsg_level = SOL_SOCKET, .cmsg_type = SCM_RIGHTS, .cmsg_len = CMSG_LEN(sizeof fd)};
    memcpy(CMSG_DATA(&control->header), &fd, sizeof fd);
    message->msg_control = control;
    message->msg_controllen = sizeof *control;
}

/* A message that is sent in parts passes its descriptor once. */
static void test_descriptor_passed_once(void)
{
    static char memory[MANY], text[MANY];
    struct ring ring;
    int ends[2], passed = 0, came = 0;
    union control control, room;
    struct iovec piece = {memory, MANY}, into = {text, sizeof text};
    struct msghdr message = {.msg_iov = &piece, .msg_iovlen = 1};
    make_streams(ends);
    make_ring(&ring, 8, 0, 0);
    hold_descriptor(&control, &message, ends[0]);
    put_transfer(&ring, IORING_OP_SENDMSG, 7, 0, ends[1], &message, 1, 0)->msg_flags = MSG_WAITALL;
    check(enter(&ring, 1, 0, 0) == 1);
    while (came < MANY) {
        struct msghdr found = {
            .msg_iov = &into, .msg_iovlen = 1, .msg_control = &room, .msg_controllen = sizeof room};
        ssize_t part = recvmsg(ends[0], &found, MSG_DONTWAIT);
        if (part < 0) {
            check(errno == EAGAIN && enter(&ring, 0, 0, IORING_ENTER_GETEVENTS) == 0);
            continue;
        }
        came += (int)part;
        if (found.msg_controllen > 0) {
            int fd;
            memcpy(&fd, CMSG_DATA(&room.header), sizeof fd);
            check(close(fd) == 0);
            passed++;
        }
    }
    check(next_of(&ring).res == MANY && passed == 1);
    close_all(&ring, ends);
}

/* A message that is received with room for control data has one part alone, which is a success to
 * its link; one whose control data is cut isn't. */
static void test_control_data_ends_a_receive(void)
{
    for (int is_cut = 0; is_cut < 2; is_cut++) {
        struct ring ring;
        char text[ALL];
        int ends[2], fd;
        union control control, room;
        struct iovec piece = {"hello", 5}, into = {text, ALL};
        struct msghdr sent = {.msg_iov = &piece, .msg_iovlen = 1},
                      found = {.msg_iov = &into,
                          .msg_iovlen = 1,
                          .msg_control = &room,
                          .msg_controllen = is_cut ? 4 : sizeof room};
        int32_t results[2];
        make_streams(ends);
        make_ring(&ring, 8, 0, 0);
        hold_descriptor(&control, &sent, ends[0]);
        put_transfer(&ring, IORING_OP_RECVMSG, 0, IOSQE_IO_LINK, ends[0], &found, 1, 0)
            ->msg_flags = MSG_WAITALL;
        put(&ring, IORING_OP_NOP, 1, 0);
        check(enter(&ring, 2, 0, 0) == 2 && sendmsg(ends[1], &sent, 0) == 5);
        reap_all(&ring, 2, results);
        check(results[0] == 5 && results[1] == (is_cut ? -ECANCELED : 0));
        if (!is_cut) {
            check(found.msg_controllen == sizeof room && memcmp(text, "hello", 5) == 0);
            memcpy(&fd, CMSG_DATA(&room.header), sizeof fd);
            check(close(fd) == 0);
        }
        close_all(&ring, ends);
    }
}

int main(int count, char **words)
{
    static const struct named tests[] = {
        {"parts in a buffer", test_parts_in_a_buffer},
        {"end after a part", test_end_after_a_part},
        {"cancel after a part", test_cancel_after_a_part},
        {"cancelled sends", test_cancelled_sends},
        {"cancelled zero copy", test_cancelled_zero_copy},
        {"descriptor passed once", test_descriptor_passed_once},
        {"control data ends a receive", test_control_data_ends_a_receive},
    };
    return run_tests(tests, sizeof tests / sizeof *tests, count > 1 ? words[1] : NULL);
}
