/* Tests of operations on sockets, by direct calls: those that end once, accepts that go on, what
 * doesn't wait, and sends that needn't copy. All hold under every policy, which the environment
 * says.
 *
 *   sockets [NAME]           with a name: that test alone
 */
#define _GNU_SOURCE
#include "engines.h"
#include "sockets.h"

#include <sys/uio.h>

static void test_sockets(void)
{
    struct ring ring;
    struct sockaddr_un {
        sa_family_t family;
        char path[16];
    } address = {AF_UNIX, "\0engines"};
    char text[8] = "";
    int listener = socket(AF_UNIX, SOCK_STREAM, 0), caller = socket(AF_UNIX, SOCK_STREAM, 0);
    memcpy(address.path + 8, &(pid_t){getpid()}, sizeof(pid_t));
    check(bind(listener, (void *)&address, sizeof address) == 0 && listen(listener, 4) == 0);
    make_ring(&ring, 8, 0, 0);
    put_plain(&ring, IORING_OP_ACCEPT, 0, listener);
    struct io_uring_sqe *entry = put_plain(&ring, IORING_OP_CONNECT, 1, caller);
    entry->addr = (uintptr_t)&address;
    entry->off = sizeof address;
    int32_t results[4];
    check(enter(&ring, 2, 0, 0) == 2);
    reap_all(&ring, 2, results);
    check(results[0] >= 0 && results[1] == 0);
    int callee = results[0];
    put_transfer(&ring, IORING_OP_RECV, 0, 0, callee, text, 8, 0);
    check(enter(&ring, 1, 0, 0) == 1);
    check(enter_for(&ring, 1, 1000) == -ETIME);
    struct iovec vector = {"message", 7};
    struct msghdr message = {.msg_iov = &vector, .msg_iovlen = 1};
    put_transfer(&ring, IORING_OP_SENDMSG, 1, 0, caller, &message, 1, 0);
    check(enter(&ring, 1, 0, 0) == 1);
    reap_all(&ring, 2, results);
    check(results[0] == 7 && results[1] == 7 && memcmp(text, "message", 7) == 0);
    put_transfer(&ring, IORING_OP_SHUTDOWN, 0, 0, caller, NULL, SHUT_WR, 0);
    check(result_of_one(&ring, 1) == 0);
    put_transfer(&ring, IORING_OP_RECV, 0, 0, callee, text, 8, 0);
    check(result_of_one(&ring, 1) == 0);
    put_transfer(&ring, IORING_OP_SEND, 0, 0, make_file(), text, 8, 0);
    check(result_of_one(&ring, 1) == -ENOTSOCK);
    close(listener);
    close(caller);
    close(callee);
    close_ring(&ring);
}

/* What doesn't wait though nothing is there: a receive that says so, also of all that it asks for;
 * and a call of sockets on a pipe. */
static void test_no_waiting(void)
{
    struct ring ring;
    int ends[2], pipes[2];
    char text[8] = "";
    make_pair(ends);
    check(pipe(pipes) == 0);
    make_ring(&ring, 8, 0, 0);
    put_transfer(&ring, IORING_OP_RECV, 0, 0, ends[0], text, 8, 0)->msg_flags = MSG_DONTWAIT;
    check(result_of_one(&ring, 1) == -EAGAIN);
    check(send(ends[1], "four", 4, 0) == 4);
    put_transfer(&ring, IORING_OP_RECV, 0, 0, ends[0], text, 8, 0)->msg_flags = MSG_DONTWAIT |
                                                                                MSG_WAITALL;
    check(result_of_one(&ring, 1) == 4 && memcmp(text, "four", 4) == 0);
    put_transfer(&ring, IORING_OP_RECV, 0, 0, pipes[0], text, 8, 0);
    check(result_of_one(&ring, 1) == -ENOTSOCK);
    put_plain(&ring, IORING_OP_ACCEPT, 0, pipes[0]);
    check(result_of_one(&ring, 1) == -ENOTSOCK);
    close_pair(ends);
    close_pair(pipes);
    close_ring(&ring);
}

/* A receive that wants all of its bytes, and has got some, goes on in the next call in which the
 * rest is there, also if that only looks, and nothing else ends. */
static void test_all_by_looks(void)
{
    struct ring ring;
    int ends[2];
    char text[10];
    make_pair(ends);
    make_ring(&ring, 8, 0, 0);
    put_transfer(&ring, IORING_OP_RECV, 7, 0, ends[0], text, 10, 0)->msg_flags = MSG_WAITALL;
    check(enter(&ring, 1, 0, 0) == 1);
    check(send(ends[1], "ten", 3, 0) == 3);
    for (int i = 0; i < 10; i++)
        check(enter(&ring, 0, 0, IORING_ENTER_GETEVENTS) == 0 && count_ready(&ring) == 0);
    check(send(ends[1], "letters", 7, 0) == 7);
    for (int i = 0; i < 100 && count_ready(&ring) == 0; i++)
        check(enter(&ring, 0, 0, IORING_ENTER_GETEVENTS) == 0);
    check(count_ready(&ring) == 1);
    struct completion found = reap(&ring);
    check(found.user_data == 7 && found.res == 10 && memcmp(text, "tenletters", 10) == 0);
    close_pair(ends);
    close_ring(&ring);
}

/* An accept that goes on puts each socket where there is room, and ends if there is none. */
static void want_accepts(uint8_t flags)
{
    struct ring ring;
    struct sockaddr_un {
        sa_family_t family;
        char path[16];
    } address = {AF_UNIX, "\0accepts"};
    struct io_uring_rsrc_register sparse = {.nr = 2, .flags = IORING_RSRC_REGISTER_SPARSE};
    int listener = socket(AF_UNIX, SOCK_STREAM, 0), callers[3];
    memcpy(address.path + 8, &(pid_t){getpid()}, sizeof(pid_t));
    check(bind(listener, (void *)&address, sizeof address) == 0 && listen(listener, 4) == 0);
    make_ring(&ring, 8, 0, 0);
    check(register_at(ring.fd, IORING_REGISTER_FILES2, &sparse, sizeof sparse) == 0);
    struct io_uring_sqe *entry = put(&ring, IORING_OP_ACCEPT, 1, flags);
    entry->fd = listener;
    entry->ioprio = IORING_ACCEPT_MULTISHOT;
    entry->file_index = IORING_FILE_INDEX_ALLOC;
    check(enter(&ring, 1, 0, 0) == 1);
    for (int i = 0; i < 3; i++) {
        callers[i] = socket(AF_UNIX, SOCK_STREAM, 0);
        check(connect(callers[i], (void *)&address, sizeof address) == 0);
        struct seen found = next_of(&ring);
        check(found.res == (i < 2 ? i : -ENFILE) && found.flags == (i < 2 ? IORING_CQE_F_MORE : 0));
    }
    for (int i = 0; i < 3; i++)
        close(callers[i]);
    close(listener);
    close_ring(&ring);
}

/* It tells of each, though it is to skip its success. */
static void test_multishot_accept(void)
{
    want_accepts(0);
    want_accepts(IOSQE_CQE_SKIP_SUCCESS);
}

/* A send that needn't copy has two completions: what was sent, and that its memory is free. */
static void test_zero_copy(void)
{
    struct ring ring;
    static char memory[16] = "zero", text[16];
    struct iovec vector = {memory, 16}, piece = {memory, 4};
    struct msghdr message = {.msg_iov = &piece, .msg_iovlen = 1};
    int ends[2];
    make_pair(ends);
    make_ring(&ring, 8, 0, 0);
    check(register_at(ring.fd, IORING_REGISTER_BUFFERS, &vector, 1) == 0);
    for (int i = 0; i < 3; i++) {
        struct io_uring_sqe *entry = put_transfer(&ring,
            i == 2 ? IORING_OP_SENDMSG_ZC : IORING_OP_SEND_ZC, 7, IOSQE_IO_LINK, ends[0],
            i == 2 ? (void *)&message : (void *)memory, 4, 0);
        entry->ioprio = (uint16_t)(i == 1   ? IORING_RECVSEND_FIXED_BUF
                                   : i == 2 ? IORING_SEND_ZC_REPORT_USAGE
                                            : 0);
        put(&ring, IORING_OP_NOP, 8, 0);
        check(enter(&ring, 2, 0, 0) == 2);
        struct seen first = next_of(&ring), second = next_of(&ring), third = next_of(&ring);
        check(first.user_data == 7 && first.res == 4 && first.flags == IORING_CQE_F_MORE);
        check(second.user_data == 7 &&
              second.res == (i == 2 ? (int32_t)IORING_NOTIF_USAGE_ZC_COPIED : 0) &&
              second.flags == IORING_CQE_F_NOTIF);
        check(third.user_data == 8 && third.res == 0);
        check(read(ends[1], text, 16) == 4 && memcmp(text, "zero", 4) == 0);
    }
    put_transfer(&ring, IORING_OP_SEND_ZC, 0, IOSQE_CQE_SKIP_SUCCESS, ends[0], memory, 4, 0);
    check(result_of_one(&ring, 1) == -EINVAL);
    struct io_uring_sqe *outside = put_transfer(
        &ring, IORING_OP_SEND_ZC, 0, 0, ends[0], text, 4, 0);
    outside->ioprio = IORING_RECVSEND_FIXED_BUF;
    check(enter(&ring, 1, 0, 0) == 1);
    check(next_of(&ring).res == -EFAULT && next_of(&ring).flags == IORING_CQE_F_NOTIF);
    /* Beside a drain there is no second one, by the manual pages' rules. (The first ring has asked
     * to skip success, so that none drains there.) */
    close_ring(&ring);
    make_ring(&ring, 8, 0, 0);
    put_transfer(&ring, IORING_OP_SEND_ZC, 0, 0, ends[0], memory, 4, 0);
    put(&ring, IORING_OP_NOP, 1, IOSQE_IO_DRAIN);
    check(enter(&ring, 2, 0, 0) == 2);
    struct seen sent = next_of(&ring);
    check(sent.user_data == 0 && sent.res == 4 &&
          sent.flags == (is_by_manual() ? 0 : IORING_CQE_F_MORE));
    check(is_by_manual() || next_of(&ring).flags == IORING_CQE_F_NOTIF);
    check(next_of(&ring).user_data == 1);
    close_pair(ends);
    close_ring(&ring);
}

int main(int count, char **words)
{
    static const struct named tests[] = {
        {"sockets", test_sockets},
        {"no waiting", test_no_waiting},
        {"all by looks", test_all_by_looks},
        {"multishot accept", test_multishot_accept},
        {"zero copy", test_zero_copy},
    };
    return run_tests(tests, sizeof tests / sizeof *tests, count > 1 ? words[1] : NULL);
}
