/* Tests of what becomes of operations on sockets that are shut down, by direct calls: of receives,
 * reads, sends, writes and accepts, before and while they wait. All hold under every policy, which
 * the environment says; and on a real ring, if the kernel gives one and it is built for that.
 *
 *   shut_sockets [NAME]      with a name: that test alone
 */
#define _GNU_SOURCE
#include "engines.h"
#include "filters.h"
#include "sockets.h"

#include <pthread.h>
#include <signal.h>
#include <sys/syscall.h>
#include <sys/uio.h>
#include <sys/un.h>

/* A receive and a read of datagrams that wait end with 0 once the socket is shut down, or was
 * before; not one that isn't to wait, and none that finds a datagram. */
static void test_shut_datagrams(void)
{
    struct ring ring;
    int ends[2];
    char text[8];
    int32_t results[4];
    check(socketpair(AF_UNIX, SOCK_DGRAM, 0, ends) == 0);
    make_ring(&ring, 8, 0, 0);
    put_transfer(&ring, IORING_OP_RECV, 0, 0, ends[0], text, 8, 0);
    put_transfer(&ring, IORING_OP_READ, 1, 0, ends[0], text, 8, 0);
    check(enter(&ring, 2, 0, 0) == 2 && enter_for(&ring, 1, 1000) == -ETIME);
    check(shutdown(ends[0], SHUT_RD) == 0);
    reap_all(&ring, 2, results);
    check(results[0] == 0 && results[1] == 0);
    put_transfer(&ring, IORING_OP_RECV, 0, 0, ends[0], text, 8, 0)->msg_flags = MSG_DONTWAIT;
    check(result_of_one(&ring, 1) == -EAGAIN);
    close_pair(ends);
    check(socketpair(AF_UNIX, SOCK_DGRAM, 0, ends) == 0 && send(ends[1], "last", 4, 0) == 4 &&
          shutdown(ends[0], SHUT_RD) == 0);
    put_transfer(&ring, IORING_OP_RECV, 0, 0, ends[0], text, 8, 0);
    check(result_of_one(&ring, 1) == 4 && memcmp(text, "last", 4) == 0);
    put_transfer(&ring, IORING_OP_READ, 0, 0, ends[0], text, 8, 0);
    check(result_of_one(&ring, 1) == 0);
    close_pair(ends);
    close_ring(&ring);
}

/* By a descriptor that isn't to wait, a read and a receive of a message end so once the socket is
 * shut down, where a receive of bytes ends with 0. */
static void test_shut_unwilling(void)
{
    struct ring ring;
    int ends[2];
    char text[8];
    int32_t results[4];
    struct iovec vector = {text, 8};
    struct msghdr message = {.msg_iov = &vector, .msg_iovlen = 1};
    check(socketpair(AF_UNIX, SOCK_DGRAM | SOCK_NONBLOCK, 0, ends) == 0);
    make_ring(&ring, 8, 0, 0);
    put_transfer(&ring, IORING_OP_READ, 0, 0, ends[0], text, 8, 0);
    put_transfer(&ring, IORING_OP_RECVMSG, 1, 0, ends[0], &message, 1, 0);
    put_transfer(&ring, IORING_OP_RECV, 2, 0, ends[0], text, 8, 0);
    check(enter(&ring, 3, 0, 0) == 3 && enter_for(&ring, 1, 1000) == -ETIME);
    check(shutdown(ends[0], SHUT_RD) == 0);
    reap_all(&ring, 3, results);
    check(results[0] == -EAGAIN && results[1] == -EAGAIN && results[2] == 0);
    put_transfer(&ring, IORING_OP_READV, 0, 0, ends[0], &vector, 1, 0);
    check(result_of_one(&ring, 1) == -EAGAIN);
    close_pair(ends);
    close_ring(&ring);
}

/* From now on no read of the calling thread can be asked not to wait, as in a kernel whose sockets
 * don't know of that. */
static void refuse_nowait(void)
{
    FILTER(BPF_STMT(BPF_LD | BPF_W | BPF_ABS, offsetof(struct seccomp_data, nr)),
        BPF_JUMP(BPF_JMP | BPF_JEQ | BPF_K, SYS_preadv2, 0, 3),
        BPF_STMT(BPF_LD | BPF_W | BPF_ABS, offsetof(struct seccomp_data, args[5])),
        BPF_JUMP(BPF_JMP | BPF_JSET | BPF_K, RWF_NOWAIT, 0, 1),
        BPF_STMT(BPF_RET | BPF_K, SECCOMP_RET_ERRNO | EOPNOTSUPP),
        BPF_STMT(BPF_RET | BPF_K, SECCOMP_RET_ALLOW));
}

static void *read_shut(void *nothing)
{
    struct ring ring;
    int ends[2];
    char text[8];
    refuse_nowait();
    make_ring(&ring, 8, 0, 0);
    check(socketpair(AF_UNIX, SOCK_DGRAM, 0, ends) == 0 && send(ends[1], "last", 4, 0) == 4 &&
          shutdown(ends[0], SHUT_RD) == 0);
    put_transfer(&ring, IORING_OP_READ, 0, 0, ends[0], text, 8, 0);
    check(result_of_one(&ring, 1) == 4 && memcmp(text, "last", 4) == 0);
    put_transfer(&ring, IORING_OP_READ, 0, 0, ends[0], text, 8, 0);
    check(enter(&ring, 1, 0, 0) == 1 && enter_for(&ring, 1, 100000000) == 0);
    check(wait_for_one(&ring) == 0);
    close_pair(ends);
    close_ring(&ring);
    return nothing;
}

/* A read of a socket of datagrams that was shut down ends with 0 too where no call can be asked not
 * to wait. */
static void test_shut_unasked(void)
{
    pthread_t reader;
    check(pthread_create(&reader, NULL, read_shut, NULL) == 0 && pthread_join(reader, NULL) == 0);
}

/* With a sanitizer an epoll instance tells of all that waits, and none tells that a socket was shut
 * down. */
#if defined __SANITIZE_ADDRESS__ || defined __SANITIZE_THREAD__
enum { IS_TOLD_OF = false };
#else
enum { IS_TOLD_OF = true };
#endif

/* A send and a write that wait for room in a local socket of streams end once that is shut down for
 * writing, or its peer for reading. */
static void test_shut_writing(void)
{
    if (!IS_TOLD_OF)
        return;
    struct ring ring;
    int ends[2];
    int32_t results[4];
    make_ring(&ring, 8, 0, 0);
    signal(SIGPIPE, SIG_IGN);
    for (int is_peer = 0; is_peer < 2; is_peer++) {
        make_pair(ends);
        while (send(ends[0], "full", 4, MSG_DONTWAIT) == 4)
            ;
        put_transfer(&ring, IORING_OP_SEND, 0, 0, ends[0], "four", 4, 0);
        put_transfer(&ring, IORING_OP_WRITE, 1, 0, ends[0], "four", 4, 0);
        check(enter(&ring, 2, 0, 0) == 2 && enter_for(&ring, 1, 1000) == -ETIME);
        check(shutdown(ends[is_peer], is_peer ? SHUT_RD : SHUT_WR) == 0);
        reap_all(&ring, 2, results);
        check(results[0] == -EPIPE && results[1] == -EPIPE);
        close_pair(ends);
    }
    signal(SIGPIPE, SIG_DFL);
    close_ring(&ring);
}

/* So do they where another thread shuts it down while the call sleeps. */
static void *shut_later(void *fd)
{
    usleep(20000);
    shutdown(*(int *)fd, SHUT_WR);
    return NULL;
}

static void test_shut_asleep(void)
{
    if (!IS_TOLD_OF)
        return;
    struct ring ring;
    pthread_t other;
    int ends[2];
    make_ring(&ring, 8, 0, 0);
    make_pair(ends);
    while (send(ends[0], "full", 4, MSG_DONTWAIT) == 4)
        ;
    put_transfer(&ring, IORING_OP_SEND, 0, 0, ends[0], "four", 4, 0)->msg_flags = MSG_NOSIGNAL;
    check(pthread_create(&other, NULL, shut_later, &ends[0]) == 0);
    check(enter(&ring, 1, 1, IORING_ENTER_GETEVENTS) == 1 && reap(&ring).res == -EPIPE);
    check(pthread_join(other, NULL) == 0);
    close_pair(ends);
    close_ring(&ring);
}

/* Nobody connects any more to a local socket that was shut down: an accept by it ends with -22, or
 * with -11 where it isn't to wait; and one that goes on waits, whatever it is. A connection that
 * came before is accepted. */
static void test_shut_listener(void)
{
    struct ring ring;
    struct sockaddr_un address;
    make_ring(&ring, 8, 0, 0);
    for (int i = 0; i < 8; i++) {
        bool is_hasty = i & 1, goes_on = i & 2, was_shut = i & 4;
        socklen_t size = sizeof address;
        int listener = make_local_listener(1), caller = socket(AF_UNIX, SOCK_STREAM, 0);
        check(getsockname(listener, (void *)&address, &size) == 0 &&
              fcntl(listener, F_SETFL, is_hasty ? O_NONBLOCK : 0) == 0);
        check(!was_shut ||
              (connect(caller, (void *)&address, size) == 0 && shutdown(listener, SHUT_RD) == 0));
        put_plain(&ring, IORING_OP_ACCEPT, 0, listener)->ioprio = goes_on ? IORING_ACCEPT_MULTISHOT
                                                                          : 0;
        if (was_shut) {
            check(enter(&ring, 1, 0, 0) == 1);
            struct seen seen = next_of(&ring);
            check(seen.res >= 0 && close(seen.res) == 0);
            if (!goes_on)
                put_plain(&ring, IORING_OP_ACCEPT, 0, listener);
            check(enter(&ring, !goes_on, 0, 0) == !goes_on);
        } else {
            expect_waiting(&ring);
            check(shutdown(listener, SHUT_RD) == 0);
        }
        if (!goes_on) {
            check(wait_for_one(&ring) == (is_hasty ? -EAGAIN : -EINVAL));
        } else {
            check(enter_for(&ring, 1, 1000000) == -ETIME);
            put(&ring, IORING_OP_ASYNC_CANCEL, 1, IOSQE_CQE_SKIP_SUCCESS);
            check(enter(&ring, 1, 0, 0) == 1 && next_of(&ring).res == -ECANCELED);
        }
        close(caller);
        close(listener);
    }
    close_ring(&ring);
}

int main(int count, char **words)
{
    static const struct named tests[] = {
        {"shut datagrams", test_shut_datagrams},
        {"shut unwilling", test_shut_unwilling},
        {"shut unasked", test_shut_unasked},
        {"shut writing", test_shut_writing},
        {"shut asleep", test_shut_asleep},
        {"shut listener", test_shut_listener},
    };
    return !are_rings_there()
               ? 0
               : run_tests(tests, sizeof tests / sizeof *tests, count > 1 ? words[1] : NULL);
}
