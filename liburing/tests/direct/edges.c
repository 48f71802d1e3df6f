/* Tests of who waits for the edges of a ring's descriptor that polls (EPOLLET), by direct calls.
 * All hold under every policy. They are run with WULGACH_TEST_POLLED, and with WULGACH_EDGES=no
 * too: then nobody is told of a completion that comes while the descriptor is readable.
 *
 *   edges [NAME]             with a name: that test alone
 */
#define _GNU_SOURCE
#include "polled.h"

#include <sys/socket.h>
#include <sys/wait.h>

enum { MANY = 3000, ROUNDS = 5 };

/* Whether each call that posts is told. */
static bool is_told_anew(void)
{
    const char *word = getenv("WULGACH_EDGES");
    return !word || strcmp(word, "no") != 0;
}

/* A call in which one completion is posted, or more, and none of another call. */
static void post(struct ring *ring)
{
    put(ring, IORING_OP_NOP, 0, 0);
    check(enter(ring, 1, count_ready(ring) + 1, IORING_ENTER_GETEVENTS) == 1);
}

/* An epoll instance that waits for a descriptor: for its edges, or for a level. */
static int wait_on(int fd, uint32_t edges)
{
    struct epoll_event event = {.events = EPOLLIN | edges};
    int loop = epoll_create1(EPOLL_CLOEXEC);
    check(loop >= 0 && epoll_ctl(loop, EPOLL_CTL_ADD, fd, &event) == 0);
    return loop;
}

static int count_told(int loop, int patience)
{
    struct epoll_event found;
    return epoll_wait(loop, &found, 1, patience);
}

/* It is told of what there is as it begins to wait, once, and then of each call that posts, where a
 * completion is reaped after each, as `is_reaping` says, and where none is. */
static void hear_calls(struct ring *ring, int loop, bool is_reaping)
{
    count_told(loop, 0);
    check(count_told(loop, 0) == 0);
    for (int i = 0; i < ROUNDS; i++) {
        post(ring);
        check(count_told(loop, 0) == is_told_anew() && count_told(loop, 0) == 0 &&
              is_readable(ring, 0));
        while (is_reaping && count_ready(ring) > 0)
            reap(ring);
    }
}

/* Thousands of requests come before anybody waits. */
static void make_used_ring(struct ring *ring)
{
    make_ring(ring, 64, 0, 0);
    for (int i = 0; i < MANY; i++) {
        post(ring);
        reap(ring);
    }
    post(ring);
}

static void test_late(void)
{
    struct ring ring;
    make_used_ring(&ring);
    int loop = wait_on(ring.fd, EPOLLET);
    hear_calls(&ring, loop, true);
    hear_calls(&ring, loop, false);
    close(loop);
    close_ring(&ring);
}

/* One that waits for a level first, and for edges then. */
static void test_changed(void)
{
    struct ring ring;
    struct epoll_event event = {.events = EPOLLIN | EPOLLET};
    make_used_ring(&ring);
    int loop = wait_on(ring.fd, 0);
    check(count_told(loop, 0) == 1 && count_told(loop, 0) == 1);
    check(epoll_ctl(loop, EPOLL_CTL_MOD, ring.fd, &event) == 0);
    hear_calls(&ring, loop, true);
    close(loop);
    close_ring(&ring);
}

static void test_copy(void)
{
    struct ring ring;
    make_used_ring(&ring);
    int copy = dup(ring.fd), loop = wait_on(copy, EPOLLET);
    hear_calls(&ring, loop, true);
    close(loop);
    close(copy);
    close_ring(&ring);
}

/* An instance within another: its level is the ring's, and its edges are. */
static void test_nested(void)
{
    struct ring ring;
    make_used_ring(&ring);
    int inner = wait_on(ring.fd, 0), outer = wait_on(inner, EPOLLET);
    hear_calls(&ring, outer, true);
    close(outer);
    close(inner);
    close_ring(&ring);
}

/* After a call by which it isn't readable any more, each is told that it is. */
static void test_readable_again(void)
{
    struct ring ring;
    make_used_ring(&ring);
    int loop = wait_on(ring.fd, EPOLLET);
    for (int i = 0; i < ROUNDS; i++) {
        check(reap_by_peeks(&ring) == 1 && !is_readable(&ring, 0));
        count_told(loop, 0);
        post(&ring);
        check(count_told(loop, 0) == 1 && count_told(loop, 0) == 0);
    }
    close(loop);
    close_ring(&ring);
}

/* ---- other threads and processes ---- */

struct sleeper {
    int loop, told;
};

static void *sleep_for_edge(void *at)
{
    struct sleeper *sleeper = at;
    sleeper->told = count_told(sleeper->loop, -1);
    return NULL;
}

/* A thread sleeps, as it has heard all: it is woken by the next call that makes the descriptor
 * readable. */
static void test_asleep(void)
{
    struct ring ring;
    pthread_t thread;
    make_used_ring(&ring);
    struct sleeper sleeper = {.loop = wait_on(ring.fd, EPOLLET)};
    for (int i = 0; i < ROUNDS; i++) {
        check(reap_by_peeks(&ring) == 1 && !is_readable(&ring, 0));
        while (count_told(sleeper.loop, 0) > 0)
            ;
        check(pthread_create(&thread, NULL, sleep_for_edge, &sleeper) == 0);
        usleep(1000);
        post(&ring);
        check(pthread_join(thread, NULL) == 0 && sleeper.told == 1);
    }
    close(sleeper.loop);
    close_ring(&ring);
}

static void send_byte(int socket, char byte)
{
    check(write(socket, &byte, 1) == 1);
}

static char receive_byte(int socket)
{
    char byte = 0;
    check(read(socket, &byte, 1) == 1);
    return byte;
}

/* Another process waits for edges: it says what it was told of each call. (where the test fails it
 * ends, as no byte comes) */
static void hear_for(int socket, int fd)
{
    int loop = wait_on(fd, EPOLLET);
    while (count_told(loop, 0) > 0)
        ;
    send_byte(socket, 'b');
    for (int i = 0; i < ROUNDS; i++) {
        receive_byte(socket);
        send_byte(socket, (char)('0' + count_told(loop, 0)));
    }
    _exit(0);
}

static void post_for(struct ring *ring, int socket, pid_t child)
{
    int status;
    check(receive_byte(socket) == 'b');
    for (int i = 0; i < ROUNDS; i++) {
        post(ring);
        send_byte(socket, 'p');
        check(receive_byte(socket) == (is_told_anew() ? '1' : '0'));
        reap(ring);
    }
    check(waitpid(child, &status, 0) == child && status == 0);
}

static void test_child(void)
{
    struct ring ring;
    int ends[2];
    check(socketpair(AF_UNIX, SOCK_STREAM, 0, ends) == 0);
    make_used_ring(&ring);
    pid_t child = fork();
    close(ends[child != 0]);
    if (child == 0)
        hear_for(ends[1], ring.fd);
    post_for(&ring, ends[0], child);
    close(ends[0]);
    close_ring(&ring);
}

/* ---- a descriptor that is sent ---- */

union control {
    struct cmsghdr head;
    char bytes[CMSG_SPACE(sizeof(int))];
};

static void send_descriptor(int socket, int fd)
{
    char byte = 'd';
    union control control = {
        .head = {
            .cmsg_len = CMSG_LEN(sizeof fd), .cmsg_level = SOL_SOCKET, .cmsg_type = SCM_RIGHTS}};
    struct iovec vector = {&byte, 1};
    struct msghdr message = {.msg_iov = &vector,
        .msg_iovlen = 1,
        .msg_control = &control,
        .msg_controllen = sizeof control};
    memcpy(CMSG_DATA(&control.head), &fd, sizeof fd);
    check(sendmsg(socket, &message, 0) == 1);
}

static int receive_descriptor(int socket)
{
    char byte;
    int fd = -1;
    union control control;
    struct iovec vector = {&byte, 1};
    struct msghdr message = {.msg_iov = &vector,
        .msg_iovlen = 1,
        .msg_control = &control,
        .msg_controllen = sizeof control};
    check(recvmsg(socket, &message, 0) == 1 && message.msg_controllen >= CMSG_LEN(sizeof fd));
    memcpy(&fd, CMSG_DATA(&control.head), sizeof fd);
    return fd;
}

/* A process that was there before the ring is sent its descriptor. */
static void test_sent(void)
{
    struct ring ring;
    int ends[2];
    check(socketpair(AF_UNIX, SOCK_STREAM, 0, ends) == 0);
    pid_t child = fork();
    close(ends[child != 0]);
    if (child == 0)
        hear_for(ends[1], receive_descriptor(ends[1]));
    make_used_ring(&ring);
    send_descriptor(ends[0], ring.fd);
    post_for(&ring, ends[0], child);
    close(ends[0]);
    close_ring(&ring);
}

int main(int count, char **words)
{
    static const struct named tests[] = {
        {"late", test_late},
        {"changed", test_changed},
        {"copy", test_copy},
        {"nested", test_nested},
        {"readable again", test_readable_again},
        {"asleep", test_asleep},
        {"child", test_child},
        {"sent", test_sent},
    };
    alarm((unsigned)(PATIENCE * patience()));
    return run_tests(tests, sizeof tests / sizeof *tests, count > 1 ? words[1] : NULL);
}
