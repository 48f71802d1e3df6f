/* A program that is linked with nothing of ours, and closes rings, which reaches the layer beside
 * its calls. It is run by uring-run.
 *
 *   apart closes | handlers | numbers
 *
 * Status 0: all was as it is to be. Else a line says what wasn't.
 */
#define _GNU_SOURCE
#include "../direct/asleep.h"
#include "held.h"
#include "modes.h"

#include <dlfcn.h>
#include <netinet/in.h>
#include <pthread.h>
#include <signal.h>
#include <stdlib.h>
#include <sys/socket.h>
#include <sys/time.h>
#include <sys/wait.h>

static void close_by(int way, int fd)
{
    int other = open("/dev/null", O_RDONLY);
    WANT(other >= 0);
    if (way == 0)
        WANT(close(fd) == 0);
    else if (way == 1)
        WANT(close_range((unsigned)fd, (unsigned)fd, 0) == 0);
    else if (way == 2)
        WANT(dup2(other, fd) == fd && close(fd) == 0);
    else
        WANT(dup3(other, fd, O_CLOEXEC) == fd && close(fd) == 0);
    WANT(close(other) == 0);
}

/* A child of vfork closes its own descriptors, and no ring of its parent's. */
static void close_in_child(int fd)
{
    int status;
    pid_t child = vfork();
    if (child == 0) {
        close(fd);
        close_range((unsigned)fd, (unsigned)fd, 0);
        _exit(0);
    }
    WANT(waitpid(child, &status, 0) == child && status == 0);
}

/* The listener that waits in a ring is gone with that: its port can be bound again. */
static void accepts(void)
{
    struct sockaddr_in at = {.sin_family = AF_INET, .sin_addr.s_addr = htonl(INADDR_LOOPBACK)};
    socklen_t length = sizeof at;
    int listener = socket(AF_INET, SOCK_STREAM, 0);
    WANT(listener >= 0 && bind(listener, (void *)&at, sizeof at) == 0 && listen(listener, 1) == 0 &&
         getsockname(listener, (void *)&at, &length) == 0);
    struct ring ring = set_up(0);
    publish(&ring, (struct io_uring_sqe){.opcode = IORING_OP_ACCEPT, .fd = listener});
    WANT(enter(&ring, 1, 0, NULL) == 1 && close(listener) == 0);
    unmap(&ring);
    WANT(close(ring.fd) == 0);
    listener = socket(AF_INET, SOCK_STREAM, 0);
    WANT(listener >= 0 && bind(listener, (void *)&at, sizeof at) == 0 && close(listener) == 0);
}

static pid_t waiter; /* its thread, once it runs */

static void *wait_in(void *of)
{
    __atomic_store_n(&waiter, gettid(), __ATOMIC_RELEASE);
    WANT(enter(of, 0, 1, NULL) == 0);
    return NULL;
}

/* A ring that a thread waits on is there until its call returns, and no longer. */
static void closed_in_a_call(void)
{
    int read, ends[2];
    pthread_t thread;
    struct ring ring = set_up(0);
    WANT(pipe(ends) == 0);
    int registered[2];
    WANT(pipe(registered) == 0);
    read = registered[0];
    WANT(call(SYS_io_uring_register, ring.fd, IORING_REGISTER_FILES, (long)&registered[1], 1, 0,
             0) == 0 &&
         close(registered[1]) == 0);
    publish(&ring, (struct io_uring_sqe){
                       .opcode = IORING_OP_POLL_ADD, .fd = ends[0], .poll32_events = POLLIN});
    WANT(enter(&ring, 1, 0, NULL) == 1);
    WANT(pthread_create(&thread, NULL, wait_in, &ring) == 0);
    await_sleep(&waiter);
    WANT(close(ring.fd) == 0);
    usleep(20000);
    WANT(is_held(read) && write(ends[1], "x", 1) == 1 && pthread_join(thread, NULL) == 0);
    WANT(!is_held(read));
    unmap(&ring);
}

/* A ring is gone with its last descriptor, however that is closed, and lets go what it has.
 * Liburing's own end of a ring is left to whichever library the program loads. */
static void closes(void)
{
    int read;
    WANT(dlsym(RTLD_DEFAULT, "io_uring_queue_exit") == NULL);
    close_in_child(999);
    for (int way = 0; way < 4; way++) {
        struct ring ring = holding(&read);
        int copy = dup(ring.fd);
        WANT(copy >= 0 && is_held(read));
        close_in_child(ring.fd);
        WANT(is_held(read) && call(SYS_io_uring_enter, copy, 0, 0, 0, 0, 0) == 0);
        close_by(way, ring.fd);
        WANT(is_held(read) && call(SYS_io_uring_enter, copy, 0, 0, 0, 0, 0) == 0);
        close_by(way, copy);
        WANT(!is_held(read) && close(read) == 0);
        ring = holding(&read);
        copy = dup(ring.fd);
        WANT(copy >= 0);
        close_by(way, ring.fd);
        WANT(is_held(read));
        close_by(way, copy);
        WANT(!is_held(read) && close(read) == 0);
    }
    accepts();
    closed_in_a_call();
}

/* ---- a number that a ring has had ---- */

static long call_by_number(int fd)
{
    return call(SYS_io_uring_enter, fd, 0, 0, 0, 0, 0);
}

/* Carries a no-op out on a ring that has made none. */
static void want_no_op(const struct ring *ring)
{
    publish(ring, (struct io_uring_sqe){.opcode = IORING_OP_NOP});
    WANT(enter(ring, 1, 1, NULL) == 1);
    WANT(__atomic_load_n((uint32_t *)(ring->cq + ring->params.cq_off.tail), __ATOMIC_ACQUIRE) == 1);
}

/* After its close it is no ring's, or that of the next, or another file's, though a copy of its
 * descriptor is open. */
static void numbers_of_one(bool has_copy)
{
    int null = open("/dev/null", O_RDONLY);
    struct ring ring = set_up(0);
    int fd = ring.fd, copy = has_copy ? dup(fd) : -1;
    WANT(null >= 0 && call_by_number(fd) == 0 && call_by_number(fd) == 0);
    WANT(close(fd) == 0 && call_by_number(fd) == -9);
    struct ring other = set_up(0);
    WANT(other.fd == fd);
    want_no_op(&other);
    WANT(dup2(null, fd) == fd && call_by_number(fd) == -95);
    WANT(!has_copy ||
         (dup2(copy, fd) == fd && call_by_number(fd) == 0 && call_by_number(copy) == 0));
    WANT(close_range((unsigned)fd, (unsigned)fd, 0) == 0 && call_by_number(fd) == -9);
    if (has_copy) {
        ring.fd = copy;
        want_no_op(&ring);
        WANT(
            dup3(null, copy, O_CLOEXEC) == copy && call_by_number(copy) == -95 && close(copy) == 0);
    }
    WANT(close(null) == 0);
    unmap(&ring);
    unmap(&other);
}

/* A child closes its descriptors, and its parent's are there still. */
static void number_in_child(void)
{
    int status;
    struct ring ring = set_up(0);
    WANT(call_by_number(ring.fd) == 0);
    pid_t child = fork();
    if (child == 0) {
        WANT(close(ring.fd) == 0 && call_by_number(ring.fd) == -9);
        struct ring own = set_up(0);
        WANT(own.fd == ring.fd);
        want_no_op(&own);
        WANT(close(own.fd) == 0 && call_by_number(own.fd) == -9);
        _exit(0);
    }
    WANT(waitpid(child, &status, 0) == child && status == 0);
    close_in_child(ring.fd);
    want_no_op(&ring);
    WANT(close(ring.fd) == 0);
    unmap(&ring);
}

static volatile int is_number_closed;

static void *call_till_closed(void *of)
{
    const struct ring *ring = of;
    long result;
    int was_closed;
    do {
        was_closed = __atomic_load_n(&is_number_closed, __ATOMIC_SEQ_CST);
        result = call_by_number(ring->fd);
        WANT(result == (was_closed ? -9 : result) && (result == 0 || result == -9));
    } while (!was_closed);
    return NULL;
}

/* What another thread calls after a close is refused. */
static void number_of_threads(void)
{
    for (int i = 0; i < 100; i++) {
        pthread_t thread;
        struct ring ring = set_up(0);
        is_number_closed = 0;
        WANT(pthread_create(&thread, NULL, call_till_closed, &ring) == 0);
        usleep((useconds_t)(i * 7));
        WANT(close(ring.fd) == 0);
        __atomic_store_n(&is_number_closed, 1, __ATOMIC_SEQ_CST);
        WANT(pthread_join(thread, NULL) == 0);
        unmap(&ring);
    }
}

static void numbers(void)
{
    for (int i = 0; i < 3; i++) {
        numbers_of_one(false);
        numbers_of_one(true);
    }
    number_in_child();
    number_of_threads();
}

static volatile int closed_in_handler = -1;

static void close_in_handler(int number)
{
    (void)number;
    if (closed_in_handler >= 0)
        WANT(close(closed_in_handler) == 0);
    closed_in_handler = -1;
}

/* Asks for memory and gives it back until a handler has closed a ring. */
static void use_memory(void)
{
    enum { BLOCKS = 50 };
    char *blocks[BLOCKS];
    while (closed_in_handler >= 0) {
        for (int i = 0; i < BLOCKS; i++)
            blocks[i] = malloc(100 + (size_t)i * 400);
        for (int i = 0; i < BLOCKS; i++)
            free(blocks[i]);
    }
}

/* A handler that comes amid malloc or free closes a ring, which lets go what it has. */
static void handlers(void)
{
    struct itimerval timer = {.it_interval.tv_usec = 300, .it_value.tv_usec = 300};
    sigset_t alarms, own;
    sigemptyset(&alarms);
    sigaddset(&alarms, SIGALRM);
    WANT(signal(SIGALRM, close_in_handler) != SIG_ERR && setitimer(ITIMER_REAL, &timer, NULL) == 0);
    for (int turn = 0; turn < 3000; turn++) {
        int read;
        WANT(sigprocmask(SIG_BLOCK, &alarms, &own) == 0);
        closed_in_handler = holding(&read).fd;
        WANT(sigprocmask(SIG_SETMASK, &own, NULL) == 0);
        use_memory();
        WANT(!is_held(read) && close(read) == 0);
    }
}

int main(int argc, char **argv)
{
    static const struct mode modes[] = {
        {"closes", closes}, {"handlers", handlers}, {"numbers", numbers}};
    return run_mode(modes, sizeof modes / sizeof *modes, argc, argv);
}
