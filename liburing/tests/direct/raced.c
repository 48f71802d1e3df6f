/* Tests of a ring's descriptor that polls, beside what others do while a call looks or sleeps. All
 * hold under every policy. They are run with WULGACH_TEST_POLLED. The layer's calls of poll,
 * epoll_wait and epoll_pwait2 go through the wrapped ones of this program, after and before which
 * it does what another thread might do just then.
 *
 *   raced [NAME]             with a name: that test alone
 */
#define _GNU_SOURCE
#include "polled.h"

#include <semaphore.h>

/* What a pipe had while nobody called makes the descriptor readable too, and wakes a thread that
 * sleeps in a call. */
static unsigned later;

static void *write_and_read_later(void *of)
{
    const int *ends = of;
    char byte;
    usleep(later);
    check(write(ends[1], "x", 1) == 1 && read(ends[0], &byte, 1) == 1);
    return NULL;
}

static void submit_poll(struct ring *ring, int fd)
{
    struct io_uring_sqe *entry = put(ring, IORING_OP_POLL_ADD, 0, 0);
    entry->fd = fd;
    entry->poll32_events = POLLIN;
    check(enter(ring, 1, 0, 0) == 1);
    check(enter_for(ring, 1, 1000) == -ETIME && !is_readable(ring, 0));
}

static void test_come_and_gone(void)
{
    struct ring ring;
    pthread_t thread;
    int ends[2];
    check(pipe(ends) == 0);
    make_ring(&ring, 4, 0, 0);
    for (unsigned round = 0; round < 60; round++) {
        bool is_asleep = round % 2;
        later = round < 4 ? 20000 : round * 7 % 50;
        submit_poll(&ring, ends[0]);
        if (is_asleep) {
            check(pthread_create(&thread, NULL, write_and_read_later, ends) == 0);
        } else {
            write_and_read_later(ends);
            check(is_readable(&ring, 0));
        }
        check(enter(&ring, 0, 1, IORING_ENTER_GETEVENTS) == 0);
        check(reap(&ring).res == POLLIN);
        if (is_asleep)
            check(pthread_join(thread, NULL) == 0);
        check(enter(&ring, 0, 0, IORING_ENTER_GETEVENTS) == 0 && !is_readable(&ring, 0));
    }
    close_pair(ends);
    close_ring(&ring);
}

/* The pipe that another thread seems to use: it is written to after the first look of the layer
 * that finds nothing after so many, and read after the first that finds something after so many. A
 * negative number: it isn't. */
static const int *raced;
static int until_write, until_read;

/* And the edges by which another thread seems to be told of a ring are taken after each look. */
static bool is_taking_edges;
static unsigned count_edges(void);

/* The ring's descriptor, which another thread closes in a call's first look, or -1: then its number
 * is of an epoll instance of the program's own. */
static int closed_in_look = -1;

static void reopen(void)
{
    int fd = closed_in_look;
    closed_in_look = -1;
    if (fd >= 0)
        check(close(fd) == 0 && epoll_create1(EPOLL_CLOEXEC) == fd);
}

static int use_pipe(int result)
{
    char byte;
    reopen();
    if (is_taking_edges)
        count_edges();
    if (raced && result == 0 && until_write-- == 0)
        check(write(raced[1], "x", 1) == 1);
    else if (raced && result > 0 && until_read-- == 0)
        check(read(raced[0], &byte, 1) == 1);
    return result;
}

int __real_poll(struct pollfd *polled, nfds_t count, int patience);
int __wrap_poll(struct pollfd *polled, nfds_t count, int patience)
{
    return use_pipe(__real_poll(polled, count, patience));
}

int __real_epoll_wait(int fd, struct epoll_event *events, int most, int patience);
int __wrap_epoll_wait(int fd, struct epoll_event *events, int most, int patience)
{
    return use_pipe(__real_epoll_wait(fd, events, most, patience));
}

/* Whatever look of a call it is after which a pipe is read that was written to, before the call or
 * in it: the poll ends, and until it has the descriptor is readable. Beside so many that wait it is
 * the same. */
static void gone_after_a_look(unsigned others)
{
    struct ring ring;
    int ends[2], quiet[2];
    char byte;
    check(pipe2(ends, O_NONBLOCK) == 0 && pipe(quiet) == 0);
    make_ring(&ring, 64, 0, 0);
    for (unsigned i = 0; i < others; i++) {
        struct io_uring_sqe *entry = put(&ring, IORING_OP_POLL_ADD, 0, 0);
        entry->fd = quiet[0];
        entry->poll32_events = POLLIN;
    }
    check(enter(&ring, others, 0, 0) == (long)others);
    for (int round = 0; round < 16; round++) {
        bool is_written_before = round & 1, is_waiting = round & 2;
        submit_poll(&ring, ends[0]);
        if (is_written_before)
            check(write(ends[1], "x", 1) == 1);
        until_write = is_written_before ? -1 : 0;
        until_read = round / 4;
        raced = ends;
        long result = is_waiting ? enter_for(&ring, 1, 1000000000)
                                 : enter(&ring, 0, 0, IORING_ENTER_GETEVENTS);
        raced = NULL;
        check(result == 0);
        (void)!read(ends[0], &byte, 1);
        if (!is_waiting) {
            check(is_readable(&ring, 0));
            check(enter_for(&ring, 1, 1000000000) == 0);
        }
        check(reap(&ring).res == POLLIN && count_ready(&ring) == 0);
    }
    close_pair(ends);
    close_pair(quiet);
    close_ring(&ring);
}

static void test_gone_after_a_look(void)
{
    gone_after_a_look(0);
    gone_after_a_look(40);
}

/* A sleep that is to begin: it is held until it may. */
static sem_t begins, may_begin;
static bool is_held;

int __real_epoll_pwait2(int fd, struct epoll_event *events, int most, const struct timespec *time,
    const sigset_t *signals);
int __wrap_epoll_pwait2(int fd, struct epoll_event *events, int most, const struct timespec *time,
    const sigset_t *signals)
{
    if (__atomic_exchange_n(&is_held, false, __ATOMIC_ACQ_REL)) {
        check(sem_post(&begins) == 0);
        check(sem_wait(&may_begin) == 0);
    }
    return __real_epoll_pwait2(fd, events, most, time, signals);
}

static void *wait_long(void *ring)
{
    check(enter_for(ring, 1, 5000000000 * patience()) == 0);
    return NULL;
}

/* What comes and goes while one thread begins to sleep is heard in another's call: that wakes the
 * first. */
static void test_heard_by_another(void)
{
    struct ring ring;
    pthread_t thread;
    int ends[2];
    check(pipe(ends) == 0 && sem_init(&begins, 0, 0) == 0 && sem_init(&may_begin, 0, 0) == 0);
    make_ring(&ring, 4, 0, 0);
    for (int round = 0; round < 4; round++) {
        submit_poll(&ring, ends[0]);
        is_held = true;
        check(pthread_create(&thread, NULL, wait_long, &ring) == 0);
        check(sem_wait(&begins) == 0);
        later = 0;
        write_and_read_later(ends);
        check(enter(&ring, 0, 0, 0) == 0);
        check(sem_post(&may_begin) == 0);
        check(pthread_join(thread, NULL) == 0);
        check(reap(&ring).res == POLLIN);
    }
    close_pair(ends);
    close_ring(&ring);
}

/* A number that was a ring's descriptor is another epoll instance's by now. */
static void take_number(int fd)
{
    check(close(fd) == 0 && epoll_create1(EPOLL_CLOEXEC) == fd);
}

/* A ring is called by one of two descriptors while that is closed, or was called last by it: nobody
 * waits for a pipe any more, so the other isn't readable once it is written to. */
static void test_two_descriptors(void)
{
    struct io_uring_sync_cancel_reg any = {.flags = IORING_ASYNC_CANCEL_ANY, .timeout = {-1, -1}};
    for (int is_asleep = 0; is_asleep < 2; is_asleep++) {
        struct ring ring, other;
        pthread_t thread;
        char byte;
        int ends[2];
        check(pipe(ends) == 0 && sem_init(&begins, 0, 0) == 0 && sem_init(&may_begin, 0, 0) == 0);
        make_ring(&ring, 4, 0, 0);
        other = ring;
        other.fd = dup(ring.fd);
        put_transfer(&ring, IORING_OP_READ, 0, 0, ends[0], &byte, 1, 0);
        check(enter(&other, 1, 0, 0) == 1 && enter_for(&other, 1, 1000) == -ETIME &&
              !is_readable(&ring, 0));
        if (is_asleep) {
            is_held = true;
            check(pthread_create(&thread, NULL, wait_long, &other) == 0);
            check(sem_wait(&begins) == 0);
            take_number(other.fd);
            check(write(ends[1], "x", 1) == 1 && sem_post(&may_begin) == 0);
            check(pthread_join(thread, NULL) == 0);
        } else {
            take_number(other.fd);
            check(register_at(ring.fd, IORING_REGISTER_SYNC_CANCEL, &any, 1) == 1);
        }
        check(is_readable(&ring, 0) && reap_by_peeks(&ring) == 1);
        check(write(ends[1], "x", 1) == 1 && !is_readable(&ring, 20));
        close(other.fd);
        close_pair(ends);
        close_ring(&ring);
    }
}

/* A completion is posted after the look of another thread that was told of the call by an edge: it
 * is told by another. */
static int told_by_edges = -1;

static unsigned count_edges(void)
{
    struct epoll_event found;
    unsigned count = 0;
    while (told_by_edges >= 0 && __real_epoll_wait(told_by_edges, &found, 1, 0) == 1)
        count++;
    return count;
}

static void *do_nothing(void *semaphore)
{
    check(sem_wait(semaphore) == 0);
    return NULL;
}

static void tell_by_edges(void)
{
    struct ring ring;
    struct epoll_event event = {.events = EPOLLIN | EPOLLET};
    char byte;
    int ends[2];
    check(pipe(ends) == 0);
    make_ring(&ring, 4, 0, 0);
    int loop = epoll_create1(EPOLL_CLOEXEC);
    check(loop >= 0 && epoll_ctl(loop, EPOLL_CTL_ADD, ring.fd, &event) == 0);
    for (int round = 0; round < 4; round++) {
        check(write(ends[1], "x", 1) == 1);
        put_transfer(&ring, IORING_OP_READ, 0, 0, ends[0], &byte, 1, 0);
        told_by_edges = loop;
        is_taking_edges = true;
        check(enter(&ring, 1, 1, IORING_ENTER_GETEVENTS) == 1);
        is_taking_edges = false;
        check(count_ready(&ring) == 1 && count_edges() > 0);
        reap(&ring);
    }
    told_by_edges = -1;
    close(loop);
    close_pair(ends);
    close_ring(&ring);
}

static void test_edges(void)
{
    pthread_t thread;
    tell_by_edges();
    check(sem_init(&may_begin, 0, 0) == 0 &&
          pthread_create(&thread, NULL, do_nothing, &may_begin) == 0);
    tell_by_edges();
    check(sem_post(&may_begin) == 0 && pthread_join(thread, NULL) == 0);
}

/* How many descriptors an epoll instance has. */
static unsigned count_polled(int instance)
{
    char path[64], line[256];
    unsigned count = 0;
    snprintf(path, sizeof path, "/proc/self/fdinfo/%d", instance);
    FILE *told = fopen(path, "re");
    check(told != NULL);
    while (fgets(line, sizeof line, told))
        count += strncmp(line, "tfd:", 4) == 0;
    fclose(told);
    return count;
}

/* A call that doesn't sleep has its descriptor closed meanwhile, and its number is another's: that
 * is left alone, however many wait. */
static void reopened(unsigned others)
{
    struct ring ring;
    int quiet[2];
    check(pipe(quiet) == 0);
    make_ring(&ring, 64, 0, 0);
    int copy = dup(ring.fd), first = ring.fd;
    check(copy >= 0);
    for (unsigned i = 0; i < others; i++) {
        struct io_uring_sqe *entry = put(&ring, IORING_OP_POLL_ADD, 0, 0);
        entry->fd = quiet[0];
        entry->poll32_events = POLLIN;
    }
    closed_in_look = ring.fd;
    check(enter(&ring, others, 0, IORING_ENTER_GETEVENTS) == (long)others);
    check(closed_in_look < 0 && count_polled(first) == 0);
    ring.fd = copy;
    check(enter_for(&ring, 1, 1000) == -ETIME && !is_readable(&ring, 0));
    check(write(quiet[1], "x", 1) == 1 && is_readable(&ring, 1000));
    close(first);
    close_pair(quiet);
    close_ring(&ring);
}

static void test_reopened(void)
{
    reopened(1);
    reopened(40);
}

int main(int count, char **words)
{
    static const struct named tests[] = {
        {"come and gone", test_come_and_gone},
        {"gone after a look", test_gone_after_a_look},
        {"heard by another", test_heard_by_another},
        {"two descriptors", test_two_descriptors},
        {"edges", test_edges},
        {"reopened", test_reopened},
    };
    alarm((unsigned)(PATIENCE * patience()));
    return run_tests(tests, sizeof tests / sizeof *tests, count > 1 ? words[1] : NULL);
}
