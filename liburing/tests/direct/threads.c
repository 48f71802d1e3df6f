/* Tests by direct calls: threads with rings of their own and with one in common, which wait for
 * each other, for signals and for time. All hold under every policy. A test that hangs ends by an
 * alarm.
 */
#define _GNU_SOURCE
#include "asleep.h"
#include "clocks.h"
#include "engines.h"

#include <pthread.h>
#include <signal.h>
#include <sys/eventfd.h>
#include <sys/wait.h>

/* A thread with a ring of its own: chains of three, one after the other. */
static void *work_in_thread(void *none)
{
    struct ring ring;
    int32_t results[3];
    (void)none;
    make_ring(&ring, 4, 0, 0);
    for (int i = 0; i < 200; i++) {
        put(&ring, IORING_OP_NOP, 0, IOSQE_IO_LINK);
        put(&ring, IORING_OP_NOP, 1, IOSQE_IO_HARDLINK);
        put(&ring, IORING_OP_NOP, 2, 0);
        check(enter(&ring, 3, 3, IORING_ENTER_GETEVENTS) == 3);
        reap_all(&ring, 3, results);
        check(results[0] == 0 && results[1] == 0 && results[2] == 0);
    }
    close_ring(&ring);
    return NULL;
}

static void test_threads(void)
{
    pthread_t threads[3];
    for (int i = 0; i < 3; i++)
        check(pthread_create(&threads[i], NULL, work_in_thread, NULL) == 0);
    for (int i = 0; i < 3; i++)
        check(pthread_join(threads[i], NULL) == 0);
}

/* A thread that waits on a ring for what another thread submits. */
static void *wait_in_thread(void *ring)
{
    check(enter(ring, 0, 2, IORING_ENTER_GETEVENTS) == 0);
    return NULL;
}

static void test_shared_ring(void)
{
    struct ring ring;
    int32_t results[2];
    pthread_t waiter;
    make_ring(&ring, 4, 0, 0);
    check(pthread_create(&waiter, NULL, wait_in_thread, &ring) == 0);
    usleep(10000);
    put(&ring, IORING_OP_NOP, 0, 0);
    check(enter(&ring, 1, 0, 0) == 1);
    /* One is there, so that only one was waited for isn't an error. */
    check(enter_for(&ring, 2, 1000000) == 0 && count_ready(&ring) == 1);
    put(&ring, IORING_OP_NOP, 1, 0);
    check(enter(&ring, 1, 0, 0) == 1);
    check(pthread_join(waiter, NULL) == 0);
    reap_all(&ring, 2, results);
    check(results[0] == 0 && results[1] == 0);
    close_ring(&ring);
}

struct sleep {
    struct ring *ring;
    pid_t thread; /* once it runs */
    long result;
};

static void *sleep_in_call(void *sleep)
{
    struct sleep *own = sleep;
    __atomic_store_n(&own->thread, gettid(), __ATOMIC_RELEASE);
    own->result = enter(own->ring, 0, 1, IORING_ENTER_GETEVENTS);
    return NULL;
}

static pthread_t start_sleeper(struct sleep *sleep)
{
    pthread_t thread;
    check(pthread_create(&thread, NULL, sleep_in_call, sleep) == 0);
    await_sleep(&sleep->thread);
    return thread;
}

/* Closes a ring's descriptor while a thread sleeps in a call on it, and sets another ring up. */
static void close_under(struct ring *ring)
{
    struct ring other;
    close(ring->fd);
    make_ring(&other, 4, 0, 0);
    submit_nop(&other, 0);
    check(wait_for_one(&other) == 0);
    close_ring(&other);
    make_ring(&other, 4, 0, 0);
    close_ring(&other);
}

static void test_closed_while_reading(void)
{
    struct ring ring;
    struct sleep sleep = {.ring = &ring};
    char text[4];
    int ends[2];
    check(pipe(ends) == 0);
    make_ring(&ring, 4, 0, 0);
    put_transfer(&ring, IORING_OP_READ, 0, 0, ends[0], text, 4, 0);
    check(enter(&ring, 1, 0, 0) == 1);
    pthread_t thread = start_sleeper(&sleep);
    close_under(&ring);
    check(write(ends[1], "four", 4) == 4);
    check(pthread_join(thread, NULL) == 0);
    check(sleep.result == 0 && reap(&ring).res == 4);
    close_pair(ends);
}

static void ignore_signal(int number)
{
    (void)number;
}

/* A thread that waits with nothing outstanding gets signals, also if its ring's descriptor is
 * closed. */
static void test_closed_while_idle(void)
{
    struct sigaction action = {.sa_handler = ignore_signal};
    struct ring ring;
    struct sleep sleep = {.ring = &ring};
    check(sigaction(SIGUSR1, &action, NULL) == 0);
    make_ring(&ring, 4, 0, 0);
    pthread_t thread = start_sleeper(&sleep);
    close_under(&ring);
    check(pthread_kill(thread, SIGUSR1) == 0);
    check(pthread_join(thread, NULL) == 0);
    check(sleep.result == -EINTR);
}

/* Another thread's submission wakes one that sleeps on a pipe. */
static void test_woken(void)
{
    struct ring ring;
    struct sleep sleep = {.ring = &ring};
    char byte;
    int ends[2];
    check(pipe(ends) == 0);
    make_ring(&ring, 4, 0, 0);
    put_transfer(&ring, IORING_OP_READ, 0, 0, ends[0], &byte, 1, 0);
    check(enter(&ring, 1, 0, 0) == 1);
    pthread_t thread = start_sleeper(&sleep);
    submit_nop(&ring, 1);
    check(pthread_join(thread, NULL) == 0);
    check(sleep.result == 0 && reap(&ring).user_data == 1);
    close(ends[1]);
    check(wait_for_one(&ring) == 0);
    close(ends[0]);
    close_ring(&ring);
}

/* A signal ends a call that sleeps for a read of an empty eventfd: the read goes on waiting, and
 * ends with what comes. */
static void test_interrupted(void)
{
    struct sigaction action = {.sa_handler = ignore_signal};
    struct ring ring;
    struct sleep sleep = {.ring = &ring};
    uint64_t count;
    int fd = eventfd(0, 0);
    check(fd >= 0 && sigaction(SIGUSR1, &action, NULL) == 0);
    make_ring(&ring, 4, 0, 0);
    put_transfer(&ring, IORING_OP_READ, 0, 0, fd, &count, sizeof count, 0);
    check(enter(&ring, 1, 0, 0) == 1);
    pthread_t thread = start_sleeper(&sleep);
    check(pthread_kill(thread, SIGUSR1) == 0);
    check(pthread_join(thread, NULL) == 0);
    check(sleep.result == -EINTR && count_ready(&ring) == 0);
    check(eventfd_write(fd, 3) == 0);
    check(wait_for_one(&ring) == 8 && count == 3);
    close(fd);
    close_ring(&ring);
}

/* Reads until it is cancelled, which is asked for after each call alone. */
struct reader {
    struct ring *ring;
    int file;
    char bytes[4096];
};

static void *read_until_cancelled(void *reader)
{
    struct ring *ring = ((struct reader *)reader)->ring;
    char *bytes = ((struct reader *)reader)->bytes;
    int file = ((struct reader *)reader)->file;
    check(pwrite(file, bytes, 4096, 0) == 4096);
    for (bool is_on = true; is_on;) {
        put_transfer(ring, IORING_OP_READ, 0, IOSQE_IO_LINK, file, bytes, 4096, 0);
        put(ring, IORING_OP_FSYNC, 1, 0)->fd = file;
        check(enter(ring, 2, 2, IORING_ENTER_GETEVENTS) == 2);
        check(reap(ring).res == 4096 && reap(ring).res == 0);
        pthread_testcancel();
    }
    return NULL;
}

/* A call isn't ended by a cancellation of its thread, and so the ring isn't left in the middle of
 * one. */
static void test_cancelled(void)
{
    for (int i = 0; i < 20; i++) {
        struct ring ring;
        struct reader reader = {&ring, make_file(), ""};
        pthread_t thread;
        void *result;
        make_ring(&ring, 4, 0, 0);
        check(pthread_create(&thread, NULL, read_until_cancelled, &reader) == 0);
        usleep(2000);
        check(pthread_cancel(thread) == 0 && pthread_join(thread, &result) == 0 &&
              result == PTHREAD_CANCELED);
        submit_nop(&ring, 2);
        check(wait_for_one(&ring) == 0 && is_at_rest(&ring));
        close(reader.file);
        close_ring(&ring);
    }
}

static void *stay(void *ends)
{
    char byte;
    check(read(*(int *)ends, &byte, 1) == 0);
    return NULL;
}

/* Beside another thread, a wait with a limit past a second sleeps as long. */
static void test_limit_beside_threads(void)
{
    struct ring ring;
    pthread_t thread;
    int ends[2];
    check(pipe(ends) == 0 && pthread_create(&thread, NULL, stay, ends) == 0);
    make_ring(&ring, 4, 0, 0);
    int64_t start = real_time();
    check(enter_for(&ring, 1, 1050000000) == -ETIME);
    check(real_time() - start >= 1050000000);
    close(ends[1]);
    check(pthread_join(thread, NULL) == 0);
    close(ends[0]);
    close_ring(&ring);
}

/* A call that couldn't submit all doesn't wait. */
static void test_not_all_submitted(void)
{
    struct ring ring;
    char byte;
    int ends[2];
    check(pipe(ends) == 0);
    make_ring(&ring, 4, 0, 0);
    put_transfer(&ring, IORING_OP_READ, 0, 0, ends[0], &byte, 1, 0);
    check(enter(&ring, 2, 1, IORING_ENTER_GETEVENTS) == 1);
    close(ends[1]);
    check(wait_for_one(&ring) == 0);
    close(ends[0]);
    close_ring(&ring);
}

/* A cell is written before the tail that shows it: another thread looks at the newest cell at once.
 */
static void *look_at_newest(void *of)
{
    struct ring *ring = of;
    const struct io_uring_cqe *cells = (const void *)(ring->cq + ring->params.cq_off.cqes);
    const unsigned *tail = cq_word(ring, ring->params.cq_off.tail);
    unsigned seen;
    while ((seen = __atomic_load_n(tail, __ATOMIC_ACQUIRE)) < 30000)
        check(seen == 0 || cells[(seen - 1) & (ring->params.cq_entries - 1)].user_data >= seen - 1);
    return NULL;
}

static void test_cells_before_tail(void)
{
    /* (under valgrind a longer one takes too long by Linux's rules) */
    enum { CHAIN = 50 };
    struct ring ring;
    pthread_t thread;
    make_ring(&ring, 256, 512, 0);
    check(pthread_create(&thread, NULL, look_at_newest, &ring) == 0);
    for (unsigned i = 0; i < 30000; i += CHAIN) {
        for (unsigned j = 0; j < CHAIN; j++)
            put(&ring, IORING_OP_NOP, i + j, j < CHAIN - 1 ? IOSQE_IO_LINK : 0);
        check(enter(&ring, CHAIN, CHAIN, IORING_ENTER_GETEVENTS) == CHAIN);
        for (unsigned j = 0; j < CHAIN; j++)
            check(reap(&ring).user_data == i + j);
    }
    check(pthread_join(thread, NULL) == 0);
    close_ring(&ring);
}

/* The first thread of the process has ended: memory is copied, and descriptors are named, as
 * before. */
static void *use_ring_alone(void *first)
{
    struct ring ring, other;
    char byte;
    struct iovec vector = {&byte, 1};
    int file = make_file();
    check(pthread_join(*(pthread_t *)first, NULL) == 0);
    make_ring(&ring, 4, 0, 0);
    int copy = dup(ring.fd);
    close(ring.fd);
    ring.fd = copy;
    make_ring(&other, 4, 0, 0);
    check(write(file, "x", 1) == 1);
    put_transfer(&ring, IORING_OP_READV, 0, 0, file, &vector, 1, 0);
    check(enter(&ring, 1, 1, IORING_ENTER_GETEVENTS) == 1 && reap(&ring).res == 1 && byte == 'x');
    check(register_at(ring.fd, IORING_REGISTER_EVENTFD, &file, 1) == -EINVAL);
    exit(0);
}

static void test_first_has_ended(void)
{
    static pthread_t first;
    pthread_t thread;
    int status;
    pid_t child = fork();
    if (child == 0) {
        first = pthread_self();
        check(pthread_create(&thread, NULL, use_ring_alone, &first) == 0);
        pthread_exit(NULL);
    }
    check(waitpid(child, &status, 0) == child && status == 0);
}

int main(int count, char **words)
{
    static const struct named tests[] = {
        {"threads", test_threads},
        {"shared ring", test_shared_ring},
        {"closed while reading", test_closed_while_reading},
        {"closed while idle", test_closed_while_idle},
        {"woken", test_woken},
        {"interrupted", test_interrupted},
        {"cancelled", test_cancelled},
        {"limit beside threads", test_limit_beside_threads},
        {"not all submitted", test_not_all_submitted},
        {"cells before tail", test_cells_before_tail},
        {"first has ended", test_first_has_ended},
    };
    alarm((unsigned)(PATIENCE * patience()));
    return run_tests(tests, sizeof tests / sizeof *tests, count > 1 ? words[1] : NULL);
}
