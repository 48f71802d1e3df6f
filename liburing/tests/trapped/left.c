/* A program that is linked with nothing of ours, and leaves sleeping calls by jumps out of signals'
 * handlers, on small stacks and in coroutines. It is run by uring-run.
 *
 *   left jumps
 *
 * Status 0: all was as it is to be. Else a line says what wasn't.
 */
#define _GNU_SOURCE
#include "../direct/asleep.h"
#include "coroutines.h"
#include "held.h"
#include "modes.h"

#include <pthread.h>
#include <setjmp.h>
#include <signal.h>
#include <time.h>

static sigjmp_buf after_sleep;

static void jump_in_handler(int number)
{
    (void)number;
    siglongjmp(after_sleep, 1);
}

static volatile sig_atomic_t has_left, jumps_of_one;
static pid_t jumper; /* its thread, once it may jump */

/* Sleeps that are left by a jump, each of which the next call notices; then the thread waits to be
 * cancelled. */
static void *jump_and_wait(void *of)
{
    stack_t signals;
    if (sigsetjmp(after_sleep, 1) != 0)
        jumps_of_one++;
    __atomic_store_n(&jumper, gettid(), __ATOMIC_RELEASE);
    if (jumps_of_one < 3)
        enter(of, 0, 1, NULL);
    WANT(enter(of, 0, 0, NULL) == 0);
    WANT(sigaltstack(NULL, &signals) == 0);
    WANT(signals.ss_flags & SS_DISABLE);
    has_left = 1;
    for (;;)
        pause();
    return NULL;
}

static int count_descriptors(void)
{
    int count = 0;
    for (int fd = 0; fd < 65536; fd++)
        count += fcntl(fd, F_GETFD) >= 0;
    return count;
}

static void signal_soon(void)
{
    struct sigevent event = {.sigev_notify = SIGEV_THREAD_ID, .sigev_signo = SIGUSR1};
    const struct itimerspec soon = {.it_value.tv_nsec = 5000000};
    timer_t timer;
    event._sigev_un._tid = gettid();
    WANT(timer_create(CLOCK_MONOTONIC, &event, &timer) == 0 &&
         timer_settime(timer, 0, &soon, NULL) == 0);
}

static struct ring *of_jumps;

/* Sleeps at one place and deeper, by turns, and the calls that notice. */
static void __attribute__((noinline)) leave_sleep(int depth)
{
    volatile char room[200];
    room[0] = 1;
    if (depth > 0)
        leave_sleep(depth - 1);
    else if (sigsetjmp(after_sleep, 1) == 0) {
        signal_soon();
        enter(of_jumps, 0, 1, NULL);
    }
    WANT(room[0] == 1);
}

static void leave_sleeps(void)
{
    for (volatile int i = 0; i < 60; i++) {
        leave_sleep(i % 3);
        WANT(enter(of_jumps, 0, 0, NULL) == 0);
    }
}

static void *leave_in_coroutines(void *of)
{
    stack_t signals;
    of_jumps = of;
    for (int i = 0; i < 2; i++) {
        run_coroutine(65536, leave_sleeps);
        WANT(enter(of, 0, 0, NULL) == 0);
        WANT(sigaltstack(NULL, &signals) == 0);
        WANT(signals.ss_flags & SS_DISABLE);
    }
    return NULL;
}

/* Sleeps once, calls, and closes the ring, which is gone. */
static void leave_and_close(void)
{
    int read, ends[2];
    struct ring ring = set_up(0);
    WANT(
        pipe(ends) == 0 &&
        call(SYS_io_uring_register, ring.fd, IORING_REGISTER_FILES, (long)&ends[1], 1, 0, 0) == 0 &&
        close(ends[1]) == 0);
    read = ends[0];
    WANT(pipe(ends) == 0);
    publish(&ring, (struct io_uring_sqe){
                       .opcode = IORING_OP_POLL_ADD, .fd = ends[0], .poll32_events = POLLIN});
    WANT(enter(&ring, 1, 0, NULL) == 1);
    unmap(&ring);
    of_jumps = &ring;
    leave_sleep(0);
    WANT(enter(&ring, 0, 0, NULL) == 0 && is_held(read));
    WANT(close(ring.fd) == 0 && !is_held(read));
    WANT(close(read) == 0 && close(ends[0]) == 0 && close(ends[1]) == 0);
}

/* A coroutine leaves sleeps by jumps: that takes no descriptors for long, and its thread calls and
 * has no stack for signals after that. */
static void jump_in_coroutines(struct ring *ring)
{
    pthread_t thread;
    run_coroutine(65536, leave_and_close);
    int before = count_descriptors();
    leave_in_coroutines(ring);
    WANT(count_descriptors() <= before + 8);
    WANT(pthread_create(&thread, NULL, leave_in_coroutines, ring) == 0 &&
         pthread_join(thread, NULL) == 0);
    WANT(count_descriptors() <= before + 8);
}

/* A thread with a small stack leaves sleeps by a jump: its ring has no descriptor of theirs any
 * more, and it can be cancelled. */
static void jumps(void)
{
    const struct sigaction action = {.sa_handler = jump_in_handler};
    static struct ring ring;
    pthread_attr_t attributes;
    pthread_t thread;
    struct timespec until;
    int ends[2];
    WANT(sigaction(SIGUSR1, &action, NULL) == 0 && pipe(ends) == 0);
    ring = set_up(0);
    publish(&ring, (struct io_uring_sqe){
                       .opcode = IORING_OP_POLL_ADD, .fd = ends[0], .poll32_events = POLLIN});
    WANT(enter(&ring, 1, 0, NULL) == 1);
    int before = count_descriptors();
    WANT(pthread_attr_init(&attributes) == 0 && pthread_attr_setstacksize(&attributes, 65536) == 0);
    WANT(pthread_create(&thread, &attributes, jump_and_wait, &ring) == 0);
    for (int i = 0; i < 3; i++) {
        while (jumps_of_one < i || !is_asleep(&jumper))
            usleep(1000);
        WANT(pthread_kill(thread, SIGUSR1) == 0);
    }
    while (!has_left)
        usleep(1000);
    WANT(clock_gettime(CLOCK_REALTIME, &until) == 0 && pthread_cancel(thread) == 0);
    until.tv_sec += 60;
    WANT(pthread_timedjoin_np(thread, NULL, &until) == 0 && count_descriptors() <= before + 1);
    jump_in_coroutines(&ring);
}

int main(int argc, char **argv)
{
    static const struct mode modes[] = {{"jumps", jumps}};
    return run_mode(modes, sizeof modes / sizeof *modes, argc, argv);
}
