/* Tests by direct calls: signals whose handler calls, or leaves a call. All hold under every
 * policy. A test that hangs ends by an alarm.
 *
 *   signals [NAME]           with a name: that test alone
 */
#define _GNU_SOURCE
#include "asleep.h"
#include "engines.h"

#include <setjmp.h>
#include <sys/mman.h>
#include <time.h>

static sigjmp_buf outside;

static void jump_out(int number)
{
    siglongjmp(outside, number);
}

__attribute__((noinline)) static void use_stack(void)
{
    volatile char bytes[16384];
    for (size_t i = 0; i < sizeof bytes; i++)
        bytes[i] = 0x5a;
}

/* A handler may leave a call that sleeps by a jump: others' calls wake nobody then, and go on. */
static void test_jump(void)
{
    struct sigaction action = {.sa_handler = jump_out};
    struct ring ring;
    int ends[2];
    char byte;
    check(pipe(ends) == 0);
    make_ring(&ring, 4, 0, 0);
    check(sigaction(SIGUSR2, &action, NULL) == 0);
    put_transfer(&ring, IORING_OP_READ, 0, 0, ends[0], &byte, 1, 0);
    check(enter(&ring, 1, 0, 0) == 1);
    for (volatile int i = 0; i < 3; i++) {
        volatile pid_t child;
        if (sigsetjmp(outside, true) == 0) {
            child = signal_asleep(SIGUSR2);
            check(enter(&ring, 0, 1, IORING_ENTER_GETEVENTS) != 0);
        }
        check(has_signalled(child));
        use_stack();
        submit_nop(&ring, 1);
        check(wait_for_one(&ring) == 0);
    }
    check(write(ends[1], "x", 1) == 1);
    check(wait_for_one(&ring) == 1);
    close_pair(ends);
    close_ring(&ring);
}

static struct ring *called;

static void call_from_signal(int number)
{
    int kept = errno;
    (void)number;
    check(
        enter(called, 0, 0, 0) == 0 && register_at(-1, IORING_REGISTER_PROBE, NULL, 0) == -EINVAL);
    errno = kept;
}

/* Whoever handles a signal may call too, whatever call it comes in. */
static void test_calls_from_signals(void)
{
    enum { ROUNDS = 20000 };
    struct sigaction action = {.sa_handler = call_from_signal, .sa_flags = SA_RESTART};
    struct sigevent event = {.sigev_notify = SIGEV_SIGNAL, .sigev_signo = SIGUSR2};
    struct ring ring, other;
    timer_t timer;
    make_ring(&ring, 4, 0, 0);
    called = &ring;
    check(sigaction(SIGUSR2, &action, NULL) == 0 &&
          timer_create(CLOCK_MONOTONIC, &event, &timer) == 0);
    for (unsigned i = 0; i < ROUNDS; i++) {
        struct itimerspec soon = {.it_value.tv_nsec = 500 + i * 997 % 15000};
        check(timer_settime(timer, 0, &soon, NULL) == 0);
        submit_nop(&ring, 1);
        check(wait_for_one(&ring) == 0);
        if (i % 8 > 0)
            continue;
        make_ring(&other, 4, 0, 0);
        check(register_at(ring.fd, IORING_REGISTER_FILES, &other.fd, 1) == -EBADF);
        close_ring(&other);
    }
    check(timer_delete(timer) == 0);
    close_ring(&ring);
}

static void submit_from_signal(int number)
{
    (void)number;
    submit_nop(called, 7);
}

/* A handler's stack may lie in the thread's own: a sleep goes on after a handler that calls there.
 */
static void test_stack_in_a_stack(void)
{
    char room[65536];
    stack_t stack = {.ss_sp = room, .ss_size = sizeof room}, none = {.ss_flags = SS_DISABLE};
    struct sigaction action = {.sa_handler = submit_from_signal, .sa_flags = SA_ONSTACK};
    struct ring ring, other;
    int ends[2];
    char byte;
    check(pipe(ends) == 0 && sigaltstack(&stack, NULL) == 0);
    make_ring(&ring, 4, 0, 0);
    make_ring(&other, 4, 0, 0);
    called = &other;
    check(sigaction(SIGUSR2, &action, NULL) == 0);
    put_transfer(&ring, IORING_OP_READ, 0, 0, ends[0], &byte, 1, 0);
    check(enter(&ring, 1, 0, 0) == 1);
    pid_t child = signal_asleep(SIGUSR2);
    check(enter(&ring, 0, 1, IORING_ENTER_GETEVENTS) == -EINTR);
    check(wait_for_one(&other) == 0);
    check(has_signalled(child));
    check(write(ends[1], "x", 1) == 1 && wait_for_one(&ring) == 1);
    check(sigaltstack(&none, NULL) == 0);
    close_pair(ends);
    close_ring(&other);
    close_ring(&ring);
}

static pid_t child;

static void fork_from_signal(int number)
{
    (void)number;
    child = fork();
}

/* A child that returns from its parent's sleep leaves the ring as it is. */
static void test_fork_from_signal(void)
{
    struct sigaction action = {.sa_handler = fork_from_signal};
    struct ring ring;
    int ends[2], status = -1;
    char byte;
    check(pipe(ends) == 0);
    make_ring(&ring, 4, 0, 0);
    check(sigaction(SIGUSR2, &action, NULL) == 0);
    put_transfer(&ring, IORING_OP_READ, 0, 0, ends[0], &byte, 1, 0);
    check(enter(&ring, 1, 0, 0) == 1);
    pid_t signaller = signal_asleep(SIGUSR2);
    int result = enter(&ring, 0, 1, IORING_ENTER_GETEVENTS);
    if (child == 0)
        _exit(result == -EINTR && enter(&ring, 0, 0, 0) == -EOPNOTSUPP ? 0 : 1);
    check(result == -EINTR && waitpid(child, &status, 0) == child && status == 0);
    check(has_signalled(signaller));
    check(write(ends[1], "x", 1) == 1 && wait_for_one(&ring) == 1);
    close_pair(ends);
    close_ring(&ring);
}

static volatile sig_atomic_t heard;

static void hear_signal(int number)
{
    (void)number;
    heard++;
}

static long enter_with(const struct ring *ring, unsigned min_complete, const uint64_t *mask)
{
    long result = wulgach_syscall(
        SYS_io_uring_enter, ring->fd, 0u, min_complete, IORING_ENTER_GETEVENTS, mask, sizeof *mask);
    return result < 0 ? -errno : result;
}

/* A signal that waits, and that the mask of a call lets come, ends the call: before time is moved
 * on, and where nothing else could. So does one that nobody hears. */
static void test_waiting_signal(void)
{
    struct sigaction action = {.sa_handler = hear_signal};
    struct __kernel_timespec long_time = {.tv_sec = 100};
    const uint64_t none = 0;
    struct ring ring;
    sigset_t blocked, before;
    make_ring(&ring, 4, 0, 0);
    sigemptyset(&blocked);
    sigaddset(&blocked, SIGUSR2);
    sigaddset(&blocked, SIGWINCH);
    check(sigaction(SIGUSR2, &action, NULL) == 0 &&
          pthread_sigmask(SIG_BLOCK, &blocked, &before) == 0);
    check(raise(SIGUSR2) == 0 && enter_with(&ring, 1, &none) == -EINTR && heard == 1);
    put_transfer(&ring, IORING_OP_TIMEOUT, 5, 0, -1, &long_time, 1, 0);
    check(raise(SIGUSR2) == 0 && enter(&ring, 1, 0, 0) == 1);
    check(enter_with(&ring, 1, &none) == -EINTR && heard == 2 && count_ready(&ring) == 0);
    /* (valgrind drops it) */
    check(is_under_valgrind() || (raise(SIGWINCH) == 0 && enter_with(&ring, 1, &none) == -EINTR &&
                                     heard == 2 && count_ready(&ring) == 0));
    check(enter_with(&ring, 1, &none) == 0);
    struct completion found = reap(&ring);
    check(found.user_data == 5 && found.res == -ETIME);
    check(pthread_sigmask(SIG_SETMASK, &before, NULL) == 0);
    close_ring(&ring);
}

static void *write_once_asleep(void *pipe)
{
    const int *ends = pipe;
    pid_t main_thread = getpid();
    await_sleep(&main_thread);
    check(write(ends[1], "x", 1) == 1);
    return NULL;
}

/* A signal that nobody hears ends no wait, also where it comes amid the call, as this does while it
 * writes. */
static void test_dropped_signal(void)
{
    enum { SIZE = 1 << 26 };
    struct sigevent event = {.sigev_notify = SIGEV_THREAD_ID, .sigev_signo = SIGURG};
    const struct itimerspec soon = {.it_value.tv_nsec = 1000000};
    struct ring ring;
    struct iovec vector = {calloc(1, SIZE), SIZE};
    int ends[2], file = memfd_create("written", MFD_CLOEXEC);
    char byte;
    timer_t timer;
    pthread_t thread;
    make_ring(&ring, 4, 0, 0);
    check(vector.iov_base && file >= 0 && pipe(ends) == 0);
    event._sigev_un._tid = gettid();
    check(timer_create(CLOCK_MONOTONIC, &event, &timer) == 0);
    put_transfer(&ring, IORING_OP_READ, 0, 0, ends[0], &byte, 1, 0);
    check(
        enter(&ring, 1, 0, 0) == 1 && pthread_create(&thread, NULL, write_once_asleep, ends) == 0);
    put_transfer(&ring, IORING_OP_WRITEV, 1, 0, file, &vector, 1, 0);
    check(timer_settime(timer, 0, &soon, NULL) == 0);
    check(enter(&ring, 1, 2, IORING_ENTER_GETEVENTS) == 1 && count_ready(&ring) == 2);
    check(pthread_join(thread, NULL) == 0 && timer_delete(timer) == 0);
    close(file);
    close_pair(ends);
    close_ring(&ring);
    free(vector.iov_base);
}

int main(int count, char **words)
{
    static const struct named tests[] = {
        {"calls from signals", test_calls_from_signals},
        {"jump", test_jump},
        {"stack in a stack", test_stack_in_a_stack},
        {"fork from a signal", test_fork_from_signal},
        {"waiting signal", test_waiting_signal},
        {"dropped signal", test_dropped_signal},
    };
    alarm((unsigned)(PATIENCE * patience()));
    return run_tests(tests, sizeof tests / sizeof *tests, count > 1 ? words[1] : NULL);
}
