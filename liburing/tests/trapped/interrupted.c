/* A program that is linked with nothing of ours, whose signals' handlers call on its ring or leave
 * a wait by a jump, or whose thread is cancelled. It is run by uring-run.
 *
 *   interrupted handlers | first | cancels | jumps
 *
 * Status 0: all was as it is to be. Else a line says what wasn't.
 */
#define _GNU_SOURCE
#include "modes.h"
#include "trapped.h"

#include <fcntl.h>
#include <pthread.h>
#include <setjmp.h>
#include <signal.h>
#include <stdlib.h>
#include <sys/resource.h>
#include <sys/time.h>
#include <sys/wait.h>

static void raise_often(long microseconds, long again)
{
    const struct itimerval often = {.it_value.tv_usec = microseconds, .it_interval.tv_usec = again};
    WANT(setitimer(ITIMER_REAL, &often, NULL) == 0);
}

static void catch (void (*handler)(int))
{
    const struct sigaction action = {.sa_handler = handler, .sa_flags = SA_RESTART};
    WANT(sigaction(SIGALRM, &action, NULL) == 0);
}

static const struct ring *called;
static volatile sig_atomic_t calls;

static void call_in_handler(int number)
{
    (void)number;
    WANT(enter(called, 0, 0, NULL) == 0);
    calls++;
}

/* Whoever handles a signal may call, whatever trapped call it comes in. */
static void handlers(void)
{
    int ends[2];
    struct ring ring = set_up(0);
    called = &ring;
    WANT(pipe(ends) == 0);
    catch (call_in_handler);
    raise_often(53, 53);
    for (int i = 0; i < 3000; i++) {
        struct io_uring_params params = {0};
        WANT(call(SYS_io_uring_register, ring.fd, IORING_REGISTER_FILES, (long)ends, 2, 0, 0) == 0);
        WANT(call(SYS_io_uring_register, ring.fd, IORING_UNREGISTER_FILES, 0, 0, 0, 0) == 0);
        WANT(i % 64 > 0 || close((int)call(SYS_io_uring_setup, 4, (long)&params, 0, 0, 0, 0)) == 0);
    }
    raise_often(0, 0);
    WANT(calls > 0);
}

static void set_up_in_handler(int number)
{
    struct io_uring_params params = {0};
    (void)number;
    WANT(close((int)call(SYS_io_uring_setup, 4, (long)&params, 0, 0, 0, 0)) == 0);
    calls++;
}

/* A handler may make a ring while the program makes its first one. (a child that hangs takes the
 * processor's time, and is ended for that) */
static void first(void)
{
    const struct rlimit limit = {5, 5};
    catch (set_up_in_handler);
    for (long after = 50; after <= 1000; after += 50) {
        int status;
        pid_t child = fork();
        if (child == 0) {
            WANT(setrlimit(RLIMIT_CPU, &limit) == 0);
            raise_often(after, 0);
            set_up(0);
            while (calls == 0)
                continue;
            _exit(0);
        }
        WANT(waitpid(child, &status, 0) == child && status == 0);
    }
}

static void *set_up_until_cancelled(void *is_begun)
{
    pthread_setcanceltype(PTHREAD_CANCEL_ASYNCHRONOUS, NULL);
    __atomic_store_n((bool *)is_begun, true, __ATOMIC_SEQ_CST);
    set_up(0);
    pause();
    return NULL;
}

/* A thread may be cancelled at any place of the program's first set-up, and others make rings then.
 */
static void cancels(void)
{
    const struct rlimit limit = {5, 5};
    for (int after = 0; after <= 1000; after += 50) {
        int status;
        pid_t child = fork();
        if (child == 0) {
            bool is_begun = false;
            pthread_t thread;
            WANT(setrlimit(RLIMIT_CPU, &limit) == 0 &&
                 pthread_create(&thread, NULL, set_up_until_cancelled, &is_begun) == 0);
            while (!__atomic_load_n(&is_begun, __ATOMIC_SEQ_CST))
                continue;
            usleep((unsigned)after);
            WANT(pthread_cancel(thread) == 0 && pthread_join(thread, NULL) == 0);
            set_up(0);
            _exit(0);
        }
        WANT(waitpid(child, &status, 0) == child && status == 0);
    }
}

static sigjmp_buf back;

static void jump(int number)
{
    siglongjmp(back, number);
}

/* A wait is left by a jump, again and again: what a sleep takes is given back. */
static void jumps(void)
{
    int ends[2];
    volatile int number = 0;
    struct ring ring = set_up(0);
    WANT(pipe(ends) == 0);
    catch (jump);
    publish(&ring, (struct io_uring_sqe){
                       .opcode = IORING_OP_POLL_ADD, .fd = ends[0], .poll32_events = POLLIN});
    WANT(enter(&ring, 1, 0, NULL) == 1);
    for (volatile int i = 0; i < 20; i++) {
        if (sigsetjmp(back, 1) == 0) {
            raise_often(5000, 0);
            WANT(enter(&ring, 0, 1, NULL) < 0 && number < 0);
        }
        WANT(enter(&ring, 0, 0, NULL) == 0);
        int lowest = fcntl(0, F_DUPFD, 512);
        WANT(close(lowest) == 0 && (i == 0 || lowest == number));
        number = lowest;
    }
}

int main(int argc, char **argv)
{
    static const struct mode modes[] = {
        {"handlers", handlers}, {"first", first}, {"cancels", cancels}, {"jumps", jumps}};
    return run_mode(modes, sizeof modes / sizeof *modes, argc, argv);
}
