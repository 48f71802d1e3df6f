/* A program that is linked with nothing of ours, and blocks or catches SIGSYS in the ways that the
 * C library has, or all signals, and calls io_uring then. It is run by uring-run.
 *
 *   blocked masks | handlers | waits | contexts | jumps | spawn | timers
 *
 * Status 0: all was as it is to be. Else a line says what wasn't.
 */
#define _GNU_SOURCE
#include "trapped.h"

#include <pthread.h>
#include <setjmp.h>
#include <signal.h>
#include <spawn.h>
#include <stdlib.h>
#include <sys/mman.h>
#include <sys/wait.h>
#include <time.h>
#include <ucontext.h>

#pragma GCC diagnostic ignored "-Wdeprecated-declarations"

/* The header's sigpause is another. */
extern int pause_with(int mask) __asm__("sigpause");
extern int __sigpause(int mask_or_signal, int is_signal);
extern int __sigsuspend(const sigset_t *set);
extern int __sigaction(int number, const struct sigaction *action, struct sigaction *before);
extern sighandler_t bsd_signal(int number, sighandler_t handler);

static struct ring ring;
static volatile sig_atomic_t calls;

static void call_once(void)
{
    WANT(call(SYS_io_uring_enter, ring.fd, 0, 0, 0, 0, 0) == 0);
    calls++;
}

static void call_in_handler(int number)
{
    (void)number;
    call_once();
}

static void catch (int number)
{
    (void)number;
}

/* Masks, in the order of the calls' age. */
static void masks(void)
{
    sigset_t all, own;
    sigfillset(&all);
    WANT(sigblock(1 << (SIGUSR1 - 1)) == 0 && sigblock(~0) == 1 << (SIGUSR1 - 1));
    call_once();
    WANT(sigsetmask(0) & 1 << (SIGUSR2 - 1));
    WANT(sigsetmask(~0) == 0);
    call_once();
    WANT(sigsetmask(0) & 1 << (SIGUSR2 - 1));
    for (int number = 1; number < 32; number++)
        WANT(number == SIGKILL || number == SIGSTOP || sighold(number) == 0);
    call_once();
    WANT(sigprocmask(SIG_SETMASK, NULL, &own) == 0 && sigismember(&own, SIGUSR1) == 1);
    for (int number = 1; number < 32; number++)
        WANT(sigrelse(number) == 0);
    WANT(sigset(SIGUSR1, SIG_HOLD) == SIG_DFL && sigset(SIGSYS, SIG_HOLD) == SIG_DFL);
    call_once();
    WANT(sigset(SIGUSR1, SIG_DFL) == SIG_HOLD);
    WANT(pthread_sigmask(SIG_BLOCK, &all, NULL) == 0);
    call_once();
}

/* Who asks for SIGSYS is told what was asked for, and another signal is caught. */
static void handlers(void)
{
    struct sigaction action, full = {.sa_handler = call_in_handler};
    WANT(sigset(SIGSYS, catch) == SIG_DFL && sigignore(SIGSYS) == 0 &&
         signal(SIGSYS, catch) == SIG_IGN);
    WANT(bsd_signal(SIGSYS, SIG_IGN) == catch && ssignal(SIGSYS, catch) == SIG_IGN &&
         sysv_signal(SIGSYS, SIG_IGN) == catch && __sysv_signal(SIGSYS, catch) == SIG_IGN);
    WANT(sigaction(SIGSYS, NULL, &action) == 0 && action.sa_handler == catch &&
         siginterrupt(SIGSYS, 1) == 0);
    call_once();
    WANT(signal(SIGUSR1, call_in_handler) == SIG_DFL && raise(SIGUSR1) == 0 && calls == 2);
    WANT(sigaction(SIGUSR1, NULL, &action) == 0 && action.sa_flags & SA_RESTART);
    WANT(siginterrupt(SIGUSR1, 1) == 0 && signal(SIGUSR1, call_in_handler) == call_in_handler);
    WANT(sigaction(SIGUSR1, NULL, &action) == 0 && !(action.sa_flags & SA_RESTART));
    WANT(__sysv_signal(SIGUSR1, call_in_handler) == call_in_handler && raise(SIGUSR1) == 0 &&
         calls == 3);
    WANT(sigaction(SIGUSR1, NULL, &action) == 0 && action.sa_handler == SIG_DFL);
    sigfillset(&full.sa_mask);
    WANT(__sigaction(SIGUSR1, &full, NULL) == 0 && raise(SIGUSR1) == 0 && calls == 4);
    WANT(sigset(SIGUSR1, call_in_handler) == call_in_handler && raise(SIGUSR1) == 0 && calls == 5);
}

/* A signal waits that a mask lets come, and no other: its handler may call. */
static void waits(void)
{
    const int own = 1 << (SIGUSR1 - 1);
    sigset_t all;
    sigfillset(&all);
    sigdelset(&all, SIGUSR1);
    WANT(signal(SIGUSR1, call_in_handler) == SIG_DFL && sigblock(own) == 0);
    WANT(raise(SIGUSR1) == 0 && pause_with(~own) == -1 && calls == 1);
    WANT(raise(SIGUSR1) == 0 && __sigpause(~own, 0) == -1 && calls == 2);
    WANT(raise(SIGUSR1) == 0 && __sigpause(SIGUSR1, 1) == -1 && calls == 3);
    WANT(raise(SIGUSR1) == 0 && sigpause(SIGUSR1) == -1 && calls == 4);
    WANT(raise(SIGUSR1) == 0 && __sigsuspend(&all) == -1 && calls == 5);
}

static ucontext_t first, second;
static char stack[65536];

static void call_and_go_back(void)
{
    call_once();
    WANT(setcontext(&first) == 0);
}

static void call_and_end(void)
{
    call_once();
}

static void make(void (*function)(void))
{
    WANT(getcontext(&second) == 0);
    second.uc_stack.ss_sp = stack;
    second.uc_stack.ss_size = sizeof stack;
    second.uc_link = &first;
    sigfillset(&second.uc_sigmask);
    makecontext(&second, function, 0);
}

/* A context whose mask has all signals calls, and goes back to where the first one left, again and
 * again. */
static void contexts(void)
{
    volatile int turns = 0;
    make(call_and_go_back);
    WANT(swapcontext(&first, &second) == 0);
    call_once();
    turns++;
    if (turns < 3) {
        make(call_and_go_back);
        setcontext(&second);
    }
    WANT(turns == 3 && calls == 6);
    make(call_and_end);
    WANT(swapcontext(&first, &second) == 0 && calls == 7);
    sigset_t own;
    WANT(sigprocmask(SIG_SETMASK, NULL, &own) == 0 && sigismember(&own, SIGUSR1) == 0);
    calls = 0;
    WANT(getcontext(&first) == 0);
    call_once();
    if (calls == 1) {
        sigfillset(&first.uc_sigmask);
        setcontext(&first);
    }
    WANT(
        calls == 2 && sigprocmask(SIG_SETMASK, NULL, &own) == 0 && sigismember(&own, SIGUSR1) == 1);
}

static sigjmp_buf back;

static void jump_in_handler(int number)
{
    siglongjmp(back, number);
}

/* A jump brings back the mask that was asked for. */
static void jumps(void)
{
    sigset_t all, own;
    sigfillset(&all);
    sigdelset(&all, SIGUSR1);
    WANT(signal(SIGUSR1, jump_in_handler) == SIG_DFL && sigprocmask(SIG_SETMASK, &all, NULL) == 0);
    if (sigsetjmp(back, 1) == 0)
        raise(SIGUSR1);
    call_once();
    WANT(sigprocmask(SIG_SETMASK, NULL, &own) == 0 && sigismember(&own, SIGUSR2) == 1 &&
         sigismember(&own, SIGUSR1) == 0);
}

/* A program that is started with all signals blocked. */
static void spawned(char *self)
{
    char *const words[] = {self, "jumps", NULL}, *const none[] = {NULL};
    posix_spawnattr_t attributes;
    sigset_t all;
    pid_t child;
    int status;
    sigfillset(&all);
    WANT(posix_spawnattr_init(&attributes) == 0 &&
         posix_spawnattr_setsigmask(&attributes, &all) == 0 &&
         posix_spawnattr_setflags(&attributes, POSIX_SPAWN_SETSIGMASK) == 0);
    WANT(posix_spawn(&child, self, NULL, &attributes, words, none) == 0 &&
         waitpid(child, &status, 0) == child && status == 0);
}

static volatile sig_atomic_t told[2];

/* A function of a timer's, which is told what it was given, calls, and shares memory with a file.
 */
static void tell(union sigval value)
{
    call_once();
    int file = memfd_create("told", 0);
    WANT(file >= 0 && ftruncate(file, 4096) == 0 && map(4096, file, 0) && close(file) == 0);
    __atomic_add_fetch(&told[0], value.sival_int == 41, __ATOMIC_SEQ_CST);
    __atomic_add_fetch(&told[1], value.sival_int == 42, __ATOMIC_SEQ_CST);
}

static timer_t start(int value, pthread_attr_t *attributes)
{
    struct sigevent event = {.sigev_notify = SIGEV_THREAD,
        .sigev_value.sival_int = value,
        .sigev_notify_function = tell,
        .sigev_notify_attributes = attributes};
    const struct itimerspec soon = {.it_value.tv_nsec = 1000000};
    timer_t timer;
    WANT(timer_create(CLOCK_MONOTONIC, &event, &timer) == 0 &&
         timer_settime(timer, 0, &soon, NULL) == 0);
    return timer;
}

static void timers(void)
{
    struct sigevent raises = {.sigev_notify = SIGEV_SIGNAL, .sigev_signo = SIGUSR1};
    const struct itimerspec soon = {.it_value.tv_nsec = 1000000};
    timer_t timer, by_thread[8];
    pthread_attr_t attributes;
    WANT(pthread_attr_init(&attributes) == 0);
    for (int i = 0; i < 8; i++)
        by_thread[i] = start(41 + i % 2, i < 4 ? &attributes : NULL);
    while (__atomic_load_n(&told[0], __ATOMIC_SEQ_CST) < 4 ||
           __atomic_load_n(&told[1], __ATOMIC_SEQ_CST) < 4)
        usleep(1000);
    for (int i = 0; i < 8; i++)
        WANT(timer_delete(by_thread[i]) == 0);
    calls = 0;
    WANT(signal(SIGUSR1, call_in_handler) == SIG_DFL &&
         timer_create(CLOCK_MONOTONIC, &raises, &timer) == 0 &&
         timer_settime(timer, 0, &soon, NULL) == 0);
    while (calls == 0)
        usleep(1000);
}

int main(int argc, char **argv)
{
    const char *name = argc > 1 ? argv[1] : "";
    ring = set_up(0);
    if (strcmp(name, "masks") == 0)
        masks();
    else if (strcmp(name, "handlers") == 0)
        handlers();
    else if (strcmp(name, "waits") == 0)
        waits();
    else if (strcmp(name, "contexts") == 0)
        contexts();
    else if (strcmp(name, "jumps") == 0)
        jumps();
    else if (strcmp(name, "spawn") == 0)
        spawned(argv[0]);
    else if (strcmp(name, "timers") == 0)
        timers();
    else
        return 2;
    return 0;
}
