/* A program that is linked with nothing of ours and calls io_uring_enter often at one place, so
 * that uring-run rewrites it: which calls are, and who may call there: handlers, threads, small
 * stacks, coroutines and children.
 *
 *   often places | signals | threads | small | fork | cancel | lines [WORD]
 *
 * With another word nothing is to be rewritten. Status 0: all was as it is to be. Else a line says
 * what wasn't.
 */
#define _GNU_SOURCE
#include "rewritten.h"

#include <poll.h>
#include <pthread.h>
#include <signal.h>
#include <sys/time.h>
#include <sys/wait.h>
#include <ucontext.h>

static void try_places(void)
{
    struct ring ring = set_up();
    for (size_t i = 0; i < sizeof places / sizeof *places; i++) {
        no_ops(&ring, places[i].call, 4);
        want_rewritten(places[i].call, false);
        no_ops(&ring, places[i].call, OFTEN);
        want_rewritten(places[i].call, places[i].is_rewritten);
    }
    no_ops(&ring, jumped, OFTEN);
    no_ops(&ring, plain, OFTEN);
    errno = 5;
    WANT(plain(-1, 0, 0, 0, NULL, 8) == -EBADF && jumped(-1, 0, 0, 0, NULL, 8) == -EBADF &&
         errno == 5);
    /* Code of the program's own making. */
    uint8_t *made = mmap(
        NULL, 4096, PROT_READ | PROT_WRITE | PROT_EXEC, MAP_PRIVATE | MAP_ANONYMOUS, -1, 0);
    WANT(made != MAP_FAILED);
    memcpy(made, "\x49\x89\xca\xb8\xaa\x01\x00\x00\x0f\x05\xc3", 11);
    no_ops(&ring, (call_function *)(uintptr_t)made, OFTEN);
    WANT(made[NUMBER_AT] == NUMBER);
}

static struct ring of_handler;
static volatile sig_atomic_t handled;

static void call_in_handler(int number)
{
    (void)number;
    handled++;
    no_op(&of_handler, plain, 7);
}

static void every(long microseconds)
{
    const struct itimerval time = {
        .it_value.tv_usec = microseconds, .it_interval.tv_usec = microseconds};
    WANT(setitimer(ITIMER_REAL, &time, NULL) == 0);
}

static void meet_signals(void)
{
    struct ring ring = set_up();
    sigset_t mask, none;
    int ends[2];
    of_handler = set_up();
    sigemptyset(&none);
    no_ops(&ring, plain, OFTEN);
    WANT(pipe(ends) == 0 && pthread_sigmask(SIG_SETMASK, &none, NULL) == 0);
    every(200);
    for (uint64_t i = 1; i <= 20000; i++)
        want_registers(&ring, i);
    WANT(handled > 0);
    every(20000);
    publish(&ring, (struct io_uring_sqe){
                       .opcode = IORING_OP_POLL_ADD, .fd = ends[0], .poll32_events = POLLIN});
    WANT(plain(ring.fd, 1, 0, IORING_ENTER_GETEVENTS, NULL, 0) == 1);
    for (int i = 0; i < 5; i++) {
        handled = 0;
        WANT(plain(ring.fd, 0, 1, IORING_ENTER_GETEVENTS, NULL, 0) == -EINTR && handled > 0);
    }
    every(0);
    sigemptyset(&mask);
    sigaddset(&mask, SIGALRM);
    WANT(sigprocmask(SIG_SETMASK, &mask, NULL) == 0 && raise(SIGALRM) == 0);
    handled = 0;
    no_ops(&of_handler, plain, 1);
    WANT(handled == 0 && plain(ring.fd, 0, 1, IORING_ENTER_GETEVENTS, &none, 8) == -EINTR &&
         handled == 1);
    WANT(sigprocmask(SIG_SETMASK, NULL, &none) == 0 && sigismember(&none, SIGALRM) &&
         !sigismember(&none, SIGUSR1));
    want_rewritten(plain, true);
}

/* A stack for signals that come to a thread, which may be small itself: it calls on another. */
static void give_signal_stack(void)
{
    static char stack[1 << 16];
    const stack_t of_signals = {.ss_sp = stack, .ss_size = sizeof stack};
    WANT(sigaltstack(&of_signals, NULL) == 0);
}

static void *meet_signals_beside(void *none)
{
    give_signal_stack();
    meet_signals();
    return none;
}

/* Signals come at any time, and their handlers call too; one ends a call that waits. In a thread
 * with a stack for signals they come once on that one, and once on the one on which it calls; so in
 * one with a stack that is small, which calls on another, too. */
static void signals(void)
{
    struct sigaction action = {.sa_handler = call_in_handler};
    pthread_attr_t attributes;
    pthread_t started;
    sigset_t all;
    WANT(sigaction(SIGALRM, &action, NULL) == 0 && pthread_attr_init(&attributes) == 0 &&
         pthread_attr_setstacksize(&attributes, 1 << 16) == 0);
    meet_signals();
    sigfillset(&all);
    pthread_sigmask(SIG_SETMASK, &all, NULL);
    for (int i = 0; i < 4; i++) {
        action.sa_flags = i < 2 ? 0 : SA_ONSTACK;
        WANT(sigaction(SIGALRM, &action, NULL) == 0);
        WANT(pthread_create(&started, i % 2 == 0 ? NULL : &attributes, meet_signals_beside, NULL) ==
                 0 &&
             pthread_join(started, NULL) == 0);
    }
}

static pthread_barrier_t barrier;

static void *call_together(void *none)
{
    struct ring ring = set_up();
    pthread_barrier_wait(&barrier);
    no_ops(&ring, plain, 3000);
    no_ops(&ring, within_line, 3000);
    return none;
}

/* Threads that stand at one place while it is rewritten. */
static void threads(void)
{
    pthread_t started[4];
    pthread_barrier_init(&barrier, NULL, 4);
    for (int i = 0; i < 4; i++)
        WANT(pthread_create(&started[i], NULL, call_together, NULL) == 0);
    for (int i = 0; i < 4; i++)
        pthread_join(started[i], NULL);
    want_rewritten(plain, true);
    want_rewritten(within_line, true);
}

static void *call_on_small(void *none)
{
    give_signal_stack();
    struct ring ring = set_up();
    no_ops(&ring, plain, 3 * OFTEN);
    return none;
}

static ucontext_t outside, inside;

static void call_in_coroutine(void)
{
    no_ops(&of_handler, plain, 4);
}

/* A coroutine, below whose stack there is a page that can't be touched. */
static void run_coroutine(size_t size)
{
    const size_t page = 4096, room = (size + page - 1) / page * page;
    char *memory = mmap(
        NULL, page + room, PROT_READ | PROT_WRITE, MAP_PRIVATE | MAP_ANONYMOUS, -1, 0);
    WANT(
        memory != MAP_FAILED && mprotect(memory, page, PROT_NONE) == 0 && getcontext(&inside) == 0);
    inside.uc_stack = (stack_t){.ss_sp = memory + page, .ss_size = size};
    inside.uc_link = &outside;
    makecontext(&inside, call_in_coroutine, 0);
    WANT(swapcontext(&outside, &inside) == 0 && munmap(memory, page + room) == 0);
}

/* Signals come on memory of this stack, or elsewhere, from now on, and their handler calls. */
static void call_beside(char *memory, size_t size)
{
    const stack_t of_signals = {.ss_sp = memory, .ss_size = size}, none = {.ss_flags = SS_DISABLE};
    WANT(sigaltstack(&of_signals, NULL) == 0);
    handled = 0;
    WANT(raise(SIGUSR1) == 0 && raise(SIGUSR1) == 0 && handled == 2);
    WANT(sigaltstack(&none, NULL) == 0);
}

/* Its calls are rewritten on the stack that it was made with: then it calls at the same place on
 * others, some so small that a trap has no room, and in the end on that one again. */
static void *call_on_others(void *none)
{
    enum { PAGE = 4096, ROOM = 3 * PAGE };
    const struct sigaction action = {.sa_handler = call_in_handler, .sa_flags = SA_ONSTACK};
    char *memory = mmap(
             NULL, PAGE + ROOM, PROT_READ | PROT_WRITE, MAP_PRIVATE | MAP_ANONYMOUS, -1, 0),
         within[ROOM + 64];
    of_handler = set_up();
    WANT(memory != MAP_FAILED && mprotect(memory, PAGE, PROT_NONE) == 0 &&
         sigaction(SIGUSR1, &action, NULL) == 0);
    memset(within, 7, sizeof within);
    no_ops(&of_handler, plain, OFTEN);
    call_beside(memory + PAGE, ROOM);
    call_beside(within + 64, ROOM);
    for (int i = 0; i < 64; i++)
        WANT(within[i] == 7);
    for (size_t size = 2 * PAGE; size >= (is_none_wanted ? 2 * PAGE : 2048); size /= 2)
        run_coroutine(size);
    no_ops(&of_handler, plain, OFTEN);
    WANT(munmap(memory, PAGE + ROOM) == 0);
    return none;
}

static void small(void)
{
    pthread_t started;
    pthread_attr_t attributes;
    pthread_attr_init(&attributes);
    WANT(pthread_attr_setstacksize(&attributes, 16384) == 0);
    for (int i = 0; i < 3; i++)
        WANT(pthread_create(&started, &attributes, call_on_small, NULL) == 0 &&
             pthread_join(started, NULL) == 0);
    want_rewritten(plain, true);
    call_on_others(NULL);
    WANT(pthread_create(&started, NULL, call_on_others, NULL) == 0 &&
         pthread_join(started, NULL) == 0);
}

static void want_success(pid_t child)
{
    int status;
    WANT(child > 0 && waitpid(child, &status, 0) == child && status == 0);
}

static void call_in_child(void)
{
    struct ring ring = set_up();
    no_ops(&ring, plain, OFTEN);
    no_ops(&ring, moved, OFTEN);
    want_rewritten(moved, true);
    _exit(0);
}

/* A child has what its parent has rewritten, and rewrites for itself. */
static void forked(void)
{
    struct ring ring = set_up();
    no_ops(&ring, plain, OFTEN);
    for (int i = 0; i < 2; i++) {
        pid_t child = fork();
        if (child == 0)
            call_in_child();
        want_success(child);
        want_rewritten(moved, false);
        no_ops(&ring, plain, OFTEN);
    }
    pid_t child = vfork();
    if (child == 0) {
        if (plain(-1, 0, 0, 0, NULL, 8) != -EBADF)
            _exit(1);
        execl("/bin/true", "true", NULL);
        _exit(1);
    }
    want_success(child);
    no_ops(&ring, plain, OFTEN);
}

static struct ring shared_ring;

static void *call_for_ever(void *none)
{
    for (uint64_t i = 1;; i++) {
        no_op(&shared_ring, plain, i);
        pthread_testcancel();
    }
    return none;
}

/* A thread is cancelled after its call. */
static void cancel(void)
{
    for (int i = 0; i < 50; i++) {
        pthread_t started;
        void *result;
        shared_ring = set_up();
        WANT(pthread_create(&started, NULL, call_for_ever, NULL) == 0);
        usleep(1000);
        WANT(pthread_cancel(started) == 0 && pthread_join(started, &result) == 0 &&
             result == PTHREAD_CANCELED);
        no_ops(&shared_ring, plain, 4);
        close(shared_ring.fd);
    }
    want_rewritten(plain, true);
}

static void lines(void)
{
    struct ring ring = set_up();
    no_ops(&ring, plain, OFTEN);
    want_rewritten(plain, true);
}

int main(int argc, char **argv)
{
    static const struct mode modes[] = {{"places", try_places}, {"signals", signals},
        {"threads", threads}, {"small", small}, {"fork", forked}, {"cancel", cancel},
        {"lines", lines}};
    is_none_wanted = argc > 2;
    return run_mode(modes, sizeof modes / sizeof *modes, argc, argv);
}
