/* Tests by direct calls of what would end a process by a signal, or leaves it little room: a write
 * past the longest file, a pipe that nobody reads, a trace past its limit, the smallest stack. All
 * hold under every policy.
 *
 *   limits [NAME]            with a name: that test alone
 */
#define _GNU_SOURCE
#include "engines.h"

#include <glob.h>
#include <pthread.h>
#include <signal.h>
#include <sys/resource.h>
#include <sys/wait.h>

/* SIGXFSZ, which is blocked, is pending only if it was sent. */
static bool is_pending(void)
{
    sigset_t pending;
    sigpending(&pending);
    return sigismember(&pending, SIGXFSZ) == 1;
}

/* A write past the longest that a file may be, and a FALLOCATE, in 64 bits of a file that has
 * holes, end so and bring no signal. One that the program was sent before, as a process or a
 * thread, stays pending. */
static void test_too_long(void)
{
    struct ring ring;
    struct rlimit before, limit;
    const struct timespec no_time = {0, 0};
    sigset_t signals, own;
    int file = make_file();
    sigemptyset(&signals);
    sigaddset(&signals, SIGXFSZ);
    make_ring(&ring, 8, 0, 0);
    check(getrlimit(RLIMIT_FSIZE, &before) == 0 && sigprocmask(SIG_BLOCK, &signals, &own) == 0);
    limit = (struct rlimit){1 << 30, before.rlim_max};
    check(setrlimit(RLIMIT_FSIZE, &limit) == 0);
    for (int sent = 0; sent < 3; sent++) {
        check(sent == 0 ||
              (sent == 1 ? kill(getpid(), SIGXFSZ) : pthread_kill(pthread_self(), SIGXFSZ)) == 0);
        put_transfer(&ring, IORING_OP_WRITE, 0, 0, file, "late", 4, 1ULL << 31);
        check(result_of_one(&ring, 1) == -EFBIG && is_pending() == (sent > 0));
        put_transfer(&ring, IORING_OP_FALLOCATE, 0, 0, file, (void *)4, 0, 1ULL << 31);
        check(result_of_one(&ring, 1) == -EFBIG && is_pending() == (sent > 0));
        check(sent == 0 || sigtimedwait(&signals, NULL, &no_time) == SIGXFSZ);
    }
    check(!is_pending() && setrlimit(RLIMIT_FSIZE, &before) == 0 &&
          sigprocmask(SIG_SETMASK, &own, NULL) == 0);
    close(file);
    close_ring(&ring);
}

static int broken; /* how often SIGPIPE came */

static void count_broken(int signal)
{
    (void)signal;
    broken++;
}

/* A splice and a tee to what nobody reads, and a write that is to be a worker's, bring no signal;
 * another write does. */
static void test_broken_pipe(void)
{
    struct ring ring;
    int from[2], to[2];
    struct sigaction own, counts = {.sa_handler = count_broken};
    check(pipe(from) == 0 && pipe(to) == 0 && write(from[1], "four", 4) == 4 && close(to[0]) == 0);
    check(sigaction(SIGPIPE, &counts, &own) == 0);
    make_ring(&ring, 8, 0, 0);
    for (int tees = 0; tees < 2; tees++) {
        put_splice(&ring, tees ? IORING_OP_TEE : IORING_OP_SPLICE, 0, from[0], to[1], 4);
        check(result_of_one(&ring, 1) == -EPIPE && broken == 0);
    }
    put_transfer(&ring, IORING_OP_WRITE, 0, IOSQE_ASYNC, to[1], "four", 4, 0);
    check(result_of_one(&ring, 1) == -EPIPE && broken == 0);
    put_transfer(&ring, IORING_OP_WRITE, 0, 0, to[1], "four", 4, 0);
    check(result_of_one(&ring, 1) == -EPIPE && broken == 1);
    check(sigaction(SIGPIPE, &own, NULL) == 0);
    close_pair(from);
    close(to[1]);
    close_ring(&ring);
}

/* A process whose files may get no longer than its trace is isn't ended by that: the trace is. */
static void run_below_a_trace(char *path)
{
    struct rlimit limit = {100, 100};
    struct ring ring;
    check(setenv("WULGACH_TRACE", path, 1) == 0);
    make_ring(&ring, 4, 0, 0);
    for (int i = 0; i < 2; i++) {
        put(&ring, IORING_OP_NOP, 7, 0);
        check(enter(&ring, 1, 1, IORING_ENTER_GETEVENTS) == 1 && reap(&ring).res == 0);
        check(setrlimit(RLIMIT_FSIZE, &limit) == 0);
    }
}

/* A sanitizer's frames are larger, and it can't have a thread with the smallest stack that there
 * is. */
#if defined __SANITIZE_ADDRESS__ || defined __SANITIZE_THREAD__
enum { STACKS = 64 };
#else
enum { STACKS = 1 };
#endif

static void *use_traced(void *path)
{
    struct ring ring;
    check(setenv("WULGACH_TRACE", path, 1) == 0);
    make_ring(&ring, 4, 0, 0);
    put(&ring, IORING_OP_NOP, 7, 0);
    check(enter(&ring, 1, 1, IORING_ENTER_GETEVENTS) == 1 && reap(&ring).res == 0);
    return NULL;
}

/* A thread with the smallest stack has a trace. */
static void run_on_a_small_stack(char *path)
{
    pthread_attr_t small;
    pthread_t thread;
    check(pthread_attr_init(&small) == 0 &&
          pthread_attr_setstacksize(&small, STACKS * (size_t)sysconf(_SC_THREAD_STACK_MIN)) == 0);
    check(
        pthread_create(&thread, &small, use_traced, path) == 0 && pthread_join(thread, NULL) == 0);
}

/* Runs it in a child, with a path for its traces, and removes these. */
static void run_with_a_trace(void (*run)(char *path))
{
    char path[] = "/tmp/wulgach-trace-XXXXXX", names[64];
    glob_t found = {0};
    int file = mkstemp(path), status;
    pid_t child = fork();
    if (child == 0) {
        run(path);
        _exit(0);
    }
    check(file >= 0 && waitpid(child, &status, 0) == child && status == 0);
    snprintf(names, sizeof names, "%s*", path);
    check(close(file) == 0 && glob(names, 0, NULL, &found) == 0);
    for (size_t i = 0; i < found.gl_pathc; i++)
        unlink(found.gl_pathv[i]);
    globfree(&found);
}

static void test_limit_below_a_trace(void)
{
    run_with_a_trace(run_below_a_trace);
}

static void test_small_stack(void)
{
    run_with_a_trace(run_on_a_small_stack);
}

int main(int count, char **words)
{
    static const struct named tests[] = {
        {"too long", test_too_long},
        {"broken pipe", test_broken_pipe},
        {"limit below a trace", test_limit_below_a_trace},
        {"small stack", test_small_stack},
    };
    return run_tests(tests, sizeof tests / sizeof *tests, count > 1 ? words[1] : NULL);
}
