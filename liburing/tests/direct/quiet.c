/* Tests by direct calls of when a signal comes whose handler does nothing unusual. All hold under
 * every policy, and are run with WULGACH_HANDLERS=quiet too: then one comes amid a call that
 * doesn't wait, at once, until an operation is carried out that it could end. A signal is raised
 * within the layer's own calls of the C library, which go through the wrapped ones of this program.
 * A test that hangs ends by an alarm.
 *
 *   quiet [NAME]             with a name: that test alone
 */
#define _GNU_SOURCE
#include "engines.h"

#include <poll.h>
#include <pthread.h>
#include <signal.h>
#include <stdarg.h>
#include <sys/time.h>

static volatile sig_atomic_t comings, comings_of_pipe;

static void come(int number)
{
    comings += number != SIGPIPE;
    comings_of_pipe += number == SIGPIPE;
}

static void catch (int number)
{
    struct sigaction action = {.sa_handler = come};
    check(sigaction(number, &action, NULL) == 0);
}

static bool are_quiet(void)
{
    const char *word = getenv("WULGACH_HANDLERS");
    return word && strcmp(word, "quiet") == 0;
}

/* Within which of the layer's calls a signal is raised, once; and whether it came at once. */
enum place { NOWHERE, AT_LOCK, AT_POLL, AT_CALL };
static enum place raised_at;
static bool came_at_once;

/* (the layer's own thread, which watches whether anybody calls, makes calls too) */
static void raise_at(enum place place)
{
    int before = comings;
    if (raised_at != place || gettid() != getpid())
        return;
    raised_at = NOWHERE;
    check(raise(SIGUSR1) == 0);
    came_at_once = comings != before;
}

int __real_pthread_mutex_lock(pthread_mutex_t *mutex);
int __wrap_pthread_mutex_lock(pthread_mutex_t *mutex)
{
    raise_at(AT_LOCK);
    return __real_pthread_mutex_lock(mutex);
}

int __real_poll(struct pollfd *polled, nfds_t count, int patience);
int __wrap_poll(struct pollfd *polled, nfds_t count, int patience)
{
    raise_at(AT_POLL);
    return __real_poll(polled, count, patience);
}

/* (the sixth is read where it may not stand) */
long __real_syscall(long call, ...);
__attribute__((no_sanitize("address"))) long __wrap_syscall(long call, ...)
{
    long words[6];
    va_list arguments;
    va_start(arguments, call);
    for (int i = 0; i < 6; i++)
        words[i] = va_arg(arguments, long);
    va_end(arguments);
    raise_at(AT_CALL);
    return __real_syscall(call, words[0], words[1], words[2], words[3], words[4], words[5]);
}

/* A ring, with a file in memory of a page. */
static int begin(struct ring *ring)
{
    int file = memfd_create("quiet", MFD_CLOEXEC);
    check(file >= 0 && ftruncate(file, 4096) == 0);
    comings = comings_of_pipe = 0;
    catch (SIGUSR1);
    make_ring(ring, 8, 0, 0);
    return file;
}

static void end(struct ring *ring, int file)
{
    check(raised_at == NOWHERE);
    close_ring(ring);
    close(file);
}

/* A call that doesn't wait has signals come as soon as they do, and one that waits as it ends. */
static void test_reads(void)
{
    struct ring ring;
    char bytes[64];
    int file = begin(&ring);
    for (unsigned i = 0; i < 6; i++) {
        bool waits = i % 2 == 1;
        put_transfer(&ring, i < 3 ? IORING_OP_READ : IORING_OP_NOP, i, 0, file, bytes,
            i < 3 ? sizeof bytes : 0, 0);
        raised_at = AT_LOCK;
        check(enter(&ring, 1, waits, IORING_ENTER_GETEVENTS) == 1);
        check(came_at_once == (are_quiet() && !waits) && comings == (int)i + 1);
        check(wait_for_one(&ring) == (i < 3 ? (int)sizeof bytes : 0));
    }
    end(&ring, file);
}

/* What a signal could end early isn't reached by any. */
static void test_operations(void)
{
    static const uint8_t codes[] = {
        IORING_OP_FALLOCATE, IORING_OP_FSYNC, IORING_OP_SYNC_FILE_RANGE, IORING_OP_FADVISE};
    struct ring ring;
    int file = begin(&ring);
    for (unsigned i = 0; i < sizeof codes; i++) {
        struct io_uring_sqe *entry = put_plain(&ring, codes[i], i, file);
        entry->addr = codes[i] == IORING_OP_FALLOCATE ? 4096 : 0;
        entry->len = 0;
        raised_at = AT_CALL;
        check(enter(&ring, 1, 0, 0) == 1);
        check(wait_for_one(&ring) == 0);
        check(!came_at_once && comings == (int)i + 1);
    }
    end(&ring, file);
}

/* A wait ends by a signal that came before it slept, but after its call began. */
static void test_wait(void)
{
    struct ring ring;
    int ends[2], file = begin(&ring);
    char byte;
    check(pipe(ends) == 0);
    put_transfer(&ring, IORING_OP_READ, 0, 0, ends[0], &byte, 1, 0);
    check(enter(&ring, 1, 0, 0) == 1);
    for (int i = 0; i < 3; i++) {
        raised_at = i == 0 ? AT_LOCK : AT_POLL;
        long result = enter_for(&ring, 1, 20000000);
        /* (where an epoll instance tells of all that waits it isn't looked at) */
        check(result == (raised_at == NOWHERE ? -EINTR : -ETIME) && (i > 0 || result == -EINTR));
        check(!came_at_once && comings == i + (raised_at == NOWHERE));
        if (raised_at != NOWHERE)
            break;
    }
    raised_at = NOWHERE;
    check(write(ends[1], "x", 1) == 1 && wait_for_one(&ring) == 1);
    close_pair(ends);
    end(&ring, file);
}

/* A look at a descriptor that isn't ready isn't ended by one, whether the call waits or not. */
static void test_look(void)
{
    struct ring ring;
    int ends[2], file = begin(&ring);
    char byte;
    check(pipe(ends) == 0);
    for (int i = 0; i < 3; i++) {
        put_transfer(&ring, IORING_OP_READ, 0, 0, ends[0], &byte, 1, 0);
        raised_at = AT_POLL;
        check(enter(&ring, 1, 0, IORING_ENTER_GETEVENTS) == 1);
        check(enter(&ring, 0, 0, IORING_ENTER_GETEVENTS) == 0 && count_ready(&ring) == 0);
        check(raised_at == NOWHERE && !came_at_once && comings == i + 1);
        check(write(ends[1], "x", 1) == 1 && wait_for_one(&ring) == 1);
    }
    close_pair(ends);
    end(&ring, file);
}

/* The signal of a write that nobody reads is taken back where a worker of the kernel's would have
 * it. */
static void test_pipe(void)
{
    struct ring ring;
    int ends[2], file = begin(&ring);
    catch (SIGPIPE);
    check(pipe(ends) == 0 && close(ends[0]) == 0);
    put_transfer(&ring, IORING_OP_WRITE, 0, IOSQE_ASYNC, ends[1], "x", 1, 0);
    check(enter(&ring, 1, 0, 0) == 1);
    check(wait_for_one(&ring) == -EPIPE && comings_of_pipe == 0);
    close(ends[1]);
    end(&ring, file);
}

/* What is asked of a file amid signals: a read, a write, more room, a no-op. */
static int32_t ask(struct ring *ring, unsigned turn, int file, char *bytes)
{
    static const uint8_t codes[] = {IORING_OP_READ, IORING_OP_NOP, IORING_OP_READ, IORING_OP_WRITE,
        IORING_OP_READ, IORING_OP_FALLOCATE};
    uint8_t code = codes[turn % sizeof codes];
    struct io_uring_sqe *entry = put_plain(ring, code, turn, file);
    if (code == IORING_OP_FALLOCATE) {
        entry->addr = 1 << 18;
        return 0;
    }
    if (code == IORING_OP_NOP)
        return 0;
    entry->addr = (uintptr_t)bytes;
    entry->len = 4096;
    return 4096;
}

/* Signals come all the time, at whatever moment, and no result shows it. */
static void test_storm(void)
{
    enum { ROUNDS = 20000 };
    struct itimerval often = {.it_interval.tv_usec = 100, .it_value.tv_usec = 100}, never = {0};
    struct ring ring;
    static char bytes[4096];
    int file = begin(&ring);
    catch (SIGALRM);
    check(setitimer(ITIMER_REAL, &often, NULL) == 0);
    for (unsigned i = 0; i < ROUNDS; i++) {
        int32_t wanted = ask(&ring, i, file, bytes);
        check(enter(&ring, 1, 0, i % 3 ? IORING_ENTER_GETEVENTS : 0) == 1);
        while (count_ready(&ring) == 0) {
            long result = enter(&ring, 0, 0, IORING_ENTER_GETEVENTS);
            check(result == 0);
        }
        check(reap(&ring).res == wanted);
    }
    check(setitimer(ITIMER_REAL, &never, NULL) == 0 && comings > 10);
    end(&ring, file);
}

int main(int count, char **words)
{
    static const struct named tests[] = {
        {"reads", test_reads},
        {"operations", test_operations},
        {"wait", test_wait},
        {"look", test_look},
        {"pipe", test_pipe},
        {"storm", test_storm},
    };
    alarm((unsigned)(PATIENCE * patience()));
    return run_tests(tests, sizeof tests / sizeof *tests, count > 1 ? words[1] : NULL);
}
