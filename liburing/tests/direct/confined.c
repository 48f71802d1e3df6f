/* Tests of what a process may be confined to, by direct calls: that it may open nothing more, has
 * ended its first thread, or is stopped in a wait; and what its signals do to that. What is
 * expected is what a real ring of Linux 6.18 was seen to do. All hold under every policy. Each runs
 * in a process of its own.
 *
 *   confined [NAME]          with a name: that test alone
 */
#define _GNU_SOURCE
#include "asleep.h"
#include "engines.h"

#include <netinet/in.h>
#include <poll.h>
#include <pthread.h>
#include <sched.h>
#include <signal.h>
#include <sys/epoll.h>
#include <sys/eventfd.h>
#include <sys/resource.h>
#include <sys/socket.h>
#include <sys/stat.h>
#include <sys/wait.h>

/* Runs a test in a child, which may change what it likes of itself. */
static pid_t begin_child(void (*run)(void))
{
    fflush(stdout);
    pid_t child = fork();
    check(child >= 0);
    if (child != 0)
        return child;
    alarm((unsigned)(PATIENCE * patience()));
    run();
    fflush(stdout);
    _exit(0);
}

static void end_child(pid_t child)
{
    int status;
    check(waitpid(child, &status, 0) == child && WIFEXITED(status) && WEXITSTATUS(status) == 0);
}

static void in_child(void (*run)(void))
{
    end_child(begin_child(run));
}

static void allow_descriptors(rlim_t own, rlim_t most)
{
    const struct rlimit limit = {own, most};
    check(setrlimit(RLIMIT_NOFILE, &limit) == 0);
}

/* ---- how many descriptors it may have ---- */

enum { POLLED = 20 };
static int told[POLLED];

static void *tell_later(void *none)
{
    const uint64_t one = 1;
    (void)none;
    usleep(50000);
    for (int i = 0; i < POLLED; i++)
        check(write(told[i], &one, sizeof one) == sizeof one);
    return NULL;
}

/* Polls that were submitted before the process could have fewer descriptors than they wait for. */
static void wait_for_many(rlim_t own, rlim_t most)
{
    struct ring ring;
    pthread_t thread;
    make_ring(&ring, 64, 0, 0);
    for (int i = 0; i < POLLED; i++) {
        struct io_uring_sqe *entry = put(&ring, IORING_OP_POLL_ADD, (uint64_t)i, 0);
        check((told[i] = eventfd(0, 0)) >= 0);
        entry->fd = told[i];
        entry->poll32_events = POLLIN;
    }
    check(enter(&ring, POLLED, 0, 0) == POLLED);
    allow_descriptors(own, most);
    check(pthread_create(&thread, NULL, tell_later, NULL) == 0);
    for (int i = 0; i < POLLED; i++) {
        check(count_ready(&ring) > 0 || enter(&ring, 0, 1, IORING_ENTER_GETEVENTS) == 0);
        check(reap(&ring).res == POLLIN);
    }
    check(pthread_join(thread, NULL) == 0);
}

static void wait_with_few(void)
{
    wait_for_many(4, 4);
}

static void wait_with_none(void)
{
    wait_for_many(0, 0);
}

static void wait_with_none_of_its_own(void)
{
    wait_for_many(0, 1024);
}

static void *send_later(void *fd)
{
    usleep(50000);
    check(write(*(int *)fd, "abc", 3) == 3);
    return NULL;
}

static void receive_with_none(void)
{
    struct ring ring;
    pthread_t thread;
    int ends[2];
    char bytes[8];
    make_ring(&ring, 8, 0, 0);
    check(socketpair(AF_UNIX, SOCK_STREAM, 0, ends) == 0);
    allow_descriptors(0, 0);
    check(pthread_create(&thread, NULL, send_later, &ends[1]) == 0);
    put_transfer(&ring, IORING_OP_RECV, 0, 0, ends[0], bytes, sizeof bytes, 0);
    check(enter(&ring, 1, 1, IORING_ENTER_GETEVENTS) == 1);
    check(reap(&ring).res == 3 && memcmp(bytes, "abc", 3) == 0);
    check(pthread_join(thread, NULL) == 0);
}

/* A socket of datagrams that was shut down for reading: a receive that waits ends with 0. */
static void receive_shut(int fd, rlim_t most)
{
    struct ring ring;
    char bytes[8];
    make_ring(&ring, 8, 0, 0);
    check(shutdown(fd, SHUT_RD) == 0);
    allow_descriptors(0, most);
    put_transfer(&ring, IORING_OP_RECV, 0, 0, fd, bytes, sizeof bytes, 0);
    check(enter(&ring, 1, 1, IORING_ENTER_GETEVENTS) == 1);
    check(reap(&ring).res == 0);
}

static void receive_shut_with_none(void)
{
    int ends[2];
    check(socketpair(AF_UNIX, SOCK_DGRAM, 0, ends) == 0);
    receive_shut(ends[0], 0);
}

static void receive_shut_with_none_of_its_own(void)
{
    struct sockaddr_in address = {.sin_family = AF_INET, .sin_addr.s_addr = htonl(INADDR_LOOPBACK)};
    socklen_t size = sizeof address;
    int fd = socket(AF_INET, SOCK_DGRAM, 0);
    check(bind(fd, (void *)&address, size) == 0 && getsockname(fd, (void *)&address, &size) == 0 &&
          connect(fd, (void *)&address, size) == 0);
    receive_shut(fd, 1024);
}

static void test_few_descriptors(void)
{
    in_child(wait_with_few);
    in_child(wait_with_none);
    in_child(wait_with_none_of_its_own);
    in_child(receive_with_none);
    in_child(receive_shut_with_none);
    in_child(receive_shut_with_none_of_its_own);
}

/* The parameters are told before there is a descriptor. */
static void set_up_in_vain(void)
{
    struct io_uring_params *params = mmap(
        NULL, 4096, PROT_READ | PROT_WRITE, MAP_PRIVATE | MAP_ANONYMOUS, -1, 0);
    check(params != MAP_FAILED);
    allow_descriptors(3, 3);
    check(set_up(4, params) == -EMFILE && params->sq_entries == 4 && params->cq_entries == 8);
    memset(params, 0, sizeof *params);
    check(mprotect(params, 4096, PROT_READ) == 0);
    check(set_up(4, params) == -EFAULT);
}

static void test_set_up_in_vain(void)
{
    in_child(set_up_in_vain);
}

/* ---- stops and signals ---- */

static int waited_for[2];

static void wait_to_be_stopped(void)
{
    struct ring ring;
    char byte;
    make_ring(&ring, 8, 0, 0);
    put_transfer(&ring, IORING_OP_READ, 0, 0, waited_for[0], &byte, 1, 0);
    check(enter(&ring, 1, 0, 0) == 1);
    check(enter(&ring, 0, 1, IORING_ENTER_GETEVENTS) == -EINTR);
}

/* A call in which the process is stopped returns as it goes on. */
static void test_stop(void)
{
    check(pipe(waited_for) == 0);
    pid_t child = begin_child(wait_to_be_stopped);
    await_sleep(&child);
    check(kill(child, SIGSTOP) == 0);
    check(waitpid(child, NULL, WUNTRACED) == child);
    check(kill(child, SIGCONT) == 0);
    end_child(child);
    close_pair(waited_for);
}

/* A signal that waits and is ignored ends a call that lets it come. */
static void wait_with_ignored(void (*handler)(int))
{
    const uint64_t none = 0;
    struct __kernel_timespec time = {.tv_sec = 100};
    struct io_uring_getevents_arg argument = {
        .sigmask = (uintptr_t)&none, .sigmask_sz = sizeof none, .ts = (uintptr_t)&time};
    struct ring ring;
    sigset_t blocked;
    signal(SIGCHLD, handler);
    sigemptyset(&blocked);
    sigaddset(&blocked, SIGCHLD);
    check(pthread_sigmask(SIG_BLOCK, &blocked, NULL) == 0 && kill(getpid(), SIGCHLD) == 0);
    make_ring(&ring, 8, 0, 0);
    check(wulgach_syscall(SYS_io_uring_enter, ring.fd, 0u, 1u,
              IORING_ENTER_GETEVENTS | IORING_ENTER_EXT_ARG, &argument, sizeof argument) < 0 &&
          errno == EINTR);
}

static void wait_with_default(void)
{
    wait_with_ignored(SIG_DFL);
}

static void wait_with_none_heard(void)
{
    wait_with_ignored(SIG_IGN);
}

static void test_ignored_signals(void)
{
    in_child(wait_with_default);
    in_child(wait_with_none_heard);
}

/* ---- who waits on the ring's descriptor ---- */

static int instance_of(int fd)
{
    struct epoll_event event = {.events = EPOLLIN};
    int instance = epoll_create1(EPOLL_CLOEXEC);
    check(instance >= 0 && epoll_ctl(instance, EPOLL_CTL_ADD, fd, &event) == 0);
    return instance;
}

/* The ring's descriptor in so many epoll instances, of a poll of one that is in so many. */
static void tell_through(int outer, int inner)
{
    const uint64_t one = 1;
    struct ring ring;
    int counter = eventfd(0, 0), low = counter;
    make_ring(&ring, 8, 0, 0);
    int top = ring.fd;
    while (outer-- > 0)
        top = instance_of(top);
    while (inner-- > 0)
        low = instance_of(low);
    struct io_uring_sqe *entry = put(&ring, IORING_OP_POLL_ADD, 0, 0);
    entry->fd = low;
    entry->len = IORING_POLL_ADD_MULTI;
    entry->poll32_events = POLLIN;
    check(enter(&ring, 1, 0, 0) == 1 && write(counter, &one, sizeof one) == sizeof one);
    struct pollfd at = {.fd = top, .events = POLLIN};
    check(poll(&at, 1, 2000 * patience()) == 1);
    check(enter(&ring, 0, 1, IORING_ENTER_GETEVENTS) == 0 && count_ready(&ring) == 1);
    close_ring(&ring);
}

static void tell_in_depth(void)
{
    tell_through(0, 0);
    tell_through(2, 2);
    tell_through(3, 1);
    tell_through(1, 3);
}

static void test_depth(void)
{
#ifndef IS_ALSO_REAL
    if (!getenv("WULGACH_TEST_POLLED"))
        return;
#endif
    in_child(tell_in_depth);
}

/* ---- threads ---- */

enum { READ_END = 60, WRITE_END = 61 };
static char folder[] = "/tmp/confined-XXXXXX";

/* Opens a named pipe under these numbers, and writes a word to it. */
static void open_pipe(const char *name, const char *word)
{
    check(mkfifo(name, 0600) == 0);
    int both = open(name, O_RDWR), one = open(name, O_RDONLY);
    check(dup2(both, WRITE_END) == WRITE_END && dup2(one, READ_END) == READ_END &&
          write(both, word, 3) == 3);
    close(both);
    close(one);
    check(unlink(name) == 0);
}

static void *read_own(void *none)
{
    struct ring ring;
    char bytes[8] = "";
    (void)none;
    check(unshare(CLONE_FILES) == 0);
    open_pipe("two", "TWO");
    make_ring(&ring, 8, 0, 0);
    put_transfer(&ring, IORING_OP_READ, 0, 0, READ_END, bytes, sizeof bytes, -1);
    check(enter(&ring, 1, 1, IORING_ENTER_GETEVENTS) == 1 && reap(&ring).res == 3 &&
          strcmp(bytes, "TWO") == 0);
    return NULL;
}

/* A thread with a table of its own reads what it has open itself. */
static void read_by_own_table(void)
{
    pthread_t thread;
    char bytes[8] = "";
    open_pipe("one", "ONE");
    check(pthread_create(&thread, NULL, read_own, NULL) == 0 && pthread_join(thread, NULL) == 0);
    check(read(READ_END, bytes, sizeof bytes) == 3 && strcmp(bytes, "ONE") == 0);
}

static void test_own_table(void)
{
    check(mkdtemp(folder) && chdir(folder) == 0);
    in_child(read_by_own_table);
    check(chdir("/") == 0 && rmdir(folder) == 0);
}

/* What registering memory of this file comes to. */
static int mapped_file;

static long register_mapped(void)
{
    struct ring ring;
    char *at = mmap(NULL, 4096, PROT_READ | PROT_WRITE, MAP_SHARED, mapped_file, 0);
    struct iovec bytes = {at, 4096};
    check(at != MAP_FAILED);
    make_ring(&ring, 8, 0, 0);
    return register_at(ring.fd, IORING_REGISTER_BUFFERS, &bytes, 1);
}

static pthread_t first;
static long expected;

static void *register_alone(void *none)
{
    (void)none;
    check(pthread_join(first, NULL) == 0);
    usleep(20000);
    check(register_mapped() == expected);
    fflush(stdout);
    _exit(0);
}

static void end_first(void)
{
    pthread_t thread;
    first = pthread_self();
    check(pthread_create(&thread, NULL, register_alone, NULL) == 0);
    pthread_exit(NULL);
}

/* Memory of a file is known as such though the process's first thread has ended. */
static void test_first_has_ended(void)
{
    char name[] = "confined-file-XXXXXX";
    check((mapped_file = mkstemp(name)) >= 0 && unlink(name) == 0 &&
          ftruncate(mapped_file, 4096) == 0);
    expected = register_mapped();
    in_child(end_first);
    close(mapped_file);
}

int main(int count, char **words)
{
    static const struct named tests[] = {
        {"few descriptors", test_few_descriptors},
        {"set up in vain", test_set_up_in_vain},
        {"stop", test_stop},
        {"ignored signals", test_ignored_signals},
        {"depth", test_depth},
        {"first has ended", test_first_has_ended},
        {"own table", test_own_table},
    };
    alarm((unsigned)(PATIENCE * patience()));
    return run_tests(tests, sizeof tests / sizeof *tests, count > 1 ? words[1] : NULL);
}
