/* Tests by direct calls: several rings, forked children, how a call finds its ring, and addresses
 * that can't be read. All hold under every policy. A test that hangs ends by an alarm.
 */
#define _GNU_SOURCE
#include "engines.h"

#include <linux/time_types.h>
#include <poll.h>
#include <pthread.h>
#include <sched.h>
#include <sys/epoll.h>
#include <sys/eventfd.h>
#include <sys/stat.h>
#include <sys/wait.h>

/* Two rings, one of them under another descriptor, and a child, which has neither. */
static void test_two_rings(void)
{
    struct ring one, two;
    int32_t results[4];
    make_ring(&one, 4, 0, 0);
    make_ring(&two, 4, 0, 0);
    put(&one, IORING_OP_NOP, 1, 0);
    put(&two, IORING_OP_NOP, 2, 0);
    int other = dup(one.fd);
    close(one.fd);
    one.fd = other;
    check(enter(&one, 1, 0, 0) == 1 && enter(&two, 1, 0, 0) == 1);
    pid_t child = fork();
    if (child == 0)
        _exit(enter(&one, 0, 0, 0) == -EOPNOTSUPP ? 0 : 1);
    int status;
    check(waitpid(child, &status, 0) == child && status == 0);
    reap_all(&one, 1, results);
    reap_all(&two, 1, results);
    check(results[1] == 0 && results[2] == 0);
    close_ring(&one);
    close_ring(&two);
}

/* A number that was a ring's: another ring's by now, that of what is none, or again its own. */
static void use_number_again(void)
{
    struct ring one, two;
    make_ring(&one, 4, 0, 0);
    make_ring(&two, 4, 0, 0);
    int kept = dup(one.fd), others[] = {epoll_create1(0), eventfd(0, 0), make_file()};
    for (size_t i = 0; i < sizeof others / sizeof *others; i++) {
        submit_nop(&one, i);
        check(wait_for_one(&one) == 0);
        check(dup2(others[i], one.fd) == one.fd && enter(&one, 0, 0, 0) == -EOPNOTSUPP);
        put(&two, IORING_OP_NOP, i, 0);
        check(dup2(two.fd, one.fd) == one.fd && enter(&one, 1, 0, 0) == 1);
        check(wait_for_one(&two) == 0);
        close(one.fd);
        check(enter(&one, 0, 0, 0) == -EBADF);
        check(dup2(kept, one.fd) == one.fd);
        close(others[i]);
    }
    close(kept);
    close_ring(&one);
    close_ring(&two);
}

static void test_numbers(void)
{
    use_number_again();
    if (is_under_valgrind())
        return;
    setenv("WULGACH_TEST_POLLED", "yes", 1);
    use_number_again();
    unsetenv("WULGACH_TEST_POLLED");
}

static void *set_up_again_and_again(void *stop)
{
    while (!__atomic_load_n((bool *)stop, __ATOMIC_ACQUIRE)) {
        struct ring ring;
        make_ring(&ring, 1, 0, 0);
        close_ring(&ring);
    }
    return NULL;
}

/* A child that is forked while another thread sets rings up has rings of its own. */
static void test_forks(void)
{
    bool stop = false;
    pthread_t thread;
    check(pthread_create(&thread, NULL, set_up_again_and_again, &stop) == 0);
    for (int i = 0; i < 100; i++) {
        pid_t child = fork();
        if (child == 0) {
            struct ring ring;
            alarm((unsigned)(PATIENCE / 4 * patience()));
            make_ring(&ring, 4, 0, 0);
            submit_nop(&ring, 0);
            _exit(wait_for_one(&ring) == 0 ? 0 : 1);
        }
        int status;
        check(waitpid(child, &status, 0) == child && status == 0);
    }
    __atomic_store_n(&stop, true, __ATOMIC_RELEASE);
    check(pthread_join(thread, NULL) == 0);
}

/* What a ring and a request of the parent's keep open, a child doesn't, once it has closed what it
 * knows of. */
static void test_kept_files(void)
{
    for (int is_registered = 0; is_registered < 2; is_registered++) {
        struct ring ring;
        int ends[2], go[2], status;
        char byte;
        check(pipe(ends) == 0 && pipe(go) == 0);
        make_ring(&ring, 4, 0, 0);
        if (is_registered)
            check(register_at(ring.fd, IORING_REGISTER_FILES, &ends[1], 1) == 0);
        struct io_uring_sqe *entry = put_plain(
            &ring, IORING_OP_POLL_ADD, 0, is_registered ? 0 : ends[1]);
        entry->flags = is_registered ? IOSQE_FIXED_FILE : 0;
        check(enter(&ring, 1, 0, 0) == 1 && enter_for(&ring, 1, 1000) == -ETIME);
        pid_t child = fork();
        if (child == 0) {
            close(ends[0]), close(ends[1]), close(go[1]), close(ring.fd);
            _exit(read(go[0], &byte, 1) == 0 ? 0 : 1);
        }
        close(ends[1]);
        if (is_registered)
            check(register_at(ring.fd, IORING_UNREGISTER_FILES, NULL, 0) == 0);
        int32_t results[2];
        put(&ring, IORING_OP_ASYNC_CANCEL, 1, 0);
        check(enter(&ring, 1, 0, 0) == 1);
        reap_all(&ring, 2, results);
        check(results[0] == -ECANCELED && results[1] == 0);
        struct pollfd at = {.fd = ends[0], .events = POLLIN};
        check(poll(&at, 1, 2000 * patience()) == 1 && read(ends[0], &byte, 1) == 0);
        close(go[0]), close(go[1]), close(ends[0]);
        check(waitpid(child, &status, 0) == child && status == 0);
        close_ring(&ring);
    }
}

/* ---- rings by number ---- */

static uint32_t enroll(const struct ring *ring)
{
    struct io_uring_rsrc_update row = {.offset = UINT32_MAX, .data = (uint32_t)ring->fd};
    check(register_at(ring->fd, IORING_REGISTER_RING_FDS, &row, 1) == 1);
    return row.offset;
}

static long enter_by_number(uint32_t number)
{
    return wulgach_syscall(
        SYS_io_uring_enter, number, 0u, 0u, IORING_ENTER_REGISTERED_RING, NULL, (size_t)0);
}

static void want_success(pid_t child)
{
    int status;
    check(waitpid(child, &status, 0) == child && status == 0);
}

enum { ROUNDS = 4, LOWEST = 512, HIGHEST = 530 };

/* A child closes all it has, and takes the numbers for files of its own. */
static void take_numbers(void)
{
    check(close_range(3, UINT32_MAX, 0) == 0);
    for (int fd = LOWEST; fd < HIGHEST; fd++)
        check(dup2(1, fd) == fd);
}

static bool has_numbers(void)
{
    struct stat own, found;
    check(fstat(1, &own) == 0);
    for (int fd = LOWEST; fd < HIGHEST; fd++)
        if (fstat(fd, &found) < 0 || found.st_dev != own.st_dev || found.st_ino != own.st_ino)
            return false;
    return true;
}

/* It loses none of them as it enrolls a ring. */
static void test_numbers_of_child(void)
{
    struct ring ring, own;
    make_ring(&ring, 4, 0, 0);
    check(enter_by_number(enroll(&ring)) == 0);
    pid_t child = fork();
    if (child == 0) {
        take_numbers();
        make_ring(&own, 4, 0, 0);
        check(enter_by_number(0) == -1 && enter_by_number(enroll(&own)) == 0 && has_numbers());
        _exit(0);
    }
    want_success(child);
    close_ring(&ring);
}

/* A child that is the first process of a namespace: its number is 1. */
static pid_t fork_first(void)
{
    if (unshare(CLONE_NEWPID) < 0 && unshare(CLONE_NEWUSER | CLONE_NEWPID) < 0)
        _exit(0); /* (the kernel doesn't let it) */
    return fork();
}

/* One that has its parent's number has none of its rings either. */
static void be_parent(void)
{
    struct ring ring;
    make_ring(&ring, 4, 0, 0);
    pid_t child = fork_first();
    if (child == 0)
        _exit(getpid() == 1 && enter(&ring, 0, 0, 0) == -EOPNOTSUPP ? 0 : 1);
    want_success(child);
    check(getpid() == 1 && enter(&ring, 0, 0, 0) == 0);
}

static void test_number_of_parent(void)
{
    pid_t child = fork();
    if (child == 0) {
        if ((child = fork_first()) == 0)
            be_parent();
        else
            want_success(child);
        _exit(0);
    }
    want_success(child);
}

static pthread_key_t last_key;
static uint32_t last_number;
static int last_round;

/* In the last round of a thread's destructors. */
static void want_own_files(void *of)
{
    if (++last_round < ROUNDS) {
        pthread_setspecific(last_key, of);
        return;
    }
    _exit(has_numbers() ? 0 : 1);
}

static void *fork_in_thread(void *of)
{
    enroll(of);
    pid_t child = fork();
    if (child > 0) {
        want_success(child);
        return NULL;
    }
    take_numbers();
    check(pthread_key_create(&last_key, want_own_files) == 0 &&
          pthread_setspecific(last_key, of) == 0);
    return NULL;
}

/* Nor where it is a thread's, and ends as that thread would, without a call. */
static void test_thread_of_child(void)
{
    struct ring ring;
    pthread_t thread;
    make_ring(&ring, 4, 0, 0);
    last_round = 0;
    check(pthread_create(&thread, NULL, fork_in_thread, &ring) == 0 &&
          pthread_join(thread, NULL) == 0);
    close_ring(&ring);
}

static void call_last(void *of)
{
    check(enter_by_number(last_number) == 0);
    if (++last_round < ROUNDS - 1)
        pthread_setspecific(last_key, of);
}

static void *enroll_in_thread(void *of)
{
    last_number = enroll(of);
    check(pthread_key_create(&last_key, call_last) == 0 && pthread_setspecific(last_key, of) == 0);
    return NULL;
}

/* A program's destructors may call by number, and the thread's numbers go with it. */
static void test_numbers_of_thread(void)
{
    struct ring ring;
    pthread_t thread;
    make_ring(&ring, 4, 0, 0);
    int free_number = fcntl(0, F_DUPFD, LOWEST), next;
    close(free_number);
    last_round = 0;
    check(pthread_create(&thread, NULL, enroll_in_thread, &ring) == 0 &&
          pthread_join(thread, NULL) == 0);
    check(last_round == ROUNDS - 1);
    next = fcntl(0, F_DUPFD, LOWEST);
    check(next == free_number && close(next) == 0);
    pthread_key_delete(last_key);
    close_ring(&ring);
}

static unsigned long questions;

int __real_fstat(int fd, struct stat *status);
int __wrap_fstat(int fd, struct stat *status);

int __wrap_fstat(int fd, struct stat *status)
{
    questions++;
    return __real_fstat(fd, status);
}

/* A call finds its ring by one question, however many rings there are; once in a while it asks of a
 * few others whether they are reached. */
static void test_many_rings(void)
{
    enum { RINGS = 200, CALLS = 1000 };
    static struct ring rings[RINGS];
    for (int i = 0; i < RINGS; i++)
        make_ring(&rings[i], 1, 0, 0);
    questions = 0;
    for (int i = 0; i < CALLS; i++)
        check(enter(&rings[0], 0, 0, 0) == 0);
    check(questions <= 10 * CALLS);
    for (int i = 0; i < RINGS; i++)
        close_ring(&rings[i]);
}

static void expect_fault(
    struct ring *ring, struct io_uring_sqe *entry, uint64_t first, uint64_t second, int32_t result)
{
    entry->fd = AT_FDCWD;
    entry->addr = first;
    entry->off = second;
    check(enter(ring, 1, 0, 0) == 1);
    check(wait_for_one(ring) == result);
}

static void test_bad_addresses(void)
{
    struct ring ring;
    char *page = mmap(NULL, 8192, PROT_READ | PROT_WRITE, MAP_PRIVATE | MAP_ANONYMOUS, -1, 0);
    check(page != MAP_FAILED && mprotect(page + 4096, 4096, PROT_NONE) == 0);
    uintptr_t bad = (uintptr_t)page + 4096;
    char *path = page + 4096 - 5;
    memcpy(path, "/nix", 5);
    make_ring(&ring, 4, 0, 0);
    put(&ring, IORING_OP_READV, 0, 0)->len = 2;
    expect_fault(&ring, &ring.entries[0], bad, 0, -EFAULT);
    expect_fault(&ring, put(&ring, IORING_OP_OPENAT, 0, 0), bad, 0, -EFAULT);
    expect_fault(&ring, put(&ring, IORING_OP_OPENAT, 0, 0), 0, 0, -EFAULT);
    expect_fault(&ring, put(&ring, IORING_OP_OPENAT, 0, 0), (uintptr_t)path, 0, -ENOENT);
    expect_fault(&ring, put(&ring, IORING_OP_RENAMEAT, 0, 0), (uintptr_t)path, bad, -EFAULT);
    memset(path, 'x', 5);
    expect_fault(&ring, put(&ring, IORING_OP_UNLINKAT, 0, 0), (uintptr_t)path, 0, -EFAULT);
    struct io_uring_sqe *entry = put(&ring, IORING_OP_TIMEOUT, 0, 0);
    entry->len = 1;
    expect_fault(&ring, entry, bad, 0, -EFAULT);
    int file = make_file();
    check(write(file, "data", 4) == 4);
    put_transfer(&ring, IORING_OP_READ, 0, 0, file, (void *)bad, 4, 0);
    check(enter(&ring, 1, 0, 0) == 1 && wait_for_one(&ring) == -EFAULT);
    struct io_uring_getevents_arg argument = {.ts = bad};
    unsigned flags = IORING_ENTER_GETEVENTS | IORING_ENTER_EXT_ARG;
    check(wulgach_syscall(SYS_io_uring_enter, ring.fd, 0u, 1u, flags, &argument, sizeof argument) ==
              -1 &&
          errno == EFAULT);
    check(wulgach_syscall(SYS_io_uring_enter, ring.fd, 0u, 1u, flags, bad, sizeof argument) == -1 &&
          errno == EFAULT);
    check(register_at(ring.fd, IORING_REGISTER_PROBE, (void *)bad, 1) == -EFAULT);
    check(set_up(4, (void *)bad) == -EFAULT);
    close(file);
    munmap(page, 8192);
    close_ring(&ring);
}

int main(int count, char **words)
{
    static const struct named tests[] = {
        {"two rings", test_two_rings},
        {"numbers", test_numbers},
        {"forks", test_forks},
        {"kept files", test_kept_files},
        {"numbers of a child", test_numbers_of_child},
        {"number of a parent", test_number_of_parent},
        {"thread of a child", test_thread_of_child},
        {"numbers of a thread", test_numbers_of_thread},
        {"many rings", test_many_rings},
        {"bad addresses", test_bad_addresses},
    };
    alarm((unsigned)(PATIENCE * patience()));
    return run_tests(tests, sizeof tests / sizeof *tests, count > 1 ? words[1] : NULL);
}
