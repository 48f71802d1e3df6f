/* Tests by direct calls: transfers of files and pipes, when they wait, what they read when it is
 * there, and injected faults. All hold under every policy.
 *
 *   transfers [NAME]         one test alone. That of faults is run by its name, injection, alone:
 *                            WULGACH_FAULTS is then 0=ENOSPC,2=SHORT,5=EIO,6=SHORT
 */
#define _GNU_SOURCE
#include "engines.h"

#include <pthread.h>
#include <signal.h>
#include <sys/eventfd.h>
#include <sys/inotify.h>
#include <sys/signalfd.h>
#include <sys/timerfd.h>
#include <sys/uio.h>

static void test_files(void)
{
    struct ring ring;
    int32_t results[8];
    char text[32] = "";
    int file = make_file();
    struct iovec vectors[2] = {
        {(void *)(uintptr_t) "good ", 5}, {(void *)(uintptr_t) "morning", 7}};
    make_ring(&ring, 8, 0, 0);
    put_transfer(&ring, IORING_OP_WRITEV, 0, IOSQE_IO_LINK, file, vectors, 2, 0);
    put_transfer(
        &ring, IORING_OP_WRITE, 1, IOSQE_IO_LINK, file, (void *)(uintptr_t) "evening", 7, 5);
    put(&ring, IORING_OP_FSYNC, 2, IOSQE_IO_LINK)->fd = file;
    /* Short: its chain ends here. */
    put_transfer(&ring, IORING_OP_READ, 3, IOSQE_IO_LINK, file, text, 20, 0);
    put(&ring, IORING_OP_NOP, 4, 0);
    put_transfer(&ring, IORING_OP_READ, 5, 0, -1, text, 1, 0);
    check(enter(&ring, 6, 0, 0) == 6);
    /* They were copied. */
    memset(vectors, 0, sizeof vectors);
    reap_all(&ring, 6, results);
    check(results[0] == 12 && results[1] == 7 && results[2] == 0 && results[3] == 12 &&
          results[4] == -ECANCELED && results[5] == -EBADF);
    check(strcmp(text, "good evening") == 0);
    put(&ring, IORING_OP_CLOSE, 6, 0)->fd = ring.fd;
    put(&ring, IORING_OP_CLOSE, 7, 0)->fd = file;
    check(enter(&ring, 2, 0, 0) == 2);
    reap_all(&ring, 2, results);
    check(results[6] == -EBADF && results[7] == 0 && fcntl(file, F_GETFD) < 0);
    close_ring(&ring);
}

static void test_waiting(void)
{
    struct ring ring;
    int32_t results[4];
    char text[8] = "";
    int ends[2];
    check(pipe(ends) == 0);
    make_ring(&ring, 4, 0, 0);
    put_transfer(&ring, IORING_OP_READ, 0, 0, ends[0], text, 4, 0);
    check(enter(&ring, 1, 0, 0) == 1);
    check(enter_for(&ring, 1, 1000) == -ETIME);
    check(flags_of(&ring) & IORING_SQ_TASKRUN);
    check(write(ends[1], "four", 4) == 4);
    reap_all(&ring, 1, results);
    check(results[0] == 4 && memcmp(text, "four", 4) == 0);
    /* A cancel that finds it running ends it. */
    put_transfer(&ring, IORING_OP_READ, 0, 0, ends[0], text, 4, 0);
    check(enter(&ring, 1, 0, 0) == 1);
    check(enter_for(&ring, 1, 1000) == -ETIME);
    put(&ring, IORING_OP_ASYNC_CANCEL, 1, 0);
    put(&ring, IORING_OP_ASYNC_CANCEL, 2, IOSQE_IO_DRAIN)->addr = 99;
    check(enter(&ring, 2, 0, 0) == 2);
    reap_all(&ring, 3, results);
    check(results[0] == -ECANCELED && results[1] == 0 && results[2] == -ENOENT);
    /* To a link it is a success. */
    put_transfer(&ring, IORING_OP_READ, 0, 0, ends[0], text, 4, 0);
    check(enter(&ring, 1, 0, 0) == 1);
    check(enter_for(&ring, 1, 1000) == -ETIME);
    put(&ring, IORING_OP_ASYNC_CANCEL, 1, IOSQE_IO_LINK);
    put(&ring, IORING_OP_NOP, 2, 0);
    check(enter(&ring, 2, 0, 0) == 2);
    reap_all(&ring, 3, results);
    check(results[0] == -ECANCELED && results[1] == 0 && results[2] == 0);
    close_pair(ends);
    close_ring(&ring);
}

/* A transfer that is asked not to wait, or for nothing, doesn't. */
static void test_not_waiting(void)
{
    struct ring ring;
    int32_t results[2];
    char text[8];
    int ends[2];
    check(pipe(ends) == 0);
    make_ring(&ring, 4, 0, 0);
    put_transfer(&ring, IORING_OP_READ, 0, 0, ends[0], text, 4, 0)->rw_flags = RWF_NOWAIT;
    put_transfer(&ring, IORING_OP_READ, 1, 0, ends[0], text, 0, 0);
    check(enter(&ring, 2, 0, 0) == 2);
    reap_all(&ring, 2, results);
    check(results[0] == -EAGAIN && results[1] == 0);
    close_pair(ends);
    close_ring(&ring);
}

/* Reads a counter or an event at offset 0, where there is none at first. */
static void read_when_ready(int fd, unsigned length, void (*make_ready)(int fd))
{
    struct ring ring;
    char bytes[256];
    check(fd >= 0);
    make_ring(&ring, 4, 0, 0);
    put_transfer(&ring, IORING_OP_READ, 0, 0, fd, bytes, length, 0);
    check(enter(&ring, 1, 0, 0) == 1);
    check(enter_for(&ring, 1, 1000000) == -ETIME);
    make_ready(fd);
    check(wait_for_one(&ring) > 0);
    close(fd);
    close_ring(&ring);
}

static void raise_count(int fd)
{
    check(eventfd_write(fd, 1) == 0);
}

static void start_timer(int fd)
{
    struct itimerspec soon = {.it_value = {0, 1000000}};
    check(timerfd_settime(fd, 0, &soon, NULL) == 0);
}

static void send_signal(int fd)
{
    (void)fd;
    check(kill(getpid(), SIGUSR2) == 0);
}

static void change_file(int fd)
{
    check(inotify_add_watch(fd, ".", IN_OPEN) >= 0);
    close(open(".", O_RDONLY | O_DIRECTORY));
}

static void test_without_offsets(void)
{
    sigset_t signals, own;
    sigemptyset(&signals);
    sigaddset(&signals, SIGUSR2);
    pthread_sigmask(SIG_BLOCK, &signals, &own);
    read_when_ready(eventfd(0, 0), 8, raise_count);
    read_when_ready(timerfd_create(CLOCK_MONOTONIC, 0), 8, start_timer);
    read_when_ready(signalfd(-1, &signals, 0), sizeof(struct signalfd_siginfo), send_signal);
    read_when_ready(inotify_init(), 256, change_file);
    pthread_sigmask(SIG_SETMASK, &own, NULL);
    struct ring ring;
    uint64_t bytes = 0;
    int fd = eventfd(7, 0);
    make_ring(&ring, 4, 0, 0);
    put_transfer(&ring, IORING_OP_READ, 0, 0, fd, &bytes, 8, 0);
    check(enter(&ring, 1, 0, 0) == 1);
    check(wait_for_one(&ring) == 8 && bytes == 7);
    close(fd);
    close_ring(&ring);
}

/* What the number of a file was given to since is read as what it is now: a pipe and an eventfd,
 * which have to wait, a device, a folder, nothing, and another file. */
static void read_by_number(struct ring *ring, int fd, const char *bytes)
{
    char text[8];
    for (int i = 0; i < 3; i++)
        check(read_at(ring, fd, text, 4, 0) == 4 && memcmp(text, bytes, 4) == 0);
    check(read_at(ring, fd, text, 8, 0) == 6 && memcmp(text, bytes, 6) == 0);
    check(read_at(ring, fd, text, 4, 4) == 2 && memcmp(text, bytes + 4, 2) == 0);
    check(read_at(ring, fd, text, 4, 6) == 0);
}

static void read_when_written(struct ring *ring, int fd, int to, const void *bytes, unsigned length)
{
    char text[8];
    put_transfer(ring, IORING_OP_READ, 0, 0, fd, text, length, 0);
    check(enter(ring, 1, 0, 0) == 1);
    check(enter_for(ring, 1, 1000000) == -ETIME);
    check(write(to, bytes, length) == (ssize_t)length);
    check(wait_for_one(ring) == (int32_t)length && memcmp(text, bytes, length) == 0);
}

/* The number is given to this file. */
static void read_again(struct ring *ring, int number, int file, const char *bytes)
{
    check(dup2(file, number) == number);
    read_by_number(ring, number, bytes);
}

/* One file is in memory, the other isn't. */
static void test_used_again(void)
{
    struct ring ring;
    char text[8];
    int ends[2], file = make_file(), other = open(".", O_RDWR | O_TMPFILE, 0600),
                 number = dup(file);
    check(other >= 0 && number >= 0 && pipe(ends) == 0);
    check(write(file, "foobar", 6) == 6 && write(other, "barfoo", 6) == 6);
    make_ring(&ring, 4, 0, 0);
    read_by_number(&ring, number, "foobar");
    check(dup2(ends[0], number) == number);
    read_when_written(&ring, number, ends[1], "four", 4);
    read_again(&ring, number, other, "barfoo");
    int counter = eventfd(0, 0);
    check(dup2(counter, number) == number);
    read_when_written(&ring, number, counter, (const char[8]){7}, 8);
    static const char *const places[] = {"/dev/null", "/dev/zero", "."};
    static const int32_t results[] = {0, 4, -EISDIR};
    for (int i = 0; i < 6; i++) {
        int place = open(places[i / 2], O_RDONLY);
        read_again(&ring, number, i % 2 ? file : other, i % 2 ? "foobar" : "barfoo");
        check(place >= 0 && dup2(place, number) == number);
        check(read_at(&ring, number, text, 4, 0) == results[i / 2]);
        close(place);
    }
    read_again(&ring, number, file, "foobar");
    read_again(&ring, number, other, "barfoo");
    read_again(&ring, number, file, "foobar");
    check(dup2(ends[1], number) == number);
    check(read_at(&ring, number, text, 4, 0) == -EBADF);
    close(number);
    check(read_at(&ring, number, text, 4, 0) == -EBADF);
    close_pair(ends);
    close(counter);
    close(file);
    close(other);
    close_ring(&ring);
}

/* Of the reads of a call each is of its own descriptor: a file, a pipe, or nothing, once, or twice
 * in a row. */
static void test_in_turn(void)
{
    struct ring ring;
    char text[9][4];
    int32_t results[9];
    int ends[2], file = make_file(), other = make_file(), gone = dup(file);
    check(pipe(ends) == 0 && write(file, "foobar", 6) == 6 && write(other, "b", 1) == 1);
    int turns[] = {file, file, ends[0], ends[0], other, gone, gone, file, ends[0]};
    int32_t wanted[] = {4, 4, 2, 2, 1, -EBADF, -EBADF, 4, 2};
    make_ring(&ring, 16, 0, 0);
    for (int round = 0; round < 2; round++) {
        check(write(ends[1], "123456", 6) == 6);
        for (uint64_t i = 0; i < 9; i++)
            put_transfer(
                &ring, IORING_OP_READ, i, 0, turns[i], text[i], turns[i] == ends[0] ? 2 : 4, 0);
        check(enter(&ring, 9, 9, IORING_ENTER_GETEVENTS) == 9);
        reap_all(&ring, 9, results);
        for (int i = 0; i < 9; i++)
            check(results[i] == (turns[i] == gone && round == 0 ? 4 : wanted[i]));
        close(gone);
    }
    close_pair(ends);
    close(file);
    close(other);
    close_ring(&ring);
}

/* Faults of ring 0, as WULGACH_FAULTS says. */
static void test_injection(void)
{
    struct ring ring;
    int32_t results[8];
    char bytes[8] = "12345678", text[8];
    int file = make_file();
    struct iovec vectors[2] = {
        {(void *)(uintptr_t) "good ", 5}, {(void *)(uintptr_t) "morning", 7}};
    make_ring(&ring, 8, 0, 0);
    put_transfer(&ring, IORING_OP_WRITE, 0, IOSQE_IO_LINK, file, bytes, 8, 0);
    put(&ring, IORING_OP_FSYNC, 1, 0)->fd = file;
    put_transfer(&ring, IORING_OP_WRITE, 2, IOSQE_IO_LINK, file, bytes, 8, 0);
    put(&ring, IORING_OP_FSYNC, 3, 0)->fd = file;
    put_transfer(&ring, IORING_OP_WRITE, 4, 0, file, bytes, 8, 0);
    put(&ring, IORING_OP_FSYNC, 5, 0)->fd = file;
    /* Half of all bytes, not of each vector's. */
    put_transfer(&ring, IORING_OP_WRITEV, 6, 0, file, vectors, 2, 100);
    check(enter(&ring, 7, 0, 0) == 7);
    reap_all(&ring, 7, results);
    check(results[6] == 6 && lseek(file, 0, SEEK_END) == 106 && pread(file, text, 6, 100) == 6 &&
          memcmp(text, "good m", 6) == 0);
    check(results[0] == -ENOSPC && results[1] == -ECANCELED);
    check(results[2] == 4 && results[3] == -ECANCELED);
    check(results[4] == 8 && results[5] == -EIO);
    close_ring(&ring);
    /* Another ring has none. */
    make_ring(&ring, 8, 0, 0);
    put_transfer(&ring, IORING_OP_WRITE, 0, 0, file, bytes, 8, 0);
    check(enter(&ring, 1, 0, 0) == 1);
    reap_all(&ring, 1, results);
    check(results[0] == 8);
    close(file);
    close_ring(&ring);
}

int main(int count, char **words)
{
    static const struct named tests[] = {
        {"files", test_files},
        {"waiting", test_waiting},
        {"not waiting", test_not_waiting},
        {"without offsets", test_without_offsets},
        {"used again", test_used_again},
        {"in turn", test_in_turn},
    };
    static const struct named injection = {"injection", test_injection};
    if (count > 1 && strcmp(words[1], injection.name) == 0)
        return run_tests(&injection, 1, NULL);
    return run_tests(tests, sizeof tests / sizeof *tests, count > 1 ? words[1] : NULL);
}
