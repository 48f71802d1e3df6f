/* Each call of the C library that the layer makes and that can fail, refused in turn: it then fails
 * once, in a run of its own. Set-up may then fail, a call may submit less or fail, and an operation
 * may end with an error. But nothing hangs or crashes, the next call goes on, and each request that
 * was accepted has one completion.
 *
 *   refused          all of them, for a descriptor that is memory and for one that polls, of a ring
 *                    on which few requests wait and of one on which many do
 */
#define _GNU_SOURCE
#include "ring.h"

#include <dirent.h>
#include <poll.h>
#include <signal.h>
#include <stdarg.h>
#include <sys/epoll.h>
#include <sys/eventfd.h>
#include <sys/inotify.h>
#include <sys/stat.h>
#include <sys/uio.h>
#include <sys/wait.h>

/* ---- the calls ---- */

static bool is_in_layer; /* a call of the layer's is under way */
static long asked, refused; /* how many it made so far, and which one is to fail, from 1 on */
static const char *refused_name = "";

static bool is_refused(const char *name, int error)
{
    if (!is_in_layer || ++asked != refused)
        return false;
    refused_name = name;
    errno = error;
    return true;
}

#define WRAP(type, name, none, error, parameters, arguments) \
    type __real_##name parameters; \
    type __wrap_##name parameters; \
    type __wrap_##name parameters \
    { \
        return is_refused(#name, error) ? none : __real_##name arguments; \
    }

WRAP(void *, malloc, NULL, ENOMEM, (size_t size), (size))
WRAP(void *, calloc, NULL, ENOMEM, (size_t count, size_t size), (count, size))
WRAP(void *, realloc, NULL, ENOMEM, (void *at, size_t size), (at, size))
WRAP(int, memfd_create, -1, EMFILE, (const char *name, unsigned flags), (name, flags))
WRAP(int, ftruncate, -1, ENOSPC, (int fd, off_t length), (fd, length))
WRAP(int, eventfd, -1, EMFILE, (unsigned count, int flags), (count, flags))
WRAP(int, epoll_create1, -1, EMFILE, (int flags), (flags))
WRAP(int, epoll_ctl, -1, ENOMEM, (int at, int change, int fd, struct epoll_event *event),
    (at, change, fd, event))
WRAP(int, epoll_wait, -1, EINVAL, (int at, struct epoll_event *events, int most, int limit),
    (at, events, most, limit))
WRAP(int, epoll_pwait2, -1, ENOSYS,
    (int at, struct epoll_event *events, int most, const struct timespec *limit,
        const sigset_t *signals),
    (at, events, most, limit, signals))
WRAP(int, fstat, -1, EIO, (int fd, struct stat *status), (fd, status))
WRAP(int, stat, -1, EACCES, (const char *path, struct stat *status), (path, status))
WRAP(void *, mmap, MAP_FAILED, ENOMEM,
    (void *at, size_t size, int protection, int flags, int fd, off_t offset),
    (at, size, protection, flags, fd, offset))
WRAP(int, poll, -1, ENOMEM, (struct pollfd * polled, nfds_t count, int limit),
    (polled, count, limit))
WRAP(int, ppoll, -1, ENOMEM,
    (struct pollfd * polled, nfds_t count, const struct timespec *limit, const sigset_t *signals),
    (polled, count, limit, signals))
WRAP(ssize_t, process_vm_readv, -1, EPERM,
    (pid_t process, const struct iovec *to, unsigned long to_count, const struct iovec *from,
        unsigned long from_count, unsigned long flags),
    (process, to, to_count, from, from_count, flags))
WRAP(ssize_t, process_vm_writev, -1, EPERM,
    (pid_t process, const struct iovec *from, unsigned long from_count, const struct iovec *to,
        unsigned long to_count, unsigned long flags),
    (process, from, from_count, to, to_count, flags))
WRAP(ssize_t, preadv, -1, EIO, (int fd, const struct iovec *vectors, int count, off_t offset),
    (fd, vectors, count, offset))
WRAP(ssize_t, pwritev, -1, EIO, (int fd, const struct iovec *vectors, int count, off_t offset),
    (fd, vectors, count, offset))
WRAP(ssize_t, preadv2, -1, EIO,
    (int fd, const struct iovec *vectors, int count, off_t offset, int flags),
    (fd, vectors, count, offset, flags))
WRAP(ssize_t, pwritev2, -1, EIO,
    (int fd, const struct iovec *vectors, int count, off_t offset, int flags),
    (fd, vectors, count, offset, flags))
WRAP(int, fsync, -1, EIO, (int fd), (fd))
WRAP(ssize_t, read, -1, EIO, (int fd, void *at, size_t size), (fd, at, size))
WRAP(ssize_t, write, -1, EIO, (int fd, const void *at, size_t size), (fd, at, size))
WRAP(DIR *, opendir, NULL, EMFILE, (const char *path), (path))
WRAP(int, inotify_init1, -1, EMFILE, (int flags), (flags))
WRAP(
    int, inotify_add_watch, -1, ENOSPC, (int fd, const char *path, uint32_t mask), (fd, path, mask))

int __real_fcntl(int fd, int command, ...);
int __wrap_fcntl(int fd, int command, ...);
int __wrap_fcntl(int fd, int command, ...)
{
    va_list arguments;
    va_start(arguments, command);
    int word = va_arg(arguments, int);
    va_end(arguments);
    return is_refused("fcntl", EMFILE) ? -1 : __real_fcntl(fd, command, word);
}

int __real_open(const char *path, int flags, ...);
int __wrap_open(const char *path, int flags, ...);
int __wrap_open(const char *path, int flags, ...)
{
    return is_refused("open", EMFILE) ? -1 : __real_open(path, flags, 0666);
}

/* This one isn't refused: but the layer closes no number twice, which may be another file's by
 * then. */
int __real_close(int fd);
int __wrap_close(int fd);
int __wrap_close(int fd)
{
    int result = __real_close(fd);
    check(result == 0 || !is_in_layer);
    return result;
}

/* ---- what is done meanwhile ---- */

static long enter_refused(struct ring *ring, unsigned to_submit, unsigned min_complete)
{
    struct __kernel_timespec time = {0, 2000000};
    struct io_uring_getevents_arg argument = {.ts = (uintptr_t)&time};
    is_in_layer = true;
    long result = wulgach_syscall(SYS_io_uring_enter, ring->fd, to_submit, min_complete,
        IORING_ENTER_GETEVENTS | IORING_ENTER_EXT_ARG, &argument, sizeof argument);
    is_in_layer = false;
    return result < 0 ? -errno : result;
}

/* Set-up and mappings. False if they failed, which one of them may. */
static bool open_refused(struct ring *ring, bool is_polled)
{
    memset(ring, 0, sizeof *ring);
    struct io_uring_params *params = &ring->params;
    is_in_layer = true;
    ring->fd = (int)(is_polled ? wulgach_polled_syscall(SYS_io_uring_setup, 64u, params)
                               : wulgach_syscall(SYS_io_uring_setup, 64u, params));
    is_in_layer = false;
    check(ring->fd >= 0 || refused <= asked);
    if (ring->fd < 0)
        return false;
    ring->sq_size = params->sq_off.array + params->sq_entries * sizeof(unsigned);
    ring->cq_size = params->cq_off.cqes + params->cq_entries * sizeof(struct io_uring_cqe);
    ring->sq = map(ring, ring->sq_size, IORING_OFF_SQ_RING);
    ring->cq = map(ring, ring->cq_size, IORING_OFF_CQ_RING);
    ring->entries = map(ring, params->sq_entries * sizeof *ring->entries, IORING_OFF_SQES);
    return true;
}

/* The requests, and the polls beside them where many wait, which have the user data after theirs.
 */
enum { REQUESTS = 9, CROWD = 36 };

static unsigned reap_refused(struct ring *ring, uint64_t *seen)
{
    unsigned reaped = 0;
    for (; count_ready(ring) > 0; reaped++) {
        struct completion found = reap(ring);
        check(found.user_data < REQUESTS + CROWD && !(*seen & UINT64_C(1) << found.user_data));
        *seen |= UINT64_C(1) << found.user_data;
    }
    return reaped;
}

/* A chain on a file, a read of a pipe, which is fed later, and a poll of it, a timeout, and
 * vectors. */
static void put_all(struct ring *ring, int file, const int *ends, char *bytes,
    struct iovec *vectors, struct __kernel_timespec *time)
{
    put_transfer(ring, IORING_OP_WRITE, 0, IOSQE_IO_LINK, file, bytes, 8, 0);
    put(ring, IORING_OP_FSYNC, 1, IOSQE_IO_LINK)->fd = file;
    put_transfer(ring, IORING_OP_READV, 2, 0, file, vectors, 2, 0);
    put_transfer(ring, IORING_OP_READ, 3, 0, ends[0], bytes + 16, 4, 0);
    struct io_uring_sqe *entry = put(ring, IORING_OP_TIMEOUT, 4, 0);
    entry->addr = (uintptr_t)time;
    entry->len = 1;
    put_transfer(ring, IORING_OP_WRITEV, 5, 0, file, vectors, 2, 100);
    put(ring, IORING_OP_ASYNC_CANCEL, 6, 0)->addr = 99;
    entry = put(ring, IORING_OP_POLL_ADD, 7, 0);
    entry->fd = ends[0];
    entry->poll32_events = POLLIN;
    put(ring, IORING_OP_NOP, 8, IOSQE_IO_DRAIN);
}

static void put_crowd(struct ring *ring, int fd)
{
    for (unsigned i = 0; i < CROWD; i++) {
        struct io_uring_sqe *entry = put(ring, IORING_OP_POLL_ADD, REQUESTS + i, 0);
        entry->fd = fd;
        entry->poll32_events = POLLIN;
    }
}

static void run_refused(bool is_polled, bool is_crowded)
{
    struct ring ring, second;
    char bytes[64] = "bytes of";
    struct iovec vectors[2] = {{bytes + 24, 3}, {bytes + 32, 5}};
    struct __kernel_timespec time = {0, 1000};
    int ends[2], quiet[2], file = make_file();
    unsigned requests = REQUESTS + (is_crowded ? CROWD : 0), submitted = 0, reaped = 0;
    uint64_t seen = 0;
    check(pipe(ends) == 0 && pipe(quiet) == 0);
    if (!open_refused(&ring, is_polled))
        return;
    if (is_crowded)
        put_crowd(&ring, quiet[0]);
    put_all(&ring, file, ends, bytes, vectors, &time);
    for (int round = 0; submitted < requests || reaped < submitted; round++) {
        check(round < 200);
        long result = enter_refused(&ring, requests - submitted, 1);
        check(result >= 0 || result == -ETIME || refused <= asked);
        submitted += result > 0 ? (unsigned)result : 0;
        reaped += reap_refused(&ring, &seen);
        if (round == 2)
            check(write(ends[1], "four and", 8) == 8);
        if (round == 4)
            check(write(quiet[1], "x", 1) == 1);
    }
    close_ring(&ring);
    if (open_refused(&second, is_polled))
        close_ring(&second);
}

/* In a child that is to be quick. Returns how many calls the layer made, or ends the program. */
static long run_child(long number, bool is_polled, bool is_crowded)
{
    int results[2];
    struct {
        long asked;
        char name[32];
    } told = {0};
    check(pipe(results) == 0);
    pid_t child = fork();
    if (child == 0) {
        alarm((unsigned)(PATIENCE * patience()));
        refused = number;
        run_refused(is_polled, is_crowded);
        told.asked = asked;
        snprintf(told.name, sizeof told.name, "%s", refused_name);
        _exit(write(results[1], &told, sizeof told) == sizeof told ? 0 : 1);
    }
    int status;
    check(waitpid(child, &status, 0) == child);
    if (status != 0) {
        printf("refused: call %ld of the layer, %s, %s wait: status %#x\n", number,
            is_polled ? "polled" : "memory", is_crowded ? "many" : "few", (unsigned)status);
        exit(1);
    }
    check(read(results[0], &told, sizeof told) == sizeof told);
    close_pair(results);
    return told.asked;
}

int main(void)
{
    test = "refused";
    for (int kind = 0; kind < 4; kind++) {
        bool is_polled = kind % 2, is_crowded = kind / 2;
        long number = 1;
        while (run_child(number, is_polled, is_crowded) >= number)
            number++;
        printf("%s, %s wait: %ld calls, each refused in turn\n",
            is_polled ? "a descriptor that polls" : "memory", is_crowded ? "many" : "few",
            number - 1);
        fflush(stdout);
    }
    return 0;
}
