/* Tests of requests that once waited without an end, or with work: named pipes that are opened,
 * what isn't ordinary data, and connects. Each is a process of its own. All hold under every
 * policy.
 *
 *   endless [NAME]           with a name: that test alone
 */
#define _GNU_SOURCE
#include "watched.h"

#include <linux/openat2.h>
#include <sys/resource.h>
#include <sys/un.h>

/* Urgent data are there or aren't, whatever else is; what a socket was told of errors ends with -11
 * once there is something else; and a socket that listens has nothing to be read. */
static void test_not_ordinary(void)
{
    struct ring ring;
    struct sockaddr_in address;
    int ends[2];
    char byte = 0;
    make_tcp_pair(ends);
    make_ring(&ring, 8, 0, 0);
    put_transfer(&ring, IORING_OP_RECV, 0, 0, ends[1], &byte, 1, 0)->msg_flags = MSG_OOB;
    check(enter(&ring, 1, 0, 0) == 1 && ends_with(&ring, -EINVAL));
    check(send(ends[0], "X", 1, MSG_OOB) == 1);
    usleep(1000);
    put_transfer(&ring, IORING_OP_RECV, 0, 0, ends[1], &byte, 1, 0)->msg_flags = MSG_OOB;
    check(enter(&ring, 1, 0, 0) == 1 && ends_with(&ring, 1) && byte == 'X');
    put_transfer(&ring, IORING_OP_RECV, 0, 0, ends[1], &byte, 1, 0)->msg_flags = MSG_ERRQUEUE;
    check(enter(&ring, 1, 0, 0) == 1 && is_waiting(&ring));
    check(send(ends[0], "y", 1, 0) == 1 && ends_with(&ring, -EAGAIN));
    int listener = make_listener(&address);
    for (int i = 0; i < 2; i++) {
        put_transfer(&ring, i ? IORING_OP_READ : IORING_OP_RECV, 0, 0, listener, &byte, 1, 0);
        check(enter(&ring, 1, 0, 0) == 1 && ends_with(&ring, -ENOTCONN));
    }
    close_ring(&ring);
}

static void put_open(struct ring *ring, uint64_t user_data, const char *path, int flags)
{
    struct io_uring_sqe *entry = put_plain(ring, IORING_OP_OPENAT, user_data, AT_FDCWD);
    entry->addr = (uintptr_t)path;
    entry->open_flags = flags;
}

static void put_cancel(struct ring *ring, uint64_t user_data, uint64_t target)
{
    put_plain(ring, IORING_OP_ASYNC_CANCEL, user_data, -1)->addr = target;
}

/* Both ends of a named pipe are opened by who waits, whichever comes first, and each waits for the
 * other, also for another process'. One that was opened is as it was asked for. */
static void test_opened(void)
{
    struct ring ring;
    struct open_how how = {.flags = O_RDONLY};
    char name[] = "/tmp/unwilling-XXXXXX";
    int32_t fds[2];
    check(mkdtemp(name) && chdir(name) == 0 && mkfifo("fifo", 0600) == 0);
    make_ring(&ring, 8, 0, 0);
    for (int i = 0; i < 2; i++) {
        put_open(&ring, 0, "fifo", O_CREAT | (i ? O_WRONLY : O_RDONLY));
        put_open(&ring, 1, "fifo", O_CREAT | (i ? O_RDONLY : O_WRONLY));
        check(enter(&ring, 2, 0, 0) == 2);
        reap_all(&ring, 2, fds);
        for (int end = 0; end < 2; end++)
            check(
                fds[end] >= 0 && !(fcntl(fds[end], F_GETFL) & O_NONBLOCK) && close(fds[end]) == 0);
        put_open(&ring, 0, "fifo", O_CREAT | (i ? O_WRONLY : O_RDONLY));
        check(enter(&ring, 1, 0, 0) == 1 && is_waiting(&ring));
        put_cancel(&ring, 1, 0);
        check(enter(&ring, 1, 0, 0) == 1);
        reap_all(&ring, 2, fds);
        check(fds[0] == -ECANCELED && open("fifo", O_WRONLY | O_NONBLOCK) < 0 && errno == ENXIO);
    }
    struct io_uring_sqe *entry = put_plain(&ring, IORING_OP_OPENAT2, 0, AT_FDCWD);
    entry->addr = (uintptr_t) "fifo";
    entry->off = (uintptr_t)&how;
    entry->len = sizeof how;
    entry->flags |= IOSQE_ASYNC;
    check(enter(&ring, 1, 0, 0) == 1 && is_waiting(&ring));
    pid_t child = fork();
    if (child == 0)
        _exit(open("fifo", O_WRONLY) < 0);
    check(next_of(&ring).res >= 0 && waitpid(child, fds, 0) == child && fds[0] == 0);
    check(unlink("fifo") == 0 && rmdir(name) == 0);
    close_ring(&ring);
}

/* The descriptor that has what a path names, or -1. */
static int descriptor_of(const char *path)
{
    struct stat sought, found;
    check(stat(path, &sought) == 0);
    for (int fd = 0; fd < 1024; fd++)
        if (fstat(fd, &found) == 0 && found.st_dev == sought.st_dev &&
            found.st_ino == sought.st_ino)
            return fd;
    return -1;
}

static int descriptor_of_child(const char *path)
{
    int status;
    pid_t child = fork();
    if (child == 0)
        _exit(descriptor_of(path) + 1);
    check(child > 0 && waitpid(child, &status, 0) == child && WIFEXITED(status));
    return WEXITSTATUS(status) - 1;
}

/* What an open that waits has open already, no child has, and no program that is started; once it
 * has ended, they have it. */
static void test_opened_meanwhile(void)
{
    struct ring ring;
    char name[] = "/tmp/unwilling-XXXXXX";
    check(mkdtemp(name) && chdir(name) == 0 && mkfifo("fifo", 0600) == 0);
    make_ring(&ring, 8, 0, 0);
    for (int closes = 0; closes < 2; closes++) {
        put_open(&ring, 0, "fifo", O_CREAT | O_RDONLY | (closes ? O_CLOEXEC : 0));
        check(enter(&ring, 1, 0, 0) == 1 && is_waiting(&ring) && descriptor_of_child("fifo") < 0);
        int fd = descriptor_of("fifo");
        check(fd < 0 || fcntl(fd, F_GETFD) & FD_CLOEXEC);
        int writer = open("fifo", O_WRONLY | O_NONBLOCK);
        check(writer >= 0);
        fd = next_of(&ring).res;
        check(fd >= 0 && !(fcntl(fd, F_GETFD) & FD_CLOEXEC) == !closes && close(writer) == 0 &&
              descriptor_of_child("fifo") == fd && close(fd) == 0);
    }
    put_open(&ring, 0, "fifo", O_CREAT | O_RDONLY);
    check(enter(&ring, 1, 0, 0) == 1 && is_waiting(&ring));
    put_cancel(&ring, 1, 0);
    check(enter(&ring, 1, 0, 0) == 1 && next_of(&ring).res + next_of(&ring).res == -ECANCELED &&
          descriptor_of("fifo") < 0);
    check(unlink("fifo") == 0 && rmdir(name) == 0);
    close_ring(&ring);
}

/* What an open that waits is to open was found as it started: its path may name nothing by then,
 * and the folder where that begins be closed, or what else has the number that its entry has. */
static void test_found_once(void)
{
    struct ring ring;
    struct open_how how = {.flags = O_WRONLY, .resolve = RESOLVE_IN_ROOT};
    char name[] = "/tmp/unwilling-XXXXXX", path[64];
    int ends[2];
    check(mkdtemp(name) && chdir(name) == 0 && pipe(ends) == 0);
    snprintf(path, sizeof path, "%s/fifo", name);
    make_ring(&ring, 8, 0, 0);
    for (int i = 0; i < 3; i++) {
        check(mkfifo("fifo", 0600) == 0);
        int folder = i == 2 ? ends[0] : open(".", O_RDONLY | O_DIRECTORY);
        struct io_uring_sqe *entry = put_plain(
            &ring, i == 1 ? IORING_OP_OPENAT2 : IORING_OP_OPENAT, 0, folder);
        entry->addr = (uintptr_t)(i == 2 ? path : i == 1 ? "/fifo" : "fifo");
        entry->flags |= IOSQE_ASYNC;
        if (i == 1) {
            entry->off = (uintptr_t)&how;
            entry->len = sizeof how;
        } else {
            entry->open_flags = O_WRONLY;
        }
        check(enter(&ring, 1, 0, 0) == 1 && is_waiting(&ring));
        check(close(i == 2 ? ends[1] : folder) == 0 && rename("fifo", "other") == 0);
        int reader = open("other", O_RDONLY | O_NONBLOCK);
        check(reader >= 0 && unlink("other") == 0);
        int fd = next_of(&ring).res;
        check(
            fd >= 0 && !(fcntl(fd, F_GETFL) & O_NONBLOCK) && close(fd) == 0 && close(reader) == 0);
    }
    check(close(ends[0]) == 0 && rmdir(name) == 0);
    close_ring(&ring);
}

/* What is wrong with the flags or the mode of one that would wait ends it as it does any other.
 * Seen at a ring of Linux 6.18. */
static void test_refused_opens(void)
{
    struct ring ring;
    struct open_how hows[] = {{.flags = O_RDONLY, .mode = 0600}, {.flags = O_RDONLY | 1ull << 40}};
    char name[] = "/tmp/unwilling-XXXXXX";
    check(mkdtemp(name) && chdir(name) == 0 && mkfifo("fifo", 0600) == 0);
    make_ring(&ring, 8, 0, 0);
    for (int i = 0; i < 2; i++) {
        struct io_uring_sqe *entry = put_plain(&ring, IORING_OP_OPENAT2, 0, AT_FDCWD);
        entry->addr = (uintptr_t) "fifo";
        entry->off = (uintptr_t)&hows[i];
        entry->len = sizeof *hows;
        entry->flags |= IOSQE_ASYNC;
        check(enter(&ring, 1, 0, 0) == 1 && ends_with(&ring, -EINVAL));
    }
    check(unlink("fifo") == 0 && rmdir(name) == 0);
    close_ring(&ring);
}

/* Has a folder keep its pipes from others, if that may be said here: it is sticky, and the pipe is
 * another user's (fs.protected_fifos). */
static bool protect_pipe(const char *name, char *before)
{
    int protection = open("/proc/sys/fs/protected_fifos", O_RDWR);
    bool is_protected = geteuid() == 0 && protection >= 0 && pread(protection, before, 1, 0) == 1 &&
                        (*before != '0' || pwrite(protection, "1", 1, 0) == 1);
    close(protection);
    return is_protected && chmod(name, 0666) == 0 && chown(name, 65534, 65534) == 0 &&
           chmod(".", 01777) == 0 && chown(".", 1, 1) == 0;
}

static void let_protection_be(const char *before)
{
    int protection = open("/proc/sys/fs/protected_fifos", O_WRONLY);
    check(protection >= 0 && pwrite(protection, before, 1, 0) == 1 && close(protection) == 0);
}

/* What its path's own open is refused with ends one that would wait: by how it is to be resolved,
 * and by a folder that keeps its pipes from others. Seen at a ring of Linux 6.18. */
static void test_refused_paths(void)
{
    struct ring ring;
    struct open_how hows[] = {
        {.flags = O_RDONLY | O_CREAT, .mode = 0600, .resolve = RESOLVE_CACHED},
        {.flags = O_WRONLY | O_TRUNC, .resolve = RESOLVE_CACHED}};
    char name[] = "/tmp/unwilling-XXXXXX", before;
    check(mkdtemp(name) && chdir(name) == 0 && mkfifo("fifo", 0600) == 0);
    make_ring(&ring, 8, 0, 0);
    for (int i = 0; i < 2; i++) {
        struct io_uring_sqe *entry = put_plain(&ring, IORING_OP_OPENAT2, 0, AT_FDCWD);
        entry->addr = (uintptr_t) "fifo";
        entry->off = (uintptr_t)&hows[i];
        entry->len = sizeof *hows;
        check(enter(&ring, 1, 0, 0) == 1 && ends_with(&ring, -EAGAIN));
    }
    if (protect_pipe("fifo", &before)) {
        bool is_refused = true;
        for (int i = 0; i < 2; i++) {
            put_open(&ring, 0, "fifo", O_CREAT | (i ? O_WRONLY : O_RDONLY));
            is_refused &= enter(&ring, 1, 0, 0) == 1 && ends_with(&ring, -EACCES);
        }
        let_protection_be(&before);
        check(is_refused);
    }
    check(unlink("fifo") == 0 && rmdir(name) == 0);
    close_ring(&ring);
}

/* One with O_DIRECT, which no pipe has, is told so once the other end is open, and leaves nothing
 * open. Seen at a ring of Linux 6.18. */
static void test_direct_opens(void)
{
    struct ring ring;
    char name[] = "/tmp/unwilling-XXXXXX";
    check(mkdtemp(name) && chdir(name) == 0 && mkfifo("fifo", 0600) == 0);
    make_ring(&ring, 8, 0, 0);
    for (int i = 0; i < 2; i++) {
        put_open(&ring, 0, "fifo", O_CREAT | O_DIRECT | (i ? O_WRONLY : O_RDONLY));
        check(enter(&ring, 1, 0, 0) == 1 && is_waiting(&ring));
        int other = open("fifo", (i ? O_RDONLY : O_WRONLY) | O_NONBLOCK);
        check(other >= 0 && ends_with(&ring, -EINVAL) && close(other) == 0);
    }
    check(descriptor_of("fifo") < 0 && unlink("fifo") == 0 && rmdir(name) == 0);
    close_ring(&ring);
}

/* One that a kernel asks not to wait: to read it is open at once, and to write it finds nobody who
 * reads. */
static void test_opened_at_once(void)
{
    struct ring ring;
    struct open_how how = {.flags = O_RDONLY, .resolve = RESOLVE_IN_ROOT};
    char name[] = "/tmp/unwilling-XXXXXX";
    check(mkdtemp(name) && chdir(name) == 0 && mkfifo("fifo", 0600) == 0);
    make_ring(&ring, 8, 0, 0);
    put_open(&ring, 0, "fifo", O_WRONLY);
    check(enter(&ring, 1, 1, IORING_ENTER_GETEVENTS) == 1 && next_of(&ring).res == -ENXIO);
    put_open(&ring, 0, "fifo", O_RDONLY);
    check(enter(&ring, 1, 1, IORING_ENTER_GETEVENTS) == 1);
    int32_t fd = next_of(&ring).res;
    check(fd >= 0 && !(fcntl(fd, F_GETFL) & O_NONBLOCK) && close(fd) == 0);
    int folder = open(".", O_RDONLY | O_DIRECTORY);
    struct io_uring_sqe *entry = put_plain(&ring, IORING_OP_OPENAT2, 0, folder);
    entry->addr = (uintptr_t) "/fifo";
    entry->off = (uintptr_t)&how;
    entry->len = sizeof how;
    check(enter(&ring, 1, 1, IORING_ENTER_GETEVENTS) == 1);
    fd = next_of(&ring).res;
    check(
        fd >= 0 && close(fd) == 0 && close(folder) == 0 && unlink("fifo") == 0 && rmdir(name) == 0);
    close_ring(&ring);
}

static void put_connect(struct ring *ring, int fd, const void *address, size_t size)
{
    struct io_uring_sqe *entry = put_plain(ring, IORING_OP_CONNECT, 0, fd);
    entry->addr = (uintptr_t)address;
    entry->off = size;
}

/* A socket that has connected knows it: a second connect ends with -106. */
static void test_connected(void)
{
    struct ring ring;
    struct sockaddr_in address;
    int listener = make_listener(&address), caller = socket(AF_INET, SOCK_STREAM, 0);
    make_ring(&ring, 8, 0, 0);
    for (int i = 0; i < 2; i++) {
        put_connect(&ring, caller, &address, sizeof address);
        check(enter(&ring, 1, 0, 0) == 1 && ends_with(&ring, i == 0 ? 0 : -EISCONN));
    }
    check(connect(caller, (void *)&address, sizeof address) < 0 && errno == EISCONN);
    close(listener);
    close_ring(&ring);
}

static long long processor_time(void)
{
    struct rusage used;
    check(getrusage(RUSAGE_SELF, &used) == 0);
    return (used.ru_utime.tv_sec + used.ru_stime.tv_sec) * 1000000LL + used.ru_utime.tv_usec +
           used.ru_stime.tv_usec;
}

/* A connect to a local socket that takes no more waits without work, and is made once it takes one.
 */
static void test_full_backlog(void)
{
    struct ring ring;
    struct sockaddr_un address = {AF_UNIX, "\0unwilling"};
    int listener = socket(AF_UNIX, SOCK_STREAM, 0), callers[4];
    memcpy(address.sun_path + 10, &(pid_t){getpid()}, sizeof(pid_t));
    check(bind(listener, (void *)&address, sizeof address) == 0 && listen(listener, 0) == 0);
    for (int i = 0; i < 4; i++) {
        callers[i] = socket(AF_UNIX, SOCK_STREAM | SOCK_NONBLOCK, 0);
        if (connect(callers[i], (void *)&address, sizeof address) < 0)
            break;
    }
    make_ring(&ring, 8, 0, 0);
    put_connect(&ring, socket(AF_UNIX, SOCK_STREAM, 0), &address, sizeof address);
    check(enter(&ring, 1, 0, 0) == 1);
    pid_t child = fork();
    if (child == 0) {
        usleep(300000);
        _exit(accept(listener, NULL, NULL) < 0);
    }
    long long before = processor_time();
    check(next_of(&ring).res == 0 && processor_time() - before < 60000);
    check(waitpid(child, NULL, 0) == child);
    close_ring(&ring);
}

int main(int count, char **words)
{
    static const struct named tests[] = {
        {"opened", test_opened},
        {"opened meanwhile", test_opened_meanwhile},
        {"found once", test_found_once},
        {"refused opens", test_refused_opens},
        {"refused paths", test_refused_paths},
        {"direct opens", test_direct_opens},
        {"opened at once", test_opened_at_once},
        {"not ordinary", test_not_ordinary},
        {"connected", test_connected},
        {"full backlog", test_full_backlog},
    };
    return run_all_watched(tests, sizeof tests / sizeof *tests, count > 1 ? words[1] : NULL);
}
