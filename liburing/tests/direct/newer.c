/* Tests of operations that are newer than most headers, by direct calls: the length of a file, a
 * descriptor of a registered file, the name of a socket, and that it listens. All hold under every
 * policy, which the environment says, and on a real ring of Linux 6.18.
 *
 *   newer [NAME]             with a name: that test alone
 */
#define _GNU_SOURCE
#include "engines.h"

#include <netinet/in.h>
#include <signal.h>
#include <sys/resource.h>
#include <sys/socket.h>
#include <sys/stat.h>
#include <sys/un.h>

/* As <linux/io_uring.h> has them. */
enum { FIXED_FD_INSTALL = 54, FTRUNCATE, BIND, LISTEN, NO_CLOEXEC = 1 };

/* What a failure leaves of the member after it: it is carried out, or ends with -125. By the manual
 * pages' rules each failure breaks a link. */
enum after { GOES_ON, IS_CANCELLED };

/* Submits the one entry, links a no-op after it, and wants this result. */
static void want(struct ring *ring, struct io_uring_sqe *entry, int32_t res, enum after after)
{
    int32_t results[2];
    entry->flags |= IOSQE_IO_LINK;
    put(ring, IORING_OP_NOP, 1, 0);
    long taken = enter(ring, 2, 0, 0);
    check(taken == 2 || (taken == 1 && enter(ring, 1, 0, 0) == 1));
    reap_all(ring, 2, results);
    check(results[0] == res);
    if (taken == 2)
        check(
            results[1] == (res < 0 && (after == IS_CANCELLED || is_by_manual()) ? -ECANCELED : 0));
}

static struct io_uring_sqe *put_length(struct ring *ring, uint8_t flags, int fd, int64_t length)
{
    return put_transfer(ring, FTRUNCATE, 0, flags, fd, NULL, 0, (uint64_t)length);
}

static int64_t length_of(int fd)
{
    struct stat status;
    check(fstat(fd, &status) == 0);
    return status.st_size;
}

static void test_lengths(void)
{
    struct ring ring;
    char path[40];
    int file = make_file(), ends[2];
    snprintf(path, sizeof path, "/proc/self/fd/%d", file);
    int for_reading = open(path, O_RDONLY), for_path = open(path, O_PATH);
    check(pipe(ends) == 0 && for_reading >= 0 && for_path >= 0);
    make_ring(&ring, 8, 0, 0);
    check(register_at(ring.fd, IORING_REGISTER_FILES, (int[]){file, -1}, 2) == 0);
    want(&ring, put_length(&ring, 0, file, 5000000000), 0, GOES_ON);
    check(length_of(file) == 5000000000);
    want(&ring, put_length(&ring, IOSQE_FIXED_FILE, 0, 7), 0, GOES_ON);
    check(length_of(file) == 7);
    want(&ring, put_length(&ring, 0, file, -1), -EINVAL, GOES_ON);
    want(&ring, put_length(&ring, 0, file, INT64_MIN), -EINVAL, GOES_ON);
    want(&ring, put_length(&ring, 0, for_reading, 3), -EINVAL, GOES_ON);
    want(&ring, put_length(&ring, 0, ends[1], 3), -EINVAL, GOES_ON);
    want(&ring, put_length(&ring, 0, -1, 3), -EBADF, IS_CANCELLED);
    want(&ring, put_length(&ring, 0, for_path, 3), -EBADF, IS_CANCELLED);
    want(&ring, put_length(&ring, IOSQE_FIXED_FILE, 1, 3), -EBADF, IS_CANCELLED);
    check(length_of(file) == 7);
    close_pair(ends);
    close(file);
    close(for_reading);
    close(for_path);
    close_ring(&ring);
}

/* A file that would get longer than the process may have one is left, and no signal comes: in a
 * kernel a worker makes the call. */
static void test_no_signal_of_lengths(void)
{
    struct ring ring;
    int file = make_file();
    enum { MOST = 1 << 20 }; /* a trace is shorter */
    struct rlimit before, limit = {MOST, MOST};
    check(getrlimit(RLIMIT_FSIZE, &before) == 0);
    limit.rlim_max = before.rlim_max;
    make_ring(&ring, 8, 0, 0);
    check(setrlimit(RLIMIT_FSIZE, &limit) == 0);
    want(&ring, put_length(&ring, 0, file, MOST + 1), -EFBIG, GOES_ON);
    want(&ring, put_length(&ring, 0, file, MOST), 0, GOES_ON);
    check(setrlimit(RLIMIT_FSIZE, &before) == 0 && length_of(file) == MOST);
    close(file);
    close_ring(&ring);
}

static struct io_uring_sqe *put_install(struct ring *ring, uint8_t flags, int slot, uint32_t how)
{
    struct io_uring_sqe *entry = put_plain(ring, FIXED_FD_INSTALL, 0, slot);
    entry->flags = flags;
    entry->rw_flags = (int)how;
    return entry;
}

/* A registered file has a descriptor of its own by that, which is closed in a program that is
 * started, or not. */
static void test_installs(void)
{
    struct ring ring;
    int file = make_file();
    make_ring(&ring, 8, 0, 0);
    check(write(file, "bytes", 5) == 5 &&
          register_at(ring.fd, IORING_REGISTER_FILES, (int[]){file, -1}, 2) == 0);
    for (uint32_t how = 0; how <= NO_CLOEXEC; how++) {
        put_install(&ring, IOSQE_FIXED_FILE, 0, how);
        int fd = result_of_one(&ring, 1), lowest = open("/dev/null", O_RDONLY);
        check(fd >= 0 && fd < lowest && fcntl(fd, F_GETFD) == (how ? 0 : FD_CLOEXEC));
        /* (both have one place in the file) */
        check(lseek(fd, 0, SEEK_CUR) == 5 && lseek(fd, 3, SEEK_SET) == 3 &&
              lseek(file, 0, SEEK_CUR) == 3 && lseek(file, 5, SEEK_SET) == 5);
        close(fd);
        close(lowest);
    }
    want(&ring, put_install(&ring, 0, file, 0), -EBADF, IS_CANCELLED);
    want(&ring, put_install(&ring, 0, file, 2), -EBADF, IS_CANCELLED);
    want(&ring, put_install(&ring, IOSQE_FIXED_FILE, 0, 2), -EINVAL, IS_CANCELLED);
    want(&ring, put_install(&ring, IOSQE_FIXED_FILE, 1, 0), -EBADF, IS_CANCELLED);
    want(&ring, put_install(&ring, IOSQE_FIXED_FILE, 2, 0), -EBADF, IS_CANCELLED);
    struct rlimit before, limit;
    check(getrlimit(RLIMIT_NOFILE, &before) == 0);
    limit = (struct rlimit){3, before.rlim_max};
    check(setrlimit(RLIMIT_NOFILE, &limit) == 0);
    want(&ring, put_install(&ring, IOSQE_FIXED_FILE, 0, 0), -EMFILE, IS_CANCELLED);
    check(setrlimit(RLIMIT_NOFILE, &before) == 0);
    close(file);
    close_ring(&ring);
}

/* An open into a slot, and a descriptor of it, in one chain. */
static void test_installs_what_was_opened(void)
{
    struct ring ring;
    int32_t results[2];
    make_ring(&ring, 8, 0, 0);
    check(register_at(ring.fd, IORING_REGISTER_FILES, (int[]){-1}, 1) == 0);
    struct io_uring_sqe *entry = put_plain(&ring, IORING_OP_OPENAT, 0, AT_FDCWD);
    entry->flags = IOSQE_IO_LINK;
    entry->addr = (uintptr_t) "/dev/null";
    entry->file_index = 1;
    put_install(&ring, IOSQE_FIXED_FILE, 0, 0)->user_data = 1;
    check(enter(&ring, 2, 0, 0) == 2);
    reap_all(&ring, 2, results);
    char byte;
    check(results[0] == 0 && results[1] >= 0 && read(results[1], &byte, 1) == 0);
    close(results[1]);
    close_ring(&ring);
}

static struct io_uring_sqe *put_bind(
    struct ring *ring, uint8_t flags, int fd, const void *name, uint64_t size)
{
    return put_transfer(ring, BIND, 0, flags, fd, (void *)(uintptr_t)name, 0, size);
}

static struct io_uring_sqe *put_listen(struct ring *ring, uint8_t flags, int fd, unsigned backlog)
{
    return put_transfer(ring, LISTEN, 0, flags, fd, NULL, backlog, 0);
}

/* The name that a socket gets is the one that stood there when that was submitted. */
static void test_names_are_copied(void)
{
    struct ring ring;
    struct sockaddr_in name = {.sin_family = AF_INET, .sin_addr.s_addr = htonl(INADDR_LOOPBACK)},
                       told;
    socklen_t size = sizeof told;
    int fd = socket(AF_INET, SOCK_STREAM, 0), caller = socket(AF_INET, SOCK_STREAM, 0), ends[2];
    char byte;
    int32_t results[4];
    check(pipe(ends) == 0);
    make_ring(&ring, 8, 0, 0);
    check(register_at(ring.fd, IORING_REGISTER_FILES, (int[]){fd}, 1) == 0);
    put_transfer(&ring, IORING_OP_READ, 0, IOSQE_IO_LINK, ends[0], &byte, 1, 0);
    put_bind(&ring, IOSQE_IO_LINK, fd, &name, sizeof name)->user_data = 1;
    put_listen(&ring, IOSQE_IO_LINK | IOSQE_FIXED_FILE, 0, 4)->user_data = 2;
    put_plain(&ring, IORING_OP_ACCEPT, 3, fd);
    check(enter(&ring, 4, 0, 0) == 4);
    memset(&name, 0xff, sizeof name);
    check(write(ends[1], "b", 1) == 1 && enter_for(&ring, 3, 1000000000) == 0);
    check(getsockname(fd, (void *)&told, &size) == 0 && told.sin_family == AF_INET &&
          told.sin_addr.s_addr == htonl(INADDR_LOOPBACK) && told.sin_port != 0);
    check(connect(caller, (void *)&told, size) == 0);
    reap_all(&ring, 4, results);
    check(results[0] == 1 && results[1] == 0 && results[2] == 0 && results[3] >= 0);
    close(results[3]);
    close_pair(ends);
    close(fd);
    close(caller);
    close_ring(&ring);
}

/* What can't be a name ends the entry, or the call says what is wrong. */
static void test_refused_names(void)
{
    struct ring ring;
    struct sockaddr_storage name = {.ss_family = AF_UNIX};
    int fd = socket(AF_UNIX, SOCK_STREAM, 0), datagrams = socket(AF_UNIX, SOCK_DGRAM, 0),
        other = make_file();
    make_ring(&ring, 8, 0, 0);
    want(&ring, put_bind(&ring, 0, fd, &name, 129), -EINVAL, IS_CANCELLED);
    want(&ring, put_bind(&ring, 0, fd, &name, UINT32_MAX), -EINVAL, IS_CANCELLED);
    if (!is_under_valgrind())
        want(&ring, put_bind(&ring, 0, fd, (void *)8, 16), -EFAULT, IS_CANCELLED);
    want(&ring, put_bind(&ring, 0, fd, (void *)8, 0), -EINVAL, IS_CANCELLED);
    want(&ring, put_bind(&ring, 0, fd, &name, 128), -EINVAL, IS_CANCELLED);
    want(&ring, put_bind(&ring, 0, -1, &name, 2), -EBADF, IS_CANCELLED);
    want(&ring, put_listen(&ring, 0, fd, 4), -EINVAL, IS_CANCELLED);
    want(&ring, put_listen(&ring, 0, datagrams, 4), -EOPNOTSUPP, IS_CANCELLED);
    want(&ring, put_listen(&ring, 0, -1, 4), -EBADF, IS_CANCELLED);
    /* (a kernel of Linux may not ask whether it is one) */
#ifndef IS_ALSO_REAL
    want(&ring, put_bind(&ring, 0, other, &name, 2), -ENOTSOCK, IS_CANCELLED);
    want(&ring, put_listen(&ring, 0, other, 4), -ENOTSOCK, IS_CANCELLED);
#endif
    /* Of the length 32 bits count. */
    want(&ring, put_bind(&ring, 0, fd, &name, 1ULL << 32 | 2), 0, IS_CANCELLED);
    want(&ring, put_bind(&ring, 0, fd, &name, 4), -EINVAL, IS_CANCELLED);
    want(&ring, put_listen(&ring, 0, fd, UINT32_MAX), 0, IS_CANCELLED);
    close(fd);
    close(datagrams);
    close(other);
    close_ring(&ring);
}

/* Fields that each of them wants to be 0. */
static void test_barred_fields(void)
{
    enum {
        PRIORITY = 1,
        OFFSET = 2,
        ADDRESS = 4,
        LENGTH = 8,
        OWN = 16,
        BUFFER = 32,
        SLOT = 64,
        THIRD = 128,
        PAD = 256
    };
    static const struct {
        uint8_t code;
        uint16_t free;
    } rows[] = {{FIXED_FD_INSTALL, OWN | PAD}, {FTRUNCATE, OFFSET | PAD},
        {BIND, OFFSET | ADDRESS | THIRD | PAD}, {LISTEN, LENGTH | THIRD | PAD}};
    struct ring ring;
    int file = make_file(), fd = socket(AF_UNIX, SOCK_STREAM, 0);
    struct sockaddr_un name = {.sun_family = AF_UNIX};
    make_ring(&ring, 8, 0, 0);
    check(register_at(ring.fd, IORING_REGISTER_FILES, (int[]){file, fd}, 2) == 0);
    for (size_t i = 0; i < sizeof rows / sizeof *rows; i++)
        for (uint16_t field = PRIORITY; field <= PAD; field <<= 1) {
            if (rows[i].free & field && field < THIRD)
                continue;
            struct io_uring_sqe *entry = put_plain(&ring, rows[i].code, 0, rows[i].code >= BIND);
            entry->flags = IOSQE_FIXED_FILE;
            if (rows[i].code == BIND)
                entry->addr = (uintptr_t)&name, entry->off = 2;
            entry->ioprio |= field == PRIORITY;
            entry->off |= field == OFFSET;
            entry->addr |= field == ADDRESS;
            entry->len |= field == LENGTH;
            entry->rw_flags |= field == OWN;
            entry->buf_index |= field == BUFFER;
            entry->file_index |= field == SLOT;
            entry->addr3 |= field == THIRD;
            entry->__pad2[0] |= field == PAD;
            int32_t res = result_of_one(&ring, 1);
            check(rows[i].free & field ? res >= 0 || rows[i].code >= BIND : res == -EINVAL);
            if (rows[i].code == FIXED_FD_INSTALL && res >= 0)
                close(res);
        }
    close(file);
    close(fd);
    close_ring(&ring);
}

/* A probe tells of them, and a list of restrictions may name them. */
static void test_they_are_told(void)
{
    struct ring ring;
    struct io_uring_probe *probe = calloc(1, sizeof *probe + 256 * sizeof *probe->ops);
    make_ring(&ring, 8, 0, IORING_SETUP_R_DISABLED);
    check(register_at(ring.fd, IORING_REGISTER_PROBE, probe, 256) == 0 && probe->last_op >= LISTEN);
    for (int code = FIXED_FD_INSTALL; code <= LISTEN; code++)
        check(probe->ops[code].op == code && probe->ops[code].flags == IO_URING_OP_SUPPORTED);
    struct io_uring_restriction rows[] = {
        {.opcode = IORING_RESTRICTION_SQE_OP, .sqe_op = FTRUNCATE},
        {.opcode = IORING_RESTRICTION_SQE_OP, .sqe_op = LISTEN}};
    check(register_at(ring.fd, IORING_REGISTER_RESTRICTIONS, rows, 2) == 0 &&
          register_at(ring.fd, IORING_REGISTER_ENABLE_RINGS, NULL, 0) == 0);
    put_length(&ring, 0, -1, 0);
    check(result_of_one(&ring, 1) == -EBADF);
    put_bind(&ring, 0, -1, "", 0);
    check(result_of_one(&ring, 1) == -EACCES);
    put_listen(&ring, 0, -1, 0);
    check(result_of_one(&ring, 1) == -EBADF);
    free(probe);
    close_ring(&ring);
}

int main(int count, char **words)
{
    static const struct named tests[] = {
        {"lengths", test_lengths},
        {"no signal of lengths", test_no_signal_of_lengths},
        {"installs", test_installs},
        {"installs what was opened", test_installs_what_was_opened},
        {"names are copied", test_names_are_copied},
        {"refused names", test_refused_names},
        {"barred fields", test_barred_fields},
        {"they are told", test_they_are_told},
    };
    return run_tests(tests, sizeof tests / sizeof *tests, count > 1 ? words[1] : NULL);
}
