/* How reads and writes end by Linux's rules whose offset, flags or length their file doesn't take,
 * and reads of signals and of a queue of messages, under each profile, which WULGACH_PROFILE says.
 * All hold under every policy; and Linux's on a real ring, if the kernel gives one and it is built
 * for that.
 */
#define _GNU_SOURCE
#include "profile.h"
#include "sockets.h"

#include <fcntl.h>
#include <signal.h>
#include <sys/eventfd.h>
#include <sys/signalfd.h>
#include <sys/timerfd.h>

/* What counts gives 8 bytes at once: a shorter read fails at once, and doesn't wait. */
static void test_short_reads(void)
{
    char bytes[8];
    int counts[] = {eventfd(0, 0), timerfd_create(CLOCK_MONOTONIC, 0)};
    begin(0);
    for (int i = 0; i < 2; i++) {
        check(counts[i] >= 0);
        for (unsigned length = 0; length < sizeof bytes; length += 7) {
            put_transfer(&ring, IORING_OP_READ, 0, 0, counts[i], bytes, length, 0);
            submit(1);
            EXPECT({0, -EINVAL});
        }
        close(counts[i]);
    }
    stop();
}

static void expect_at(uint8_t code, uint8_t flags, int fd, uint64_t offset, int32_t res)
{
    static char bytes[4];
    put_transfer(&ring, code, 0, flags, fd, bytes, sizeof bytes, offset)->buf_group = 9;
    submit(1);
    EXPECT({0, res});
}

/* What has no offsets passes one over, but one from which the bytes would go past the last, and a
 * socket any but 0: what is at such a one doesn't wait. */
static void test_offsets_of_streams(void)
{
    static const uint64_t bad[] = {(uint64_t)-2, (uint64_t)1 << 63, ((uint64_t)1 << 63) - 4},
                          odd[] = {1, ((uint64_t)1 << 63) - 5}, none[] = {0, (uint64_t)-1};
    int pair[2];
    begin(0);
    make_pair(pair);
    for (int i = 0; i < 3; i++) {
        expect_at(IORING_OP_READ, 0, ends[0], bad[i], -EINVAL);
        expect_at(IORING_OP_WRITE, 0, ends[1], bad[i], -EINVAL);
        expect_at(IORING_OP_READ, 0, pair[0], bad[i], -EINVAL);
        expect_at(IORING_OP_WRITE, 0, pair[0], bad[i], -EINVAL);
        expect_at(IORING_OP_READ, IOSQE_BUFFER_SELECT, pair[0], bad[i], -ENOBUFS);
    }
    for (int i = 0; i < 2; i++) {
        expect_at(IORING_OP_READ, 0, pair[0], odd[i], -ESPIPE);
        expect_at(IORING_OP_WRITE, 0, pair[0], odd[i], -ESPIPE);
        expect_at(IORING_OP_READ, IOSQE_BUFFER_SELECT, pair[0], odd[i], -ENOBUFS);
        expect_at(IORING_OP_WRITE, 0, ends[1], odd[i], 4);
        expect_at(IORING_OP_READ, 0, ends[0], odd[i], 4);
        expect_at(IORING_OP_WRITE, 0, pair[1], none[i], 4);
        expect_at(IORING_OP_READ, 0, pair[0], none[i], 4);
    }
    close_pair(pair);
    stop();
}

/* At an offset that no file has it counts first whether the file is open for it. */
static void test_offsets_of_no_file(void)
{
    static const uint64_t bad[] = {(uint64_t)-2, (uint64_t)1 << 63};
    begin(0);
    int path = open("/proc/self/exe", O_PATH), to_read = open("/proc/self/exe", O_RDONLY),
        to_write = open("/tmp", O_TMPFILE | O_WRONLY, 0600), folder = open("/", O_RDONLY);
    check(path >= 0 && to_read >= 0 && to_write >= 0 && folder >= 0);
    for (int i = 0; i < 2; i++) {
        expect_at(IORING_OP_READ, 0, 999, bad[i], -EBADF);
        expect_at(IORING_OP_WRITE, 0, 999, bad[i], -EBADF);
        expect_at(IORING_OP_READ, 0, path, bad[i], -EBADF);
        expect_at(IORING_OP_WRITE, 0, path, bad[i], -EBADF);
        expect_at(IORING_OP_READ, 0, to_write, bad[i], -EBADF);
        expect_at(IORING_OP_WRITE, 0, to_write, bad[i], -EINVAL);
        expect_at(IORING_OP_READ, 0, to_read, bad[i], -EINVAL);
        expect_at(IORING_OP_WRITE, 0, to_read, bad[i], -EBADF);
        expect_at(IORING_OP_WRITE, 0, folder, bad[i], -EBADF);
    }
    close(path);
    close(to_read);
    close(to_write);
    close(folder);
    stop();
}

static void expect_flagged(uint8_t code, int fd, uint64_t offset, uint32_t flags, int32_t res)
{
    put_transfer(&ring, code, 0, 0, fd, &byte, 1, offset)->rw_flags = (int)flags;
    submit(1);
    EXPECT({0, res});
}

/* A flag that what has no offsets doesn't take counts before an offset, and before it is ready. */
static void test_flags_of_streams(void)
{
    static const struct {
        uint32_t flags;
        int32_t res;
    } bad[] = {{0x1000, -EOPNOTSUPP}, {0x40, -EOPNOTSUPP}, {0x30, -EINVAL}, {0x70, -EINVAL},
        {RWF_HIPRI, -EINVAL}};
    int pair[2];
    begin(0);
    make_pair(pair);
    for (int i = 0; i < 5; i++)
        for (int at = 0; at < 2; at++) {
            uint64_t offset = at ? 5 : (uint64_t)-1;
            expect_flagged(IORING_OP_READ, pair[0], offset, bad[i].flags, bad[i].res);
            expect_flagged(IORING_OP_WRITE, pair[0], offset, bad[i].flags, bad[i].res);
            expect_flagged(IORING_OP_READ, ends[0], offset, bad[i].flags, bad[i].res);
            expect_flagged(IORING_OP_WRITE, ends[1], offset, bad[i].flags, bad[i].res);
        }
    close_pair(pair);
    stop();
}

/* A read of a signalfd that has no room for a signal fails, whether there is one or not. */
static void test_reads_of_signals(void)
{
    static const unsigned lengths[] = {0, 7, 127};
    static char told[sizeof(struct signalfd_siginfo)];
    sigset_t signals;
    sigemptyset(&signals);
    sigaddset(&signals, SIGUSR1);
    begin(0);
    check(sigprocmask(SIG_BLOCK, &signals, NULL) == 0);
    int fd = signalfd(-1, &signals, 0);
    for (int is_there = 0; is_there < 2; is_there++) {
        for (size_t i = 0; i < sizeof lengths / sizeof *lengths; i++) {
            put_transfer(&ring, IORING_OP_READ, 0, 0, fd, told, lengths[i], UINT64_MAX);
            submit(1);
            EXPECT({0, -EINVAL});
        }
        put_transfer(&ring, IORING_OP_READ, 1, 0, fd, told, sizeof told, UINT64_MAX);
        submit(1);
        check(kill(getpid(), SIGUSR1) == 0);
        EXPECT({1, sizeof told});
        check(kill(getpid(), SIGUSR1) == 0);
    }
    close(fd);
    signal(SIGUSR1, SIG_IGN);
    check(sigprocmask(SIG_UNBLOCK, &signals, NULL) == 0);
    stop();
}

/* A queue of messages is a regular file, and a read of it waits until there is one. */
static void test_reads_of_a_queue(void)
{
    static const char name[] = "wulgach-failures";
    char told[7] = "";
    begin(0);
    int fd = (int)syscall(SYS_mq_open, name, O_RDWR | O_CREAT, 0600, NULL);
    check(fd >= 0 && syscall(SYS_mq_unlink, name) == 0);
    for (int i = 0; i < 2; i++) {
        put_transfer(&ring, IORING_OP_READ, 0, i ? IOSQE_ASYNC : 0, fd, told, 6, 0);
        submit(1);
        check(enter_for(&ring, 1, 1000) == -ETIME);
        check(syscall(SYS_mq_timedsend, fd, "x", (size_t)1, 0, NULL) == 0);
        EXPECT({0, 6});
        check(strcmp(told, "QSIZE:") == 0);
        put_transfer(&ring, IORING_OP_READ, 1, 0, fd, told, 6, 2);
        submit(1);
        EXPECT({1, 6});
        check(strcmp(told, "IZE:1 ") == 0);
        static char message[8192];
        check(syscall(SYS_mq_timedreceive, fd, message, sizeof message, NULL, NULL) == 1);
    }
    close(fd);
    stop();
}

int main(int count, char **words)
{
    static const struct named tests[] = {
        {"short reads", test_short_reads},
        {"offsets of streams", test_offsets_of_streams},
        {"offsets of no file", test_offsets_of_no_file},
        {"flags of streams", test_flags_of_streams},
        {"reads of signals", test_reads_of_signals},
        {"reads of a queue", test_reads_of_a_queue},
    };
    return are_rings_there()
               ? run_tests(tests, sizeof tests / sizeof *tests, count > 1 ? words[1] : NULL)
               : 0;
}
