/* Tests by direct calls of reads by a number that was a file's in memory, and is something else's
 * by now. All hold under every policy, and are run with WULGACH_DEVICES=no too: then such a read is
 * made in order before anything is asked of its descriptor. Each test is a process of its own,
 * which is killed if it sleeps within the layer.
 *
 *   devices [NAME]           with a name: that test alone
 */
#define _GNU_SOURCE
#include "filters.h"
#include "watched.h"

#include <sys/eventfd.h>

enum { PAGE = 4096 };

static bool are_none(void)
{
    const char *word = getenv("WULGACH_DEVICES");
    return word && strcmp(word, "no") == 0;
}

/* A ring, and the number of a file in memory of a page, which was read by it often enough that it
 * is known as one. */
static int begin(struct ring *ring)
{
    char bytes[8];
    int file = make_file();
    check(pwrite(file, "memory", 6, 0) == 6 && ftruncate(file, PAGE) == 0);
    make_ring(ring, 8, 0, 0);
    for (int i = 0; i < 4; i++)
        check(read_at(ring, file, bytes, 6, 0) == 6 && memcmp(bytes, "memory", 6) == 0);
    return file;
}

/* The number is another descriptor's from now on, which is closed. */
static void become(int number, int fd)
{
    check(fd >= 0 && dup2(fd, number) == number && close(fd) == 0);
}

/* A stream has no offsets, and is waited for: twice, so that the second read finds what the first
 * has left of what is known. */
static void wait_for_stream(const int *ends, uint64_t offset, unsigned length)
{
    static const uint64_t given = 'x';
    struct ring ring;
    char bytes[8];
    int number = begin(&ring);
    become(number, ends[0]);
    for (int i = 0; i < 2; i++) {
        put_transfer(&ring, IORING_OP_READ, 0, 0, number, bytes, length, offset);
        check(enter(&ring, 1, 0, 0) == 1);
        check(is_waiting(&ring));
        check(write(ends[1], &given, length) == (ssize_t)length);
        check(wait_for_one(&ring) == (int32_t)length && bytes[0] == 'x');
    }
    close(ends[1]);
    close(number);
    close_ring(&ring);
}

static void test_pipe(void)
{
    for (uint64_t offset = 0; offset <= PAGE; offset += PAGE) {
        int ends[2];
        check(pipe(ends) == 0);
        wait_for_stream(ends, offset, 1);
    }
}

static void test_socket(void)
{
    int ends[2];
    make_pair(ends);
    wait_for_stream(ends, 0, 1);
}

static void test_counter(void)
{
    int fd = eventfd(0, 0), ends[2] = {fd, dup(fd)};
    check(fd >= 0);
    wait_for_stream(ends, 0, 8);
}

/* Two reads of one call find a pipe, and each takes a byte. */
static void test_together(void)
{
    struct ring ring;
    int32_t results[2];
    char bytes[2];
    int ends[2], number = begin(&ring);
    check(pipe(ends) == 0);
    become(number, ends[0]);
    for (uint64_t i = 0; i < 2; i++)
        put_transfer(&ring, IORING_OP_READ, i, 0, number, &bytes[i], 1, 0);
    check(enter(&ring, 2, 0, 0) == 2);
    check(is_waiting(&ring));
    check(write(ends[1], "xx", 2) == 2);
    reap_all(&ring, 2, results);
    check(results[0] == 1 && results[1] == 1 && bytes[0] == 'x' && bytes[1] == 'x');
    close_ring(&ring);
}

/* A socket is read at no offset but 0, as by a kernel's ring. */
static void test_offset(void)
{
    struct ring ring;
    char byte;
    int ends[2], number = begin(&ring);
    make_pair(ends);
    become(number, ends[0]);
    check(read_at(&ring, number, &byte, 1, 7) == -ESPIPE);
    check(write(ends[1], "x", 1) == 1 && read_at(&ring, number, &byte, 1, 0) == 1 && byte == 'x');
    close_ring(&ring);
}

/* What it is by now is read: another file, in memory or not, a folder, a device, and what isn't
 * open, or isn't open for that. */
static void test_others(void)
{
    struct ring ring;
    char bytes[8];
    int number = begin(&ring), other = make_file();
    check(pwrite(other, "others", 6, 0) == 6);
    become(number, other);
    check(read_at(&ring, number, bytes, 6, 0) == 6 && memcmp(bytes, "others", 6) == 0 &&
          read_at(&ring, number, bytes, 6, 6) == 0);
    become(number, open("/proc/self/exe", O_RDONLY | O_CLOEXEC));
    check(read_at(&ring, number, bytes, 3, 1) == 3 && memcmp(bytes, "ELF", 3) == 0);
    become(number, open("/", O_RDONLY | O_DIRECTORY | O_CLOEXEC));
    check(read_at(&ring, number, bytes, 6, 0) == -EISDIR);
    become(number, open("/dev/zero", O_RDONLY | O_CLOEXEC));
    check(read_at(&ring, number, bytes, 6, 0) == 6 && memcmp(bytes, "\0\0\0\0\0", 6) == 0);
    become(number, open("/dev/null", O_WRONLY | O_CLOEXEC));
    check(read_at(&ring, number, bytes, 6, 0) == -EBADF);
    become(number, open("/", O_PATH | O_CLOEXEC));
    check(read_at(&ring, number, bytes, 6, 0) == -EBADF);
    check(close(number) == 0 && read_at(&ring, number, bytes, 6, 0) == -EBADF);
    close_ring(&ring);
}

/* From here on who asks for a file's seals is ended. */
static void refuse_seals(void)
{
    FILTER(BPF_STMT(BPF_LD | BPF_W | BPF_ABS, offsetof(struct seccomp_data, nr)),
        BPF_JUMP(BPF_JMP | BPF_JEQ | BPF_K, SYS_fcntl, 0, 3),
        BPF_STMT(BPF_LD | BPF_W | BPF_ABS, offsetof(struct seccomp_data, args[1])),
        BPF_JUMP(BPF_JMP | BPF_JEQ | BPF_K, F_GET_SEALS, 0, 1),
        BPF_STMT(BPF_RET | BPF_K, SECCOMP_RET_KILL_PROCESS),
        BPF_STMT(BPF_RET | BPF_K, SECCOMP_RET_ALLOW));
}

/* In order nothing is asked before a read where no device is read, and the seals are else. */
static void test_asked(void)
{
    struct ring ring;
    char bytes[8];
    int status, number = begin(&ring);
    if (!is_in_order())
        return;
    pid_t child = fork();
    if (child == 0) {
        close_ring(&ring);
        make_ring(&ring, 8, 0, 0);
        refuse_seals();
        for (int i = 0; i < 100; i++)
            check(read_at(&ring, number, bytes, 6, 0) == 6 && memcmp(bytes, "memory", 6) == 0);
        _exit(0);
    }
    check(waitpid(child, &status, 0) == child);
    check(are_none() ? status == 0 : WIFSIGNALED(status) && WTERMSIG(status) == SIGSYS);
    close_ring(&ring);
}

int main(int count, char **words)
{
    static const struct named tests[] = {
        {"pipe", test_pipe},
        {"socket", test_socket},
        {"counter", test_counter},
        {"together", test_together},
        {"offset", test_offset},
        {"others", test_others},
        {"asked", test_asked},
    };
    return run_all_watched(tests, sizeof tests / sizeof *tests, count > 1 ? words[1] : NULL);
}
