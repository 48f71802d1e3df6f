/* Tests of calls that would sleep within the layer, with its lock and with all signals blocked:
 * each test is a process of its own, which is killed if it does. After the layer's calls of poll,
 * which go through the wrapped one of this program, what was there is taken as another process
 * might take it just then. All hold under every policy.
 *
 *   unwilling [NAME]         with a name: that test alone
 */
#define _GNU_SOURCE
#include "watched.h"

#include <poll.h>
#include <stdarg.h>
#include <sys/eventfd.h>
#include <sys/prctl.h>

/* The descriptor of which others take what there is, after so many looks that find it ready: bytes
 * of a pipe, or a connection. Or -1. */
static int shared = -1;
static unsigned until_taken;

/* Whether a descriptor is of this file, by whichever descriptor. */
static bool is_of(int fd, int file)
{
    struct stat one, other;
    return file >= 0 && fstat(fd, &one) == 0 && fstat(file, &other) == 0 &&
           one.st_dev == other.st_dev && one.st_ino == other.st_ino;
}

static void take(void)
{
    char bytes[64];
    int fd = shared;
    shared = -1;
    int taken = accept(fd, NULL, NULL);
    if (taken >= 0)
        close(taken);
    else
        check(errno == ENOTSOCK && read(fd, bytes, sizeof bytes) > 0);
}

int __real_poll(struct pollfd *polled, nfds_t count, int patience);
int __wrap_poll(struct pollfd *polled, nfds_t count, int patience)
{
    int result = __real_poll(polled, count, patience);
    for (nfds_t i = 0; result > 0 && i < count; i++)
        if (polled[i].revents & POLLIN && is_of(polled[i].fd, shared) && until_taken-- == 0)
            take();
    return result;
}

/* A descriptor whose flags another thread changes while it is asked not to wait. Or -1. */
static int appended = -1;

/* One of which another process, which has it from the same open, takes back just then that it isn't
 * to wait. Or -1. */
static int taken_back = -1;

int __real_fcntl(int fd, int code, ...);
int __wrap_fcntl(int fd, int code, ...)
{
    va_list arguments;
    va_start(arguments, code);
    long argument = va_arg(arguments, long);
    va_end(arguments);
    int result = __real_fcntl(fd, code, argument);
    if (code == F_SETFL && is_of(fd, appended) && argument & O_NONBLOCK)
        check(__real_fcntl(fd, F_SETFL, argument | O_APPEND) == 0);
    if (code == F_SETFL && is_of(fd, taken_back) && argument & O_NONBLOCK)
        check(__real_fcntl(fd, F_SETFL, argument & ~O_NONBLOCK) == 0);
    return result;
}

/* A request waits for what another process takes once it was seen, after whichever look: it waits
 * for the next. Its descriptor is as it was. */
static void wait_for_taken(struct ring *ring, int fd, void (*bring)(void))
{
    for (unsigned looks = 0; looks < 3; looks++) {
        check(is_waiting(ring));
        shared = fd;
        until_taken = looks;
        bring();
        if (enter_for(ring, 1, 1000) == 0 || count_ready(ring) > 0)
            break; /* it isn't looked at so often */
        check(shared < 0 && !(fcntl(fd, F_GETFL) & O_NONBLOCK));
    }
    if (count_ready(ring) == 0) {
        shared = -1;
        bring();
    }
    check(next_of(ring).res >= 0);
    shared = -1;
}

static struct sockaddr_in heard_at;
static int written_to;

static void bring_connection(void)
{
    call_at(&heard_at);
}

static void bring_byte(void)
{
    check(write(written_to, "x", 1) == 1);
}

static void test_taken(void)
{
    struct ring ring;
    int listener = make_listener(&heard_at);
    char name[] = "/tmp/unwilling-XXXXXX", byte;
    check(mkdtemp(name) && chdir(name) == 0 && mkfifo("fifo", 0600) == 0);
    written_to = open("fifo", O_RDWR);
    int reader = open("fifo", O_RDONLY);
    make_ring(&ring, 8, 0, 0);
    put_plain(&ring, IORING_OP_ACCEPT, 0, listener);
    check(enter(&ring, 1, 0, 0) == 1);
    wait_for_taken(&ring, listener, bring_connection);
    put_transfer(&ring, IORING_OP_READ, 0, 0, reader, &byte, 1, -1);
    check(enter(&ring, 1, 0, 0) == 1);
    wait_for_taken(&ring, reader, bring_byte);
    check(unlink("fifo") == 0 && rmdir(name) == 0);
    close_ring(&ring);
}

/* A read end of a named pipe can't be locked: so another process that reads there by it too may
 * have asked it not to wait just before, and take that back amid the call. */
static void test_taken_back(void)
{
    struct ring ring;
    char name[] = "/tmp/unwilling-XXXXXX", byte;
    check(mkdtemp(name) && chdir(name) == 0 && mkfifo("fifo", 0600) == 0);
    written_to = open("fifo", O_RDWR);
    int reader = open("fifo", O_RDONLY);
    make_ring(&ring, 8, 0, 0);
    taken_back = reader;
    put_transfer(&ring, IORING_OP_READ, 0, 0, reader, &byte, 1, -1);
    check(enter(&ring, 1, 0, 0) == 1);
    wait_for_taken(&ring, reader, bring_byte);
    check(byte == 'x' && unlink("fifo") == 0 && rmdir(name) == 0);
    close_ring(&ring);
}

/* Three processes accept on one listener, and each reads a pipe of its own beside: it always
 * answers that. */
static void answer(int listener, int questions, int answers)
{
    struct ring ring;
    char byte;
    make_ring(&ring, 8, 0, 0);
    put_plain(&ring, IORING_OP_ACCEPT, 0, listener);
    put_transfer(&ring, IORING_OP_READ, 1, 0, questions, &byte, 1, -1);
    check(enter(&ring, 2, 0, 0) == 2);
    for (;;) {
        struct seen found = next_of(&ring);
        check(found.res >= (found.user_data == 0 ? 0 : 1));
        if (found.user_data == 0) {
            close(found.res);
            put_plain(&ring, IORING_OP_ACCEPT, 0, listener);
        } else {
            if (byte == 'q')
                exit(0);
            check(write(answers, "!", 1) == 1);
            put_transfer(&ring, IORING_OP_READ, 1, 0, questions, &byte, 1, -1);
        }
        check(enter(&ring, 1, 0, 0) == 1);
    }
}

static void test_herd(void)
{
    enum { PROCESSES = 3 };
    struct sockaddr_in address;
    int listener = make_listener(&address), questions[PROCESSES][2], answers[PROCESSES][2];
    pid_t children[PROCESSES];
    char byte;
    for (int i = 0; i < PROCESSES; i++) {
        check(pipe(questions[i]) == 0 && pipe(answers[i]) == 0);
        children[i] = fork();
        if (children[i] == 0 && prctl(PR_SET_PDEATHSIG, SIGKILL) == 0)
            answer(listener, questions[i][0], answers[i][1]);
    }
    for (int round = 0; round < 100; round++) {
        close(call_at(&address));
        for (int i = 0; i < PROCESSES; i++)
            check(write(questions[i][1], "?", 1) == 1);
        for (int i = 0; i < PROCESSES; i++) {
            struct pollfd at = {.fd = answers[i][0], .events = POLLIN};
            check(
                __real_poll(&at, 1, 2000 * patience()) == 1 && read(answers[i][0], &byte, 1) == 1);
        }
    }
    for (int i = 0; i < PROCESSES; i++)
        check(write(questions[i][1], "q", 1) == 1 && waitpid(children[i], NULL, 0) == children[i]);
}

static void fill(int fd)
{
    static const char bytes[4096];
    int flags = fcntl(fd, F_GETFL);
    check(fcntl(fd, F_SETFL, flags | O_NONBLOCK) == 0);
    while (write(fd, bytes, sizeof bytes) > 0)
        continue;
    check(errno == EAGAIN && fcntl(fd, F_SETFL, flags) == 0);
}

/* A splice from a socket that has nothing, and one to a socket that takes no more, wait, and nobody
 * sleeps. */
static void test_splices(void)
{
    struct ring ring;
    int pipes[2], ends[2];
    char bytes[65536];
    check(pipe(pipes) == 0);
    make_tcp_pair(ends);
    make_ring(&ring, 8, 0, 0);
    put_splice(&ring, IORING_OP_SPLICE, 0, ends[1], pipes[1], 100);
    check(enter(&ring, 1, 0, 0) == 1 && is_waiting(&ring));
    check(send(ends[0], "hello", 5, 0) == 5 && next_of(&ring).res == 5);
    fill(ends[1]);
    put_splice(&ring, IORING_OP_SPLICE, 0, pipes[0], ends[1], 5);
    check(enter(&ring, 1, 0, 0) == 1 && is_waiting(&ring));
    while (recv(ends[0], bytes, sizeof bytes, MSG_DONTWAIT) > 0)
        continue;
    check(next_of(&ring).res == 5);
    close_ring(&ring);
}

/* What would wait ends with -11 where its descriptor isn't to wait: of two pipes either, else that
 * which it waits for. Seen at a ring of Linux 6.18. */
static void test_wills(void)
{
    struct ring ring;
    int one[2], two[2], ends[2];
    check(pipe(one) == 0 && pipe(two) == 0);
    make_tcp_pair(ends);
    make_ring(&ring, 8, 0, 0);
    for (int i = 0; i < 2; i++) {
        check(fcntl(i ? two[1] : one[0], F_SETFL, O_NONBLOCK | (i ? O_WRONLY : 0)) == 0);
        put_splice(&ring, IORING_OP_SPLICE, 0, one[0], two[1], 5);
        check(enter(&ring, 1, 0, 0) == 1 && ends_with(&ring, -EAGAIN));
        put_splice(&ring, IORING_OP_TEE, 0, one[0], two[1], 5);
        check(enter(&ring, 1, 0, 0) == 1 && ends_with(&ring, -EAGAIN));
        check(fcntl(one[0], F_SETFL, 0) == 0);
    }
    put_splice(&ring, IORING_OP_SPLICE, 0, ends[1], two[1], 5);
    check(enter(&ring, 1, 0, 0) == 1 && is_waiting(&ring));
    check(send(ends[0], "hello", 5, 0) == 5 && next_of(&ring).res == 5);
    close_ring(&ring);
}

/* A named pipe takes of a write what it has room for, and a counter what it has room for only once
 * that is there. */
static void test_no_room(void)
{
    struct ring ring;
    static char bytes[150000];
    char name[] = "/tmp/unwilling-XXXXXX";
    uint64_t added = UINT64_MAX - 1, found = 0;
    int counter = eventfd(1, 0);
    check(mkdtemp(name) && chdir(name) == 0 && mkfifo("fifo", 0600) == 0);
    int reader = open("fifo", O_RDONLY | O_NONBLOCK), writer = open("fifo", O_WRONLY);
    make_ring(&ring, 8, 0, 0);
    put_transfer(&ring, IORING_OP_WRITE, 0, 0, writer, bytes, sizeof bytes, -1);
    check(enter(&ring, 1, 0, 0) == 1 && ends_with(&ring, 65536));
    check(read(reader, bytes, 4096) == 4096);
    put_transfer(&ring, IORING_OP_WRITE, 0, 0, writer, bytes, 8192, -1);
    check(enter(&ring, 1, 0, 0) == 1 && ends_with(&ring, 4096));
    put_transfer(&ring, IORING_OP_WRITE, 0, 0, counter, &added, 8, -1);
    check(enter(&ring, 1, 0, 0) == 1 && is_waiting(&ring));
    put_transfer(&ring, IORING_OP_READ, 1, 0, counter, &found, 8, -1);
    check(enter(&ring, 1, 0, 0) == 1);
    check(next_of(&ring).res == 8 && next_of(&ring).res == 8 && found == 1);
    check(unlink("fifo") == 0 && rmdir(name) == 0);
    close_ring(&ring);
}

static bool is_locked_whole(int fd)
{
    int status;
    pid_t child = fork();
    if (child == 0) {
        struct flock lock = {
            .l_type = F_WRLCK, .l_whence = SEEK_SET, .l_start = (off_t)1 << 62, .l_len = 1};
        _exit(fcntl(fd, F_GETLK, &lock) == 0 && lock.l_type == F_WRLCK && lock.l_start == 0 &&
              lock.l_len == 0);
    }
    check(child > 0 && waitpid(child, &status, 0) == child);
    return status != 0;
}

/* What the application has set of a file stays: its lock of the whole, while no copy is closed, and
 * flags that another thread sets amid a call. */
static void test_kept(void)
{
    struct ring ring;
    char name[] = "/tmp/unwilling-XXXXXX", byte;
    struct flock whole = {.l_type = F_WRLCK, .l_whence = SEEK_SET};
    check(mkdtemp(name) && chdir(name) == 0 && mkfifo("fifo", 0600) == 0);
    int both = open("fifo", O_RDWR);
    check(fcntl(both, F_SETLK, &whole) == 0 && is_locked_whole(both) && write(both, "x", 1) == 1);
    make_ring(&ring, 8, 0, 0);
    check(wulgach_syscall(SYS_io_uring_register, ring.fd, IORING_REGISTER_FILES, &both, 1) == 0);
    put_transfer(&ring, IORING_OP_READ, 0, IOSQE_FIXED_FILE, 0, &byte, 1, -1);
    check(enter(&ring, 1, 0, 0) == 1 && next_of(&ring).res == 1 && is_locked_whole(both));
    appended = both;
    put_transfer(&ring, IORING_OP_WRITE, 0, 0, both, "x", 1, -1);
    check(enter(&ring, 1, 0, 0) == 1 && next_of(&ring).res == 1);
    check((fcntl(both, F_GETFL) & (O_APPEND | O_NONBLOCK)) == O_APPEND);
    check(unlink("fifo") == 0 && rmdir(name) == 0);
    close_ring(&ring);
}

int main(int count, char **words)
{
    static const struct named tests[] = {
        {"taken", test_taken},
        {"taken back", test_taken_back},
        {"herd", test_herd},
        {"splices", test_splices},
        {"wills", test_wills},
        {"no room", test_no_room},
        {"kept", test_kept},
    };
    return run_all_watched(tests, sizeof tests / sizeof *tests, count > 1 ? words[1] : NULL);
}
