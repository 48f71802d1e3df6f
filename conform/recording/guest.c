/* The first program of a guest machine: it mounts what the recorder needs, and serves it over the
 * second serial port, to conforming/guest.py.
 *
 * It says `ready RELEASE` once. A request is a line `WORD BYTES` and so many bytes; an answer is a
 * line `STATUS BYTES BYTES`, and so many bytes of standard output and of standard error.
 *
 *   run        runs the recorder on a scenario, at most a minute
 *   features   runs it for the bits of what a ring can do
 *   end        powers the machine off
 *
 * A module that /modules names is loaded, a path a line. A disk /dev/vda is mounted on /tmp by the
 * file system that /disk names; where there is none, /tmp lies in memory.
 */
#define _GNU_SOURCE
#include <errno.h>
#include <fcntl.h>
#include <poll.h>
#include <signal.h>
#include <stdio.h>
#include <stdlib.h>
#include <string.h>
#include <sys/mount.h>
#include <sys/reboot.h>
#include <sys/stat.h>
#include <sys/syscall.h>
#include <sys/utsname.h>
#include <sys/wait.h>
#include <termios.h>
#include <time.h>
#include <unistd.h>

enum {
    MOST = 1 << 20, /* bytes of a request, and of each output */
    SECONDS = 60, /* of a run */
    LATE = 124, /* the status of one that took longer */
    DISK_TURNS = 40,
    DISK_TURN = 50000 /* microseconds */
};

static int stream;
static char asked[MOST], seen[MOST], said[MOST];

static _Noreturn void power_off(void)
{
    sync();
    reboot(RB_POWER_OFF);
    _exit(1);
}

static void must(int is_so, const char *what)
{
    if (is_so)
        return;
    fprintf(stderr, "guest: %s: %s\n", what, strerror(errno));
    power_off();
}

static void put(const char *from, size_t count)
{
    while (count) {
        ssize_t moved = write(stream, from, count);
        if (moved < 0 && errno == EINTR)
            continue;
        must(moved > 0, "write");
        from += moved;
        count -= (size_t)moved;
    }
}

static void get(char *to, size_t count)
{
    while (count) {
        ssize_t moved = read(stream, to, count);
        if (moved < 0 && errno == EINTR)
            continue;
        must(moved > 0, "read");
        to += moved;
        count -= (size_t)moved;
    }
}

/* A line without its end, at most so long. */
static void get_line(char *to, size_t most)
{
    size_t at = 0;
    for (get(to, 1); to[at] != '\n' && at + 1 < most - 1; get(to + at, 1))
        at++;
    to[at] = 0;
}

static void load(const char *path)
{
    int file = open(path, O_RDONLY | O_CLOEXEC);
    if (file < 0 || (syscall(SYS_finit_module, file, "", 0) && errno != EEXIST))
        fprintf(stderr, "guest: module %s: %s\n", path, strerror(errno));
    if (file >= 0)
        close(file);
}

static void load_modules(void)
{
    FILE *list = fopen("/modules", "r");
    char path[300];
    while (list && fgets(path, sizeof path, list)) {
        path[strcspn(path, "\n")] = 0;
        load(path);
    }
    if (list)
        fclose(list);
}

/* The file system of the disk, or nothing. */
static const char *disk(void)
{
    static char name[20];
    FILE *file = fopen("/disk", "r");
    if (!file)
        return NULL;
    if (!fgets(name, sizeof name, file))
        *name = 0;
    fclose(file);
    name[strcspn(name, "\n")] = 0;
    return name;
}

static void mount_all(void)
{
    mkdir("/proc", 0755);
    mkdir("/dev", 0755);
    mkdir("/tmp", 0777);
    must(!mount("proc", "/proc", "proc", 0, NULL), "mount /proc");
    must(!mount("devtmpfs", "/dev", "devtmpfs", 0, NULL), "mount /dev");
    load_modules();
    const char *kind = disk();
    if (!kind) {
        must(!mount("tmpfs", "/tmp", "tmpfs", 0, NULL), "mount /tmp");
        return;
    }
    for (int turn = 0; turn < DISK_TURNS && access("/dev/vda", F_OK); turn++)
        usleep(DISK_TURN);
    must(!mount("/dev/vda", "/tmp", kind, 0, NULL), "mount the disk");
}

static void open_stream(void)
{
    stream = open("/dev/ttyS1", O_RDWR | O_NOCTTY | O_CLOEXEC);
    must(stream >= 0, "open the stream");
    struct termios it;
    must(!tcgetattr(stream, &it), "tcgetattr");
    cfmakeraw(&it);
    must(!tcsetattr(stream, TCSANOW, &it), "tcsetattr");
}

static double now(void)
{
    struct timespec it;
    clock_gettime(CLOCK_MONOTONIC, &it);
    return (double)it.tv_sec + (double)it.tv_nsec / 1e9;
}

struct output {
    char *bytes;
    size_t count;
};

/* Reads both outputs to their ends. Whether that was in time. */
static int both(const int from[2], struct output into[2])
{
    double end = now() + SECONDS;
    struct pollfd of[2] = {{.fd = from[0], .events = POLLIN}, {.fd = from[1], .events = POLLIN}};
    while (of[0].fd >= 0 || of[1].fd >= 0) {
        double left = end - now();
        if (left <= 0 || poll(of, 2, (int)(left * 1000) + 1) == 0)
            return 0;
        for (int at = 0; at < 2; at++) {
            if (of[at].fd < 0 || !of[at].revents)
                continue;
            struct output *it = &into[at];
            ssize_t moved = read(of[at].fd, it->bytes + it->count, MOST - it->count);
            if (moved > 0)
                it->count += (size_t)moved;
            else
                of[at].fd = -1;
        }
    }
    return 1;
}

static _Noreturn void become_recorder(int in, int out, int err, const char *word)
{
    dup2(in, 0);
    dup2(out, 1);
    dup2(err, 2);
    execl("/record", "/record", word, NULL);
    _exit(127);
}

/* Runs the recorder on what was asked, and answers. */
static void run(const char *word, size_t length)
{
    int in[2], out[2], err[2];
    must(!pipe2(in, O_CLOEXEC) && !pipe2(out, O_CLOEXEC) && !pipe2(err, O_CLOEXEC), "pipe");
    pid_t child = fork();
    must(child >= 0, "fork");
    if (!child)
        become_recorder(in[0], out[1], err[1], word);
    close(in[0]);
    close(out[1]);
    close(err[1]);
    (void)!write(in[1], asked, length);
    close(in[1]);
    struct output into[2] = {{.bytes = seen}, {.bytes = said}};
    int is_in_time = both((const int[]){out[0], err[0]}, into);
    if (!is_in_time)
        kill(child, SIGKILL);
    close(out[0]);
    close(err[0]);
    int ended = 0;
    waitpid(child, &ended, 0);
    int status = !is_in_time ? LATE : WIFEXITED(ended) ? WEXITSTATUS(ended) : 128 + WTERMSIG(ended);
    while (waitpid(-1, NULL, WNOHANG) > 0)
        continue;
    char line[100];
    int size = snprintf(line, sizeof line, "%d %zu %zu\n", status, into[0].count, into[1].count);
    put(line, (size_t)size);
    put(seen, into[0].count);
    put(said, into[1].count);
}

int main(void)
{
    signal(SIGPIPE, SIG_IGN);
    mount_all();
    open_stream();
    struct utsname it;
    uname(&it);
    char line[400], word[20];
    int size = snprintf(line, sizeof line, "ready %s\n", it.release);
    put(line, (size_t)size);
    for (;;) {
        size_t length = 0;
        get_line(line, sizeof line);
        must(sscanf(line, "%19s %zu", word, &length) == 2 && length <= MOST, "no request");
        get(asked, length);
        if (!strcmp(word, "end"))
            power_off();
        run(strcmp(word, "features") ? NULL : word, length);
    }
}
