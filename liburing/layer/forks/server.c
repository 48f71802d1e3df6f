/* The server's side of the talk with `explore`, and the forks.
 */
#define _GNU_SOURCE
#include "forks/server.h"
#include "choices/account.h"
#include "forks/alone.h"
#include "forks/folders.h"
#include "process/fault.h"
#include "rings/waiters.h"

#include <errno.h>
#include <fcntl.h>
#include <poll.h>
#include <signal.h>
#include <stdbool.h>
#include <stdio.h>
#include <stdlib.h>
#include <string.h>
#include <sys/prctl.h>
#include <sys/socket.h>
#include <sys/stat.h>
#include <sys/syscall.h>
#include <sys/wait.h>
#include <time.h>
#include <unistd.h>

static struct {
    int socket, output; /* negative: nobody asks for runs */
    bool is_at_set_up; /* runs begin at the first set-up */
    bool is_fresh;
    bool is_early; /* it serves before main: */
    bool is_awaited; /* where it is asked to, and not as the layer is begun; */
    bool has_served; /* it has, or said that it can't */
    pid_t process; /* the one that was started */
    off_t printed; /* what was printed before runs begin */
    char folder[4096]; /* the working folder, and a copy of it as it was then */
    char copy[4200];
} server = {.socket = -1, .output = -1};

static bool send_all(const void *bytes, size_t size)
{
    const char *at = bytes;
    while (size > 0) {
        ssize_t sent = send(server.socket, at, size, MSG_NOSIGNAL);
        if (sent < 0 && errno != EINTR)
            return false;
        at += sent > 0 ? sent : 0;
        size -= sent > 0 ? (size_t)sent : 0;
    }
    return true;
}

static bool receive_all(void *bytes, size_t size)
{
    char *at = bytes;
    while (size > 0) {
        ssize_t received = recv(server.socket, at, size, 0);
        if (received == 0 || (received < 0 && errno != EINTR))
            return false;
        at += received > 0 ? received : 0;
        size -= received > 0 ? (size_t)received : 0;
    }
    return true;
}

/* The next request, or NULL: nobody asks any more. */
static char *read_request(uint32_t *size)
{
    static char *request;
    static uint32_t room;
    if (!receive_all(size, sizeof *size))
        return NULL;
    if (*size + 1 > room) {
        free(request);
        room = *size + 1;
        request = need_room(room, 1);
    }
    request[*size] = '\0';
    return receive_all(request, *size) ? request : NULL;
}

/* The server goes on as a run: with descriptors, variables and a group of processes of its own. */
static void become_run(const char *variables, const char *end)
{
    setpgid(0, 0);
    prctl(PR_SET_PDEATHSIG, SIGKILL);
    close(server.socket);
    close(server.output);
    server.socket = server.output = -1;
    part_waiters();
    if (!server.is_early)
        reopen_files();
    for (const char *at = variables; at < end; at += strlen(at) + 1) {
        const char *sign = strchr(at, '=');
        char name[256];
        demand(sign && sign - at < (long)sizeof name, "a variable of a run is wrong");
        memcpy(name, at, (size_t)(sign - at));
        name[sign - at] = '\0';
        demand(setenv(name, sign + 1, 1) == 0, "out of memory");
    }
}

static double seconds_now(void)
{
    struct timespec now;
    clock_gettime(CLOCK_MONOTONIC, &now);
    return (double)now.tv_sec + (double)now.tv_nsec / 1e9;
}

/* Whether a run hasn't ended in so many seconds. (a handler of the program's may come meanwhile, as
 * when a run stops) */
static bool is_late(int handle, double seconds)
{
    struct pollfd watched = {.fd = handle, .events = POLLIN};
    const double end = seconds_now() + seconds;
    int found;
    do {
        double left = end - seconds_now();
        found = poll(&watched, 1, left > 2000000 ? -1 : left > 0 ? (int)(left * 1000) + 1 : 0);
    } while (found < 0 && errno == EINTR);
    return found == 0;
}

/* Waits for a run, and ends it if it takes too long; then ends what it has left running. */
static void wait_for_run(pid_t run, double seconds, struct told_run *told)
{
    int status, handle = (int)syscall(SYS_pidfd_open, run, 0);
    told->is_late = handle >= 0 && is_late(handle, seconds);
    if (told->is_late) {
        kill(run, SIGKILL);
        kill(-run, SIGKILL);
    }
    while (waitpid(run, &status, 0) < 0 && errno == EINTR)
        ;
    kill(-run, SIGKILL);
    if (handle >= 0)
        close(handle);
    told->status = WIFEXITED(status) ? WEXITSTATUS(status) : -WTERMSIG(status);
}

static void begin_account(void)
{
    struct account *made = account();
    if (made)
        made->rings = made->choosers = made->choices = made->order = 0;
}

static void tell_account(struct told_run *told)
{
    const struct account *made = account();
    if (!made)
        return;
    told->rings = made->rings;
    told->choosers = made->choosers;
    told->choices = made->choices;
    told->order = made->order;
}

/* The folder is again as it was when runs began. */
static void restore_folder(void)
{
    if (!server.is_fresh)
        return;
    demand(empty_folder(server.folder), "a run's folder can't be emptied");
    demand(server.is_early || copy_folder(server.copy, server.folder),
        "a run's folder can't be copied");
}

static bool tell(struct told_run *told)
{
    off_t size = lseek(server.output, 0, SEEK_END);
    told->printed = size > 0 ? (uint64_t)size : 0;
    char *printed = need_room(told->printed + 1, 1);
    ssize_t read = pread(server.output, printed, told->printed, 0);
    demand(read == (ssize_t)told->printed, "what a run printed can't be read");
    bool is_told = send_all(told, sizeof *told) && send_all(printed, told->printed);
    free(printed);
    return is_told;
}

/* Serves until nobody asks any more. Returns in a run. */
static void serve_runs(void)
{
    uint32_t size;
    for (char *request; (request = read_request(&size));) {
        struct told_run told = {0};
        char *variables = request + strlen(request) + 1;
        demand(ftruncate(server.output, server.printed) == 0,
            "the file of what runs print can't be cut");
        begin_account();
        pid_t run = fork();
        demand(run >= 0, "a run can't be forked");
        if (run == 0) {
            become_run(variables, request + size);
            return;
        }
        setpgid(run, run);
        wait_for_run(run, strtod(request, NULL), &told);
        tell_account(&told);
        restore_folder();
        if (!tell(&told))
            break;
    }
    _exit(0);
}

static const char *why_not(void)
{
    if (getpid() != server.process)
        return "another process than the one that was started sets the ring up";
    const char *reason = why_not_alone(server.is_fresh ? server.folder : NULL, server.is_early);
    if (reason || server.is_early || !server.is_fresh)
        return reason;
    snprintf(server.copy, sizeof server.copy, "%s.begun", server.folder);
    return mkdir(server.copy, 0700) == 0 && copy_folder(server.folder, server.copy)
               ? NULL
               : "its folder can't be copied";
}

static void serve(void)
{
    char hello[256];
    server.has_served = true;
    const char *reason = server.is_fresh && !getcwd(server.folder, sizeof server.folder)
                             ? "it has no working folder"
                             : why_not();
    server.printed = lseek(server.output, 0, SEEK_END);
    if (reason)
        snprintf(hello, sizeof hello, "no %s\n", reason);
    else
        snprintf(hello, sizeof hello, "ok %d\n", (int)getpid());
    if (!send_all(hello, strlen(hello)))
        _exit(0);
    if (!reason)
        serve_runs();
    else if (!receive_all(hello, 1))
        _exit(0);
}

bool is_of_server(int descriptor)
{
    return descriptor == server.socket || descriptor == server.output;
}

/* The program's descriptors are to have the numbers that they have without a server. */
static int move_high(int low)
{
    int high = fcntl(low, F_DUPFD_CLOEXEC, 700);
    demand(high >= 0, "WULGACH_SERVER: a descriptor isn't open");
    close(low);
    return high;
}

__attribute__((constructor)) static void begin_server(void)
{
    const char *words = getenv("WULGACH_SERVER");
    int connection, output, length = 0;
    char where[8];
    if (!words || !*words)
        return;
    demand(
        sscanf(words, "%d:%d:%4[a-z]%n", &connection, &output, where, &length) == 3 && length > 0,
        "WULGACH_SERVER is SOCKET:OUTPUT:main or SOCKET:OUTPUT:ring");
    server.is_at_set_up = strcmp(where, "ring") == 0;
    server.is_fresh = strcmp(words + length, ":fresh") == 0;
    unsetenv("WULGACH_SERVER");
    server.socket = move_high(connection);
    server.output = move_high(output);
    server.process = getpid();
    server.is_early = !server.is_at_set_up;
    if (server.is_early && !server.is_awaited)
        serve();
}

void wulgach_await_main(void)
{
    server.is_awaited = true;
}

void wulgach_serve_before_main(void)
{
    if (server.socket >= 0 && server.is_early)
        serve();
}

/* (a program that the C library doesn't begin has passed by where it was to serve) */
void serve_at_set_up(void)
{
    if (server.socket < 0 || server.has_served || !(server.is_at_set_up || server.is_awaited))
        return;
    server.is_early = false;
    serve();
}
