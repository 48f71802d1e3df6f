/* A program that is linked with nothing of ours: who waits for edges of a ring's descriptor
 * (EPOLLET) is told of each call that posts, however he has begun to wait. Until somebody has, no
 * call writes for that.
 *
 *   waiters nobody | others | library | own | generic | copy | nested | changed | ring | poll |
 *   child | own_child | sent | started | kept | loaded | threads
 *   waiters starts PROGRAM       one that is linked statically, and is given `loop`
 *   waiters hears FD SOCKET      what `started` and `kept` start,
 *   waiters receives SOCKET      and `sent`
 */
#define _GNU_SOURCE
#include "handing.h"
#include "posts.h"

#include <dlfcn.h>
#include <errno.h>
#include <fcntl.h>
#include <pthread.h>
#include <signal.h>
#include <spawn.h>
#include <stdlib.h>
#include <sys/socket.h>
#include <sys/wait.h>

enum { ROUNDS = 20 };

extern char **environ;
static const char *own_path;

static void want_writes(const struct ring *ring, bool are_many)
{
    post(ring);
    long before = count_writes();
    for (int i = 0; i < ROUNDS; i++)
        post(ring);
    WANT(count_writes() - before == (are_many ? ROUNDS : 0));
}

/* A ring that was called often before anybody waits. */
static struct ring used_ring(void)
{
    struct ring ring = set_up_alone(0);
    for (int i = 0; i < 3 * ROUNDS; i++)
        post(&ring);
    return ring;
}

static bool is_told(int loop)
{
    struct epoll_event found;
    return epoll_wait(loop, &found, 1, 0) == 1;
}

static void want_told(const struct ring *ring, int loop)
{
    is_told(loop);
    WANT(!is_told(loop));
    for (int i = 0; i < ROUNDS; i++) {
        post(ring);
        WANT(is_told(loop) && !is_told(loop));
    }
}

static int new_loop(void)
{
    int loop = epoll_create1(EPOLL_CLOEXEC);
    WANT(loop >= 0);
    return loop;
}

typedef long change_of(int loop, int change, int fd, struct epoll_event *event);

static long by_library(int loop, int change, int fd, struct epoll_event *event)
{
    return epoll_ctl(loop, change, fd, event);
}

static long by_instruction(int loop, int change, int fd, struct epoll_event *event)
{
    return call(SYS_epoll_ctl, loop, change, fd, (long)event, 0, 0);
}

static long by_generic(int loop, int change, int fd, struct epoll_event *event)
{
    return syscall(SYS_epoll_ctl, loop, change, fd, event);
}

/* An instance that waits for a descriptor, for edges or for a level. */
static int wait_on(int fd, uint32_t edges, change_of *change)
{
    struct epoll_event event = {.events = EPOLLIN | edges};
    int loop = new_loop();
    WANT(change(loop, EPOLL_CTL_ADD, fd, &event) == 0);
    return loop;
}

/* ---- in this process ---- */

/* Where who runs it says that nobody does, nothing is trapped for that. */
static void nobody(void)
{
    const char *word = getenv("WULGACH_EDGES");
    long before = count_filters();
    struct ring ring = used_ring();
    want_writes(&ring, false);
    WANT(!word || strcmp(word, "no") != 0 || count_filters() == before);
}

/* An instance has descriptors, and the ring's isn't among them. */
static void others(void)
{
    struct ring ring = used_ring();
    int ends[2];
    WANT(pipe(ends) == 0);
    wait_on(ends[0], EPOLLET, by_library);
    wait_on(ends[0], EPOLLET, by_instruction);
    want_writes(&ring, false);
}

static void by(change_of *change)
{
    struct ring ring = used_ring();
    want_writes(&ring, false);
    want_told(&ring, wait_on(ring.fd, EPOLLET, change));
    want_writes(&ring, true);
}

static void library(void)
{
    by(by_library);
}

static void own(void)
{
    by(by_instruction);
}

static void generic(void)
{
    by(by_generic);
}

static void copy(void)
{
    struct ring ring = used_ring();
    want_told(&ring, wait_on((int)call(SYS_dup, ring.fd, 0, 0, 0, 0, 0), EPOLLET, by_instruction));
}

static void nested(void)
{
    struct ring ring = used_ring();
    want_told(&ring, wait_on(wait_on(ring.fd, 0, by_instruction), EPOLLET, by_instruction));
}

static void changed(void)
{
    struct ring ring = used_ring();
    struct epoll_event event = {.events = EPOLLIN | EPOLLET};
    int loop = wait_on(ring.fd, 0, by_library);
    WANT(by_instruction(loop, EPOLL_CTL_MOD, ring.fd, &event) == 0);
    want_told(&ring, loop);
}

/* A ring's request puts another's descriptor into an instance. */
static void ring_adds(void)
{
    struct ring ring = used_ring(), other = used_ring();
    struct epoll_event event = {.events = EPOLLIN | EPOLLET};
    int loop = new_loop();
    put(&other, (struct io_uring_sqe){.opcode = IORING_OP_EPOLL_CTL,
                    .fd = loop,
                    .off = (uint64_t)ring.fd,
                    .len = EPOLL_CTL_ADD,
                    .addr = (uintptr_t)&event});
    WANT(enter(&other, 1, 1, NULL) == 1 && reap(&other) == 0);
    want_told(&ring, loop);
}

/* A ring's poll of another goes on: it tells of what is there, and waits for an edge then, with
 * which it ends. */
static void ring_polls(void)
{
    struct ring ring = used_ring(), other = used_ring();
    for (int i = 0; i < ROUNDS; i++) {
        put(&other, (struct io_uring_sqe){.opcode = IORING_OP_POLL_ADD,
                        .fd = ring.fd,
                        .poll32_events = POLLIN,
                        .len = IORING_POLL_ADD_MULTI});
        WANT(enter(&other, 1, 1, NULL) == 1 && reap(&other) == POLLIN);
        post(&ring);
        WANT(enter(&other, 0, 1, NULL) == 0 && reap(&other) == POLLIN);
    }
}

/* A library that is loaded may make such calls unheard. */
static void loaded(void)
{
    struct ring ring = used_ring();
    want_writes(&ring, false);
    WANT(dlopen("libc.so.6", RTLD_NOW | RTLD_NOLOAD) && dlopen(NULL, RTLD_NOW));
    want_writes(&ring, false);
    WANT(dlopen("libresolv.so.2", RTLD_NOW));
    want_writes(&ring, true);
}

static void *set_one_up(void *at)
{
    *(struct ring *)at = used_ring();
    return NULL;
}

/* Threads set up rings at once; then one that was there before, and one that wasn't, wait for
 * edges. */
static void threads(void)
{
    enum { MANY = 4 };
    pthread_t all[MANY];
    struct ring rings[MANY];
    for (int i = 0; i < MANY; i++)
        WANT(pthread_create(&all[i], NULL, set_one_up, &rings[i]) == 0);
    for (int i = 0; i < MANY; i++)
        WANT(pthread_join(all[i], NULL) == 0);
    want_writes(&rings[0], false);
    want_told(&rings[1], wait_on(rings[1].fd, EPOLLET, by_instruction));
    want_writes(&rings[0], true);
}

/* ---- in others ---- */

/* Waits for edges, and says what it was told of each call. */
static void hear_for(int socket, int fd, change_of *change)
{
    int loop = wait_on(fd, EPOLLET, change);
    is_told(loop);
    send_byte(socket, 'b');
    for (int i = 0; i < ROUNDS; i++) {
        receive_byte(socket);
        send_byte(socket, is_told(loop) ? '1' : '0');
    }
    _exit(0);
}

static void post_for(const struct ring *ring, int socket, pid_t child)
{
    int status;
    WANT(receive_byte(socket) == 'b');
    for (int i = 0; i < ROUNDS; i++) {
        post(ring);
        send_byte(socket, 'p');
        WANT(receive_byte(socket) == '1');
    }
    WANT(waitpid(child, &status, 0) == child && status == 0);
}

/* (who dies closes his end, so that the other doesn't wait) */
static void make_ends(int ends[2])
{
    WANT(socketpair(AF_UNIX, SOCK_STREAM | SOCK_CLOEXEC, 0, ends) == 0);
}

static void in_child(change_of *change, bool is_own)
{
    struct ring ring = used_ring();
    int ends[2];
    make_ends(ends);
    pid_t child = is_own ? (pid_t)call(SYS_clone, SIGCHLD, 0, 0, 0, 0, 0) : fork();
    close(ends[child != 0]);
    if (child == 0)
        hear_for(ends[1], ring.fd, change);
    post_for(&ring, ends[0], child);
}

static void child(void)
{
    in_child(by_library, false);
}

static void own_child(void)
{
    in_child(by_instruction, true);
}

/* Starts this program with these words. */
static pid_t start_with(char **words, posix_spawn_file_actions_t *actions)
{
    pid_t process;
    WANT(posix_spawn(&process, own_path, actions, NULL, words, environ) == 0);
    return process;
}

static void receives(int socket)
{
    receive_byte(socket);
    hear_for(socket, receive_descriptor(socket), by_library);
}

/* A program that was there before the ring is sent its descriptor; a message without one tells
 * nobody, and what can't be read is refused. */
static void sent(void)
{
    int ends[2];
    char number[16];
    make_ends(ends);
    WANT(fcntl(ends[1], F_SETFD, 0) == 0);
    snprintf(number, sizeof number, "%d", ends[1]);
    pid_t process = start_with((char *[]){(char *)own_path, "receives", number, NULL}, NULL);
    close(ends[1]);
    struct ring ring = used_ring();
    struct msghdr plain = {.msg_iov = &(struct iovec){"m", 1}, .msg_iovlen = 1};
    WANT(sendmsg(ends[0], &plain, 0) == 1);
    errno = 0;
    WANT(sendmsg(ends[0], (void *)16, 0) == -1 && errno == EFAULT);
    want_writes(&ring, false);
    send_descriptor(ends[0], ring.fd);
    post_for(&ring, ends[0], process);
}

/* Starts this program, which waits for edges of a descriptor. */
static pid_t start(int fd, int socket, posix_spawn_file_actions_t *actions)
{
    char numbers[2][16];
    snprintf(numbers[0], sizeof numbers[0], "%d", fd);
    snprintf(numbers[1], sizeof numbers[1], "%d", socket);
    return start_with((char *[]){(char *)own_path, "hears", numbers[0], numbers[1], NULL}, actions);
}

/* A program that is started has no descriptor of the ring's; but one has that is given one as it
 * starts. */
static void started(void)
{
    struct ring ring = used_ring();
    int ends[2], given = 90, status;
    posix_spawn_file_actions_t actions;
    pid_t process;
    make_ends(ends);
    WANT(posix_spawnp(&process, "true", NULL, NULL, (char *[]){"true", NULL}, environ) == 0 &&
         waitpid(process, &status, 0) == process);
    want_writes(&ring, false);
    WANT(posix_spawn_file_actions_init(&actions) == 0);
    WANT(posix_spawn_file_actions_adddup2(&actions, ends[1], given) == 0 &&
         posix_spawn_file_actions_adddup2(&actions, ring.fd, given + 1) == 0);
    post_for(&ring, ends[0], start(given + 1, given, &actions));
}

/* One has such that is kept open for it. */
static void kept(void)
{
    struct ring ring = used_ring();
    int ends[2];
    make_ends(ends);
    WANT(fcntl(ends[1], F_SETFD, 0) == 0 && fcntl(ring.fd, F_SETFD, 0) == 0);
    want_writes(&ring, false);
    post_for(&ring, ends[0], start(ring.fd, ends[1], NULL));
}

/* A program that nothing here reaches, and that has the filter, has an event loop all the same. */
static void starts(const char *path)
{
    struct ring ring = used_ring();
    int status;
    pid_t process;
    WANT(posix_spawn(&process, path, NULL, NULL, (char *[]){(char *)path, "loop", NULL}, environ) ==
         0);
    WANT(waitpid(process, &status, 0) == process && status == 0);
    want_writes(&ring, false);
}

static void loop(void)
{
    int ends[2];
    WANT(pipe(ends) == 0 && write(ends[1], "w", 1) == 1);
    WANT(is_told(wait_on(ends[0], EPOLLET, by_library)) &&
         is_told(wait_on(ends[0], 0, by_instruction)) && is_told(wait_on(ends[0], 0, by_generic)));
}

int main(int count, char **words)
{
    static const struct {
        const char *name;
        void (*run)(void);
    } all[] = {
        {"nobody", nobody},
        {"others", others},
        {"library", library},
        {"own", own},
        {"generic", generic},
        {"copy", copy},
        {"nested", nested},
        {"changed", changed},
        {"ring", ring_adds},
        {"poll", ring_polls},
        {"loaded", loaded},
        {"threads", threads},
        {"child", child},
        {"own_child", own_child},
        {"sent", sent},
        {"started", started},
        {"kept", kept},
        {"loop", loop},
    };
    WANT(count > 1);
    own_path = words[0];
    if (count == 4 && strcmp(words[1], "hears") == 0)
        hear_for(atoi(words[3]), atoi(words[2]), by_library);
    end_after(30);
    if (count == 3 && strcmp(words[1], "receives") == 0)
        receives(atoi(words[2]));
    if (count == 3 && strcmp(words[1], "starts") == 0) {
        starts(words[2]);
        return 0;
    }
    for (size_t i = 0; i < sizeof all / sizeof *all; i++)
        if (strcmp(words[1], all[i].name) == 0) {
            all[i].run();
            return 0;
        }
    return 1;
}
