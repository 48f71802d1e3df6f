/* A program that is linked with nothing of ours: what its opens, renames and memory are in the log,
 * and that the log takes nothing from it. It is run by uring-run, in a folder that counts as the
 * disk.
 *
 *   kept opens | names | memory | locks | handlers | forks | numbers | unread | renamed | limits |
 *   masks | actions | spawned
 *
 * Status 0: all was as it is to be. Else a line says what wasn't.
 */
#define _GNU_SOURCE
#include "logged.h"

#include <aio.h>
#include <limits.h>
#include <linux/filter.h>
#include <linux/openat2.h>
#include <linux/seccomp.h>
#include <pthread.h>
#include <signal.h>
#include <spawn.h>
#include <stddef.h>
#include <sys/prctl.h>
#include <sys/resource.h>
#include <sys/time.h>
#include <sys/uio.h>
#include <sys/wait.h>

static void want_made(int file)
{
    struct event event = last_event(EVENT_CREATE, false), end = last_event(EVENT_END, false);
    WANT(file >= 0 && event.file == inode_of(open(".", O_RDONLY)) && end.result == 0 &&
         end.file == inode_of(file));
}

/* What an open makes or cuts: by openat2 too, through links that lead nowhere, and of a path alone
 * nothing. */
static void opens(void)
{
    enum { OPENAT2 = 437 };
    struct open_how how = {.flags = O_RDWR | O_CREAT, .mode = 0600, .resolve = RESOLVE_BENEATH};
    want_made((int)syscall(OPENAT2, AT_FDCWD, "by_openat2", &how, sizeof how));
    int file = make("opened");
    WANT(write(file, "bytes", 5) == 5);
    size_t cuts = find_event(EVENT_LENGTH, false).count;
    WANT(open("opened", O_PATH | O_TRUNC) >= 0 && find_event(EVENT_LENGTH, false).count == cuts &&
         lseek(file, 0, SEEK_END) == 5);
    how = (struct open_how){.flags = O_WRONLY | O_TRUNC};
    WANT(syscall(OPENAT2, AT_FDCWD, "opened", &how, sizeof how) >= 0 &&
         find_event(EVENT_LENGTH, false).count == cuts + 1);
    WANT(last_event(EVENT_LENGTH, false).file == inode_of(file) && lseek(file, 0, SEEK_END) == 0);
    WANT(syscall(OPENAT2, AT_FDCWD, "opened", (void *)8, sizeof how) == -1 && errno == EFAULT);
    WANT(symlink("one", "other") == 0 && symlink("led_to", "one") == 0);
    want_made(open("other", O_RDWR | O_CREAT, 0600));
    WANT(access("led_to", F_OK) == 0 && last_event(EVENT_CREATE, false).path ==
                                            strlen(getenv("WULGACH_DISK")) + strlen("/led_to"));
    WANT(open("other", O_RDWR | O_CREAT | O_EXCL, 0600) == -1 && errno == EEXIST);
}

/* Of a rename from outside the disk its file is told, and the folder of a link is that of its own
 * word. */
static void names(void)
{
    char outside[PATH_MAX];
    snprintf(outside, sizeof outside, "%s.outside", getenv("WULGACH_DISK"));
    int folder = open(".", O_RDONLY), file = open(outside, O_RDWR | O_CREAT, 0600);
    WANT(rename(outside, "inside") == 0);
    struct event event = last_event(EVENT_RENAME, false);
    WANT(event.length == inode_of(file) && event.second == inode_of(folder));
    WANT(symlinkat("inside", folder, "linked") == 0 &&
         last_event(EVENT_MAKE_LINK, false).file == inode_of(folder));
}

static char *map_shared(int file)
{
    char *memory = mmap(NULL, 8192, PROT_READ | PROT_WRITE, MAP_SHARED, file, 0);
    WANT(memory != MAP_FAILED);
    return memory;
}

static void want_msync(const char *memory, int file, int64_t offset)
{
    WANT(msync((void *)(uintptr_t)memory, 4096, MS_SYNC) == 0);
    struct event event = last_event(EVENT_SYNC, false);
    WANT(event.file == inode_of(file) && event.flags == (IS_OF_RANGE | IS_OF_DATA) &&
         event.offset == offset && event.length == 4096);
}

/* An msync is of the file that its memory is of now, however much was mapped since, and what the
 * kernel refuses is none. */
static void memory(void)
{
    int file = make("mapped"), other = make("other_mapped");
    WANT(ftruncate(file, 8192) == 0 && ftruncate(other, 8192) == 0);
    char *first = map_shared(file), *reused;
    for (int i = 0; i < 300; i++)
        map_shared(other);
    strcpy(first + 4096, "written through memory");
    want_msync(first + 4096, file, 4096);
    size_t syncs = find_event(EVENT_SYNC, false).count;
    WANT(msync(first, 4096, MS_SYNC | MS_ASYNC) == -1 && errno == EINVAL &&
         msync(first, 4096, MS_SYNC | 0x100) == -1 && errno == EINVAL);
    WANT(msync(first + 1, 4096, MS_SYNC) == -1 && errno == EINVAL &&
         msync(first, 4096, MS_ASYNC) == 0);
    WANT(mlock(first, 4096) == 0 && msync(first, 4096, MS_SYNC | MS_INVALIDATE) == -1 &&
         errno == EBUSY && find_event(EVENT_SYNC, false).count == syncs);
    WANT(munmap(first, 4096) == 0 && msync(first, 8192, MS_SYNC) == -1 && errno == ENOMEM &&
         find_event(EVENT_SYNC, false).count == syncs + 1);
    reused = mmap(first + 4096, 4096, PROT_READ, MAP_SHARED | MAP_FIXED, other, 0);
    WANT(reused == first + 4096 && mprotect(reused, 4096, PROT_READ | PROT_WRITE) == 0);
    want_msync(reused, other, 0);
}

/* A lock of the process stays, though its file is mapped and copied to. */
static void locks(void)
{
    int file = make("locked"), status;
    struct flock lock = {.l_type = F_WRLCK};
    WANT(ftruncate(file, 8192) == 0 && fcntl(file, F_SETLK, &lock) == 0);
    map_shared(file);
    if (fork() == 0)
        _exit(fcntl(file, F_GETLK, &lock) < 0 || lock.l_type == F_UNLCK);
    WANT(wait(&status) > 0 && status == 0);
}

static void leave(int signal)
{
    (void)signal;
    fsync(-1);
    _exit(0);
}

/* A handler that comes while memory is compared may sync and end the process. */
static void handlers(void)
{
    const struct itimerval soon = {.it_value = {.tv_usec = 60000}};
    enum { LENGTH = 4 << 20 };
    int file = make("handled"), status;
    WANT(ftruncate(file, LENGTH) == 0);
    for (int i = 0; i < 6; i++) {
        if (fork() == 0) {
            char *room = mmap(NULL, LENGTH, PROT_READ | PROT_WRITE, MAP_SHARED, file, 0);
            WANT(room != MAP_FAILED);
            memset(room, i, LENGTH);
            signal(SIGALRM, leave);
            setitimer(ITIMER_REAL, &soon, NULL);
            for (;;)
                msync(room, 4096, MS_SYNC);
        }
        WANT(wait(&status) > 0 && status == 0);
    }
}

static void *sync_memory(void *room)
{
    for (int i = 0; i < 4000; i++)
        WANT(msync(room, 4096, MS_SYNC) == 0);
    return room;
}

/* A child that is forked while another thread compares memory compares it too, also one that the
 * kernel's own call has forked. */
static void forks(void)
{
    enum { LENGTH = 1 << 20, CHILDREN = 15 };
    pthread_t thread;
    int file = make("forked"), status;
    WANT(ftruncate(file, LENGTH) == 0);
    char *room = mmap(NULL, LENGTH, PROT_READ | PROT_WRITE, MAP_SHARED, file, 0);
    memset(room, 'f', LENGTH);
    WANT(pthread_create(&thread, NULL, sync_memory, room) == 0);
    for (int i = 0; i < CHILDREN; i++) {
        if ((i % 2 ? syscall(SYS_fork) : fork()) == 0)
            _exit(fsync(file));
        WANT(wait(&status) > 0 && status == 0);
    }
    _exit(0);
}

/* The descriptor of the log. */
static int find_log(void)
{
    char name[PATH_MAX] = "", path[40];
    for (int fd = 0; fd < 4096; fd++) {
        snprintf(path, sizeof path, "/proc/self/fd/%d", fd);
        ssize_t length = readlink(path, name, sizeof name - 1);
        if (length > 0 && (size_t)length == strlen(getenv("WULGACH_LOG")) &&
            memcmp(name, getenv("WULGACH_LOG"), (size_t)length) == 0)
            return fd;
    }
    return -1;
}

/* The log's number is the program's as soon as it takes it, and low ones are its own. */
static void numbers(void)
{
    const struct rlimit few = {256, 256};
    int next = dup(0);
    WANT(close(next) == 0 && setrlimit(RLIMIT_NOFILE, &few) == 0);
    int file = make("numbers"), log = find_log();
    WANT(file == next && log >= 200 && dup2(file, log) == log);
    for (int i = 0; i < 5; i++)
        WANT(pwrite(file, "n", 1, i) == 1 && last_event(EVENT_WRITE, false).offset == i);
    WANT(lseek(file, 0, SEEK_END) == 5);
}

/* Names and vectors are read too where nobody may ask for memory. */
static void unread(void)
{
    struct sock_filter lines[] = {
        BPF_STMT(BPF_LD | BPF_W | BPF_ABS, offsetof(struct seccomp_data, nr)),
        BPF_JUMP(BPF_JMP | BPF_JEQ | BPF_K, SYS_process_vm_readv, 0, 1),
        BPF_STMT(BPF_RET | BPF_K, SECCOMP_RET_ERRNO | EPERM),
        BPF_STMT(BPF_RET | BPF_K, SECCOMP_RET_ALLOW),
    };
    const struct sock_fprog filter = {sizeof lines / sizeof *lines, lines};
    const struct iovec part = {(char *)"unasked", 7};
    WANT(prctl(PR_SET_SECCOMP, SECCOMP_MODE_FILTER, &filter) == 0);
    int file = make("unread");
    want_made(file);
    WANT(writev(file, &part, 1) == 7 && last_event(EVENT_WRITE, false).bytes == 7);
}

/* A ring's write has begun when its file is renamed away from the disk: it ends in the log all the
 * same. */
static void renamed(void)
{
    char outside[PATH_MAX];
    struct ring ring = set_up(0);
    int file = make("renamed");
    snprintf(outside, sizeof outside, "%s.outside", getenv("WULGACH_DISK"));
    ring.entries[0] = (struct io_uring_sqe){
        .opcode = IORING_OP_WRITE, .fd = file, .addr = (uintptr_t) "eight by", .len = 8};
    __atomic_store_n((uint32_t *)(ring.sq + ring.params.sq_off.tail), 1, __ATOMIC_RELEASE);
    WANT(enter(&ring, 1, 0, NULL) == 1 && rename("renamed", outside) == 0 &&
         enter(&ring, 0, 1, NULL) == 0 && unlink(outside) == 0);
    WANT(last_event(EVENT_WRITE, true).file == inode_of(file) &&
         last_event(EVENT_END, true).file == inode_of(file));
}

/* The log grows past what a file of the program's may have: it ends, and the program doesn't. */
static void limits(void)
{
    const struct rlimit most = {8192, 8192};
    char letters[4096] = {0};
    int file = make("limits");
    WANT(setrlimit(RLIMIT_FSIZE, &most) == 0);
    for (int i = 0; i < 10; i++)
        WANT(pwrite(file, letters, sizeof letters, 0) == (ssize_t)sizeof letters);
}

static uint64_t ask_mask(void)
{
    uint64_t mask;
    WANT(syscall(SYS_rt_sigprocmask, SIG_SETMASK, NULL, &mask, sizeof mask) == 0);
    return mask;
}

/* A thread that has blocked all signals by the kernel's own call writes all the same, and has
 * blocked all but the trap's. */
static void masks(void)
{
    const uint64_t all = ~(uint64_t)0,
                   kept = (uint64_t)1 << (SIGSYS - 1) | (uint64_t)1 << (SIGKILL - 1) |
                          (uint64_t)1 << (SIGSTOP - 1),
                   one = (uint64_t)1 << (SIGUSR1 - 1);
    uint64_t before = 1;
    int file = make("masks");
    WANT(syscall(SYS_rt_sigprocmask, SIG_BLOCK, &one, NULL, sizeof one) == 0 && ask_mask() == one);
    WANT(syscall(SYS_rt_sigprocmask, SIG_SETMASK, &all, &before, sizeof all) == 0 &&
         before == one && ask_mask() == (all & ~kept));
    WANT(write(file, "masked", 6) == 6 && last_event(EVENT_WRITE, false).file == inode_of(file));
    WANT(syscall(SYS_rt_sigprocmask, SIG_SETMASK, &one, NULL, 4) == -1 && errno == EINVAL);
    WANT(syscall(SYS_rt_sigprocmask, 5, &one, NULL, sizeof one) == -1 && errno == EINVAL);
    WANT(syscall(SYS_rt_sigprocmask, SIG_SETMASK, 8, NULL, sizeof one) == -1 && errno == EFAULT &&
         ask_mask() == (all & ~kept));
    WANT(syscall(SYS_rt_sigprocmask, SIG_UNBLOCK, &all, NULL, sizeof all) == 0 && ask_mask() == 0);
}

/* An action as the kernel has it. */
struct raw_action {
    void (*handler)(int);
    unsigned long flags;
    void (*restorer)(void);
    uint64_t mask;
};

static int file_of_handler;
static volatile sig_atomic_t handled;

static void write_in_handler(int number)
{
    const uint64_t one = (uint64_t)1 << (SIGUSR2 - 1);
    WANT(number == SIGUSR1 && syscall(SYS_rt_sigprocmask, SIG_BLOCK, &one, NULL, sizeof one) == 0);
    WANT(write(file_of_handler, "handled", 7) == 7 &&
         last_event(EVENT_WRITE, false).file == inode_of(file_of_handler));
    handled++;
}

/* A handler that was set by the kernel's own call, to block all signals, sets a mask and writes. */
static void actions(void)
{
    struct sigaction own;
    struct raw_action action, before;
    const uint64_t trap = (uint64_t)1 << (SIGSYS - 1);
    file_of_handler = make("actions");
    WANT(signal(SIGUSR1, write_in_handler) == SIG_DFL &&
         syscall(SYS_rt_sigaction, SIGUSR1, NULL, &action, sizeof action.mask) == 0);
    action.mask = ~(uint64_t)0;
    WANT(syscall(SYS_rt_sigaction, SIGUSR1, &action, &before, sizeof action.mask) == 0 &&
         before.handler == write_in_handler && !(before.mask & trap));
    WANT(raise(SIGUSR1) == 0 && handled == 1 && ask_mask() == 0);
    WANT(syscall(SYS_rt_sigaction, SIGUSR1, NULL, &before, sizeof action.mask) == 0 &&
         before.handler == write_in_handler && before.flags == action.flags &&
         !(before.mask & trap) && before.mask & 1);
    WANT(syscall(SYS_rt_sigaction, SIGUSR1, &action, NULL, 4) == -1 && errno == EINVAL);
    WANT(syscall(SYS_rt_sigaction, SIGUSR1, 8, NULL, sizeof action.mask) == -1 && errno == EFAULT);
    WANT(syscall(SYS_rt_sigaction, SIGKILL, &action, NULL, sizeof action.mask) == -1 &&
         errno == EINVAL);
    WANT(syscall(SYS_rt_sigaction, SIGSYS, &action, NULL, sizeof action.mask) == 0 &&
         sigaction(SIGSYS, NULL, &own) == 0 && own.sa_handler == SIG_DFL);
    WANT(raise(SIGUSR1) == 0 && handled == 2);
}

/* The C library starts a program, and a thread that writes, with all signals blocked: what they do
 * to files is in the log. */
static void spawned(void)
{
    posix_spawn_file_actions_t actions;
    char *words[] = {(char *)"echo", (char *)"spawned", NULL};
    struct stat about;
    pid_t child;
    int status;
    WANT(posix_spawn_file_actions_init(&actions) == 0 &&
         posix_spawn_file_actions_addopen(
             &actions, STDOUT_FILENO, "spawned", O_WRONLY | O_CREAT | O_TRUNC, 0600) == 0);
    WANT(posix_spawnp(&child, "echo", &actions, NULL, words, environ) == 0 &&
         waitpid(child, &status, 0) == child && status == 0);
    WANT(stat("spawned", &about) == 0 && about.st_size == 8 &&
         last_event(EVENT_WRITE, false).file == about.st_ino);
    struct aiocb asked = {
        .aio_fildes = make("behind"), .aio_buf = (char *)"behind", .aio_nbytes = 6};
    const struct aiocb *const list[] = {&asked};
    WANT(aio_write(&asked) == 0);
    while (aio_error(&asked) == EINPROGRESS)
        aio_suspend(list, 1, NULL);
    WANT(aio_return(&asked) == 6 &&
         last_event(EVENT_WRITE, false).file == inode_of(asked.aio_fildes) && ask_mask() == 0);
}

static const struct mode modes[] = {
    {"opens", opens},
    {"names", names},
    {"memory", memory},
    {"locks", locks},
    {"handlers", handlers},
    {"forks", forks},
    {"numbers", numbers},
    {"unread", unread},
    {"renamed", renamed},
    {"limits", limits},
    {"masks", masks},
    {"actions", actions},
    {"spawned", spawned},
};

int main(int argc, char **argv)
{
    return run_mode(modes, sizeof modes / sizeof *modes, argc, argv);
}
