/* A program that is linked with nothing of ours and calls io_uring by the processor's own
 * instruction. Run by uring-run its rings are the layer's, which it sees by their descriptors:
 * those are epoll instances.
 *
 *   trapped begins | nop | shared | blocked | signals | registers | issuers | threads | fork |
 *   vfork | exec | list | spawn | shell | preload | fifo | sqpoll | static PROGRAM
 *
 * Status 0: all was as it is to be. Else a line says what wasn't.
 */
#define _GNU_SOURCE
#include "modes.h"
#include "registers.h"
#include "trapped.h"

#include <fcntl.h>
#include <pthread.h>
#include <signal.h>
#include <spawn.h>
#include <sys/stat.h>
#include <sys/time.h>
#include <sys/wait.h>
#include <wordexp.h>

/* A program begins as it does by itself: with no error, with the signals that Python ignores, and
 * without what Python sets. */
static void begins(int error)
{
    WANT(error == 0);
    WANT(signal(SIGPIPE, SIG_DFL) == SIG_DFL && signal(SIGXFSZ, SIG_DFL) == SIG_DFL);
    WANT(!getenv("LC_CTYPE"));
}

/* Memory of a ring is mapped to be read alone, or refused. */
static void mapped(void)
{
    struct ring ring = set_up(0);
    void *place = mmap(NULL, 4096, PROT_NONE, MAP_PRIVATE | MAP_ANONYMOUS, -1, 0);
    void *words = mmap(NULL, 4096, PROT_READ, MAP_SHARED, ring.fd, IORING_OFF_SQ_RING);
    WANT(place != MAP_FAILED && words != MAP_FAILED && mprotect(words, 4096, PROT_NONE) == 0);
    WANT(mmap(place, 4096, PROT_READ | PROT_WRITE, MAP_SHARED, ring.fd, IORING_OFF_SQES) ==
             MAP_FAILED &&
         errno == EINVAL);
    WANT(mmap(place, 4096, PROT_READ | PROT_WRITE, MAP_SHARED | MAP_FIXED_NOREPLACE, ring.fd,
             IORING_OFF_SQES) == MAP_FAILED &&
         errno == EINVAL);
    WANT(
        mmap(NULL, 4096, PROT_READ, MAP_SHARED, ring.fd, 1 << 29) == MAP_FAILED && errno == ENOMEM);
    WANT(close(ring.fd) == 0);
}

/* Memory that is shared with files goes to the kernel. */
static void shared(void)
{
    char letter;
    int file = memfd_create("shared", 0), all = epoll_create1(0);
    WANT(file >= 0 && ftruncate(file, 8192) == 0);
    char *memory = mmap(NULL, 4096, PROT_READ | PROT_WRITE, MAP_SHARED | MAP_POPULATE, file, 4096);
    WANT(memory != MAP_FAILED);
    *memory = 's';
    WANT(pread(file, &letter, 1, 4096) == 1 && letter == 's');
    const char *seen = mmap(NULL, 4096, PROT_READ, MAP_SHARED, file, 4096);
    WANT(seen != MAP_FAILED && *seen == 's');
    WANT(mmap(NULL, 4096, PROT_READ | PROT_WRITE, MAP_SHARED, all, 0) == MAP_FAILED &&
         errno == ENODEV);
    WANT(mmap(NULL, 4096, PROT_READ | PROT_WRITE, MAP_SHARED, -1, 0) == MAP_FAILED &&
         errno == EBADF);
    mapped();
    no_op();
}

static void on_signal(int number)
{
    (void)number;
}

/* Catches and blocks all that it can, and asks whether it has. */
static void blocked(void)
{
    struct sigaction action = {.sa_handler = on_signal}, before;
    sigset_t all;
    for (int number = 1; number < 32; number++)
        if (number != SIGKILL && number != SIGSTOP)
            WANT(sigaction(number, &action, NULL) == 0);
    WANT(sigaction(SIGSYS, NULL, &before) == 0 && before.sa_handler == on_signal);
    WANT(signal(SIGSYS, SIG_IGN) == on_signal);
    sigfillset(&all);
    WANT(sigprocmask(SIG_SETMASK, &all, NULL) == 0);
    no_op();
}

static volatile sig_atomic_t alarms, others;

static void count_signal(int number)
{
    if (number == SIGALRM)
        alarms++;
    else
        others++;
}

static void want_mask(const sigset_t *wanted)
{
    sigset_t mask;
    WANT(sigprocmask(SIG_SETMASK, NULL, &mask) == 0);
    for (int number = 1; number < 32; number++)
        WANT(sigismember(&mask, number) == sigismember(wanted, number));
}

/* A trapped call leaves the thread's mask as it was, sleeps with it, or with the one that it is
 * given, and is ended by a signal. */
static void signals(void)
{
    const uint64_t none = 0;
    const struct sigaction action = {.sa_handler = count_signal};
    sigset_t mask;
    int ends[2];
    WANT(pipe(ends) == 0 && sigaction(SIGALRM, &action, NULL) == 0 &&
         sigaction(SIGUSR1, &action, NULL) == 0);
    sigemptyset(&mask);
    sigaddset(&mask, SIGUSR1);
    WANT(sigprocmask(SIG_SETMASK, &mask, NULL) == 0);
    WANT(raise(SIGUSR1) == 0);
    struct ring ring = set_up(0);
    want_mask(&mask);
    publish(&ring, (struct io_uring_sqe){
                       .opcode = IORING_OP_POLL_ADD, .fd = ends[0], .poll32_events = POLLIN});
    WANT(enter(&ring, 1, 0, NULL) == 1);
    want_mask(&mask);
    const struct itimerval soon = {.it_value.tv_usec = 20000, .it_interval.tv_usec = 20000},
                           never = {.it_value.tv_usec = 0};
    WANT(setitimer(ITIMER_REAL, &soon, NULL) == 0);
    WANT(enter(&ring, 0, 1, NULL) == -EINTR);
    WANT(setitimer(ITIMER_REAL, &never, NULL) == 0);
    WANT(alarms > 0 && others == 0);
    want_mask(&mask);
    WANT(enter(&ring, 0, 1, &none) == -EINTR && others == 1);
    want_mask(&mask);
    WANT(call(SYS_io_uring_register, ring.fd, IORING_REGISTER_PROBE, 0, 0, 0, 0) < 0);
    want_mask(&mask);
}

/* A trapped call changes the result's register and the two that every call changes, and nothing
 * else. */
static void registers(void)
{
    struct ring ring = set_up(0);
    bool is_whole = __builtin_cpu_supports("avx");
    const uint64_t arguments[6] = {(uint64_t)ring.fd, 1, 1, IORING_ENTER_GETEVENTS, 0, 8};
    static const uint64_t others[] = {112, 113, 114, 115, 116, 117, 1, 1};
    memcpy(seen.arguments, arguments, sizeof arguments);
    fill_vectors(is_whole, 1);
    publish(&ring, (struct io_uring_sqe){.opcode = IORING_OP_NOP, .user_data = 77});
    call_with_registers(is_whole);
    WANT(memcmp(seen.after, arguments, sizeof arguments) == 0 && seen.after[6] == seen.frame &&
         memcmp(seen.after + 7, others, sizeof others) == 0);
    WANT(memcmp(seen.vectors, seen.vectors_after, sizeof seen.vectors) == 0);
}

static void *call_from_another(void *of)
{
    const struct ring *ring = of;
    publish(ring, (struct io_uring_sqe){.opcode = IORING_OP_NOP});
    WANT(enter(ring, 1, 0, NULL) == -EEXIST);
    return NULL;
}

/* A ring that belongs to one thread: to another it says so; a child may have one too, and so may a
 * thread of the child. */
static void issuers(void)
{
    pthread_t other;
    for (int generation = 0; generation < 2; generation++) {
        struct ring ring = set_up(IORING_SETUP_SINGLE_ISSUER | IORING_SETUP_DEFER_TASKRUN);
        WANT(pthread_create(&other, NULL, call_from_another, &ring) == 0);
        pthread_join(other, NULL);
        no_op_on(&ring);
        pid_t child = generation == 0 ? fork() : 0;
        if (child > 0) {
            int status;
            WANT(waitpid(child, &status, 0) == child && status == 0);
            return;
        }
    }
}

static void *in_thread(void *none)
{
    sigset_t all;
    sigfillset(&all);
    pthread_sigmask(SIG_BLOCK, &all, NULL);
    for (int i = 0; i < 20; i++)
        no_op();
    return none;
}

static void threads(void)
{
    pthread_t started[4];
    for (int i = 0; i < 4; i++)
        WANT(pthread_create(&started[i], NULL, in_thread, NULL) == 0);
    for (int i = 0; i < 4; i++)
        pthread_join(started[i], NULL);
}

static void want_success(pid_t child)
{
    int status;
    WANT(child > 0 && waitpid(child, &status, 0) == child && status == 0);
}

static char *const nop_words[] = {"trapped", "nop", NULL};
static char *const no_surrounding[] = {NULL};

static void forked(void)
{
    pid_t child = fork();
    if (child == 0) {
        no_op();
        _exit(0);
    }
    want_success(child);
    no_op();
}

static void vforked(const char *self, char *const *surrounding)
{
    pid_t child = vfork();
    if (child == 0) {
        execve(self, nop_words, surrounding);
        _exit(1);
    }
    want_success(child);
}

/* By a descriptor of the program. */
static void begun(const char *self, char *const *surrounding)
{
    int file = open(self, O_RDONLY | O_CLOEXEC);
    pid_t child = vfork();
    if (child == 0) {
        execveat(file, "", nop_words, surrounding, AT_EMPTY_PATH);
        _exit(1);
    }
    want_success(child);
    WANT(close(file) == 0);
}

static void spawned(const char *self, char *const *surrounding)
{
    pid_t child;
    WANT(posix_spawn(&child, self, NULL, NULL, nop_words, surrounding) == 0);
    want_success(child);
}

static void shell(const char *self)
{
    char line[4200];
    snprintf(line, sizeof line, "%s nop", self);
    WANT(system(line) == 0);
    FILE *pipe = popen(line, "r");
    WANT(pipe && pclose(pipe) == 0);
}

/* A line of words that a command makes. */
static void expand(const char *self)
{
    char line[4200];
    wordexp_t words;
    snprintf(line, sizeof line, "$(%s nop && echo succeeds)", self);
    WANT(wordexp(line, &words, 0) == 0 && words.we_wordc == 1 &&
         strcmp(words.we_wordv[0], "succeeds") == 0);
    wordfree(&words);
}

/* A surrounding that preloads another library, or none, keeps what it has, and reaches the program
 * that is started all the same. */
static void preloaded(const char *self)
{
    static char *const lists[] = {
        "LD_PRELOAD=", "LD_PRELOAD=libm.so.6", "LD_PRELOAD=libc.so.6 libm.so.6"};
    for (int i = 0; i < 3; i++) {
        char *const surrounding[] = {lists[i], NULL};
        vforked(self, surrounding);
        begun(self, surrounding);
        spawned(self, surrounding);
        WANT(setenv("LD_PRELOAD", strchr(lists[i], '=') + 1, 1) == 0);
        expand(self);
        WANT(setenv("LD_PRELOAD", strchr(lists[i], '=') + 1, 1) == 0);
        shell(self);
        WANT(i == 0 || system("case $LD_PRELOAD in *[:\\ ]libm.so.6) ;; *) exit 1 ;; esac") == 0);
        shell(self);
    }
}

/* A named pipe isn't started, and nobody waits for it. */
static void started_fifo(void)
{
    char name[] = "/tmp/trapped-XXXXXX", *const words[] = {name, NULL};
    pid_t child;
    int made = mkstemp(name);
    WANT(made >= 0 && close(made) == 0 && unlink(name) == 0 && mkfifo(name, 0700) == 0);
    end_after(20);
    WANT(execve(name, words, no_surrounding) < 0 && errno == EACCES);
    WANT(posix_spawn(&child, name, NULL, NULL, words, no_surrounding) == EACCES);
    WANT(unlink(name) == 0);
}

static void sqpoll(void)
{
    struct io_uring_params params = {.flags = IORING_SETUP_SQPOLL};
    WANT(call(SYS_io_uring_setup, 4, (long)&params, 0, 0, 0, 0) >= 0);
}

/* Starts the program anew in some way; it isn't one of these: false. */
static bool is_started(const char *name, char *self)
{
    if (strcmp(name, "vfork") == 0)
        vforked(self, no_surrounding);
    else if (strcmp(name, "exec") == 0)
        execve(self, nop_words, no_surrounding);
    else if (strcmp(name, "list") == 0)
        execle(self, "trapped", "nop", NULL, no_surrounding);
    else if (strcmp(name, "spawn") == 0)
        spawned(self, no_surrounding);
    else if (strcmp(name, "shell") == 0) {
        clearenv();
        shell(self);
    } else if (strcmp(name, "preload") == 0)
        preloaded(self);
    else
        return false;
    return true;
}

int main(int argc, char **argv)
{
    int error = errno;
    static const struct mode modes[] = {
        {"nop", no_op},
        {"shared", shared},
        {"blocked", blocked},
        {"signals", signals},
        {"registers", registers},
        {"issuers", issuers},
        {"threads", threads},
        {"fork", forked},
        {"fifo", started_fifo},
        {"sqpoll", sqpoll},
    };
    static char self[4096];
    const char *name = argc > 1 ? argv[1] : "";
    WANT(readlink("/proc/self/exe", self, sizeof self - 1) > 0);
    if (strcmp(name, "begins") == 0)
        begins(error);
    else if (strcmp(name, "static") == 0 && argc > 2)
        execl(argv[2], argv[2], "nop", NULL);
    else if (run_mode(modes, sizeof modes / sizeof *modes, argc, argv) != 0 &&
             !is_started(name, self))
        return 2;
    return 0;
}
