/* What runs must not take from one another, however they begin. It does something before it sets
 * its ring up, which the word says, and then writes to its file, reads another and prints what both
 * are: the same in each run.
 *
 *   plain       opens a file for writing and one for reading, and reads part of it
 *   copied, high, folder, mode
 *               the same, and reads by a copy of a descriptor, or by one of a high number, makes a
 *               file in a folder that is open, or says which mode and time a folder has
 *   threads, children, signal, timer, shared, pipe, outside, locked, nameless, linked
 *               the same, and what stands against a fork at the set-up
 *   hang, stop, die
 *               the same, and never ends, also where it handles that a child stops, or dies by a
 *               signal
 */
#include <fcntl.h>
#include <liburing.h>
#include <pthread.h>
#include <signal.h>
#include <stdio.h>
#include <stdlib.h>
#include <string.h>
#include <sys/file.h>
#include <sys/mman.h>
#include <sys/stat.h>
#include <sys/wait.h>
#include <unistd.h>

static void demand(int is_so, const char *what)
{
    if (!is_so) {
        perror(what);
        exit(3);
    }
}

static void *sleep_on(void *nothing)
{
    pause();
    return nothing;
}

static void handle(int number)
{
    (void)number;
}

static void do_before(const char *word)
{
    pthread_t thread;
    sigset_t set;
    int ends[2];
    sigemptyset(&set);
    if (strcmp(word, "threads") == 0)
        demand(pthread_create(&thread, NULL, sleep_on, NULL) == 0, "a thread");
    else if (strcmp(word, "children") == 0 && fork() == 0)
        _exit(0);
    else if (strcmp(word, "signal") == 0)
        demand(sigaddset(&set, SIGUSR1) == 0 && sigprocmask(SIG_BLOCK, &set, NULL) == 0 &&
                   raise(SIGUSR1) == 0,
            "a signal");
    else if (strcmp(word, "stop") == 0)
        demand(signal(SIGCHLD, handle) != SIG_ERR, "a handler");
    else if (strcmp(word, "timer") == 0)
        alarm(1000);
    else if (strcmp(word, "shared") == 0)
        demand(mmap(NULL, 4096, PROT_READ | PROT_WRITE, MAP_SHARED | MAP_ANONYMOUS, -1, 0) !=
                   MAP_FAILED,
            "memory");
    else if (strcmp(word, "pipe") == 0)
        demand(pipe(ends) == 0, "a pipe");
    else if (strcmp(word, "outside") == 0)
        demand(open("/dev/shm", O_TMPFILE | O_RDWR, 0600) >= 0, "a file");
}

/* A file of eight bytes, by a descriptor that is at its beginning. */
static int make_file(const char *name)
{
    int file = open(name, O_RDWR | O_CREAT, 0600);
    demand(file >= 0 && write(file, "abcdefgh", 8) == 8 && lseek(file, 0, SEEK_SET) == 0,
        "one more file");
    return file;
}

/* What is open before the set-up and used after it. */
static struct {
    int one, other, folder;
} kept = {-1, -1, -1};

static void open_before(const char *word)
{
    if (strcmp(word, "copied") == 0) {
        kept.one = make_file("copied");
        kept.other = dup(kept.one);
    } else if (strcmp(word, "high") == 0) {
        int file = make_file("high");
        kept.one = fcntl(file, F_DUPFD, 800);
        close(file);
    } else if (strcmp(word, "folder") == 0) {
        demand(mkdir("folder", 0700) == 0, "a folder");
        kept.folder = open("folder", O_RDONLY | O_DIRECTORY);
    } else if (strcmp(word, "mode") == 0) {
        struct timespec times[2] = {{.tv_sec = 1000}, {.tv_sec = 1000}};
        demand(mkdir("mode", 0700) == 0 && chmod("mode", 01777) == 0 &&
                   utimensat(AT_FDCWD, "mode", times, 0) == 0,
            "a folder");
    } else if (strcmp(word, "locked") == 0) {
        demand(flock(make_file("locked"), LOCK_EX | LOCK_NB) == 0, "a lock");
    } else if (strcmp(word, "nameless") == 0) {
        make_file("nameless");
        demand(link("nameless", "another") == 0 && unlink("nameless") == 0, "another name");
    } else if (strcmp(word, "linked") == 0) {
        close(make_file("linked"));
        demand(link("linked", "another") == 0, "another name");
    }
}

static void use_after(void)
{
    char byte = '-', next = '-';
    struct stat about;
    if (kept.one >= 0)
        demand(read(kept.one, &byte, 1) == 1, "a read");
    if (kept.other >= 0)
        demand(read(kept.other, &next, 1) == 1, "a read by the copy");
    if (kept.folder >= 0)
        demand(openat(kept.folder, "made", O_RDWR | O_CREAT | O_EXCL, 0600) >= 0,
            "a file in the folder");
    if (stat("mode", &about) == 0)
        printf("mode %o of %ld\n", about.st_mode & 07777, (long)about.st_mtim.tv_sec);
    printf("read %c and %c\n", byte, next);
}

/* Three loose requests; the order in which they end is printed. */
static void run_three(int file, int other)
{
    static char bytes[3];
    struct io_uring ring;
    struct io_uring_cqe *completion;
    demand(io_uring_queue_init(4, &ring, 0) == 0, "a ring");
    io_uring_prep_write(io_uring_get_sqe(&ring), file, "xyz", 3, -1);
    io_uring_prep_read(io_uring_get_sqe(&ring), other, bytes, 3, -1);
    io_uring_prep_nop(io_uring_get_sqe(&ring));
    for (int i = 0; i < 3; i++)
        ring.sq.sqes[i].user_data = (unsigned)i + 1;
    io_uring_submit_and_wait(&ring, 3);
    for (int i = 0; i < 3; i++) {
        demand(io_uring_wait_cqe(&ring, &completion) == 0, "a completion");
        printf("%u: %d\n", (unsigned)completion->user_data, completion->res);
        io_uring_cqe_seen(&ring, completion);
    }
    printf("read %.3s\n", bytes);
}

int main(int argc, char **argv)
{
    const char *word = argc > 1 ? argv[1] : "plain";
    char bytes[8] = "";
    int file = open("written", O_RDWR | O_CREAT | O_APPEND, 0600),
        other = open("read", O_RDWR | O_CREAT, 0600);
    demand(file >= 0 && other >= 0 && write(file, "abc", 3) == 3 &&
               write(other, "0123456789", 10) == 10,
        "files");
    close(other);
    other = open("read", O_RDONLY);
    demand(read(other, bytes, 2) == 2, "a read");
    printf("before\n");
    do_before(word);
    open_before(word);
    run_three(file, other);
    use_after();
    if (strcmp(word, "hang") == 0)
        pause();
    if (strcmp(word, "stop") == 0)
        raise(SIGSTOP);
    if (strcmp(word, "die") == 0)
        raise(SIGTERM);
    printf("%d bytes are written, and the next is %d\n", (int)lseek(file, 0, SEEK_END),
        (int)lseek(other, 0, SEEK_CUR));
    return 0;
}
