/* Tests of the numbers that the layer's own descriptors have, by direct calls: the program's limit
 * (RLIMIT_NOFILE) leaves room for what it opens itself, and a lock on a file stays. All hold under
 * every policy, which the environment says.
 *
 *   numbers [NAME]           with a name: that test alone
 */
#define _GNU_SOURCE
#include "engines.h"

#include <fcntl.h>
#include <pthread.h>
#include <sys/resource.h>
#include <sys/socket.h>
#include <sys/wait.h>

enum { USUAL = 1024 };

/* The limit that most programs are started with. False: the hard one isn't above it. */
static bool set_limit(unsigned most, struct rlimit *before)
{
    check(getrlimit(RLIMIT_NOFILE, before) == 0);
    struct rlimit limit = {most, before->rlim_max};
    check(setrlimit(RLIMIT_NOFILE, &limit) == 0);
    return before->rlim_max >= 4 * USUAL;
}

static bool is_limited_to(unsigned most)
{
    struct rlimit limit;
    return getrlimit(RLIMIT_NOFILE, &limit) == 0 && limit.rlim_cur == most;
}

/* One file is registered 600 times, and the program opens as many as it may beside them. */
static void test_many_files(void)
{
    enum { FILES = 600, OPENED = 900 };
    struct rlimit before;
    struct ring ring;
    int fds[FILES], opened[OPENED], file = make_file();
    bool has_more = set_limit(USUAL, &before);
    make_ring(&ring, 4, 0, 0);
    for (int i = 0; i < FILES; i++)
        fds[i] = file;
    check(register_at(ring.fd, IORING_REGISTER_FILES, fds, FILES) == 0);
    for (int i = 0; has_more && i < OPENED; i++)
        check((opened[i] = dup(file)) >= 0);
    for (int i = 0; has_more && i < OPENED; i++)
        close(opened[i]);
    check(is_limited_to(USUAL) && register_at(ring.fd, IORING_UNREGISTER_FILES, NULL, 0) == 0);
    check(setrlimit(RLIMIT_NOFILE, &before) == 0);
    close(file);
    close_ring(&ring);
}

static int32_t open_into(struct ring *ring, const char *path, unsigned slot, int flags)
{
    struct io_uring_sqe *entry = put_plain(ring, IORING_OP_OPENAT, 0, AT_FDCWD);
    entry->addr = (uintptr_t)path;
    entry->open_flags = (unsigned)flags;
    entry->file_index = slot + 1;
    return result_of_one(ring, 1);
}

/* As many are opened into slots. */
static void test_many_slots(void)
{
    enum { SLOTS = 600 };
    struct rlimit before;
    struct ring ring;
    struct io_uring_rsrc_register sparse = {.nr = SLOTS, .flags = IORING_RSRC_REGISTER_SPARSE};
    set_limit(USUAL, &before);
    make_ring(&ring, 4, 0, 0);
    check(register_at(ring.fd, IORING_REGISTER_FILES2, &sparse, sizeof sparse) == 0);
    for (unsigned i = 0; i < SLOTS; i++)
        check(open_into(&ring, "/dev/null", i, O_RDONLY) == 0);
    check(register_at(ring.fd, IORING_UNREGISTER_FILES, NULL, 0) == 0);
    check(setrlimit(RLIMIT_NOFILE, &before) == 0);
    close_ring(&ring);
}

/* Each of many connections waits for something: the program may open as many as without the ring.
 */
static void test_many_connections(void)
{
    enum { PAIRS = 480 };
    struct rlimit before;
    struct ring ring;
    int pairs[PAIRS][2], opened = 0;
    char byte;
    bool has_more = set_limit(USUAL, &before);
    make_ring(&ring, 4, 0, 0);
    while (has_more && opened < PAIRS && socketpair(AF_UNIX, SOCK_STREAM, 0, pairs[opened]) == 0) {
        put_transfer(&ring, IORING_OP_RECV, (uint64_t)opened, 0, pairs[opened][0], &byte, 1, 0);
        check(enter(&ring, 1, 0, 0) == 1);
        opened++;
    }
    check(!has_more || opened == PAIRS);
    for (int i = 0; i < opened; i++) {
        check(write(pairs[i][1], "x", 1) == 1 && next_of(&ring).user_data == (uint64_t)i);
        close(pairs[i][0]);
        close(pairs[i][1]);
    }
    check(setrlimit(RLIMIT_NOFILE, &before) == 0);
    close_ring(&ring);
}

/* No number that the program may have is the layer's, but one of its last, a 32nd of all. */
static void test_others_numbers(void)
{
    struct rlimit before;
    struct ring ring;
    int right = make_file(), wrong = make_file();
    char byte = 0;
    bool has_more = set_limit(USUAL, &before);
    make_ring(&ring, 4, 0, 0);
    check(write(right, "r", 1) == 1 && write(wrong, "w", 1) == 1);
    check(register_at(ring.fd, IORING_REGISTER_FILES, &right, 1) == 0);
    for (int number = 512; has_more && number < USUAL - USUAL / 32; number++)
        check(dup2(wrong, number) == number);
    put_transfer(&ring, IORING_OP_READ, 0, IOSQE_FIXED_FILE, 0, &byte, 1, 0);
    check(result_of_one(&ring, 1) == 1 && byte == 'r');
    for (int number = 512; has_more && number < USUAL - USUAL / 32; number++)
        close(number);
    check(setrlimit(RLIMIT_NOFILE, &before) == 0);
    close(right);
    close(wrong);
    close_ring(&ring);
}

/* The limit falls below what waits already: a call sleeps, and ends as it would. */
static void test_lower_limit(void)
{
    enum { READS = 20, LOW = 8 };
    struct rlimit before;
    struct ring ring;
    int ends[READS][2], status;
    char byte;
    make_ring(&ring, 32, 0, 0);
    for (int i = 0; i < READS; i++) {
        check(pipe(ends[i]) == 0);
        put_transfer(&ring, IORING_OP_READ, (uint64_t)i, 0, ends[i][0], &byte, 1, 0);
    }
    check(enter(&ring, READS, 0, 0) == READS);
    bool has_more = set_limit(LOW, &before);
    pid_t child = fork();
    if (child == 0) {
        usleep(50000);
        _exit(write(ends[7][1], "x", 1) == 1 ? 0 : 1);
    }
    if (has_more) {
        check(enter(&ring, 0, 1, IORING_ENTER_GETEVENTS) == 0);
        struct completion found = reap(&ring);
        check(found.user_data == 7 && found.res == 1);
    }
    check(waitpid(child, &status, 0) == child && status == 0 &&
          setrlimit(RLIMIT_NOFILE, &before) == 0);
    close_ring(&ring);
    for (int i = 0; i < READS; i++) {
        close(ends[i][0]);
        close(ends[i][1]);
    }
}

static _Atomic bool is_watched;

/* How often the limit was another meanwhile. */
static void *watch_limit(void *wrong)
{
    while (is_watched)
        *(unsigned *)wrong += !is_limited_to(USUAL);
    return NULL;
}

/* The limit is the process's: it stays what it is while the layer takes a few numbers again and
 * again. */
static void test_same_limit(void)
{
    enum { TURNS = 20000, FILES = 8 };
    struct rlimit before;
    struct ring ring;
    pthread_t thread;
    unsigned wrong = 0;
    int fds[FILES], file = make_file();
    set_limit(USUAL, &before);
    make_ring(&ring, 4, 0, 0);
    for (int i = 0; i < FILES; i++)
        fds[i] = file;
    is_watched = true;
    check(pthread_create(&thread, NULL, watch_limit, &wrong) == 0);
    for (int i = 0; i < TURNS; i++)
        check(register_at(ring.fd, IORING_REGISTER_FILES, fds, FILES) == 0 &&
              register_at(ring.fd, IORING_UNREGISTER_FILES, NULL, 0) == 0);
    is_watched = false;
    check(pthread_join(thread, NULL) == 0 && wrong == 0);
    check(setrlimit(RLIMIT_NOFILE, &before) == 0);
    close(file);
    close_ring(&ring);
}

/* Whether another process finds a byte of the file locked, from this one on. */
static bool is_locked(const char *path, off_t from)
{
    int status;
    pid_t child = fork();
    if (child == 0) {
        struct flock lock = {.l_type = F_WRLCK, .l_whence = SEEK_SET, .l_start = from};
        int fd = open(path, O_RDWR);
        _exit(fd >= 0 && fcntl(fd, F_SETLK, &lock) < 0 ? 1 : 0);
    }
    check(waitpid(child, &status, 0) == child && WIFEXITED(status));
    return WEXITSTATUS(status) == 1;
}

/* A file on which the process has a lock is opened into a slot: the lock stays, also if there is no
 * such slot. */
static void test_lock(void)
{
    struct flock lock = {.l_type = F_WRLCK, .l_whence = SEEK_SET},
                 unlock = {.l_type = F_UNLCK, .l_whence = SEEK_SET};
    struct io_uring_rsrc_register sparse = {.nr = 2, .flags = IORING_RSRC_REGISTER_SPARSE};
    struct ring ring;
    char path[64];
    snprintf(path, sizeof path, "/tmp/wulgach-locked.%d", (int)getpid());
    int fd = open(path, O_RDWR | O_CREAT | O_TRUNC, 0600);
    check(fd >= 0 && fcntl(fd, F_SETLK, &lock) == 0 && is_locked(path, 0));
    make_ring(&ring, 4, 0, 0);
    check(register_at(ring.fd, IORING_REGISTER_FILES2, &sparse, sizeof sparse) == 0);
    check(open_into(&ring, path, 0, O_RDONLY) == 0 && is_locked(path, 0));
    check(open_into(&ring, path, 0, O_RDONLY) == 0 && is_locked(path, 0));
    check(open_into(&ring, path, 7, O_RDONLY) == -EINVAL && is_locked(path, 0));
    check(register_at(ring.fd, IORING_UNREGISTER_FILES, NULL, 0) == 0 && is_locked(path, 0));
    check(fcntl(fd, F_SETLK, &unlock) == 0 && !is_locked(path, 0));
    check(unlink(path) == 0);
    close(fd);
    close_ring(&ring);
}

/* A child that has this lock until it is killed. */
static pid_t lock_in_child(int file, struct flock lock)
{
    int ready[2];
    char byte;
    check(pipe(ready) == 0);
    pid_t child = fork();
    if (child == 0) {
        check(fcntl(file, F_SETLK, &lock) == 0 && write(ready[1], "x", 1) == 1);
        pause();
    }
    check(read(ready[0], &byte, 1) == 1);
    close_pair(ready);
    return child;
}

static void hold_for_a_while(struct ring *ring, int file)
{
    check(register_at(ring->fd, IORING_REGISTER_FILES, &file, 1) == 0);
    check(register_at(ring->fd, IORING_UNREGISTER_FILES, NULL, 0) == 0);
}

/* A lock of another process's, from the byte on that has this one's number: no copy of the file
 * stays open for it. */
static void test_others_lock(void)
{
    struct flock lock = {.l_type = F_WRLCK, .l_whence = SEEK_SET, .l_start = getpid(), .l_len = 1};
    struct ring ring;
    int file = make_file(), other = make_file();
    make_ring(&ring, 4, 0, 0);
    pid_t child = lock_in_child(file, lock);
    hold_for_a_while(&ring, other);
    size_t before = count_descriptors();
    hold_for_a_while(&ring, file);
    check(count_descriptors() == before);
    check(kill(child, SIGKILL) == 0 && waitpid(child, NULL, 0) == child);
    close(file);
    close(other);
    close_ring(&ring);
}

/* Such a lock beside one of its own, which stays, also where the process may open nothing more. */
static void test_lock_beside_others(void)
{
    struct flock own = {.l_type = F_WRLCK, .l_whence = SEEK_SET, .l_start = 2, .l_len = 2},
                 others = {.l_type = F_WRLCK, .l_whence = SEEK_SET, .l_len = 1};
    struct rlimit before;
    struct ring ring;
    char path[64];
    snprintf(path, sizeof path, "/tmp/wulgach-locked.%d", (int)getpid());
    int fd = open(path, O_RDWR | O_CREAT | O_TRUNC, 0600);
    check(fd >= 0 && ftruncate(fd, 8) == 0);
    pid_t child = lock_in_child(fd, others);
    check(fcntl(fd, F_SETLK, &own) == 0);
    make_ring(&ring, 4, 0, 0);
    hold_for_a_while(&ring, fd);
    check(is_locked(path, 2));
    check(register_at(ring.fd, IORING_REGISTER_FILES, &fd, 1) == 0);
    set_limit(1, &before);
    check(register_at(ring.fd, IORING_UNREGISTER_FILES, NULL, 0) == 0);
    check(setrlimit(RLIMIT_NOFILE, &before) == 0 && is_locked(path, 2));
    check(kill(child, SIGKILL) == 0 && waitpid(child, NULL, 0) == child && unlink(path) == 0);
    close(fd);
    close_ring(&ring);
}

int main(int count, char **words)
{
    static const struct named tests[] = {
        {"many files", test_many_files},
        {"many slots", test_many_slots},
        {"many connections", test_many_connections},
        {"others' numbers", test_others_numbers},
        {"lower limit", test_lower_limit},
        {"same limit", test_same_limit},
        {"lock", test_lock},
        {"others' lock", test_others_lock},
        {"lock beside others", test_lock_beside_others},
    };
    alarm((unsigned)(PATIENCE * patience()));
    return run_tests(tests, sizeof tests / sizeof *tests, count > 1 ? words[1] : NULL);
}
