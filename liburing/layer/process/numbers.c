/* Numbers for the layer's own descriptors. */
#define _GNU_SOURCE
#include "process/numbers.h"
#include "operations/unwilling.h"
#include "process/process.h"
#include "wulgach.h"
#include "wulgach_lookout.h"
#include "wulgach_setup.h"

#include <errno.h>
#include <fcntl.h>
#include <pthread.h>
#include <stdint.h>
#include <sys/epoll.h>
#include <sys/eventfd.h>
#include <sys/resource.h>
#include <sys/stat.h>
#include <unistd.h>

/* Numbers from MOST_NOTED on aren't noted: a kernel gives none by its own limit (fs.nr_open),
 * unless that was raised. */
enum { MOST_NOTED = 1 << 20, BITS = 64 };

/* Copies that are left open, since the process has locks on their files. Under the lock copies are
 * made and noted, and closed: a fork holds it, so a child knows of each. */
static struct {
    pthread_mutex_t lock;
    int fds[WULGACH_MOST_LEFT];
    size_t count;
} left = {.lock = PTHREAD_MUTEX_INITIALIZER};

void lock_kept(void)
{
    pthread_mutex_lock(&left.lock);
}

void unlock_kept(void)
{
    pthread_mutex_unlock(&left.lock);
}

static int copy_from(int fd, int lowest)
{
    int copy = fcntl(fd, F_DUPFD_CLOEXEC, lowest);
    return copy < 0 ? -errno : copy;
}

/* ---- numbers that were free ---- */

static uint64_t begun, ended;

void begin_low_number(void)
{
    __atomic_add_fetch(&begun, 1, __ATOMIC_SEQ_CST);
}

void end_low_number(void)
{
    __atomic_add_fetch(&ended, 1, __ATOMIC_SEQ_CST);
}

uint64_t count_low_numbers(void)
{
    return __atomic_load_n(&ended, __ATOMIC_SEQ_CST);
}

bool has_had_low_number(uint64_t before)
{
    return __atomic_load_n(&begun, __ATOMIC_SEQ_CST) != before;
}

/* ---- numbers that the program hardly has, or can't have ---- */

/* The program's limit (getrlimit(2)), and what stands in its place meanwhile. */
struct limits {
    struct rlimit own, raised;
};

/* The soft limit says which numbers are given to new descriptors, and the layer's needn't be among
 * them: it is raised to the hard one for a moment, under the lock. The kernel says which it
 * replaced, since the program may set it at any time. False: there are no more. */
static bool raise_limit(struct limits *limits)
{
    struct rlimit own;
    if (getrlimit(RLIMIT_NOFILE, &own) < 0 || own.rlim_cur >= own.rlim_max || own.rlim_cur > MANY)
        return false;
    limits->raised = own;
    limits->raised.rlim_cur = own.rlim_max < MOST_NOTED ? own.rlim_max : MOST_NOTED;
    return prlimit(0, RLIMIT_NOFILE, &limits->raised, &limits->own) == 0;
}

/* (the program may have set its limit meanwhile, which stands then) */
static void put_limit_back(const struct limits *limits)
{
    struct rlimit found;
    if (prlimit(0, RLIMIT_NOFILE, &limits->own, &found) == 0 &&
        (found.rlim_cur != limits->raised.rlim_cur || found.rlim_max != limits->raised.rlim_max))
        setrlimit(RLIMIT_NOFILE, &found);
}

rlim_t limit_of_numbers(void)
{
    struct rlimit limit = {.rlim_cur = RLIM_INFINITY};
    lock_kept();
    getrlimit(RLIMIT_NOFILE, &limit);
    unlock_kept();
    return limit.rlim_cur;
}

/* A copy under one of the last numbers that the program may have, of which the layer takes these
 * few: so the limit stays as it is. */
static int copy_below(int fd)
{
    struct rlimit own = {.rlim_cur = RLIM_INFINITY};
    getrlimit(RLIMIT_NOFILE, &own);
    return copy_from(fd, lowest_of_own(own.rlim_cur));
}

/* A copy under a number past the program's limit, as it is. */
static int copy_beyond(int fd)
{
    struct limits limits;
    if (!raise_limit(&limits))
        return -EMFILE;
    int copy = copy_from(
        fd, limits.own.rlim_cur > HIGH_NUMBER ? (int)limits.own.rlim_cur : HIGH_NUMBER);
    put_limit_back(&limits);
    return copy;
}

/* A copy under the best number that there is: one of the last, one past the limit, a high one, or
 * any. */
static int copy_of(int fd)
{
    int copy = copy_below(fd);
    if (copy < 0)
        copy = copy_beyond(fd);
    if (copy < 0)
        copy = copy_from(fd, HIGH_NUMBER);
    return copy < 0 ? copy_from(fd, 0) : copy;
}

int moved_high(int fd)
{
    if (fd < 0)
        return fd;
    lock_kept();
    int copy = copy_of(fd);
    unlock_kept();
    if (copy < 0)
        return fd;
    close(fd);
    return copy;
}

/* The same where all numbers below the limit are taken: it is raised for the call. */
static int made_beyond(int (*make)(void))
{
    struct limits limits;
    lock_kept();
    int fd = -1, error = EMFILE;
    if (raise_limit(&limits)) {
        fd = make();
        error = errno;
        put_limit_back(&limits);
    }
    unlock_kept();
    errno = error;
    return fd;
}

int made_high(int (*make)(void))
{
    begin_low_number();
    int fd = make();
    if (fd < 0 && errno == EMFILE)
        fd = made_beyond(make);
    int error = errno;
    fd = moved_high(fd);
    end_low_number();
    errno = error;
    return fd;
}

static int make_instance(void)
{
    return epoll_create1(EPOLL_CLOEXEC);
}

static int make_eventfd(void)
{
    return eventfd(0, EFD_CLOEXEC | EFD_NONBLOCK);
}

int made_instance(void)
{
    return made_high(make_instance);
}

int made_eventfd(void)
{
    return made_high(make_eventfd);
}

/* ---- copies ---- */

static uint64_t kept[MOST_NOTED / BITS];
static int end_of_noted; /* all that are noted are below */

static void note(int fd)
{
    if (fd < 0 || fd >= MOST_NOTED)
        return;
    __atomic_or_fetch(&kept[fd / BITS], (uint64_t)1 << fd % BITS, __ATOMIC_RELAXED);
    if (end_of_noted <= fd)
        end_of_noted = fd + 1;
}

int kept_copy_of(int fd)
{
    lock_kept();
    int copy = copy_of(fd);
    note(copy);
    unlock_kept();
    return copy;
}

void forget_kept(int fd)
{
    if (fd < MOST_NOTED)
        __atomic_and_fetch(&kept[fd / BITS], ~((uint64_t)1 << fd % BITS), __ATOMIC_RELAXED);
}

bool keep_for_later(int fd)
{
    lock_kept();
    bool closes_on_exec = fcntl(fd, F_GETFD) & FD_CLOEXEC;
    fcntl(fd, F_SETFD, FD_CLOEXEC);
    note(fd);
    unlock_kept();
    return closes_on_exec;
}

void give_to_application(int fd, bool closes_on_exec)
{
    lock_kept();
    forget_kept(fd);
    fcntl(fd, F_SETFD, closes_on_exec ? FD_CLOEXEC : 0);
    unlock_kept();
}

/* (not noted any more first: another may have the number as soon as it is closed) */
static void close_noted(int fd)
{
    forget_kept(fd);
    close(fd);
}

void close_parents(void)
{
    for (int i = 0; i * BITS < end_of_noted; i++)
        for (; kept[i]; kept[i] &= kept[i] - 1)
            close(i * BITS + __builtin_ctzll(kept[i]));
    left.count = 0;
    __atomic_store_n(&ended, begun, __ATOMIC_SEQ_CST);
}

/* ---- locks ---- */

/* Reads the next line of a file, without its end, as much of it as there is room for, and returns
 * how much that is. No memory is asked for: a handler may close. 0: there is none. */
static size_t read_line(int file, uint8_t *line, size_t room)
{
    size_t length = 0;
    uint8_t letter;
    while (read(file, &letter, 1) == 1 && letter != '\n')
        if (length < room)
            line[length++] = letter;
    return length;
}

/* Whether a list of all locks has one of this process on the file of a descriptor. */
static bool lists_lock(int locks, int fd)
{
    uint8_t line[256];
    size_t length;
    struct stat status = {0};
    fstat(fd, &status);
    while ((length = read_line(locks, line, sizeof line)) > 0)
        if (wulgach_is_lock_of(line, length, (uint32_t)this_process(), status.st_ino))
            return true;
    return false;
}

/* An open file description has locks of its own, and is told of one that isn't. Of several it is
 * told of one: then the list of all is read. */
static bool is_locked(int fd)
{
    struct wulgach_told_lock told = ask_lock(fd, F_OFD_GETLK, 0, 0);
    if (!wulgach_asks_list_of_locks(&told))
        return wulgach_is_own_lock(&told);
    begin_low_number();
    int locks = open("/proc/locks", O_RDONLY | O_CLOEXEC);
    bool is_so = wulgach_is_taken_so(
        WULGACH_IS_LOCKED, locks >= 0, locks >= 0 && lists_lock(locks, fd));
    if (locks >= 0)
        close(locks);
    end_low_number();
    return is_so;
}

/* Closes those that were left open and needn't be any more. */
static void close_left(void)
{
    size_t count = 0;
    for (size_t i = 0; i < left.count; i++)
        if (wulgach_stays_open(is_locked(left.fds[i]), count))
            left.fds[count++] = left.fds[i];
        else
            close_noted(left.fds[i]);
    left.count = count;
}

void close_kept(int fd, bool is_regular)
{
    lock_kept();
    bool asks = wulgach_asks_locks(is_regular);
    if (asks)
        close_left();
    if (wulgach_stays_open(asks && is_locked(fd), left.count)) {
        left.fds[left.count++] = fd;
        note(fd);
    } else {
        close_noted(fd);
    }
    unlock_kept();
}
