/* By which descriptors a ring is reached: each asks the kernel, since a program closes, copies and
 * uses numbers again unheard. Where the user says that each close of a ring's descriptor is heard,
 * what was asked holds until the next. And by which tables of descriptors: a thread may have one of
 * its own (CLONE_FILES, unshare(2)), in which a number is another file's, or nobody's.
 */
#define _GNU_SOURCE
#include "rings/reached.h"
#include "process/numbers.h"
#include "process/process.h"
#include "rings/readiness.h"
#include "rings/waiters.h"
#include "wulgach_setup.h"

#include <dirent.h>
#include <errno.h>
#include <fcntl.h>
#include <linux/kcmp.h>
#include <stdio.h>
#include <stdlib.h>
#include <sys/stat.h>
#include <sys/syscall.h>
#include <unistd.h>

/* Memory is known by its inode. */
bool is_reached_by(const struct ring *ring, int fd)
{
    struct stat status;
    if (ring->ready_fd >= 0)
        return is_polled_by(ring, fd);
    return fstat(fd, &status) == 0 && status.st_dev == ring->device && status.st_ino == ring->inode;
}

/* How many closes were heard, and one; 0: they aren't. */
static uint64_t closes;

void hear_closes(void)
{
    __atomic_store_n(&closes, 1, __ATOMIC_SEQ_CST);
}

void note_close(void)
{
    if (__atomic_load_n(&closes, __ATOMIC_RELAXED) != 0)
        __atomic_add_fetch(&closes, 1, __ATOMIC_SEQ_CST);
}

bool is_still_reached_by(struct ring *ring, int fd)
{
    /* (a close that comes while it is asked has it asked again) */
    uint64_t now = __atomic_load_n(&closes, __ATOMIC_SEQ_CST);
    if (now != 0 && ring->known_at == now && ring->known_fd == fd)
        return true;
    bool is_reached = ring->ready_fd >= 0 ? is_still_polled_by(ring, fd) : is_reached_by(ring, fd);
    ring->known_at = is_reached ? now : 0;
    ring->known_fd = fd;
    return is_reached;
}

/* A look at the numbers in a folder of /proc, for a ring. */
struct look {
    const struct ring *ring;
    int own; /* a descriptor that this thread has opened for the look, */
    bool is_apart; /* whether a thread was seen whose table of descriptors isn't this one's, */
    pid_t thread; /* whose descriptors are looked at, */
    int found; /* and the number that it was */
};

typedef enum wulgach_knowledge is_it(struct look *look, int number);

/* Looks at a part of a folder, up to the number that it is, or of which that can't be known. */
static enum wulgach_knowledge look_at_part(
    struct look *look, is_it *is_it, const char *entries, long length)
{
    enum wulgach_knowledge known = WULGACH_IS_NOT_SO;
    for (long at = 0; at < length && known == WULGACH_IS_NOT_SO;) {
        const struct dirent64 *entry = (const void *)(entries + at);
        look->found = atoi(entry->d_name);
        known = entry->d_name[0] == '.' ? WULGACH_IS_NOT_SO : is_it(look, look->found);
        at += entry->d_reclen;
    }
    return known;
}

static enum wulgach_knowledge look_through(struct look *look, is_it *is_it, int folder)
{
    _Alignas(struct dirent64) char entries[1024];
    enum wulgach_knowledge known = WULGACH_IS_NOT_SO;
    for (long length; known == WULGACH_IS_NOT_SO &&
                      (length = syscall(SYS_getdents64, folder, entries, sizeof entries)) > 0;)
        known = look_at_part(look, is_it, entries, length);
    return known;
}

/* (what one thread has open here another one's call isn't to find) */
static int open_folder(const char *path)
{
    begin_low_number();
    int folder = open(path, O_RDONLY | O_DIRECTORY | O_CLOEXEC), error = errno;
    if (folder < 0)
        end_low_number();
    errno = error;
    return folder;
}

static void close_folder(int folder)
{
    if (folder < 0)
        return;
    close(folder);
    end_low_number();
}

static enum wulgach_knowledge is_reached_here(struct look *look, int fd)
{
    return is_reached_by(look->ring, fd) ? WULGACH_IS_SO : WULGACH_IS_NOT_SO;
}

int find_descriptor(const struct ring *ring)
{
    int last = __atomic_load_n(&ring->fd, __ATOMIC_RELAXED);
    if (is_reached_by(ring, last))
        return last;
    struct look look = {.ring = ring};
    int folder = open_folder("/proc/thread-self/fd");
    bool is_found = folder >= 0 && look_through(&look, is_reached_here, folder) == WULGACH_IS_SO;
    close_folder(folder);
    if (is_found)
        return look.found;
    return wulgach_is_taken_so(WULGACH_IS_REACHED, folder >= 0, false) ? last : -1;
}

static enum wulgach_knowledge is_kept_open(struct look *look, int fd)
{
    (void)look;
    int flags = fcntl(fd, F_GETFD);
    return flags >= 0 && !(flags & FD_CLOEXEC) && may_be_instance(fd) ? WULGACH_IS_SO
                                                                      : WULGACH_IS_NOT_SO;
}

bool is_instance_kept_open(void)
{
    struct look look = {0};
    int folder = open_folder("/proc/thread-self/fd");
    bool is_kept = folder < 0 || look_through(&look, is_kept_open, folder) != WULGACH_IS_NOT_SO;
    close_folder(folder);
    return is_kept;
}

/* ---- the tables of other threads ---- */

/* Where a thread of this process has a number of its table, or the folder of all. */
struct path {
    char letters[64];
};

static struct path path_of(pid_t thread, int fd)
{
    struct path path;
    if (fd < 0)
        snprintf(path.letters, sizeof path.letters, "/proc/self/task/%d/fd", thread);
    else
        snprintf(path.letters, sizeof path.letters, "/proc/self/task/%d/fd/%d", thread, fd);
    return path;
}

static bool are_one(const struct stat *one, const struct stat *other)
{
    return one->st_dev == other->st_dev && one->st_ino == other->st_ino;
}

/* Whether a thread has this one's table: what this one has just opened stands in it. */
static bool shares_table(pid_t thread, int own)
{
    struct stat here, there;
    struct path path = path_of(thread, own);
    return thread == this_thread() ||
           (fstat(own, &here) == 0 && stat(path.letters, &there) == 0 && are_one(&here, &there));
}

/* Whether a descriptor of another table is open on the ring. An eventfd that an epoll instance
 * polls for is known by kcmp(2). */
static enum wulgach_knowledge is_reached_there(struct look *look, int fd)
{
    struct stat status;
    const struct ring *ring = look->ring;
    look->is_apart = true;
    if (ring->ready_fd < 0) {
        struct path path = path_of(look->thread, fd);
        return stat(path.letters, &status) == 0 && status.st_dev == ring->device &&
                       status.st_ino == ring->inode
                   ? WULGACH_IS_SO
                   : WULGACH_IS_NOT_SO;
    }
    struct kcmp_epoll_slot slot = {.efd = (uint32_t)fd, .tfd = (uint32_t)ring->ready_fd};
    long came = syscall(
        SYS_kcmp, this_thread(), look->thread, KCMP_EPOLL_TFD, ring->ready_fd, &slot);
    if (came < 0 && (errno == ENOSYS || errno == EPERM || errno == EACCES))
        return WULGACH_IS_NOT_KNOWN;
    return came == 0 ? WULGACH_IS_SO : WULGACH_IS_NOT_SO;
}

/* Whether a thread has another table, and in it a descriptor of the ring. One that has ended has
 * none. */
static enum wulgach_knowledge has_descriptor(struct look *look, int thread)
{
    if (shares_table(thread, look->own))
        return WULGACH_IS_NOT_SO;
    struct path path = path_of(thread, -1);
    int folder = open_folder(path.letters);
    if (folder < 0)
        return errno == ENOENT || errno == ESRCH ? WULGACH_IS_NOT_SO : WULGACH_IS_NOT_KNOWN;
    look->thread = thread;
    enum wulgach_knowledge known = look_through(look, is_reached_there, folder);
    close_folder(folder);
    return known;
}

static enum wulgach_knowledge is_any(struct look *look, int fd)
{
    (void)look, (void)fd;
    return WULGACH_IS_SO;
}

/* Whether a thread has any descriptors: one that has ended hasn't. */
static bool has_any(pid_t thread)
{
    struct look look = {0};
    struct path path = path_of(thread, -1);
    int folder = open_folder(path.letters);
    bool has_any = folder >= 0 && look_through(&look, is_any, folder) == WULGACH_IS_SO;
    close_folder(folder);
    return has_any;
}

void note_table(struct ring *ring)
{
    ring->table_of = this_process();
    if (this_thread() == this_process())
        return;
    int own = open_folder("/proc/self/task");
    if (own < 0)
        return;
    if (!shares_table(this_process(), own)) {
        ring->table_of = this_thread();
        ring->is_table_apart = has_any(this_process());
    }
    close_folder(own);
}

bool is_reached_elsewhere(const struct ring *ring)
{
    struct look look = {.ring = ring, .own = open_folder("/proc/self/task")};
    if (look.own < 0)
        return !wulgach_is_gone(WULGACH_IS_NOT_SO, WULGACH_IS_NOT_KNOWN, WULGACH_IS_NOT_KNOWN);
    uint32_t elsewhere = look_through(&look, has_descriptor, look.own);
    bool is_here = wulgach_was_made_here(
        shares_table(ring->table_of, look.own), ring->is_table_apart, look.is_apart);
    close_folder(look.own);
    return !wulgach_is_gone(
        WULGACH_IS_NOT_SO, is_here ? WULGACH_IS_SO : WULGACH_IS_NOT_SO, elsewhere);
}
