/* Appends events to the log, by calls that nothing traps and that take no memory: a signal's
 * handler calls them too. */
#define _GNU_SOURCE
#include "traces/log.h"
#include "process/numbers.h"
#include "process/passing.h"
#include "traces/logging.h"

#include <errno.h>
#include <fcntl.h>
#include <limits.h>
#include <pthread.h>
#include <stdio.h>
#include <stdlib.h>
#include <string.h>
#include <sys/resource.h>
#include <sys/stat.h>
#include <sys/syscall.h>
#include <unistd.h>

/* How many places are asked for at once; how many parts of an event stand in front of its bytes. */
enum { MOST_ASKED = 64, IN_FRONT = 3 };

static struct {
    char path[PATH_ROOM], disk[PATH_ROOM], output[PATH_ROOM];
    size_t disk_length;
    bool is_on;
    _Atomic int fd;
    _Atomic dev_t
        device; /* the file's own, by which it is known that the number is still the log's */
    _Atomic ino_t inode;
} log_of = {.fd = -1};

static void copy_variable(char room[PATH_ROOM], const char *name)
{
    const char *value = getenv(name);
    snprintf(room, PATH_ROOM, "%s", value ? value : "");
}

static void read_environment(void)
{
    copy_variable(log_of.path, "WULGACH_LOG");
    copy_variable(log_of.disk, "WULGACH_DISK");
    copy_variable(log_of.output, "WULGACH_OUTPUT");
    log_of.disk_length = strlen(log_of.disk);
    log_of.is_on = log_of.path[0] && log_of.disk[0];
}

bool is_logging(void)
{
    static pthread_once_t once = PTHREAD_ONCE_INIT;
    pthread_once(&once, read_environment);
    return log_of.is_on;
}

int copy_high(int fd)
{
    struct rlimit limit = {.rlim_cur = RLIM_INFINITY};
    pass(SYS_prlimit64, 0, RLIMIT_NOFILE, 0, (long)&limit, 0, 0);
    return (int)pass(SYS_fcntl, fd, F_DUPFD_CLOEXEC, lowest_of_own(limit.rlim_cur), 0, 0, 0);
}

/* A descriptor that a program which closes low ones doesn't close. */
static int open_log(struct stat *about)
{
    long low = pass(SYS_openat, AT_FDCWD, (long)log_of.path,
        O_WRONLY | O_APPEND | O_CREAT | O_CLOEXEC, 0600, 0, 0);
    if (low < 0 || pass(SYS_fstat, low, (long)about, 0, 0, 0, 0) < 0)
        return -1;
    log_of.device = about->st_dev;
    log_of.inode = about->st_ino;
    int high = copy_high((int)low);
    if (high < 0)
        return (int)low;
    pass(SYS_close, low, 0, 0, 0, 0, 0);
    return high;
}

/* Whether the number is still the log's: the program may have closed it, or taken it for a file of
 * its own. */
static bool is_log(int fd, struct stat *about)
{
    return fd >= 0 && pass(SYS_fstat, fd, (long)about, 0, 0, 0, 0) == 0 &&
           about->st_ino == log_of.inode && about->st_dev == log_of.device;
}

/* The log ends with what stands there, and says so by its mode: a process that can still write
 * would write after a part of an event. */
static void end_log(int fd)
{
    static const char said[] =
        "wulgach: the log of what happens to files can't be written: it ends here\n";
    pass(SYS_fchmod, fd, S_IRUSR, 0, 0, 0, 0);
    pass(SYS_write, STDERR_FILENO, (long)said, sizeof said - 1, 0, 0, 0);
}

static void append(const struct iovec *parts, size_t count, size_t length)
{
    struct stat about;
    int fd = log_of.fd;
    if (!is_log(fd, &about))
        fd = log_of.fd = open_log(&about);
    if (fd >= 0 && wulgach_seen_takes_events(about.st_mode) &&
        !wulgach_seen_log_goes_on(wulgach_append(fd, parts, count), length))
        end_log(fd);
}

/* Asks for a byte at each of the next places, MOST_ASKED at most, from the question of this number
 * on. Returns at how many one could be read, and writes at how many it was asked. Where nobody may
 * ask it can be. */
static size_t ask_places(pid_t thread, const struct iovec *bytes, uint64_t number, size_t *count)
{
    struct iovec places[MOST_ASKED];
    char letters[MOST_ASKED];
    uint64_t at;
    for (*count = 0; *count < MOST_ASKED && wulgach_seen_asked_at((uintptr_t)bytes->iov_base,
                                                bytes->iov_len, number + *count, &at);
         ++*count)
        places[*count] = (struct iovec){(void *)(uintptr_t)at, 1};
    const struct iovec here = {letters, *count};
    ssize_t read = process_vm_readv(thread, &here, 1, places, *count, 0);
    if (read < 0 && (errno == ENOSYS || errno == EPERM))
        return *count;
    return read > 0 ? (size_t)read : 0;
}

/* How many bytes of a run can be read, from its first on. */
static size_t readable(pid_t thread, const struct iovec *bytes)
{
    uint64_t all = 0;
    size_t asked, read;
    int kept = errno;
    do {
        read = ask_places(thread, bytes, all, &asked);
        all += read;
    } while (asked == MOST_ASKED && read == asked);
    errno = kept;
    return wulgach_seen_readable_bytes((uintptr_t)bytes->iov_base, bytes->iov_len, all);
}

/* Puts into `parts` what can be read of runs of bytes, from the first on, as the kernel would write
 * of them: as much as one call moves beside what stands in front. (an address that no program has
 * is refused even of no bytes) */
static void take_readable(
    pid_t thread, const struct iovec *bytes, size_t count, size_t front, struct iovec *parts)
{
    bool is_whole = true;
    for (size_t i = 0; i < count; i++) {
        const struct iovec run = {
            bytes[i].iov_base, wulgach_seen_logged_of_vector(front, bytes[i].iov_len, is_whole)};
        const size_t length = readable(thread, &run);
        parts[i] = (struct iovec){length > 0 ? run.iov_base : NULL, length};
        front += length;
        is_whole = is_whole && parts[i].iov_len == bytes[i].iov_len;
    }
}

static size_t length_of(const struct iovec *parts, size_t count)
{
    size_t length = 0;
    for (size_t i = 0; i < count; i++)
        length += parts[i].iov_len;
    return length;
}

/* Copies runs of bytes one after the other, and returns how many these are. Where nobody may ask
 * for them they can be read. */
static size_t copy_runs(
    pid_t thread, const struct iovec *to, const struct iovec *runs, size_t count)
{
    int kept = errno;
    ssize_t copied = process_vm_readv(thread, to, 1, runs, count, 0);
    errno = kept;
    if (copied >= 0)
        return (size_t)copied;
    char *at = to->iov_base;
    for (size_t i = 0; i < count; at += runs[i++].iov_len)
        memcpy(at, runs[i].iov_base, runs[i].iov_len);
    return to->iov_len;
}

/* Of more runs than may be parts of an event by themselves, so many, the others are one, in memory
 * that is asked for. Returns that memory. Without it they aren't logged, and the comparison at the
 * run's end tells of it. */
static struct iovec join_last(pid_t thread, struct iovec *runs, size_t count, size_t alone)
{
    struct iovec *last = runs + alone;
    struct iovec room = {.iov_len = length_of(last, count - alone)};
    long at = pass_mmap(
        0, (long)room.iov_len, PROT_READ | PROT_WRITE, MAP_PRIVATE | MAP_ANONYMOUS, -1, 0);
    if (at < 0)
        room.iov_len = 0;
    else
        room.iov_base = (void *)at;
    *last = (struct iovec){
        room.iov_base, at < 0 ? 0 : copy_runs(thread, &room, last, count - alone)};
    return room;
}

/* (an event of which less could be written than it says would hide all that stand after it) */
void log_event(struct event *event, const char *path, const char *second_path,
    const struct iovec *bytes, size_t count)
{
    struct iovec parts[IN_FRONT + count], joined = {0};
    const size_t alone = wulgach_seen_parts_alone(count);
    event->process = (uint32_t)pass(SYS_getpid, 0, 0, 0, 0, 0, 0);
    event->thread = (uint32_t)pass(SYS_gettid, 0, 0, 0, 0, 0, 0);
    event->path = path ? (uint16_t)strlen(path) : 0;
    event->second_path = second_path ? (uint16_t)strlen(second_path) : 0;
    take_readable((pid_t)event->thread, bytes, count,
        wulgach_seen_event_size(event->path, event->second_path, 0), parts + IN_FRONT);
    if (count > alone) {
        joined = join_last((pid_t)event->thread, parts + IN_FRONT, count, alone);
        count = alone + 1;
    }
    event->bytes = (uint32_t)length_of(parts + IN_FRONT, count);
    event->size = (uint32_t)wulgach_seen_event_size(event->path, event->second_path, event->bytes);
    parts[0] = (struct iovec){event, sizeof *event};
    parts[1] = (struct iovec){(void *)(uintptr_t)path, event->path};
    parts[2] = (struct iovec){(void *)(uintptr_t)second_path, event->second_path};
    append(parts, IN_FRONT + count, event->size);
    if (joined.iov_base)
        pass(SYS_munmap, (long)joined.iov_base, (long)joined.iov_len, 0, 0, 0, 0);
}

bool path_of(int fd, char path[PATH_ROOM])
{
    char name[40];
    snprintf(name, sizeof name, "/proc/thread-self/fd/%d", fd);
    long length = pass(SYS_readlink, (long)name, (long)path, PATH_ROOM - 1, 0, 0, 0);
    if (length < 0)
        return false;
    path[length] = '\0';
    return true;
}

bool is_path_on_disk(const char *path)
{
    bool begins_with_disk = strncmp(path, log_of.disk, log_of.disk_length) == 0;
    return wulgach_is_path_below(
        begins_with_disk, begins_with_disk ? path[log_of.disk_length] : '\0');
}

bool is_output(const char *path)
{
    return log_of.output[0] && strcmp(path, log_of.output) == 0;
}

bool is_on_disk(int fd, char path[PATH_ROOM], uint64_t *file)
{
    struct stat about;
    if (!path_of(fd, path) || !is_path_on_disk(path) ||
        pass(SYS_fstat, fd, (long)&about, 0, 0, 0, 0) < 0)
        return false;
    *file = about.st_ino;
    return wulgach_is_logged_mode(about.st_mode);
}
