/* Looks at what a fork shares with its parent, and at what it has none of: threads, children,
 * signals that wait, timers, memory, descriptors. */
#define _GNU_SOURCE
#include "forks/alone.h"
#include "forks/server.h"
#include "operations/openness.h"
#include "process/fault.h"
#include "rings/waiters.h"

#include <dirent.h>
#include <fcntl.h>
#include <signal.h>
#include <stdio.h>
#include <stdlib.h>
#include <string.h>
#include <sys/stat.h>
#include <sys/time.h>
#include <sys/wait.h>
#include <unistd.h>

/* Files and folders that a run opens again, each where its parent's stands. Descriptors that share
 * one open file share it in the run too. */
struct opened {
    int descriptor, flags, shared; /* `shared`: an earlier one that has the same open file, or -1 */
    bool is_closed_on_exec;
    dev_t device;
    ino_t inode;
    off_t at;
    char path[4096];
};

static struct opened *files;
static size_t file_count, file_room;
static char reason[160];

static const char *because(const char *format, int number)
{
    snprintf(reason, sizeof reason, format, number);
    return reason;
}

static bool has_threads_or_none(void)
{
    DIR *folder = opendir("/proc/self/task");
    int count = 0;
    while (folder && readdir(folder))
        count++;
    if (folder)
        closedir(folder);
    return count != 3; /* with . and .. */
}

static bool has_children(void)
{
    siginfo_t info;
    return waitid(P_ALL, 0, &info, WEXITED | WSTOPPED | WNOHANG | WNOWAIT) == 0;
}

static bool has_signals(void)
{
    sigset_t waiting;
    return sigpending(&waiting) < 0 || !sigisemptyset(&waiting);
}

static bool has_timers(void)
{
    static const int kinds[] = {ITIMER_REAL, ITIMER_VIRTUAL, ITIMER_PROF};
    for (size_t i = 0; i < sizeof kinds / sizeof *kinds; i++) {
        struct itimerval timer;
        if (getitimer((__itimer_which_t)kinds[i], &timer) < 0 || timer.it_value.tv_sec ||
            timer.it_value.tv_usec)
            return true;
    }
    FILE *timers = fopen("/proc/self/timers", "re");
    bool is_any = !timers || fgetc(timers) != EOF;
    if (timers)
        fclose(timers);
    return is_any;
}

/* Whether memory is mapped that a fork would share: the page of waiters is parted. */
static bool shares_memory(void)
{
    FILE *maps = fopen("/proc/self/maps", "re");
    char line[4400], access[5];
    void *at;
    bool is_shared = !maps;
    while (maps && !is_shared && fgets(line, sizeof line, maps))
        is_shared = sscanf(line, "%p-%*s %4s", &at, access) != 2 ||
                    (access[1] == 'w' && access[3] == 's' && !is_page_of_waiters(at));
    if (maps)
        fclose(maps);
    return is_shared;
}

static bool lies_in(const char *path, const char *folder)
{
    size_t length = folder ? strlen(folder) : 0;
    return folder && strncmp(path, folder, length) == 0 && path[length] == '/';
}

static struct opened *room_for_one(void)
{
    if (file_count == file_room) {
        struct opened *more = realloc(files, (2 * file_room + 8) * sizeof *files);
        if (!more)
            return NULL;
        files = more;
        file_room = 2 * file_room + 8;
    }
    return &files[file_count];
}

/* Which descriptor that is remembered has the same open file: -1, if none has; -2: the kernel
 * doesn't say. */
static int sharing(const struct opened *file)
{
    for (size_t i = 0; i < file_count; i++) {
        if (files[i].device != file->device || files[i].inode != file->inode)
            continue;
        int same = are_on_one_file(files[i].descriptor, file->descriptor);
        if (same != 0)
            return same < 0 ? -2 : files[i].descriptor;
    }
    return -1;
}

/* Remembers what a run is to open again. A folder that is being read goes on elsewhere in a copy.
 */
static bool remember(int descriptor, const char *path, int flags, const struct stat *about)
{
    struct opened *file = room_for_one();
    if (!file)
        return false;
    *file = (struct opened){.descriptor = descriptor,
        .flags = flags & ~(O_CREAT | O_EXCL | O_TRUNC),
        .device = about->st_dev,
        .inode = about->st_ino};
    file->at = flags & O_PATH ? 0 : lseek(descriptor, 0, SEEK_CUR);
    file->shared = sharing(file);
    file->is_closed_on_exec = fcntl(descriptor, F_GETFD) & FD_CLOEXEC;
    snprintf(file->path, sizeof file->path, "%s", path);
    if (file->at < 0 || file->shared == -2 || (S_ISDIR(about->st_mode) && file->at > 0))
        return false;
    file_count++;
    return true;
}

/* Whether locks or a lease are on an open file, as /proc says: a run has none of its parent's, or
 * waits for them. */
static bool has_locks(int descriptor)
{
    char name[64], line[256];
    snprintf(name, sizeof name, "/proc/self/fdinfo/%d", descriptor);
    FILE *told = fopen(name, "re");
    bool is_any = !told;
    while (told && !is_any && fgets(line, sizeof line, told))
        is_any = strncmp(line, "lock:", 5) == 0;
    if (told)
        fclose(told);
    return is_any;
}

/* Whether this path still leads to the file. */
static bool has_name(const char *path, const struct stat *about)
{
    struct stat there;
    return lstat(path, &there) == 0 && there.st_dev == about->st_dev &&
           there.st_ino == about->st_ino;
}

static const char *look_at_file(
    int descriptor, const char *path, int flags, const struct stat *about, const char *folder)
{
    bool is_written = S_ISREG(about->st_mode) && !(flags & O_PATH) &&
                      (flags & O_ACCMODE) != O_RDONLY;
    if (is_written && !lies_in(path, folder))
        return because(
            folder
                ? "descriptor %d writes to a file outside of the run's folder"
                : "descriptor %d writes to a file, and runs have no folder of their own (--here)",
            descriptor);
    if (!has_name(path, about))
        return because("descriptor %d is a file that has been removed", descriptor);
    if (has_locks(descriptor))
        return because("descriptor %d is a file with a lock", descriptor);
    return remember(descriptor, path, flags, about)
               ? NULL
               : because("descriptor %d can't be opened again", descriptor);
}

static const char *look_at(int descriptor, const char *folder)
{
    char name[64], path[4096];
    struct stat about;
    snprintf(name, sizeof name, "/proc/self/fd/%d", descriptor);
    ssize_t length = readlink(name, path, sizeof path - 1);
    int flags = fcntl(descriptor, F_GETFL);
    if (length < 0 || flags < 0 || fstat(descriptor, &about) < 0)
        return because("descriptor %d can't be looked at", descriptor);
    path[length] = '\0';
    if (S_ISREG(about.st_mode) || S_ISDIR(about.st_mode))
        return look_at_file(descriptor, path, flags, &about, folder);
    return S_ISCHR(about.st_mode) || (flags & O_PATH)
               ? NULL
               : because("descriptor %d is no file", descriptor);
}

/* The streams 0, 1 and 2 are explore's. */
static const char *look_at_descriptors(const char *folder)
{
    const char *found = NULL;
    DIR *open_ones = opendir("/proc/self/fd");
    if (!open_ones)
        return "its descriptors can't be listed";
    for (struct dirent *entry; !found && (entry = readdir(open_ones));) {
        int descriptor = atoi(entry->d_name);
        if (entry->d_name[0] != '.' && descriptor > 2 && descriptor != dirfd(open_ones) &&
            !is_of_server(descriptor))
            found = look_at(descriptor, folder);
    }
    closedir(open_ones);
    return found;
}

const char *why_not_alone(const char *folder, bool is_early)
{
    if (has_threads_or_none())
        return "the process has more than one thread";
    if (has_children())
        return "the process has children";
    if (has_signals())
        return "a signal waits for the process";
    if (is_early)
        return NULL;
    if (has_timers())
        return "the process has set a timer";
    if (shares_memory())
        return "the process has mapped memory that a fork would share";
    return look_at_descriptors(folder);
}

void reopen_files(void)
{
    for (size_t i = 0; i < file_count; i++) {
        const struct opened *file = &files[i];
        int on_exec = file->is_closed_on_exec ? O_CLOEXEC : 0, made = file->shared;
        if (made < 0) {
            made = open(file->path, file->flags | O_CLOEXEC);
            demand(made >= 0 && (file->at == 0 || lseek(made, file->at, SEEK_SET) == file->at),
                "a file can't be opened again for a run");
        }
        demand(
            dup3(made, file->descriptor, on_exec) >= 0, "a file can't be opened again for a run");
        if (file->shared < 0)
            close(made);
    }
}
