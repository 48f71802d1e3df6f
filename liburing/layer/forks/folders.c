/* Emptying and copying a folder. */
#define _GNU_SOURCE
#include "forks/folders.h"

#include <dirent.h>
#include <errno.h>
#include <fcntl.h>
#include <ftw.h>
#include <stdio.h>
#include <string.h>
#include <sys/stat.h>
#include <unistd.h>

static int remove_below(const char *path, const struct stat *about, int kind, struct FTW *at)
{
    (void)about;
    (void)kind;
    return at->level > 0 ? remove(path) : 0;
}

bool empty_folder(const char *path)
{
    return nftw(path, remove_below, 16, FTW_DEPTH | FTW_PHYS) == 0;
}

static bool copy_link(const char *from, const char *to)
{
    char target[4096];
    ssize_t length = readlink(from, target, sizeof target - 1);
    if (length < 0)
        return false;
    target[length] = '\0';
    return symlink(target, to) == 0;
}

static bool copy_bytes(int from, int to)
{
    char bytes[65536];
    ssize_t length;
    while ((length = read(from, bytes, sizeof bytes)) > 0)
        if (write(to, bytes, (size_t)length) != length)
            return false;
    return length == 0;
}

/* Its mode, whatever the process takes from modes, and its times. */
static bool copy_rest(const struct stat *about, const char *to)
{
    struct timespec times[2] = {about->st_atim, about->st_mtim};
    return chmod(to, about->st_mode & 07777) == 0 && utimensat(AT_FDCWD, to, times, 0) == 0;
}

static bool copy_file(const char *from, const char *to)
{
    int source = open(from, O_RDONLY | O_CLOEXEC),
        target = open(to, O_WRONLY | O_CREAT | O_EXCL | O_CLOEXEC, 0600);
    bool is_copied = source >= 0 && target >= 0 && copy_bytes(source, target);
    if (source >= 0)
        close(source);
    if (target >= 0)
        close(target);
    return is_copied;
}

static bool copy_any(const char *from, const char *to)
{
    struct stat about;
    if (lstat(from, &about) < 0)
        return false;
    if (S_ISLNK(about.st_mode))
        return copy_link(from, to);
    if (S_ISDIR(about.st_mode))
        return mkdir(to, 0700) == 0 && copy_folder(from, to) && copy_rest(&about, to);
    return S_ISREG(about.st_mode) && about.st_nlink == 1 && copy_file(from, to) &&
           copy_rest(&about, to);
}

bool copy_folder(const char *from, const char *to)
{
    DIR *folder = opendir(from);
    bool is_copied = folder != NULL;
    char one[4096], other[4096];
    for (struct dirent *entry; is_copied && (entry = readdir(folder));) {
        if (strcmp(entry->d_name, ".") == 0 || strcmp(entry->d_name, "..") == 0)
            continue;
        bool fits = snprintf(one, sizeof one, "%s/%s", from, entry->d_name) < (int)sizeof one &&
                    snprintf(other, sizeof other, "%s/%s", to, entry->d_name) < (int)sizeof other;
        is_copied = fits && copy_any(one, other);
    }
    if (folder)
        closedir(folder);
    return is_copied;
}
