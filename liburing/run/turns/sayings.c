/* Numbers of files are given as they are met, and dates after the run's begin are that. Of /proc
 * the files that count what the machine does are answered here. */
#define _GNU_SOURCE
#include "sayings.h"
#include "chance.h"
#include "descriptors.h"

#include <dirent.h>
#include <fcntl.h>
#include <stdio.h>
#include <stdlib.h>
#include <string.h>
#include <sys/stat.h>
#include <unistd.h>

enum { ROOM = 8192, FIRST_NUMBER = 1001 };

/* (a table that is full has one row for all others) */
static struct file *row_of_file(uint64_t device, uint64_t file)
{
    static struct file other = {.number = FIRST_NUMBER - 1};
    struct file *files = world->files.rows;
    uint64_t hash = (device * 0x9e3779b97f4a7c15u ^ file * 0xbf58476d1ce4e5b9u) >> 13;
    for (size_t i = 0; i < MOST_FILES; i++) {
        size_t at = (hash + i) % MOST_FILES;
        if (files[at].number == 0) {
            files[at].device = device;
            files[at].file = file;
            files[at].number = FIRST_NUMBER + world->files.met++;
        }
        if (files[at].device == device && files[at].file == file)
            return files + at;
    }
    return &other;
}

uint64_t number_of_file(uint64_t device, uint64_t file)
{
    return row_of_file(device, file)->number;
}

void note_inside(int fd)
{
    struct stat about;
    if (kernel(SYS_fstat, fd, &about) == 0)
        row_of_file(about.st_dev, about.st_ino)->is_inside = true;
}

bool is_noted_inside(const struct stat *about)
{
    return row_of_file(about->st_dev, about->st_ino)->is_inside;
}

static void calm_date(int64_t *seconds)
{
    if (*seconds >= world->began)
        *seconds = (int64_t)(FIRST_DATE / SECOND);
}

static long calm_stat(long result, struct stat *about)
{
    if (result < 0)
        return result;
    about->st_ino = number_of_file(about->st_dev, about->st_ino);
    struct timespec *dates[3] = {&about->st_atim, &about->st_mtim, &about->st_ctim};
    for (int i = 0; i < 3; i++) {
        bool is_new = dates[i]->tv_sec >= world->began;
        calm_date(&dates[i]->tv_sec);
        dates[i]->tv_nsec = is_new ? 0 : dates[i]->tv_nsec;
    }
    return 0;
}

long serve_stat(struct trap *trap)
{
    return calm_stat(pass_on(trap), (struct stat *)trap->words[1]);
}

long serve_fstatat(struct trap *trap)
{
    return calm_stat(pass_on(trap), (struct stat *)trap->words[2]);
}

long serve_statx(struct trap *trap)
{
    struct statx *about = (struct statx *)trap->words[4];
    long result = pass_on(trap);
    if (result < 0)
        return result;
    about->stx_ino = number_of_file(
        (uint64_t)about->stx_dev_major << 32 | about->stx_dev_minor, about->stx_ino);
    struct statx_timestamp *dates[4] = {
        &about->stx_atime, &about->stx_btime, &about->stx_ctime, &about->stx_mtime};
    for (int i = 0; i < 4; i++)
        if (dates[i]->tv_sec >= world->began)
            *dates[i] = (struct statx_timestamp){.tv_sec = (int64_t)(FIRST_DATE / SECOND)};
    return result;
}

/* Entries of a folder: their numbers are all one. */
long serve_entries(struct trap *trap)
{
    long result = pass_on(trap);
    for (long at = 0; result > 0 && at < result;) {
        struct dirent64 *entry = (struct dirent64 *)(trap->words[1] + at);
        entry->d_ino = FIRST_NUMBER - 1;
        at += entry->d_reclen;
    }
    return result;
}

static long file_with(const char *text, long size)
{
    long fd = kernel(SYS_memfd_create, "said", 0);
    if (fd < 0)
        return fd;
    kernel(SYS_write, fd, text, size);
    kernel(SYS_lseek, fd, 0, SEEK_SET);
    set_kind(fd, ON_DISK);
    return fd;
}

static long read_whole(const char *path, char *room, size_t size)
{
    long fd = kernel(SYS_openat, AT_FDCWD, path, O_RDONLY), length = 0, part;
    if (fd < 0)
        return fd;
    while (length < (long)size - 1 &&
           (part = kernel(SYS_read, fd, room + length, (long)size - 1 - length)) > 0)
        length += part;
    kernel(SYS_close, fd);
    room[length] = '\0';
    return length;
}

/* Lines that begin so are counts. */
static bool is_count(const char *line, bool is_of_memory)
{
    static const char *const counts[] = {
        "Vm", "Rss", "Hugetlb", "SigQ", "voluntary", "nonvoluntary", "Cpus_", "Mems_", "x86_"};
    if (is_of_memory && strncmp(line, "hierarchical", 12) != 0)
        return true;
    for (size_t i = 0; i < sizeof counts / sizeof *counts; i++)
        if (strncmp(line, counts[i], strlen(counts[i])) == 0)
            return true;
    return false;
}

static long lines_without_counts(const char *path, bool is_of_memory)
{
    static char text[ROOM], left[ROOM];
    long length = read_whole(path, text, sizeof text), kept = 0;
    if (length < 0)
        return length;
    for (char *line = text, *next; *line; line = next) {
        size_t size = strcspn(line, "\n");
        next = line + size + (line[size] != '\0');
        if (!is_count(line, is_of_memory)) {
            memcpy(left + kept, line, (size_t)(next - line));
            kept += next - line;
        }
    }
    return file_with(left, kept);
}

/* /proc/PID/stat: what it is and who made it, how many threads, and else numbers that are the same
 * in each run. */
static long stat_of_process(const char *path)
{
    enum {
        FIRST_COUNT = 10,
        THREADS = 20,
        MEMORY = 23,
        RESIDENT = 24,
        BYTES = 100000000,
        PAGES = 10000
    };
    static char text[ROOM], said[ROOM];
    long length = read_whole(path, text, sizeof text);
    char *at = length > 0 ? strrchr(text, ')') : NULL;
    if (!at)
        return length < 0 ? length : file_with(text, length);
    long put = at + 1 - text;
    memcpy(said, text, (size_t)put);
    at++;
    for (int field = 3; *at == ' '; field++) {
        size_t size = 1 + strcspn(at + 1, " \n");
        int number = field == MEMORY ? BYTES : field == RESIDENT ? PAGES : 0;
        if (field < FIRST_COUNT || field == THREADS)
            put += snprintf(said + put, sizeof said - (size_t)put, "%.*s", (int)size, at);
        else
            put += snprintf(said + put, sizeof said - (size_t)put, " %d", number);
        at += size;
    }
    said[put++] = '\n';
    return file_with(said, put);
}

/* /proc/stat: which processors there are, and nothing that they have done. */
static long processors_at_rest(const char *path)
{
    static char text[ROOM], said[ROOM];
    long length = read_whole(path, text, sizeof text), put = 0;
    if (length < 0)
        return length;
    for (char *line = text; strncmp(line, "cpu", 3) == 0; line += strcspn(line, "\n") + 1)
        put += snprintf(said + put, sizeof said - (size_t)put, "%.*s 0 0 0 0 0 0 0 0 0 0\n",
            (int)strcspn(line, " "), line);
    put += snprintf(said + put, sizeof said - (size_t)put,
        "intr 0\nctxt 0\nbtime %lu\nprocesses 1\nprocs_running 1\nprocs_blocked 0\n",
        FIRST_DATE / SECOND - 1000);
    return file_with(said, put);
}

/* The number of a mount, as it is met: a namespace has numbers of its own. */
static int number_of_mount(long mount, long *mounts, int *count)
{
    enum { MOST_MOUNTS = 1024 };
    int at = 0;
    while (at < *count && mounts[at] != mount)
        at++;
    if (at == *count && at < MOST_MOUNTS)
        mounts[(*count)++] = mount;
    return at + 1;
}

static long mounts_numbered_anew(const char *path)
{
    static char text[1 << 16], said[1 << 16];
    static long mounts[1024];
    int count = 0;
    long length = read_whole(path, text, sizeof text), put = 0;
    if (length < 0)
        return length;
    for (char *line = text, *end; *line && put < (long)sizeof said - 1; line = end) {
        int own = number_of_mount(strtol(line, &end, 10), mounts, &count),
            above = number_of_mount(strtol(end, &end, 10), mounts, &count);
        size_t rest = strcspn(end, "\n") + 1;
        put += snprintf(
            said + put, sizeof said - (size_t)put, "%d %d%.*s", own, above, (int)rest, end);
        end += end[rest - 1] == '\n' ? rest : rest - 1;
    }
    return file_with(said, put < (long)sizeof said ? put : (long)sizeof said - 1);
}

static long uuid_by_chance(void)
{
    char line[64];
    uint64_t by[2];
    fill_by_chance(by, sizeof by);
    int length = snprintf(line, sizeof line, "%08x-%04x-4%03x-a%03x-%012lx\n", (unsigned)by[0],
        (unsigned)(by[0] >> 48), (unsigned)(by[0] >> 32 & 0xfff), (unsigned)(by[1] >> 48 & 0xfff),
        by[1] & 0xfffffffffffful);
    return file_with(line, length);
}

static const struct {
    const char *path, *text;
} said[] = {
    {"/proc/loadavg", "0.10 0.10 0.10 1/100 100\n"},
    {"/proc/uptime", "1000.00 1000.00\n"},
    {"/proc/meminfo",
        "MemTotal:       16000000 kB\nMemFree:         8000000 kB\nMemAvailable:   12000000 kB\nSwapTotal:             0 kB\nSwapFree:              0 kB\n"},
};

static bool ends_with(const char *path, const char *end)
{
    size_t length = strlen(path), of_end = strlen(end);
    return length >= of_end && strcmp(path + length - of_end, end) == 0;
}

static bool is_below(const char *path, const char *folder)
{
    return strncmp(path, folder, strlen(folder)) == 0;
}

long open_saying(const char *path)
{
    for (size_t i = 0; i < sizeof said / sizeof *said; i++)
        if (strcmp(path, said[i].path) == 0)
            return file_with(said[i].text, (long)strlen(said[i].text));
    if (strcmp(path, "/proc/sys/kernel/random/uuid") == 0)
        return uuid_by_chance();
    if (is_below(path, "/sys/fs/cgroup/") && ends_with(path, "/memory.stat"))
        return lines_without_counts(path, true);
    if (!is_below(path, "/proc/"))
        return NO_SAYING;
    if (ends_with(path, "/status"))
        return lines_without_counts(path, false);
    if (strcmp(path, "/proc/stat") == 0)
        return processors_at_rest(path);
    if (ends_with(path, "/stat"))
        return stat_of_process(path);
    if (ends_with(path, "/mountinfo"))
        return mounts_numbered_anew(path);
    if (ends_with(path, "/statm"))
        return file_with("20000 10000 5000 100 0 5000 0\n", 30);
    return NO_SAYING;
}
