/* Memory that is shared with a file. Nobody sees when it is written: the file is compared with a
 * copy, page by page, where it is mapped, where a call syncs any file, as that begins and as it
 * ends, and where the process ends. What has changed since goes into the log. Its bytes are read by
 * a descriptor of our own, which stays open: whether the memory is still mapped doesn't matter, and
 * to close it would take the program's locks away.
 */
#define _GNU_SOURCE
#include "files.h"
#include "../layer/traces/logging.h"
#include "../layer/process/passing.h"
#include "run.h"

#include <errno.h>
#include <fcntl.h>
#include <pthread.h>
#include <stdatomic.h>
#include <stdio.h>
#include <string.h>
#include <sys/mman.h>
#include <sys/stat.h>
#include <sys/syscall.h>
#include <unistd.h>

enum { MOST_FILES = 64, PAGE = 4096 };

/* A file that is read by a descriptor of our own; if it has been mapped, its copy has room for so
 * many bytes. */
struct mapped {
    bool is_used;
    uint64_t file;
    int fd;
    char *copy;
    size_t room;
};

static struct mapped files[MOST_FILES];

/* Whether a thread looks at them: where it can be, on a page that the kernel empties in a child,
 * since one that was forked by a system call of the program's own has none that would give it back.
 */
static atomic_flag ordinary = ATOMIC_FLAG_INIT, *is_looked_at = &ordinary;

/* (a handler that came meanwhile would wait for itself) */
static void lock(sigset_t *before)
{
    set_mask(~OPEN_IN_TRAP, before);
    while (atomic_flag_test_and_set(is_looked_at))
        pass(SYS_sched_yield, 0, 0, 0, 0, 0, 0);
}

static void unlock(const sigset_t *before)
{
    atomic_flag_clear(is_looked_at);
    put_mask_back(before);
}

/* A fork holds it, so that a child can take it. */
static sigset_t mask_of_fork;

static void lock_for_fork(void)
{
    sigset_t before;
    lock(&before);
    mask_of_fork = before;
}

static void unlock_after_fork(void)
{
    const sigset_t before = mask_of_fork;
    unlock(&before);
}

static void __attribute__((constructor)) hold_in_forks(void)
{
    if (!is_logging())
        return;
    void *page = mmap(NULL, PAGE, PROT_READ | PROT_WRITE, MAP_PRIVATE | MAP_ANONYMOUS, -1, 0);
    if (page != MAP_FAILED && madvise(page, PAGE, MADV_WIPEONFORK) == 0)
        is_looked_at = page;
    pthread_atfork(lock_for_fork, unlock_after_fork, unlock_after_fork);
}

static bool is_address(long result)
{
    return !(result < 0 && result > -4096);
}

/* What has changed of a page. */
static void log_page(struct mapped *mapped, size_t at, const char *now, size_t length)
{
    char *before = mapped->copy + at, path[PATH_ROOM];
    struct wulgach_file_part part;
    if (memcmp(now, before, length) == 0 || !wulgach_seen_changed_part((const uint8_t *)before,
                                                length, (const uint8_t *)now, length, &part))
        return;
    memcpy(before, now, length);
    struct event event = {.kind = EVENT_MAPPED,
        .file = mapped->file,
        .offset = (int64_t)(at + part.offset),
        .length = part.length};
    struct iovec bytes = {before + part.offset, part.length};
    log_event(&event, path_of(mapped->fd, path) ? path : NULL, NULL, &bytes, 1);
}

/* The next page from here on that the file has: holes are passed over, so that one which is mostly
 * empty costs little. */
static size_t next_page(const struct mapped *mapped, size_t at)
{
    return wulgach_seen_next_mapped_page(
        pass(SYS_lseek, mapped->fd, (long)at, SEEK_DATA, 0, 0, 0), at, mapped->room);
}

/* Whether its descriptor still reads it: the program may have closed the number, or taken it for a
 * file of its own. */
static bool reads(const struct mapped *mapped)
{
    struct stat about;
    return pass(SYS_fstat, mapped->fd, (long)&about, 0, 0, 0, 0) == 0 &&
           about.st_ino == mapped->file;
}

static void compare(struct mapped *mapped)
{
    char page[PAGE];
    if (!reads(mapped))
        return;
    for (size_t at = next_page(mapped, 0); at < mapped->room; at = next_page(mapped, at + PAGE)) {
        long length = pass(SYS_pread64, mapped->fd, (long)page, PAGE, (long)at, 0, 0);
        if (length <= 0)
            return;
        log_page(mapped, at, page, (size_t)length);
    }
}

/* All: what was written before a sync of another file is told from what is written after it. */
static void compare_all(void)
{
    for (struct mapped *mapped = files; mapped < files + MOST_FILES && mapped->is_used; mapped++)
        compare(mapped);
}

void compare_maps(void)
{
    sigset_t before;
    lock(&before);
    compare_all();
    unlock(&before);
}

static void read_copy(struct mapped *mapped, size_t from)
{
    for (size_t at = next_page(mapped, from); at < mapped->room; at = next_page(mapped, at + PAGE))
        pass(SYS_pread64, mapped->fd, (long)(mapped->copy + at), PAGE, (long)at, 0, 0);
}

/* Room for a file's first bytes; false if there is none. */
static bool make_room(struct mapped *mapped, uint64_t bytes)
{
    uint64_t room;
    if (!wulgach_seen_whole_pages(bytes, &room))
        return false;
    if (room <= mapped->room)
        return true;
    long copy = mapped->copy ? pass(SYS_mremap, (long)mapped->copy, (long)mapped->room, (long)room,
                                   MREMAP_MAYMOVE, 0, 0)
                             : pass(SYS_mmap, 0, (long)room, PROT_READ | PROT_WRITE,
                                   MAP_PRIVATE | MAP_ANONYMOUS | MAP_NORESERVE, -1, 0);
    if (!is_address(copy))
        return false;
    size_t before = mapped->room;
    mapped->copy = (char *)copy;
    mapped->room = room;
    read_copy(mapped, before);
    return true;
}

/* Whether anybody has a lock on a file, as another descriptor's would meet it (fcntl(2)); or it
 * isn't known. */
static bool may_be_locked(long fd)
{
    struct flock lock = {.l_type = F_WRLCK, .l_whence = SEEK_SET};
    return pass(SYS_fcntl, fd, F_OFD_GETLK, (long)&lock, 0, 0, 0) < 0 || lock.l_type != F_UNLCK;
}

/* Under a high number; the one that it is opened by stays too, where to close it could take locks
 * away. */
static int open_again(int fd)
{
    char name[40];
    snprintf(name, sizeof name, "/proc/thread-self/fd/%d", fd);
    long low = pass(SYS_open, (long)name, O_RDONLY | O_CLOEXEC, 0, 0, 0, 0);
    int high = low < 0 ? -1 : copy_high((int)low);
    if (high < 0)
        return (int)low;
    if (!wulgach_seen_stays_open(may_be_locked(high), 0))
        pass(SYS_close, low, 0, 0, 0, 0, 0);
    return high;
}

static struct mapped *find_mapped(uint64_t file)
{
    struct mapped *mapped = files;
    while (mapped < files + MOST_FILES && mapped->is_used && mapped->file != file)
        mapped++;
    return mapped == files + MOST_FILES ? NULL : mapped;
}

static struct mapped *mapped_of(uint64_t file, int fd)
{
    struct mapped *mapped = find_mapped(file);
    if (mapped && !mapped->is_used)
        *mapped = (struct mapped){.is_used = true, .file = file, .fd = -1};
    if (mapped && !reads(mapped))
        mapped->fd = open_again(fd);
    return mapped && mapped->fd >= 0 ? mapped : NULL;
}

int reader_of(uint64_t file, int fd)
{
    sigset_t before;
    lock(&before);
    const struct mapped *mapped = mapped_of(file, fd);
    unlock(&before);
    return mapped ? mapped->fd : -1;
}

/* From here on what is written through it is seen: no bytes are told of yet. */
static void log_map(uint64_t file, const char *path)
{
    struct event event = {.kind = EVENT_MAPPED, .file = file};
    log_event(&event, path, NULL, NULL, 0);
}

static void add_map(int fd, uint64_t length, uint64_t offset)
{
    char path[PATH_ROOM];
    uint64_t file;
    sigset_t before;
    if (!is_on_disk(fd, path, &file))
        return;
    lock(&before);
    struct mapped *mapped = mapped_of(file, fd);
    if (mapped)
        compare(mapped);
    if (mapped && make_room(mapped, offset + length))
        log_map(file, path);
    else
        say("memory that is shared with this file isn't looked at", path);
    unlock(&before);
}

/* ---- msync ---- */

/* A line has its numbers, and a path (proc_pid_maps(5)). */
enum { LINE_ROOM = 128 + PATH_ROOM };

/* What the kernel lists of the process's memory, from the first to the last, in a line each; and
 * the line that was read last, as much of it as there is room for, without its end. */
struct list {
    int fd;
    size_t at, length, line_length;
    char room[PAGE], line[LINE_ROOM];
};

static int next_letter(struct list *list)
{
    if (list->at == list->length) {
        long length = pass(SYS_read, list->fd, (long)list->room, sizeof list->room, 0, 0, 0);
        list->length = length > 0 ? (size_t)length : 0;
        list->at = 0;
    }
    return list->at < list->length ? (unsigned char)list->room[list->at++] : -1;
}

/* Reads the next line. False: there is none. */
static bool next_line(struct list *list)
{
    int letter = next_letter(list);
    bool is_there = letter >= 0;
    list->line_length = 0;
    for (; letter >= 0 && letter != '\n'; letter = next_letter(list))
        if (list->line_length + 1 < LINE_ROOM)
            list->line[list->line_length++] = (char)letter;
    list->line[list->line_length] = '\0';
    return is_there;
}

static void sync_part(uint64_t file, const char *path, const struct wulgach_file_part *part)
{
    struct event event = {.kind = EVENT_SYNC,
        .flags = IS_OF_RANGE | IS_OF_DATA,
        .file = file,
        .offset = (int64_t)part->offset,
        .length = part->length};
    compare_all();
    log_event(&event, path, NULL, NULL, 0);
    compare_all();
    end_operation(0);
}

/* Syncs what a line says to be mapped of this memory. */
static void sync_line(const struct list *list, uint64_t begin, uint64_t length)
{
    struct wulgach_mapped is;
    struct wulgach_file_part part;
    if (!wulgach_seen_mapped_of((const uint8_t *)list->line, list->line_length, &is))
        return;
    const char *path = list->line + is.path;
    struct wulgach_mapped_memory memory = {.is_shared = is.is_shared,
        .is_on_disk = is_path_on_disk(path),
        .file = is.inode,
        .begin = is.start,
        .end = is.end,
        .offset = is.offset};
    if (wulgach_seen_synced_part(&memory, begin, length, &part))
        sync_part(is.inode, path, &part);
}

/* Which files the memory is of is asked as it is synced: what was mapped there before may be gone.
 */
static void sync_memory(uint64_t begin, uint64_t length)
{
    static struct list list;
    sigset_t before;
    lock(&before);
    list.fd = (int)pass(SYS_open, (long)"/proc/thread-self/maps", O_RDONLY | O_CLOEXEC, 0, 0, 0, 0);
    list.at = list.length = 0;
    while (list.fd >= 0 && next_line(&list))
        sync_line(&list, begin, length);
    pass(SYS_close, list.fd, 0, 0, 0, 0, 0);
    unlock(&before);
}

/* An msync that waits is a sync of its pages, which isn't waited for: the kernel says whether it
 * can be. */
long call_msync(const struct file_call *call)
{
    const struct wulgach_call_words *is = &call->is;
    uint32_t flags = is->flags;
    bool is_waited = wulgach_seen_unwaited(flags, &flags);
    long result = pass(SYS_msync, (long)is->address, (long)is->length, flags, 0, 0, 0);
    if (is_waited && wulgach_seen_has_synced_memory(result))
        sync_memory(is->address, is->length);
    return result;
}

long call_map(const struct file_call *call)
{
    const long *words = call->words;
    const struct wulgach_call_words *is = &call->is;
    long memory = pass_mmap(words[0], words[1], words[2], words[3], words[4], words[5]);
    if (wulgach_seen_looks_at_map(is->protection, is->flags, memory))
        add_map(is->fd, is->length, is->offset);
    return memory;
}
