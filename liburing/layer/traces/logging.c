/* Which files are logged, where a write begins and whether it is synced: the library says so.
 * Nothing here is trapped, and nothing takes memory: a signal's handler calls it too.
 */
#define _GNU_SOURCE
#include "traces/logging.h"
#include "calls/signals.h"
#include "operations/openness.h"
#include "process/passing.h"
#include "wulgach_form.h"
#include "wulgach_lookout.h"

#include <fcntl.h>
#include <sys/stat.h>
#include <sys/syscall.h>
#include <unistd.h>

bool wulgach_is_logged_mode(mode_t mode)
{
    struct wulgach_synced_kind kind = {.is_regular = S_ISREG(mode), .is_folder = S_ISDIR(mode)};
    return wulgach_is_logged_kind(&kind);
}

bool wulgach_is_path_below(bool begins_with_disk, char after)
{
    return wulgach_is_on_disk(begins_with_disk, (uint8_t)after);
}

uint32_t wulgach_logged_open(uint64_t flags, bool is_there, mode_t mode)
{
    return wulgach_open_logged(flags, is_there, S_ISREG(mode));
}

bool wulgach_is_synced_number(int fd)
{
    struct stat about;
    if (pass(SYS_fstat, fd, (long)&about, 0, 0, 0, 0) < 0)
        return false;
    struct wulgach_openness openness = openness_of(fd);
    struct wulgach_synced_kind kind = {
        .is_regular = S_ISREG(about.st_mode), .is_folder = S_ISDIR(about.st_mode)};
    return wulgach_counts_as_synced(&openness, &kind);
}

#define DEFINE_SEEN(result, name, parameters, arguments) \
    result wulgach_seen_##name parameters \
    { \
        return wulgach_##name arguments; \
    }
LOGGING_CALLS(DEFINE_SEEN)

void wulgach_seen_words_of_call(
    const struct wulgach_system_call *call, struct wulgach_call_words *words)
{
    wulgach_words_of_call(call, words);
}

void wulgach_seen_last_part(const uint8_t *path, size_t length, struct wulgach_last_part *part)
{
    wulgach_last_part_of(path, length, part);
}

bool wulgach_is_open_number(int fd)
{
    return counts_as_open(fd, false);
}

/* Where a write begins that the library says to begin there. */
static int64_t place_of(int fd, uint32_t begins, uint64_t offset)
{
    struct stat about = {0};
    switch (begins) {
    case WULGACH_BEGINS_AT_END:
        pass(SYS_fstat, fd, (long)&about, 0, 0, 0, 0);
        return about.st_size;
    case WULGACH_BEGINS_AT_POSITION:
        return pass(SYS_lseek, fd, 0, SEEK_CUR, 0, 0, 0);
    default:
        return (int64_t)offset;
    }
}

void wulgach_place_write(struct event *event, int fd, uint64_t offset, int flags)
{
    long status = pass(SYS_fcntl, fd, F_GETFL, 0, 0, 0, 0);
    struct wulgach_writing writing = {.is_known = status >= 0,
        .status = (uint32_t)status,
        .flags = (uint32_t)flags,
        .offset = offset};
    event->offset = place_of(fd, wulgach_write_begins(&writing), offset);
    event->flags = wulgach_syncs_itself(&writing) ? SYNCS_ITS_RANGE : 0;
}

long wulgach_append(int fd, const struct iovec *parts, size_t count)
{
    sigset_t own;
    hold_long_files(&own);
    long written = pass(SYS_writev, fd, (long)parts, (long)count, 0, 0, 0);
    let_long_files(&own, written == -EFBIG);
    return written;
}
