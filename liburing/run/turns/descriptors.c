/* Descriptors as they are opened and closed. */
#define _GNU_SOURCE
#include "descriptors.h"
#include "dates.h"
#include "sayings.h"
#include "waits.h"

#include <errno.h>
#include <fcntl.h>
#include <string.h>
#include <sys/epoll.h>
#include <sys/file.h>
#include <sys/stat.h>
#include <unistd.h>

enum { MOST = 1 << 16 };

static uint8_t kinds[MOST];
static uint8_t hears_outside[MOST]; /* an instance of epoll */
static int end_of_kinds; /* all that are set are below */

static bool has_place(long fd)
{
    return fd >= 0 && fd < MOST;
}

static enum kind_of_descriptor look_at(int fd)
{
    struct stat about;
    if (kernel(SYS_fstat, fd, &about) < 0)
        return OUTSIDE;
    if (S_ISREG(about.st_mode) || S_ISDIR(about.st_mode) || S_ISBLK(about.st_mode))
        return ON_DISK;
    bool is_made = (S_ISFIFO(about.st_mode) || S_ISSOCK(about.st_mode)) && is_noted_inside(&about);
    return is_made ? INSIDE : OUTSIDE;
}

static void note_kind(long fd, enum kind_of_descriptor kind)
{
    if (end_of_kinds <= fd)
        end_of_kinds = (int)fd + 1;
    kinds[fd] = (uint8_t)kind;
}

enum kind_of_descriptor kind_of(int fd)
{
    if (!has_place(fd))
        return OUTSIDE;
    if (kinds[fd] == UNKNOWN)
        note_kind(fd, look_at(fd));
    return kinds[fd];
}

void set_kind(long fd, enum kind_of_descriptor kind)
{
    if (!has_place(fd))
        return;
    note_kind(fd, kind);
    hears_outside[fd] = 0;
    forget_timer((int)fd);
}

/* (those that are closed at any number count as met) */
void forget_closed(void)
{
    for (int fd = 0; fd < end_of_kinds; fd++)
        if (kinds[fd] != UNKNOWN && kernel(SYS_fcntl, fd, F_GETFD) < 0)
            set_kind(fd, UNKNOWN);
}

bool is_outside(int fd)
{
    enum kind_of_descriptor kind = kind_of(fd);
    return kind == OUTSIDE || (has_place(fd) && hears_outside[fd]);
}

bool is_blocking(int fd)
{
    long flags = kernel(SYS_fcntl, fd, F_GETFL);
    return flags >= 0 && !(flags & O_NONBLOCK);
}

/* Both ends of what was made are the run's, and who becomes another program knows them by that. */
static void set_inside(const int ends[2])
{
    for (int i = 0; i < 2; i++) {
        set_kind(ends[i], INSIDE);
        note_inside(ends[i]);
    }
}

/* A FIFO is opened without waiting, again and again, until it has its other end. */
static bool is_fifo(int folder, const char *path)
{
    struct stat about;
    return kernel(SYS_newfstatat, folder, path, &about, 0) == 0 && S_ISFIFO(about.st_mode);
}

struct opening {
    long folder, path, flags;
    long result;
};

/* A writer is refused while there is no reader; a reader is let in at once, and waits until there
 * is something or the other end has come and gone. */
static bool can_write_fifo(struct opening *opening)
{
    opening->result = kernel(
        SYS_openat, opening->folder, opening->path, opening->flags | O_NONBLOCK, 0);
    return opening->result != -ENXIO;
}

static long open_fifo(long folder, long path, long flags)
{
    struct opening opening = {folder, path, flags, -ENXIO};
    if (flags & O_NONBLOCK || (flags & O_ACCMODE) == O_RDWR)
        return kernel(SYS_openat, folder, path, flags, 0);
    uint64_t span = FIRST_WHILE;
    if ((flags & O_ACCMODE) == O_WRONLY)
        while (!can_write_fifo(&opening))
            if (wait_a_while(&span, NEVER) == INTERRUPTED)
                return -EINTR;
    if ((flags & O_ACCMODE) == O_RDONLY)
        opening.result = kernel(SYS_openat, folder, path, flags | O_NONBLOCK, 0);
    if (opening.result >= 0)
        kernel(SYS_fcntl, opening.result, F_SETFL,
            flags & ~(long)(O_NONBLOCK | O_CREAT | O_EXCL | O_TRUNC | O_CLOEXEC));
    return opening.result;
}

static long open_at(long folder, long path, long flags, long mode)
{
    const char *name = (const char *)path;
    long fd = open_saying(name);
    if (fd != NO_SAYING)
        return fd;
    fd = is_fifo((int)folder, name) && !(flags & O_PATH)
             ? open_fifo(folder, path, flags)
             : kernel(SYS_openat, folder, path, flags, mode);
    bool is_random = strcmp(name, "/dev/urandom") == 0 || strcmp(name, "/dev/random") == 0;
    set_kind(fd, is_random ? RANDOM : UNKNOWN);
    change_world();
    return fd;
}

long serve_open(struct trap *trap)
{
    return open_at(AT_FDCWD, trap->words[0], trap->words[1], trap->words[2]);
}

long serve_openat(struct trap *trap)
{
    return open_at(trap->words[0], trap->words[1], trap->words[2], trap->words[3]);
}

long serve_pipe(struct trap *trap)
{
    long result = pass_on(trap);
    if (result == 0)
        set_inside((const int *)trap->words[0]);
    return result;
}

long serve_socketpair(struct trap *trap)
{
    long result = pass_on(trap);
    if (result == 0)
        set_inside((const int *)trap->words[3]);
    return result;
}

long serve_socket(struct trap *trap)
{
    long fd = pass_on(trap);
    set_kind(fd, OUTSIDE);
    return fd;
}

long serve_made_inside(struct trap *trap)
{
    long fd = pass_on(trap);
    set_kind(fd, INSIDE);
    return fd;
}

/* In parts, so that those of the run stay. */
static long close_between(const struct trap *trap, unsigned first, unsigned last)
{
    if (first <= WORLD_DESCRIPTOR && last >= WORLD_DESCRIPTOR) {
        if (first < WORLD_DESCRIPTOR)
            kernel(trap->call, first, WORLD_DESCRIPTOR - 1, trap->words[2]);
        first = LOG_DESCRIPTOR + 1;
    }
    return first > last ? 0 : kernel(trap->call, first, last, trap->words[2]);
}

long spare_descriptors(struct trap *trap)
{
    bool is_copied = trap->call == SYS_dup2 || trap->call == SYS_dup3;
    if (trap->call == SYS_close_range && (unsigned)trap->words[0] <= (unsigned)trap->words[1])
        return close_between(trap, (unsigned)trap->words[0], (unsigned)trap->words[1]);
    return is_descriptor_of_run(trap->words[is_copied ? 1 : 0]) ? -EBADF : pass_on(trap);
}

long serve_close(struct trap *trap)
{
    if (is_descriptor_of_run(trap->words[0]))
        return -EBADF;
    set_kind(trap->words[0], UNKNOWN);
    change_world();
    return pass_on(trap);
}

long serve_close_range(struct trap *trap)
{
    enum { ON_EXEC = 4 };
    for (uint64_t fd = (unsigned)trap->words[0];
         fd <= (unsigned)trap->words[1] && fd < MOST && !(trap->words[2] & ON_EXEC); fd++)
        set_kind((long)fd, UNKNOWN);
    change_world();
    return spare_descriptors(trap);
}

static long note_copy(long from, long to)
{
    if (to >= 0 && has_place(from) && has_place(to) && from != to) {
        set_kind(to, kinds[from]);
        hears_outside[to] = hears_outside[from];
    }
    change_world();
    return to;
}

long serve_dup(struct trap *trap)
{
    return note_copy(trap->words[0], pass_on(trap));
}

long serve_dup_to(struct trap *trap)
{
    return note_copy(trap->words[0], spare_descriptors(trap));
}

long serve_epoll_ctl(struct trap *trap)
{
    long result = pass_on(trap);
    if (result == 0 && trap->words[1] != EPOLL_CTL_DEL && has_place(trap->words[0]) &&
        is_outside((int)trap->words[2]))
        hears_outside[trap->words[0]] = 1;
    change_world();
    return result;
}

/* A lock that somebody has is asked for again a moment later. */
static long lock_again(struct trap *trap, long how)
{
    uint64_t span = FIRST_WHILE;
    for (;;) {
        long result = kernel(trap->call, trap->words[0], how, trap->words[2]);
        if (result != -EAGAIN && result != -EACCES)
            return result;
        if (wait_a_while(&span, NEVER) == INTERRUPTED)
            return RESTARTS;
    }
}

long serve_fcntl(struct trap *trap)
{
    change_world();
    if (is_descriptor_of_run(trap->words[0]))
        return -EBADF;
    switch (trap->words[1]) {
    case F_SETLKW:
        return lock_again(trap, F_SETLK);
    case F_OFD_SETLKW:
        return lock_again(trap, F_OFD_SETLK);
    case F_DUPFD:
    case F_DUPFD_CLOEXEC:
        return note_copy(trap->words[0], pass_on(trap));
    default:
        return pass_on(trap);
    }
}

long serve_flock(struct trap *trap)
{
    change_world();
    return trap->words[1] & (LOCK_NB | LOCK_UN) ? pass_on(trap)
                                                : lock_again(trap, trap->words[1] | LOCK_NB);
}
