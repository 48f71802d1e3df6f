/* The log of a run: a line for each call, with its thread, its words and its result, into the file
 * that WULGACH_TURNS names. Two runs of one seed have one log: it is compared with the one that
 * WULGACH_RECORDED_TURNS names, and the first line that differs is told. */
#define _GNU_SOURCE
#include "../../layer/choices/turns.h"
#include "turns.h"

#include <fcntl.h>
#include <linux/futex.h>
#include <stdarg.h>
#include <stdio.h>
#include <stdlib.h>
#include <string.h>
#include <sys/mman.h>
#include <sys/stat.h>
#include <unistd.h>

enum { MOST_LINE = 256 };

static bool is_logging_turns(void)
{
    return world->log.is_written || world->log.recorded;
}

/* At a place of its own, so that what the program maps stands where it does without. Each process
 * has it, of the world's descriptor, behind the world. */
static const uintptr_t place_of_recorded = 0x310000000000;

static bool map_recorded(size_t size)
{
    const size_t page = 4096, behind = (sizeof *world + page - 1) / page * page;
    return kernel(SYS_mmap, place_of_recorded, size, PROT_READ | PROT_WRITE,
               MAP_SHARED | MAP_FIXED_NOREPLACE, WORLD_DESCRIPTOR,
               behind) == (long)place_of_recorded;
}

static bool copy_recorded(long from, size_t size)
{
    const size_t page = 4096, behind = (sizeof *world + page - 1) / page * page;
    if (kernel(SYS_ftruncate, WORLD_DESCRIPTOR, behind + size) < 0 || !map_recorded(size))
        return false;
    for (size_t done = 0; done < size;) {
        long part = kernel(SYS_read, from, place_of_recorded + done, size - done);
        if (part <= 0)
            return false;
        done += (size_t)part;
    }
    return true;
}

static void read_recorded(const char *path)
{
    struct stat about = {0};
    long from = kernel(SYS_open, path, O_RDONLY | O_CLOEXEC);
    bool is_read = from >= 0 && kernel(SYS_fstat, from, &about) == 0 && about.st_size > 0 &&
                   copy_recorded(from, (size_t)about.st_size);
    if (from >= 0)
        kernel(SYS_close, from);
    if (!is_read) {
        say_line("%s: the recorded log of turns can't be read", path);
        return;
    }
    world->log.recorded = (const char *)place_of_recorded;
    world->log.recorded_end = world->log.recorded + about.st_size;
}

static const char *end_of_line(const char *line, const char *end)
{
    const char *found = memchr(line, '\n', (size_t)(end - line));
    return found ? found : end;
}

/* (what comes after is another run) */
static void tell_difference(const char *line, int size)
{
    const char *end = end_of_line(world->log.recorded, world->log.recorded_end);
    if (world->log.recorded == world->log.recorded_end)
        say_line("choice %lu differs from the recorded run, which ends here: %.*s", world->choices,
            size - 1, line);
    else
        say_line("choice %lu differs from the recorded run: %.*s; recorded: %.*s", world->choices,
            size - 1, line, (int)(end - world->log.recorded), world->log.recorded);
    world->log.recorded = NULL;
}

/* Past a word that is an address, if one begins here: where memory lies rests on the environment
 * too, and isn't compared. */
static const char *past_address(const char *text, const char *end)
{
    enum { PREFIX = 2, SMALL = 8 };
    if (end - text < PREFIX || text[0] != '0' || text[1] != 'x')
        return text;
    const char *at = text + PREFIX;
    while (at < end && ((*at >= '0' && *at <= '9') || (*at >= 'a' && *at <= 'f')))
        at++;
    return at - text > PREFIX + SMALL ? at : text;
}

/* Where the recorded log goes on after a line like this one; NULL if it has another there. */
static const char *after_alike(const char *line, int size)
{
    const char *at = world->log.recorded, *end = line + size;
    while (line < end) {
        const char *past = past_address(line, end),
                   *other = past_address(at, world->log.recorded_end);
        if ((past == line) != (other == at))
            return NULL;
        if (past == line && (at == world->log.recorded_end || *at != *line))
            return NULL;
        at = past == line ? at + 1 : other;
        line = past == line ? line + 1 : past;
    }
    return at;
}

static void compare_line(const char *line, int size)
{
    const char *after = after_alike(line, size);
    if (after)
        world->log.recorded = after;
    else
        tell_difference(line, size);
}

void compare_end(void)
{
    if (world->log.recorded && world->log.recorded < world->log.recorded_end)
        say_line("the run ends where the recorded one goes on: %.*s",
            (int)(end_of_line(world->log.recorded, world->log.recorded_end) - world->log.recorded),
            world->log.recorded);
    world->log.recorded = NULL;
}

static void put_line(const char *line, int size);

static void __attribute__((format(printf, 1, 2))) put_of_thread(const char *form, ...)
{
    char line[MOST_LINE];
    va_list words;
    va_start(words, form);
    int size = snprintf(line, sizeof line, "%lu: thread %d", world->points, slot_of(self) + 1);
    size += vsnprintf(line + size, sizeof line - (size_t)size - 1, form, words);
    va_end(words);
    size = size < MOST_LINE - 1 ? size : MOST_LINE - 2;
    line[size] = '\n';
    put_line(line, size + 1);
}

static void hear_step(uint32_t ring, const char *what)
{
    put_of_thread(": ring %u: %s", ring, what);
}

static void hear_choice(uint64_t at, uint32_t count, uint32_t way, const char *what)
{
    put_of_thread(": choice %lu is %u of %u: %s", at, way, count, what);
}

void note_wait(void)
{
    if (world->log.has_lanes)
        put_of_thread(" waits in %s", name_of_call(self->call));
}

static void go_on_with_lanes(void)
{
    if (!world->log.has_lanes)
        return;
    wulgach_hear_step = hear_step;
    wulgach_hear_choice = hear_choice;
}

/* (whatever is opened before this file has another number) */
static bool open_log(const char *path)
{
    long opened = kernel(SYS_open, path, O_WRONLY | O_CREAT | O_TRUNC | O_CLOEXEC, 0666);
    bool is_open = opened >= 0 && kernel(SYS_dup2, opened, LOG_DESCRIPTOR) == LOG_DESCRIPTOR;
    if (opened >= 0)
        kernel(SYS_close, opened);
    return is_open;
}

void begin_log(void)
{
    const char *path = getenv("WULGACH_TURNS"), *other = getenv("WULGACH_RECORDED_TURNS"),
               *lanes = getenv("WULGACH_LANES");
    struct timespec now;
    kernel(SYS_clock_gettime, CLOCK_REALTIME, &now);
    world->began = now.tv_sec;
    if (other && *other)
        read_recorded(other);
    if (!path || !*path)
        return;
    world->log.is_written = open_log(path);
    if (!world->log.is_written)
        say_line("%s: the log of turns can't be written", path);
    world->log.has_lanes = world->log.is_written && lanes && *lanes;
    go_on_with_lanes();
}

void go_on_with_log(void)
{
    if (world->log.recorded)
        map_recorded((size_t)(world->log.recorded_end - (const char *)place_of_recorded));
    go_on_with_lanes();
}

void end_log(void)
{
    if (world->log.is_written && world->log.length > 0)
        kernel(SYS_write, LOG_DESCRIPTOR, world->log.room, world->log.length);
    world->log.length = 0;
}

/* How many of the first three words a call has: the registers of others are whatever was left
 * there. */
static int words_of(long call, const long *words)
{
    switch (call) {
    case SYS_getpid:
    case SYS_gettid:
    case SYS_getppid:
    case SYS_getuid:
    case SYS_geteuid:
    case SYS_getgid:
    case SYS_getegid:
    case SYS_sched_yield:
    case SYS_fork:
    case SYS_vfork:
    case SYS_setsid:
    case SYS_pause:
    case SYS_sync:
    case SYS_getpgrp:
    case POINT_AT_LOOK:
    case YIELD_AT_LOCK:
        return 0;
    case SYS_close:
    case SYS_fsync:
    case SYS_fdatasync:
    case SYS_exit:
    case SYS_exit_group:
    case SYS_brk:
    case SYS_umask:
    case SYS_uname:
    case SYS_unlink:
    case SYS_rmdir:
    case SYS_chdir:
    case SYS_time:
    case SYS_times:
    case SYS_sysinfo:
    case SYS_epoll_create:
    case SYS_epoll_create1:
    case SYS_dup:
    case SYS_alarm:
    case SYS_set_tid_address:
    case SYS_pipe:
    case POINT_AT_LOCK:
    case SYS_timer_delete:
    case SYS_mq_unlink:
        return 1;
    case SYS_futex:
        return (words[1] & FUTEX_CMD_MASK) == FUTEX_UNLOCK_PI ||
                       (words[1] & FUTEX_CMD_MASK) == FUTEX_LOCK_PI
                   ? 2
                   : 3;
    case SYS_fcntl:
        return words[1] == F_GETFL || words[1] == F_GETFD ? 2 : 3;
    case SYS_mkdir:
    case SYS_rename:
    case SYS_access:
    case SYS_stat:
    case SYS_lstat:
    case SYS_fstat:
    case SYS_munmap:
    case SYS_ftruncate:
    case SYS_truncate:
    case SYS_clone3:
    case SYS_nanosleep:
    case SYS_clock_gettime:
    case SYS_gettimeofday:
    case SYS_kill:
    case SYS_tkill:
    case SYS_listen:
    case SYS_flock:
    case SYS_dup2:
    case SYS_pipe2:
    case SYS_eventfd2:
    case SYS_getcwd:
    case SYS_link:
    case SYS_symlink:
    case SYS_chmod:
    case SYS_getrlimit:
    case SYS_setrlimit:
    case SYS_getrusage:
    case SYS_sigaltstack:
    case SYS_fchmod:
    case SYS_getpriority:
    case SYS_set_robust_list:
    case SYS_shutdown:
    case SYS_timerfd_create:
    case SYS_fstatfs:
    case SYS_statfs:
    case SYS_clock_getres:
    case SYS_sched_getparam:
    case SYS_getgroups:
    case SYS_timer_gettime:
    case SYS_timerfd_gettime:
    case GO_ON_AS:
        return 2;
    default:
        return 3;
    }
}

/* A lock by its owner, or the end of a thread, is awaited by the number of a thread, which isn't
 * the same twice. */
enum { OWNER = -1 };

static bool is_of_owner(const struct trap *trap, int word)
{
    if (trap->call != SYS_futex || word != 2)
        return false;
    for (int i = 0; i < world->count; i++)
        if (world->threads[i].number == ((int)trap->words[2] & FUTEX_TID_MASK))
            return true;
    return false;
}

static void put_line(const char *line, int size)
{
    if (world->log.recorded)
        compare_line(line, size);
    struct log *log = &world->log;
    if (!log->is_written)
        return;
    if (log->length + (size_t)size > LOG_ROOM)
        end_log();
    memcpy(log->room + log->length, line, (size_t)size);
    log->length += (size_t)size;
}

/* Numbers of threads and of processes are the kernel's, and not the same twice: they aren't in it.
 */
static bool has_number(long call)
{
    switch (call) {
    case SYS_getpid:
    case SYS_gettid:
    case SYS_getppid:
    case SYS_set_tid_address:
    case SYS_clone:
    case SYS_clone3:
    case SYS_fork:
    case SYS_vfork:
    case SYS_tkill:
    case SYS_tgkill:
    case SYS_kill:
    case SYS_wait4:
    case SYS_waitid:
    case SYS_rt_sigqueueinfo:
    case SYS_rt_tgsigqueueinfo:
    case SYS_getpgid:
    case SYS_getsid:
    case SYS_setsid:
    case SYS_getpgrp:
    case SYS_prlimit64:
    case SYS_sched_getaffinity:
    case SYS_sched_setaffinity:
    case SYS_sched_getparam:
    case SYS_sched_getscheduler:
    case SYS_sched_setscheduler:
    case SYS_setpriority:
    case SYS_getpriority:
        return true;
    default:
        return false;
    }
}

void note_call(const struct trap *trap, long result)
{
    char line[MOST_LINE];
    if (!is_logging_turns())
        return;
    int count = words_of(trap->call, trap->words),
        size = snprintf(line, sizeof line, "%lu: thread %d: %s(", world->points, slot_of(self) + 1,
            name_of_call(trap->call));
    if (has_number(trap->call)) {
        size += snprintf(line + size, sizeof line - (size_t)size, "..)\n");
        put_line(line, size);
        return;
    }
    for (int i = 0; i < count; i++)
        size += snprintf(line + size, sizeof line - (size_t)size, i ? ", %#lx" : "%#lx",
            (unsigned long)(is_of_owner(trap, i) ? OWNER : trap->words[i]));
    size += snprintf(
        line + size, sizeof line - (size_t)size, ") = %ld, at %lu ns\n", result, world->now);
    put_line(line, size);
}

void note_event(const char *what, long number)
{
    char line[MOST_LINE];
    if (is_logging_turns())
        put_line(line, snprintf(line, sizeof line, "%lu: %s %ld\n", world->points, what, number));
}
