/* Looks at clocks, and sleeps. What the vDSO answers without a call is answered here too: the
 * beginnings of its functions are written over. Looks that come in numbers are points, since who
 * waits by looking at the clock has others go on. */
#define _GNU_SOURCE
#include "clocks.h"

#include <elf.h>
#include <errno.h>
#include <string.h>
#include <sys/auxv.h>
#include <sys/mman.h>
#include <sys/resource.h>
#include <sys/sysinfo.h>
#include <sys/time.h>
#include <sys/times.h>
#include <unistd.h>

enum { LOOK = 1000, MOST_LOOKS = 40 };

uint64_t ns_of(const struct timespec *time)
{
    return (uint64_t)time->tv_sec * SECOND + (uint64_t)time->tv_nsec;
}

static struct timespec time_of(uint64_t ns)
{
    return (struct timespec){(time_t)(ns / SECOND), (long)(ns % SECOND)};
}

uint64_t limit_after(const struct timespec *time)
{
    return time ? world->now + ns_of(time) : NEVER;
}

uint64_t limit_at(bool is_date, uint64_t at)
{
    uint64_t first = is_date ? FIRST_DATE : FIRST_MOMENT;
    return at <= first ? 0 : at - first;
}

struct timespec left_until(uint64_t limit)
{
    return time_of(limit != NEVER && limit > world->now ? limit - world->now : 0);
}

uint64_t look_at_clock(int clock)
{
    world->now += LOOK;
    if (self)
        self->looks++;
    return time_at_clock(clock);
}

uint64_t time_at_clock(int clock)
{
    switch (clock) {
    case CLOCK_REALTIME:
    case CLOCK_REALTIME_COARSE:
    case CLOCK_TAI:
        return FIRST_DATE + world->now;
    case CLOCK_MONOTONIC:
    case CLOCK_MONOTONIC_RAW:
    case CLOCK_MONOTONIC_COARSE:
    case CLOCK_BOOTTIME:
        return FIRST_MOMENT + world->now;
    default: /* (of the processor, by a process or a thread) */
        return world->now;
    }
}

static void make_point_of_looks(void)
{
    if (self && self->looks > MOST_LOOKS)
        syscall(POINT_AT_LOOK);
}

/* In the places of the vDSO's. */
static int clock_gettime_here(clockid_t clock, struct timespec *time)
{
    if (has_left_turns)
        return (int)kernel(SYS_clock_gettime, clock, time);
    if (time)
        *time = time_of(look_at_clock(clock));
    make_point_of_looks();
    return 0;
}

static int gettimeofday_here(struct timeval *time, void *zone)
{
    if (has_left_turns)
        return (int)kernel(SYS_gettimeofday, time, zone);
    uint64_t now = look_at_clock(CLOCK_REALTIME);
    if (time)
        *time = (struct timeval){(time_t)(now / SECOND), (long)(now % SECOND / 1000)};
    make_point_of_looks();
    return 0;
}

static time_t time_here(time_t *time)
{
    if (has_left_turns)
        return kernel(SYS_time, time);
    time_t now = (time_t)(look_at_clock(CLOCK_REALTIME) / SECOND);
    if (time)
        *time = now;
    make_point_of_looks();
    return now;
}

static long getcpu_here(unsigned *processor, unsigned *node, void *unused)
{
    (void)unused;
    if (processor)
        *processor = 0;
    if (node)
        *node = 0;
    return 0;
}

static long getrandom_here(void)
{
    return -ENOSYS; /* (the C library makes the call then) */
}

/* The names of the vDSO, by its table of symbols, which ends where their strings begin. */
struct symbols {
    const Elf64_Sym *first;
    const char *strings;
};

static struct symbols symbols_of(const char *base)
{
    const Elf64_Ehdr *head = (const Elf64_Ehdr *)base;
    const Elf64_Phdr *parts = (const Elf64_Phdr *)(base + head->e_phoff);
    struct symbols found = {NULL, NULL};
    for (int i = 0; i < head->e_phnum; i++) {
        if (parts[i].p_type != PT_DYNAMIC)
            continue;
        for (const Elf64_Dyn *entry = (const Elf64_Dyn *)(base + parts[i].p_offset);
             entry->d_tag != DT_NULL; entry++) {
            if (entry->d_tag == DT_SYMTAB)
                found.first = (const Elf64_Sym *)(base + entry->d_un.d_ptr);
            if (entry->d_tag == DT_STRTAB)
                found.strings = base + entry->d_un.d_ptr;
        }
    }
    return found;
}

static const struct {
    const char *name;
    void (*here)(void);
} taken[] = {
    {"clock_gettime", (void (*)(void))clock_gettime_here},
    {"gettimeofday", (void (*)(void))gettimeofday_here},
    {"time", (void (*)(void))time_here},
    {"getcpu", (void (*)(void))getcpu_here},
    {"getrandom", (void (*)(void))getrandom_here},
};

/* mov $here, %rax; jmp *%rax */
static void write_jump(char *at, void (*here)(void))
{
    memcpy(at, "\x48\xb8", 2);
    memcpy(at + 2, &here, sizeof here);
    memcpy(at + 10, "\xff\xe0", 2);
}

static void take_symbol(char *base, const Elf64_Sym *symbol, const char *name)
{
    if (strncmp(name, "__vdso_", 7) == 0)
        name += 7;
    for (size_t i = 0; i < sizeof taken / sizeof *taken; i++)
        if (symbol->st_value && strcmp(name, taken[i].name) == 0)
            write_jump(base + symbol->st_value, taken[i].here);
}

void take_vdso(void)
{
    enum { SIZE = 8192 };
    char *base = (char *)getauxval(AT_SYSINFO_EHDR);
    struct symbols symbols = base ? symbols_of(base) : (struct symbols){NULL, NULL};
    if (!base)
        return;
    if (!symbols.first || !symbols.strings ||
        kernel(SYS_mprotect, base, SIZE, PROT_READ | PROT_WRITE | PROT_EXEC) < 0) {
        say_line(
            "--threads: the kernel's functions for clocks can't be replaced: what the program sees of time is real, and isn't replayed");
        return;
    }
    for (const Elf64_Sym *symbol = symbols.first; (const char *)symbol < symbols.strings; symbol++)
        take_symbol(base, symbol, symbols.strings + symbol->st_name);
    kernel(SYS_mprotect, base, SIZE, PROT_READ | PROT_EXEC);
}

long serve_clock(struct trap *trap)
{
    *(struct timespec *)trap->words[1] = time_of(look_at_clock((int)trap->words[0]));
    return 0;
}

long serve_timeofday(struct trap *trap)
{
    return gettimeofday_here((struct timeval *)trap->words[0], NULL);
}

long serve_time(struct trap *trap)
{
    return time_here((time_t *)trap->words[0]);
}

long serve_processor(struct trap *trap)
{
    return getcpu_here((unsigned *)trap->words[0], (unsigned *)trap->words[1], NULL);
}

static long sleep_until(uint64_t limit, struct timespec *left)
{
    if (wait_until(NULL, NULL, false, limit) != INTERRUPTED)
        return 0;
    if (left)
        *left = left_until(limit);
    return -EINTR;
}

static bool is_time(const struct timespec *time)
{
    return time->tv_sec >= 0 && time->tv_nsec >= 0 && (uint64_t)time->tv_nsec < SECOND;
}

long serve_nanosleep(struct trap *trap)
{
    const struct timespec *time = (const struct timespec *)trap->words[0];
    return is_time(time) ? sleep_until(limit_after(time), (struct timespec *)trap->words[1])
                         : -EINVAL;
}

long serve_clock_nanosleep(struct trap *trap)
{
    const struct timespec *time = (const struct timespec *)trap->words[2];
    bool is_date = trap->words[0] == CLOCK_REALTIME || trap->words[0] == CLOCK_TAI;
    if (!is_time(time))
        return -EINVAL;
    if (trap->words[1] & TIMER_ABSTIME)
        return sleep_until(limit_at(is_date, ns_of(time)), NULL);
    return sleep_until(limit_after(time), (struct timespec *)trap->words[3]);
}

/* What the kernel counts of a process isn't the same twice: time is the run's, and memory a number.
 */
long serve_usage(struct trap *trap)
{
    enum { RESIDENT = 50000 };
    struct rusage *usage = (struct rusage *)trap->words[1];
    long result = pass_on(trap);
    if (result < 0)
        return result;
    uint64_t now = look_at_clock(CLOCK_PROCESS_CPUTIME_ID);
    memset(usage, 0, sizeof *usage);
    usage->ru_utime = (struct timeval){(time_t)(now / SECOND), (long)(now % SECOND / 1000)};
    usage->ru_maxrss = RESIDENT;
    return 0;
}

long serve_times(struct trap *trap)
{
    enum { TICK = 10000000 };
    if (trap->words[0])
        memset((void *)trap->words[0], 0, sizeof(struct tms));
    return (long)(look_at_clock(CLOCK_MONOTONIC) / TICK);
}

long serve_system(struct trap *trap)
{
    struct sysinfo *about = (struct sysinfo *)trap->words[0];
    long result = pass_on(trap);
    if (result < 0)
        return result;
    about->uptime = (long)(FIRST_MOMENT / SECOND);
    about->loads[0] = about->loads[1] = about->loads[2] = 0;
    about->freeram = about->totalram / 2;
    about->sharedram = about->bufferram = 0;
    about->freeswap = about->totalswap;
    about->procs = 1;
    return 0;
}
