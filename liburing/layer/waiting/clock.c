/* Reads WULGACH_TIME: `virtual`, the default, where time moves when nothing else can go on; or
 * `real`, for a program that measures time, where a call sleeps until a timeout or a limit is over.
 * Where time is virtual, a program's clocks go with it that are those of behind/clocks.c.
 */
#define _GNU_SOURCE
#include "waiting/clock.h"
#include "choices/turns.h"
#include "process/fault.h"

#include <stdlib.h>
#include <string.h>
#include <sys/syscall.h>
#include <time.h>
#include <unistd.h>

__attribute__((visibility("default"), externally_visible))
uint64_t (*wulgach_tell_time)(clockid_t clock);

static bool is_real; /* read when the process's first ring is set up */

static void read_environment(void)
{
    const char *word = getenv("WULGACH_TIME");
    is_real = word && strcmp(word, "real") == 0;
    demand(is_real || !word || !*word || strcmp(word, "virtual") == 0,
        "WULGACH_TIME is virtual or real");
}

static void read_clock(void)
{
    static pthread_once_t once = PTHREAD_ONCE_INIT;
    pthread_once(&once, read_environment);
}

bool is_time_real(void)
{
    return is_real;
}

static bool are_moved; /* the program's clocks go with the time that is moved: */
static _Atomic uint64_t moved; /* by so much, on all rings */

uint64_t wulgach_moved_time(void)
{
    return moved;
}

void wulgach_move_clocks(void)
{
    are_moved = true;
}

void note_moved(uint64_t before, uint64_t after)
{
    moved += after > before ? after - before : 0;
}

/* The clock of the kernel, which no program moves. */
static uint64_t kernel_time(clockid_t clock)
{
    uint64_t told = wulgach_tell_time ? wulgach_tell_time(clock) : 0;
    if (told)
        return told;
    struct timespec now;
    syscall(SYS_clock_gettime, clock, &now);
    return wulgach_time_of(now.tv_sec, now.tv_nsec);
}

uint64_t real_time(void)
{
    return kernel_time(CLOCK_MONOTONIC);
}

uint64_t time_of_clock(clockid_t clock)
{
    return kernel_time(clock) + (are_moved ? moved : 0);
}

void start_clock(struct ring *ring)
{
    read_clock();
    wulgach_times_begin(&ring->times);
    ring->origin = real_time();
}

void catch_up(struct ring *ring)
{
    wulgach_times_move_to(&ring->times, wulgach_time_left(real_time(), ring->origin));
}
