/* A policy may return from a call though requests could go on, and the application may then wait
 * elsewhere for what they bring, as in read(2) of a pipe. A thread of the layer's own hears that:
 * where no thread has called for a moment, and none has run, but all sleep, each for something else
 * than a time, the rings on which no call is go on, by one choice at a time, until a thread calls.
 * It is said once.
 *
 * The moment is real, and the processor's time says whether any thread runs; only then is it asked
 * where each sleeps. So a program whose threads call, compute or sleep by the clock is left alone.
 */
#define _GNU_SOURCE
#include "waiting/watch.h"
#include "calls/uncalled.h"
#include "choices/turns.h"
#include "process/numbers.h"
#include "process/process.h"
#include "rings/descriptors.h"

#include <dirent.h>
#include <fcntl.h>
#include <pthread.h>
#include <stdint.h>
#include <stdio.h>
#include <stdlib.h>
#include <string.h>
#include <sys/syscall.h>
#include <time.h>
#include <unistd.h>

enum { MOST_RINGS = 64, STACK = 1 << 18 };
enum { LOOK = 20000000, STEP = 1000000, MOMENT = 200000000 }; /* nanoseconds */

static uint32_t asked, watched; /* the process that was to have one, and that has it */

bool watches(void)
{
    return __atomic_load_n(&watched, __ATOMIC_RELAXED) == this_image();
}

static uint64_t processor_time(clockid_t clock)
{
    struct timespec time = {0};
    syscall(SYS_clock_gettime, clock, &time);
    return (uint64_t)time.tv_sec * 1000000000 + (uint64_t)time.tv_nsec;
}

/* What changes once another thread calls or runs. */
struct seen {
    uint64_t calls, run;
};

static struct seen look(void)
{
    return (struct seen){count_calls(),
        processor_time(CLOCK_PROCESS_CPUTIME_ID) - processor_time(CLOCK_THREAD_CPUTIME_ID)};
}

/* (the two clocks aren't read at once) */
static bool is_as_before(const struct seen *before, const struct seen *now)
{
    const uint64_t some = 20000;
    return now->calls != 0 && now->calls == before->calls &&
           (now->run <= before->run || now->run - before->run < some);
}

static void read_of_thread(const char *thread, const char *name, char *text, size_t size)
{
    char path[80];
    snprintf(path, sizeof path, "/proc/self/task/%s/%s", thread, name);
    int file = open(path, O_RDONLY | O_CLOEXEC);
    ssize_t length = file < 0 ? -1 : read(file, text, size - 1);
    text[length < 0 ? 0 : length] = '\0';
    if (file >= 0)
        close(file);
}

enum sleep { IS_GONE, IS_ASLEEP, COMES_BACK };

/* What a thread does. */
static enum sleep sleep_of(const char *thread)
{
    char text[512];
    read_of_thread(thread, "stat", text, sizeof text);
    const char *name_end = strrchr(text, ')');
    if (!name_end || strlen(name_end) < 3 || strchr("ZX", name_end[2]))
        return IS_GONE;
    if (!strchr("SDT", name_end[2]))
        return COMES_BACK;
    read_of_thread(thread, "syscall", text, sizeof text);
    char *end;
    long call = strtol(text, &end, 10);
    return end != text && (call == SYS_nanosleep || call == SYS_clock_nanosleep) ? COMES_BACK
                                                                                 : IS_ASLEEP;
}

/* Of all other threads: that all are gone, all sleep, or some don't. */
static enum sleep sleep_of_others(void)
{
    enum sleep all = IS_GONE;
    begin_low_number();
    DIR *threads = opendir("/proc/self/task");
    for (const struct dirent *entry; threads && (entry = readdir(threads));) {
        if (entry->d_name[0] == '.' || atoi(entry->d_name) == gettid())
            continue;
        enum sleep one = sleep_of(entry->d_name);
        all = one > all ? one : all;
    }
    if (threads)
        closedir(threads);
    end_low_number();
    return threads ? all : COMES_BACK;
}

static bool is_any(int32_t caller)
{
    (void)caller;
    return true;
}

static void say_once(uint32_t ring)
{
    static bool is_said;
    if (!is_said)
        fprintf(stderr,
            "wulgach: no thread has called for %d ms, and all wait elsewhere: ring %u goes on without a call\n",
            MOMENT / 1000000, (unsigned)ring);
    is_said = true;
}

/* Goes on with each ring that can, once. */
static bool go_on_uncalled(void)
{
    struct wulgach_uncalled rows[MOST_RINGS];
    bool has_gone_on = false;
    uint32_t count = wulgach_look_at_uncalled(rows, MOST_RINGS, is_any);
    for (uint32_t i = 0; i < count; i++) {
        if (!rows[i].can_go_on)
            continue;
        say_once(rows[i].ring);
        has_gone_on |= wulgach_go_on_uncalled(rows[i].ring);
    }
    return has_gone_on;
}

static void sleep_for(long nanoseconds)
{
    const struct timespec span = {0, nanoseconds};
    syscall(SYS_nanosleep, &span, NULL);
}

/* (a process whose last thread ends goes on as long as this one) */
static void *watch(void *unused)
{
    struct seen before = look();
    long quiet = 0;
    bool goes_on = false;
    for (;;) {
        sleep_for(goes_on ? STEP : LOOK);
        struct seen now = look();
        bool is_quiet = is_as_before(&before, &now);
        before = now;
        quiet = is_quiet ? quiet + LOOK : 0;
        goes_on &= is_quiet;
        if (!goes_on && quiet < MOMENT)
            continue;
        enum sleep others = goes_on ? IS_ASLEEP : sleep_of_others();
        if (others == IS_GONE)
            return unused;
        quiet = 0;
        goes_on = others == IS_ASLEEP && go_on_uncalled();
        before = look();
    }
}

static void begin_thread(void)
{
    pthread_attr_t attributes;
    pthread_t thread;
    sigset_t own;
    if (pthread_attr_init(&attributes) != 0)
        return;
    pthread_attr_setstacksize(&attributes, STACK);
    pthread_attr_setdetachstate(&attributes, PTHREAD_CREATE_DETACHED);
    block_signals(&own);
    if (pthread_create(&thread, &attributes, watch, NULL) == 0)
        __atomic_store_n(&watched, this_image(), __ATOMIC_RELAXED);
    allow_signals(&own);
    pthread_attr_destroy(&attributes);
}

void watch_for_calls(void)
{
    uint32_t before = __atomic_load_n(&asked, __ATOMIC_RELAXED), image = this_image();
    if (before != image && !wulgach_tell_own_calls &&
        __atomic_compare_exchange_n(
            &asked, &before, image, false, __ATOMIC_RELAXED, __ATOMIC_RELAXED))
        begin_thread();
}
