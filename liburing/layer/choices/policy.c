/* Reads the policy from the environment, and chooses by it.
 *
 *   WULGACH_POLICY    order (the default), lazy, seed:N, pct:SEED:DEPTH[:CHOICES], or list:ITEMS.
 *                     An item is the next choice's number, or AT=NUMBER for choice AT; items are
 *                     separated by commas. A choice that isn't listed is 0, which is what "order"
 *                     would do; so is one that is beyond what there is to choose from.
 *   WULGACH_CHOOSE    events (the default): issuing and finishing a request are two choices; ends:
 *                     they are one
 *   WULGACH_CHOICES   PREFIX: a process that sets a ring up makes a file PREFIX.PID, and writes a
 *                     line there for each choice: its number, which way, of how many, and in words
 *   WULGACH_WAYS      if it is set, what could go on at each choice stands there too (outlook.h)
 */
#define _GNU_SOURCE
#include "choices/policy.h"
#include "choices/account.h"
#include "choices/priorities.h"
#include "choices/turns.h"
#include "process/fault.h"
#include "process/numbers.h"
#include "process/process.h"
#include "wulgach_enter.h"
#include "wulgach_taking.h"

#include <fcntl.h>
#include <inttypes.h>
#include <pthread.h>
#include <stdarg.h>
#include <stdio.h>
#include <stdio_ext.h>
#include <stdlib.h>
#include <string.h>
#include <sys/stat.h>
#include <unistd.h>

static struct {
    enum policy policy;
    bool is_choosing_events;
    bool is_one_choice; /* (asked once) */
    uint32_t *list;
    uint64_t list_count;
    const char *recorded_at; /* what the records' names begin with; */
    bool is_recording;
    bool is_recording_ways;
    pthread_mutex_t lock;
} chosen_by = {.lock = PTHREAD_MUTEX_INITIALIZER};

/* The process's own, or that of all processes of a run. */
static struct wulgach_one_list own_course, *course = &own_course;

/* The record of choices, once there are any: whose it is, and the file by which it is known. */
static struct {
    FILE *lines;
    uint32_t image;
    dev_t device;
    ino_t inode;
} record_of;

enum { MOST_LISTED = 10000000, MOST_DEPTH = 1000, USUAL_CHOICES = 100 };

static void put_listed(uint64_t at, uint32_t choice)
{
    demand(at < MOST_LISTED, "WULGACH_POLICY: a choice's number is too large");
    if (at >= chosen_by.list_count) {
        uint64_t count = 2 * at + 16;
        uint32_t *list = need_room(count, sizeof *list);
        if (chosen_by.list)
            memcpy(list, chosen_by.list, chosen_by.list_count * sizeof *list);
        free(chosen_by.list);
        chosen_by.list = list;
        chosen_by.list_count = count;
    }
    chosen_by.list[at] = choice;
}

static uint64_t read_number(const char **at)
{
    char *end;
    demand(**at >= '0' && **at <= '9', "WULGACH_POLICY: a number is missing");
    uint64_t number = strtoull(*at, &end, 10);
    *at = end;
    return number;
}

static void read_list(const char *at)
{
    uint64_t place = 0;
    while (*at) {
        uint64_t number = read_number(&at);
        if (*at == '=') {
            at++;
            place = number;
            number = read_number(&at);
        }
        put_listed(place++, (uint32_t)number);
        if (*at == ',')
            at++;
        else
            demand(*at == '\0', "WULGACH_POLICY: a comma is missing");
    }
}

/* SEED:DEPTH or SEED:DEPTH:CHOICES. The seed also rolls what nobody plays for. */
static void read_priorities(const char *at)
{
    uint64_t seed = course->random = read_number(&at);
    demand(*at == ':', "WULGACH_POLICY: pct wants SEED:DEPTH");
    at++;
    uint64_t depth = read_number(&at), choices = USUAL_CHOICES;
    demand(depth >= 1 && depth <= MOST_DEPTH, "WULGACH_POLICY: a depth is 1 to 1,000");
    if (*at == ':') {
        at++;
        choices = read_number(&at);
    }
    demand(*at == '\0' && choices >= 1, "WULGACH_POLICY: pct is SEED:DEPTH or SEED:DEPTH:CHOICES");
    draw_priorities(seed, depth, choices);
}

static void read_name(const char *name)
{
    if (strcmp(name, "order") == 0) {
        chosen_by.policy = IN_ORDER;
    } else if (strcmp(name, "lazy") == 0) {
        chosen_by.policy = LAZY;
    } else if (strncmp(name, "seed:", 5) == 0) {
        const char *at = name + 5;
        chosen_by.policy = SEEDED;
        course->random = read_number(&at);
        demand(*at == '\0', "WULGACH_POLICY: a seed is one number");
    } else if (strncmp(name, "pct:", 4) == 0) {
        chosen_by.policy = BY_PRIORITY;
        read_priorities(name + 4);
    } else if (strncmp(name, "list:", 5) == 0) {
        chosen_by.policy = LISTED;
        read_list(name + 5);
    } else {
        stop_program("WULGACH_POLICY is order, lazy, seed:N, pct:SEED:DEPTH or list:ITEMS");
    }
}

static void read_environment(void)
{
    const char *name = getenv("WULGACH_POLICY"), *grain = getenv("WULGACH_CHOOSE");
    const char *record = getenv("WULGACH_CHOICES");
    read_name(name && *name ? name : "order");
    demand(!grain || strcmp(grain, "ends") == 0 || strcmp(grain, "events") == 0,
        "WULGACH_CHOOSE is ends or events");
    chosen_by.is_choosing_events = !grain || strcmp(grain, "events") == 0;
    chosen_by.is_one_choice = wulgach_is_one_choice(kind_of_policy(), chosen_by.is_choosing_events);
    chosen_by.is_recording = record && *record;
    chosen_by.recorded_at = chosen_by.is_recording ? strdup(record) : "";
    demand(chosen_by.recorded_at != NULL, "out of memory");
    chosen_by.is_recording_ways = chosen_by.is_recording && getenv("WULGACH_WAYS");
}

void read_policy(void)
{
    static pthread_once_t once = PTHREAD_ONCE_INIT;
    pthread_once(&once, read_environment);
}

uint32_t kind_of_policy(void)
{
    switch (policy()) {
    case IN_ORDER:
        return WULGACH_IN_ORDER;
    case LAZY:
        return WULGACH_LAZY;
    default:
        return WULGACH_BY_CHOICE;
    }
}

enum policy policy(void)
{
    return chosen_by.policy;
}

bool is_choosing_events(void)
{
    return chosen_by.is_choosing_events;
}

bool is_one_choice(void)
{
    return chosen_by.is_one_choice;
}

/* A generator of 64 bits whose state is a counter (splitmix64). */
static uint64_t roll(void)
{
    uint64_t z = course->random += 0x9e3779b97f4a7c15u;
    z = (z ^ z >> 30) * 0xbf58476d1ce4e5b9u;
    z = (z ^ z >> 27) * 0x94d049bb133111ebu;
    return z ^ z >> 31;
}

uint32_t drawn_apart(uint32_t count)
{
    if (chosen_by.policy != SEEDED && chosen_by.policy != BY_PRIORITY)
        return 0;
    uint64_t kept = course->random;
    course->random = ~kept;
    uint64_t drawn = roll();
    course->random = kept;
    return (uint32_t)((drawn >> 32) * count >> 32);
}

uint64_t count_choice(void)
{
    pthread_mutex_lock(&chosen_by.lock);
    uint64_t at = course->made++;
    pthread_mutex_unlock(&chosen_by.lock);
    return at;
}

uint32_t choose(uint64_t at, uint32_t count)
{
    pthread_mutex_lock(&chosen_by.lock);
    uint32_t chosen = 0;
    if (chosen_by.policy == SEEDED || chosen_by.policy == BY_PRIORITY)
        chosen = (uint32_t)((roll() >> 32) * count >> 32);
    else if (at < chosen_by.list_count)
        chosen = chosen_by.list[at];
    pthread_mutex_unlock(&chosen_by.lock);
    return chosen < count ? chosen : 0;
}

/* The record of this process, opened to append: it may be there, since it has set a ring up. A
 * program that closes low numbers doesn't close it. */
static FILE *record_of_process(void)
{
    char path[4096];
    snprintf(path, sizeof path, "%s.%d", chosen_by.recorded_at, (int)getpid());
    begin_low_number();
    int fd = moved_high(open(path, O_WRONLY | O_CREAT | O_APPEND | O_CLOEXEC, 0666));
    end_low_number();
    FILE *file = fd < 0 ? NULL : fdopen(fd, "a");
    demand(file != NULL, "the file of WULGACH_CHOICES can't be written");
    return file;
}

void note_ring(void)
{
    note_made_ring();
    if (chosen_by.is_recording)
        fclose(record_of_process());
}

/* Whether the record is this process's, and not its parent's; and its number still the record's:
 * the program may have closed that, or taken it for a file of its own. */
static bool is_record_own(void)
{
    struct stat about;
    return record_of.image == this_image() && fstat(fileno(record_of.lines), &about) == 0 &&
           about.st_dev == record_of.device && about.st_ino == record_of.inode;
}

/* (what it is known by isn't closed where it isn't its own) */
static void open_record(void)
{
    static char room[4096]; /* (a turn may be recorded amid malloc) */
    struct stat about = {0};
    if (record_of.lines)
        __fpurge(record_of.lines);
    record_of.lines = record_of_process();
    record_of.image = this_image();
    fstat(fileno(record_of.lines), &about);
    record_of.device = about.st_dev;
    record_of.inode = about.st_ino;
    setvbuf(record_of.lines, room, _IOLBF, sizeof room);
}

static void record_all(const char *format, va_list arguments)
{
    if (!chosen_by.is_recording)
        return;
    tell_own_calls(true);
    if (!record_of.lines || !is_record_own())
        open_record();
    vfprintf(record_of.lines, format, arguments);
    tell_own_calls(false);
}

static void __attribute__((format(printf, 1, 2))) record(const char *format, ...)
{
    va_list arguments;
    va_start(arguments, format);
    record_all(format, arguments);
    va_end(arguments);
}

bool is_recording_ways(void)
{
    return chosen_by.is_recording_ways;
}

void record_line(const char *format, ...)
{
    va_list arguments;
    pthread_mutex_lock(&chosen_by.lock);
    va_start(arguments, format);
    record_all(format, arguments);
    va_end(arguments);
    pthread_mutex_unlock(&chosen_by.lock);
}

void record_choice(uint64_t at, uint32_t count, uint32_t chosen, const char *what)
{
    pthread_mutex_lock(&chosen_by.lock);
    note_choice(what);
    if (wulgach_hear_choice)
        wulgach_hear_choice(at, count, chosen, what);
    record("%" PRIu64 " %" PRIu32 " %" PRIu32 " %s\n", at, chosen, count, what);
    pthread_mutex_unlock(&chosen_by.lock);
}

void share_course(struct wulgach_one_list *shared)
{
    if (!shared->has_begun)
        *shared = own_course;
    shared->has_begun = true;
    course = shared;
}

uint32_t choose_turn(uint32_t count, uint32_t rolled, uint64_t *at)
{
    *at = course->made++;
    uint32_t listed = *at < chosen_by.list_count && chosen_by.list[*at] < count
                          ? chosen_by.list[*at]
                          : 0;
    return chosen_by.policy == LISTED ? listed : rolled;
}

void record_turn(uint64_t at, uint32_t count, uint32_t way, const char *what)
{
    tell_own_calls(true);
    note_choice(what);
    if (wulgach_hear_choice)
        wulgach_hear_choice(at, count, way, what);
    record("%" PRIu64 " %" PRIu32 " %" PRIu32 " %s\n", at, way, count, what);
    tell_own_calls(false);
}

void lock_choices(void)
{
    pthread_mutex_lock(&chosen_by.lock);
}

void unlock_choices(void)
{
    pthread_mutex_unlock(&chosen_by.lock);
}
