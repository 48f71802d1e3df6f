/* The measures of `measures/` that cost least a step, through the library for C: the full path of a
 * no-op, and each kind of step after 16 requests that run. Each line is a measure: its name, how
 * many steps were timed, the nanoseconds that they took, and a digest of their answers, made as
 * `measures/` makes it. */
#define _POSIX_C_SOURCE 200809L
#include "wulgach.h"

#include <inttypes.h>
#include <stdio.h>
#include <stdlib.h>
#include <time.h>

enum { BATCH = 1024, PATH_REQUESTS = 4096, MEASURED = 256, KINDS = 13 };

struct measure {
    uint64_t steps, nanoseconds, digest;
};

static const uint32_t path_kinds[KINDS] = {WULGACH_FILL, WULGACH_INDEX, WULGACH_STORE_TAIL,
    WULGACH_BEGIN, WULGACH_TAKE, WULGACH_END, WULGACH_LOAD_HEAD, WULGACH_ISSUE, WULGACH_FINISH,
    WULGACH_LOAD_CQ_TAIL, WULGACH_REAP, WULGACH_STORE_CQ_HEAD, WULGACH_FLUSH};
static const char *const names[KINDS] = {"fill", "index", "tail", "begin", "take", "end", "head",
    "issue", "finish", "cqtail", "reap", "cqhead", "flush"};

static uint64_t value(const struct wulgach_answer *a)
{
    switch (a->kind) {
    case WULGACH_FILLED:
        return 1;
    case WULGACH_STAGED:
        return 2;
    case WULGACH_TAIL:
        return a->word * UINT64_C(16) + 3;
    case WULGACH_HEAD:
        return a->word * UINT64_C(16) + 4;
    case WULGACH_CALL:
        return a->word * UINT64_C(16) + 5;
    case WULGACH_ENTRY:
        return a->entry[4] * 16 + 6;
    case WULGACH_TAKEN:
        return a->word * UINT64_C(16) + 7;
    case WULGACH_RUN:
        return 8;
    case WULGACH_ENDED:
        return ((uint32_t)a->res ^ a->bytes[0]) * UINT64_C(16) + 9;
    case WULGACH_MOVED:
        return a->number * 16 + 10;
    case WULGACH_REAPED:
        return a->number * 16 + 11;
    case WULGACH_NEXT_IS:
        return a->number * 16 + 12;
    case WULGACH_NOTHING:
        return 13;
    default:
        return 0;
    }
}

static uint64_t now(void)
{
    struct timespec at;
    clock_gettime(CLOCK_MONOTONIC, &at);
    return (uint64_t)at.tv_sec * 1000000000 + (uint64_t)at.tv_nsec;
}

static void make_steps(struct wulgach_machine *machine, struct measure *measure,
    const struct wulgach_step *steps, size_t count)
{
    static struct wulgach_answer answers[BATCH];
    for (size_t from = 0; from < count; from += BATCH) {
        size_t batch = count - from < BATCH ? count - from : BATCH;
        uint64_t start = now();
        for (size_t i = 0; i < batch; i++)
            wulgach_machine_step(machine, &steps[from + i], &answers[i]);
        measure->nanoseconds += now() - start;
        measure->steps += batch;
        for (size_t i = 0; i < batch; i++)
            measure->digest = (measure->digest * UINT64_C(1099511628211)) ^ value(&answers[i]);
    }
}

/* Writes the steps of a kind in a round of `size` requests, numbered from `first` on, and returns
 * how many they are. */
static size_t put_kind(struct wulgach_step *steps, uint32_t kind, uint64_t first, uint32_t size)
{
    bool is_repeated = kind == WULGACH_FILL || kind == WULGACH_INDEX || kind == WULGACH_TAKE ||
                       kind == WULGACH_ISSUE || kind == WULGACH_FINISH || kind == WULGACH_REAP;
    uint32_t count = is_repeated ? size : 1;
    for (uint32_t slot = 0; slot < count; slot++) {
        steps[slot] = (struct wulgach_step){.kind = kind,
            .word = kind == WULGACH_BEGIN ? UINT32_MAX : slot,
            .number = first + slot};
        wulgach_nop(steps[slot].entry, first + slot, 0);
    }
    return count;
}

static size_t put_round(struct wulgach_step *steps, uint64_t first, uint32_t size)
{
    size_t count = 0;
    for (int i = 0; i < KINDS; i++)
        count += put_kind(steps + count, path_kinds[i], first, size);
    return count;
}

static void print(const struct measure *m, const char *name, uint32_t point, const char *part)
{
    printf("%s_%" PRIu32 "_%s %" PRIu64 " %" PRIu64 " %" PRIu64 "\n", name, point, part, m->steps,
        m->nanoseconds, m->digest);
}

static struct wulgach_machine machine_of(uint32_t size)
{
    struct wulgach_machine machine = {0};
    if (wulgach_machine_new(&machine, &(struct wulgach_setup){.sq = size, .files = 1}) != 0)
        exit(1);
    return machine;
}

static void path(struct wulgach_step *steps, uint32_t size)
{
    struct wulgach_machine machine = machine_of(size);
    size_t count = 0;
    for (uint32_t first = 0; first < PATH_REQUESTS; first += size)
        count += put_round(steps + count, first, size);
    struct measure measure = {0};
    make_steps(&machine, &measure, steps, count);
    print(&measure, "path", size, "all");
    wulgach_machine_free(&machine);
}

static void outstanding(struct wulgach_step *steps, uint32_t running)
{
    struct wulgach_machine machine = machine_of(PATH_REQUESTS);
    struct measure none = {0}, measures[KINDS] = {{0}};
    size_t count = 0;
    for (int i = 0; i < 8; i++)
        count += put_kind(steps + count, path_kinds[i], 0, running);
    make_steps(&machine, &none, steps, count);
    make_steps(&machine, &none, steps, put_round(steps, running, 8));
    for (uint64_t first = running + 8; first < running + 8 + MEASURED; first += 8)
        for (int i = 0; i < KINDS; i++)
            make_steps(&machine, &measures[i], steps, put_kind(steps, path_kinds[i], first, 8));
    for (int i = 0; i < KINDS; i++)
        print(&measures[i], "outstanding", running, names[i]);
    wulgach_machine_free(&machine);
}

int main(void)
{
    struct wulgach_step *steps = malloc((size_t)KINDS * PATH_REQUESTS * sizeof *steps);
    if (!steps)
        return 1;
    for (uint32_t size = 1; size <= PATH_REQUESTS; size *= size == 64 ? 64 : 8)
        path(steps, size);
    outstanding(steps, 16);
    free(steps);
    return 0;
}
