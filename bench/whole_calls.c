/* No-ops through the library for C, in batches of the ring's size: whole_calls ENTRIES REQUESTS
 * steps|whole. Writes the seconds that they took, and the sum of the user data reaped. */
#include "wulgach.h"

#include <inttypes.h>
#include <stdio.h>
#include <stdlib.h>
#include <string.h>
#include <time.h>

enum { MOST = 4096 };

static struct wulgach_core core;
static struct wulgach_answer answer;
static struct wulgach_entry entries[MOST];
static struct wulgach_completion completions[MOST];

static void demand(int is_right)
{
    if (!is_right)
        abort();
}

static uint32_t step(uint32_t kind, uint32_t word, uint64_t number)
{
    struct wulgach_step made;
    made.kind = kind;
    made.word = word;
    made.number = number;
    demand(wulgach_core_step(&core, &made, &answer) == 0);
    return answer.kind;
}

static void submit_by_steps(uint32_t count)
{
    struct wulgach_step fill;
    fill.kind = WULGACH_FILL;
    step(WULGACH_LOAD_HEAD, 0, 0);
    for (uint32_t i = 0; i < count; i++) {
        fill.word = i;
        memcpy(fill.entry, entries[i].words, sizeof fill.entry);
        demand(wulgach_core_step(&core, &fill, &answer) == 0 && answer.kind == WULGACH_FILLED);
        step(WULGACH_INDEX, i, 0);
    }
    step(WULGACH_STORE_TAIL, 0, 0);
    step(WULGACH_BEGIN, count, 0);
    for (uint32_t i = 0; i < count; i++)
        step(WULGACH_TAKE, 0, 0);
    demand(step(WULGACH_END, 0, 0) == WULGACH_TAKEN && answer.word == count);
}

static uint64_t reap_by_steps(void)
{
    uint64_t sum = 0;
    step(WULGACH_LOAD_CQ_TAIL, 0, 0);
    while (step(WULGACH_REAP, 0, 0) == WULGACH_REAPED)
        sum += answer.number;
    step(WULGACH_STORE_CQ_HEAD, 0, 0);
    return sum;
}

static uint64_t reap_whole(uint32_t room)
{
    uint64_t sum = 0, count;
    demand(wulgach_core_reap_all(&core, completions, room, &count) == 0);
    for (uint64_t i = 0; i < count; i++)
        sum += completions[i].user_data;
    return sum;
}

int main(int argc, char **argv)
{
    demand(argc == 4);
    uint32_t size = (uint32_t)atoi(argv[1]);
    uint64_t requests = strtoull(argv[2], NULL, 10), number = 0, sum = 0;
    int is_whole = strcmp(argv[3], "whole") == 0;
    struct wulgach_setup setup = {.sq = size, .files = 1};
    struct wulgach_bytes bytes = {{0}};
    struct timespec start, end;
    demand(size <= MOST && wulgach_core_new(&core, &setup) == 0);
    clock_gettime(CLOCK_MONOTONIC, &start);
    while (number < requests) {
        for (uint32_t i = 0; i < size; i++)
            wulgach_nop(entries[i].words, number + i, 0);
        if (is_whole)
            demand(wulgach_core_submit(&core, entries, size, &answer) == 0 &&
                   answer.kind == WULGACH_TAKEN && answer.word == size);
        else
            submit_by_steps(size);
        for (uint32_t i = 0; i < size; i++)
            demand(step(WULGACH_ISSUE, 0, number + i) == WULGACH_RUN);
        for (uint32_t i = 0; i < size; i++)
            demand(wulgach_core_finish(&core, number + i, 0, &bytes, &answer) == 0);
        number += size;
        sum += is_whole ? reap_whole(size) : reap_by_steps();
        step(WULGACH_FLUSH, 0, 0);
    }
    clock_gettime(CLOCK_MONOTONIC, &end);
    printf("%f %" PRIu64 "\n",
        (double)(end.tv_sec - start.tv_sec) + (double)(end.tv_nsec - start.tv_nsec) / 1e9, sum);
    return 0;
}
