/* Real time in tests: what it is, in nanoseconds, and whether requests and waits go by it. */
#ifndef CLOCKS_H
#define CLOCKS_H

#include <stdbool.h>
#include <stdint.h>
#include <stdlib.h>
#include <string.h>
#include <time.h>

static inline int64_t real_time(void)
{
    struct timespec time;
    clock_gettime(CLOCK_MONOTONIC, &time);
    return (int64_t)time.tv_sec * 1000000000 + time.tv_nsec;
}

static inline bool is_time_real(void)
{
#ifdef IS_ALSO_REAL
    return true;
#else
    const char *word = getenv("WULGACH_TIME");
    return word && strcmp(word, "real") == 0;
#endif
}

/* Whether as long has passed since then, where time is real. */
static inline bool has_lasted(int64_t start, int64_t time)
{
    return !is_time_real() || real_time() - start >= time;
}

#endif
