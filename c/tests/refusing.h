/* What tests say that is wrong, and memory that is refused when they ask for it: the linker hands
 * malloc and realloc to the functions below. TEST is the test's name. */
#ifndef REFUSING_H
#define REFUSING_H

#include <stdbool.h>
#include <stdio.h>
#include <stdlib.h>

void *__real_malloc(size_t size);
void *__real_realloc(void *at, size_t size);

/* How many calls are served before one is refused; none is below 0. */
static long served = -1;

static bool is_refused(void)
{
    if (served < 0)
        return false;
    return served-- == 0;
}

void *__wrap_malloc(size_t size)
{
    return is_refused() ? NULL : __real_malloc(size);
}

void *__wrap_realloc(void *at, size_t size)
{
    return is_refused() ? NULL : __real_realloc(at, size);
}

static void check(bool is_right, const char *what)
{
    if (!is_right) {
        fprintf(stderr, TEST ": %s\n", what);
        exit(1);
    }
}

#endif
