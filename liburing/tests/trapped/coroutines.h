/* Memory for stacks of a program that is linked with nothing of ours, and coroutines on them. */
#ifndef COROUTINES_H
#define COROUTINES_H

#include "trapped.h"

#include <ucontext.h>

/* Memory for a stack, below which there is a page that can't be touched. */
static char *make_stack(size_t size)
{
    const size_t page = 4096;
    char *memory = mmap(
        NULL, page + size, PROT_READ | PROT_WRITE, MAP_PRIVATE | MAP_ANONYMOUS, -1, 0);
    WANT(memory != MAP_FAILED && mprotect(memory, page, PROT_NONE) == 0);
    return memory + page;
}

static ucontext_t outside, inside;

static inline void run_coroutine(size_t size, void (*function)(void))
{
    WANT(getcontext(&inside) == 0);
    inside.uc_stack = (stack_t){.ss_sp = make_stack(size), .ss_size = size};
    inside.uc_link = &outside;
    makecontext(&inside, function, 0);
    WANT(swapcontext(&outside, &inside) == 0);
    WANT(munmap(inside.uc_stack.ss_sp, size) == 0);
}

#endif
