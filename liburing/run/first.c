/* This library is the first whose constructors are called (-z initfirst), since those of others may
 * call io_uring. The C library hasn't begun then: it doesn't know its surrounding, and takes it as
 * it was given when it begins, whatever was changed. So runs by forks, which have variables of
 * their own, begin later, as main is called.
 */
#define _GNU_SOURCE
#include "run.h"

#include <dlfcn.h>
#include <unistd.h>

void wulgach_await_main(void);
void wulgach_serve_before_main(void);

/* (before all others of this library) */
static void __attribute__((constructor(101)))
take_surrounding(int count, char **words, char **surrounding)
{
    (void)count, (void)words;
    if (!__environ)
        __environ = surrounding;
    wulgach_await_main();
}

typedef int start_main(int (*program)(int, char **, char **), int count, char **words,
    void (*begin)(void), void (*end)(void), void (*loader_ends)(void), void *stack);

SEEN start_main __libc_start_main;

int __libc_start_main(int (*program)(int, char **, char **), int count, char **words,
    void (*begin)(void), void (*end)(void), void (*loader_ends)(void), void *stack)
{
    start_main *call;
    *(void **)&call = dlsym(RTLD_NEXT, "__libc_start_main");
    wulgach_serve_before_main();
    return call(program, count, words, begin, end, loader_ends, stack);
}
