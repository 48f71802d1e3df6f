/* The program's calls by which a ring's descriptor may be closed: after one the rings that nobody
 * can reach any more let go what they have registered and what waits in them, as the kernel has it
 * with the last descriptor. Any other close costs a look whether the number may be a ring's.
 *
 * A close by a system call of the program's own isn't heard, since no filter can tell a ring's
 * number from others; nor is that of the real liburing.
 *
 * A program may close in a signal's handler, amid malloc or free (signal-safety(7)). So what the
 * layer frees after a close is kept, and freed when it next frees anything in a call.
 */
#define _GNU_SOURCE
#include "run.h"

#include <dlfcn.h>
#include <errno.h>
#include <stdlib.h>
#include <string.h>
#include <sys/syscall.h>
#include <unistd.h>

bool wulgach_may_name_ring(int fd);
void wulgach_look_for_closed(void);
void wulgach_hear_closes(void);

static struct {
    int (*close)(int);
    int (*close_range)(unsigned, unsigned, int);
    void (*closefrom)(int);
    int (*dup2)(int, int);
    int (*dup3)(int, int, int);
} real;

/* (a child of vfork is to find them) */
__attribute__((constructor)) static void find_real(void)
{
    *(void **)&real.close = dlsym(RTLD_NEXT, "close");
    *(void **)&real.close_range = dlsym(RTLD_NEXT, "close_range");
    *(void **)&real.closefrom = dlsym(RTLD_NEXT, "closefrom");
    *(void **)&real.dup2 = dlsym(RTLD_NEXT, "dup2");
    *(void **)&real.dup3 = dlsym(RTLD_NEXT, "dup3");
}

/* Whether the user says that the program closes rings so alone. */
__attribute__((constructor)) static void read_environment(void)
{
    const char *word = getenv("WULGACH_CLOSES");
    if (word && strcmp(word, "heard") == 0) {
        wulgach_hear_closes();
    } else if (word && *word && strcmp(word, "any") != 0) {
        say("WULGACH_CLOSES is any or heard", "");
        _exit(125);
    }
}

/* Another library's constructor may be first. */
static void want_real(void)
{
    if (!real.close)
        find_real();
}

/* Whether the thread looks for closed rings now. */
static __thread bool is_looking __attribute__((tls_model("initial-exec")));

/* A block of memory that is to be freed, and the next (malloc's smallest has room for that). */
struct block {
    struct block *next;
};

static struct block *blocks;

static void keep_block(struct block *block)
{
    block->next = __atomic_load_n(&blocks, __ATOMIC_RELAXED);
    while (!__atomic_compare_exchange_n(
        &blocks, &block->next, block, true, __ATOMIC_RELEASE, __ATOMIC_RELAXED))
        ;
}

void __real_free(void *block);

/* Whatever the layer, its library, and this one free goes here. */
__attribute__((visibility("hidden"))) void __wrap_free(void *block)
{
    if (is_looking) {
        if (block)
            keep_block(block);
        return;
    }
    __real_free(block);
    if (!__atomic_load_n(&blocks, __ATOMIC_RELAXED))
        return;
    for (struct block *kept = __atomic_exchange_n(&blocks, NULL, __ATOMIC_ACQUIRE), *next; kept;
         kept = next) {
        next = kept->next;
        __real_free(kept);
    }
}

static void look_for_closed(void)
{
    int kept = errno;
    bool was_looking = is_looking;
    is_looking = true;
    wulgach_look_for_closed();
    is_looking = was_looking;
    errno = kept;
}

/* Closes of the layer, and of this library, go here: those of the program below. */
__attribute__((visibility("hidden"))) int __wrap_close(int fd)
{
    long result = pass(SYS_close, fd, 0, 0, 0, 0, 0);
    if (result >= 0)
        return 0;
    errno = (int)-result;
    return -1;
}

SEEN int close(int fd)
{
    want_real();
    bool may_be_ring = wulgach_may_name_ring(fd);
    int result = real.close(fd);
    if (may_be_ring)
        look_for_closed();
    return result;
}

/* (a C library before 2.34 has neither this one nor the next) */
SEEN int close_range(unsigned first, unsigned last, int flags)
{
    want_real();
    int result = real.close_range ? real.close_range(first, last, flags)
                                  : (int)syscall(SYS_close_range, first, last, flags);
    look_for_closed();
    return result;
}

SEEN void closefrom(int first)
{
    want_real();
    if (real.closefrom)
        real.closefrom(first);
    else
        syscall(SYS_close_range, first, ~0u, 0);
    look_for_closed();
}

SEEN int dup2(int fd, int number)
{
    want_real();
    bool may_be_ring = wulgach_may_name_ring(number);
    int result = real.dup2(fd, number);
    if (may_be_ring)
        look_for_closed();
    return result;
}

SEEN int dup3(int fd, int number, int flags)
{
    want_real();
    bool may_be_ring = wulgach_may_name_ring(number);
    int result = real.dup3(fd, number, flags);
    if (may_be_ring)
        look_for_closed();
    return result;
}
