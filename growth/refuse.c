// Refuses one growth of memory, or one start of a thread, to a program that it is preloaded into.
//
// GROWTH is its number, from 1 on; 0 refuses none. At the program's end it is written to the file
// that GROWTH_COUNT names how many were asked for, how many blocks weren't given back, and how many
// threads were started. The C library keeps blocks of its own for the stacks of threads.
#define _GNU_SOURCE
#include <dlfcn.h>
#include <errno.h>
#include <fcntl.h>
#include <pthread.h>
#include <stdatomic.h>
#include <stdio.h>
#include <stdlib.h>
#include <sys/syscall.h>
#include <unistd.h>

extern void *__libc_malloc(size_t size);
extern void *__libc_calloc(size_t count, size_t size);
extern void *__libc_realloc(void *block, size_t size);
extern void __libc_free(void *block);

static atomic_long asked;
static atomic_long held;
static atomic_long started;
static long refused;

// Whether this growth, which is counted, is the one that is refused.
static int is_refused(void)
{
    return atomic_fetch_add(&asked, 1) + 1 == refused;
}

static void *given(void *block)
{
    if (block)
        atomic_fetch_add(&held, 1);
    return block;
}

static void *none(void)
{
    errno = ENOMEM;
    return NULL;
}

void *malloc(size_t size)
{
    return is_refused() ? none() : given(__libc_malloc(size));
}

void *calloc(size_t count, size_t size)
{
    return is_refused() ? none() : given(__libc_calloc(count, size));
}

void *realloc(void *block, size_t size)
{
    if (is_refused())
        return none();
    void *grown = __libc_realloc(block, size);
    return block ? grown : given(grown);
}

void free(void *block)
{
    if (block)
        atomic_fetch_sub(&held, 1);
    __libc_free(block);
}

int pthread_create(
    pthread_t *thread, const pthread_attr_t *attributes, void *(*start)(void *), void *argument)
{
    static int (*create)(pthread_t *, const pthread_attr_t *, void *(*)(void *), void *);
    if (!create)
        *(void **)&create = dlsym(RTLD_NEXT, "pthread_create");
    if (is_refused())
        return EAGAIN;
    atomic_fetch_add(&started, 1);
    return create(thread, attributes, start, argument);
}

__attribute__((constructor)) static void begin(void)
{
    const char *number = getenv("GROWTH");
    refused = number ? atol(number) : 0;
    asked = 0;
    held = 0;
}

static void tell(void)
{
    const char *name = getenv("GROWTH_COUNT");
    char line[64];
    int length = snprintf(line, sizeof line, "%ld %ld %ld\n", atomic_load(&asked),
        atomic_load(&held), atomic_load(&started));
    int file = name ? open(name, O_WRONLY | O_CREAT | O_TRUNC, 0644) : -1;
    if (file >= 0 && write(file, line, length) == length)
        close(file);
}

__attribute__((destructor)) static void end(void)
{
    tell();
}

// By which the program ends at once, with no call of what is to run at its end.
void _exit(int status)
{
    tell();
    syscall(SYS_exit_group, status);
    __builtin_unreachable();
}
