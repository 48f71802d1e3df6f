/* A test that asks the layer and a real ring the same: what is included after this asks one of
 * them. */
#ifndef REAL_H
#define REAL_H

#include <stdarg.h>
#include <stdbool.h>
#include <sys/mman.h>
#include <sys/syscall.h>
#include <unistd.h>

/* Which of the two is asked. */
static bool is_real;

long wulgach_syscall(long call, ...);
void *wulgach_mmap(void *at, size_t size, int protection, int flags, int fd, off_t offset);

static long ask(long call, ...)
{
    long words[6];
    va_list arguments;
    va_start(arguments, call);
    for (int i = 0; i < 6; i++)
        words[i] = va_arg(arguments, long);
    va_end(arguments);
    return is_real
               ? syscall(call, words[0], words[1], words[2], words[3], words[4], words[5])
               : wulgach_syscall(call, words[0], words[1], words[2], words[3], words[4], words[5]);
}

#define wulgach_syscall ask
#define wulgach_mmap mmap
#define IS_ALSO_REAL

#endif
