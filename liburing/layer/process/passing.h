/* System calls that the filters of `uring-run` let pass: they carry a mark where no call has
 * anything. */
#ifndef PASSING_H
#define PASSING_H

#include <errno.h>
#include <stddef.h>
#include <stdint.h>
#include <sys/mman.h>
#include <sys/syscall.h>

/* The upper half of the 6th argument. The calls that have a 6th argument read its lower half alone.
 */
#define PASSES 0x66696c65UL

/* As the kernel answers: a negative result is an error number. */
static inline long pass(long call, long a, long b, long c, long d, long e, long f)
{
    long result;
    register long fourth __asm__("r10") = d;
    register long fifth __asm__("r8") = e;
    register long sixth __asm__("r9") = (long)(PASSES << 32 | (uint32_t)f);
    /* (the mark isn't left for the next call) */
    __asm__ volatile("syscall\n\txor %%r9d, %%r9d"
                     : "=a"(result), "+r"(sixth)
                     : "a"(call), "D"(a), "S"(b), "d"(c), "r"(fourth), "r"(fifth)
                     : "rcx", "r11", "memory");
    return result;
}

/* Of mmap the 6th argument is whole; of the descriptor only the lower half is read, so that the
 * upper one has the mark. */
static inline long pass_mmap(long at, long size, long protection, long flags, long fd, long offset)
{
    long result;
    register long fourth __asm__("r10") = flags;
    register long fifth __asm__("r8") = (long)(PASSES << 32 | (uint32_t)fd);
    register long sixth __asm__("r9") = offset;
    __asm__ volatile(
        "syscall\n\txor %%r8d, %%r8d"
        : "=a"(result), "+r"(fifth)
        : "a"((long)SYS_mmap), "D"(at), "S"(size), "d"(protection), "r"(fourth), "r"(sixth)
        : "rcx", "r11", "memory");
    return result;
}

/* The same, as the C library's mmap returns. */
static inline void *map_passing(
    void *at, size_t size, int protection, int flags, int fd, int64_t offset)
{
    long result = pass_mmap((long)at, (long)size, protection, flags, fd, offset);
    if (result >= 0 || result < -4095)
        return (void *)result;
    errno = (int)-result;
    return MAP_FAILED;
}

#endif
