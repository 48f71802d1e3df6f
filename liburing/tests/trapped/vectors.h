/* A call of io_uring_enter with all that a processor of vectors of 64 bytes keeps, and what is left
 * of that after it; with no more than their first 32 bytes, and no more than 16 of the first 16
 * vectors. */
#ifndef VECTORS_H
#define VECTORS_H

#include "registers.h"

#include <cpuid.h>

static struct {
    uint8_t vectors[32][64], vectors_after[32][64];
    uint64_t masks[8], masks_after[8];
    double top, top_after; /* of the stack of x87 */
    uint32_t in_use_after;
    int fd;
} wide;

static bool has_wide_vectors(void)
{
    enum { SAYS_IN_USE = 4 };
    uint32_t a, b, c, d;
    return __builtin_cpu_supports("avx512f") && __builtin_cpu_supports("avx512bw") &&
           __get_cpuid_count(13, 1, &a, &b, &c, &d) && a & SAYS_IN_USE;
}

#define FOR_EACH(numbers, line) ".irp n," numbers "\n\t" line "\n\t.endr\n\t"
#define FIRST "0,1,2,3,4,5,6,7,8,9,10,11,12,13,14,15"
#define FURTHER "16,17,18,19,20,21,22,23,24,25,26,27,28,29,30,31"
#define ENTERS \
    "mov %[fd], %%edi\n\tmov $1, %%esi\n\tmov $1, %%edx\n\tmov $1, %%r10d\n\txor %%r8d, %%r8d\n\tmov $8, %%r9d\n\t.p2align 6\n\tmov $426, %%eax\n\tsyscall\n\t"
#define CHANGES \
    "rax", "rcx", "rdx", "rsi", "rdi", "r8", "r9", "r10", "r11", "xmm0", "xmm1", "xmm2", "xmm3", \
        "xmm4", "xmm5", "xmm6", "xmm7", "xmm8", "xmm9", "xmm10", "xmm11", "xmm12", "xmm13", \
        "xmm14", "xmm15", "memory", "cc"

__attribute__((noinline)) static void call_with_all(void)
{
    __asm__ volatile(
        "fldl %[top]\n\t" FOR_EACH(FIRST "," FURTHER, "vmovdqu64 \\n*64(%[at]), %%zmm\\n")
            FOR_EACH("0,1,2,3,4,5,6,7", "kmovq \\n*8(%[masks]), %%k\\n")
                ENTERS FOR_EACH(FIRST "," FURTHER, "vmovdqu64 %%zmm\\n, 2048+\\n*64(%[at])")
                    FOR_EACH("0,1,2,3,4,5,6,7",
                        "kmovq %%k\\n, 64+\\n*8(%[masks])") "fstpl %[after]\n\tvzeroupper"
        : [after] "=m"(wide.top_after)
        : [top] "m"(wide.top), [at] "r"(wide.vectors), [masks] "r"(wide.masks), [fd] "m"(wide.fd)
        : CHANGES);
}

__attribute__((noinline)) static void call_with_halves(void)
{
    __asm__ volatile(
        "vzeroupper\n\t" FOR_EACH(FIRST "," FURTHER, "vmovdqu64 \\n*64(%[at]), %%ymm\\n")
            FOR_EACH("0,1,2,3,4,5,6,7", "kmovq \\n*8(%[masks]), %%k\\n")
                ENTERS FOR_EACH(FIRST "," FURTHER, "vmovdqu64 %%ymm\\n, 2048+\\n*64(%[at])")
                    FOR_EACH("0,1,2,3,4,5,6,7", "kmovq %%k\\n, 64+\\n*8(%[masks])") "vzeroupper"
        :
        : [at] "r"(wide.vectors), [masks] "r"(wide.masks), [fd] "m"(wide.fd)
        : CHANGES);
}

__attribute__((noinline)) static void call_with_quarters(void)
{
    __asm__ volatile("vzeroupper\n\t" FOR_EACH(FIRST, "movdqu \\n*64(%[at]), %%xmm\\n") ENTERS
                     "mov $1, %%ecx\n\txgetbv\n\tmov %%eax, %[in_use]\n\t" FOR_EACH(
                         FIRST, "vmovdqu64 %%zmm\\n, 2048+\\n*64(%[at])") "vzeroupper"
                     : [in_use] "=m"(wide.in_use_after)
                     : [at] "r"(wide.vectors), [fd] "m"(wide.fd)
                     : CHANGES);
}

#endif
