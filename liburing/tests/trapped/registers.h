/* A call of io_uring_enter with known values in all registers, and what is in them after it. */
#ifndef REGISTERS_H
#define REGISTERS_H

#include <stdbool.h>
#include <stdint.h>
#include <sys/syscall.h>

/* What a call has in its registers, before and after it. The upper halves of the vectors count
 * where there are any. */
static struct {
    uint64_t vectors[16][4], vectors_after[16][4];
    uint64_t arguments[6];
    uint64_t after[15]; /* those of the arguments, rbp and r12 to r15, two words past the stack, the
                           carry, the result */
    uint64_t frame; /* rbp before it: whoever walks the stack may need it, so it has no value of the
                       test's */
} seen;

#define EACH(move) \
    move(0) move(1) move(2) move(3) move(4) move(5) move(6) move(7) move(8) move(9) move(10) \
        move(11) move(12) move(13) move(14) move(15)
#define LOAD(n) "vmovdqu 32*" #n "(%%rbx), %%ymm" #n "\n\t"
#define STORE(n) "vmovdqu %%ymm" #n ", 512+32*" #n "(%%rbx)\n\t"
#define LOAD_HALF(n) "movdqu 32*" #n "(%%rbx), %%xmm" #n "\n\t"
#define STORE_HALF(n) "movdqu %%xmm" #n ", 512+32*" #n "(%%rbx)\n\t"
#define CALL(load, store) \
    __asm__ volatile(EACH( \
        load) "mov 1024(%%rbx), %%rdi\n\tmov 1032(%%rbx), %%rsi\n\tmov 1040(%%rbx), %%rdx\n\t" \
              "mov 1048(%%rbx), %%r10\n\tmov 1056(%%rbx), %%r8\n\tmov 1064(%%rbx), %%r9\n\t" \
              "mov %%rbp, 1192(%%rbx)\n\tmov $112, %%r12\n\tmov $113, %%r13\n\tmov $114, %%r14\n\tmov $115, %%r15\n\t" \
              "movq $116, -8(%%rsp)\n\tmovq $117, -128(%%rsp)\n\tstc\n\tmov %[call], %%eax\n\tsyscall\n\t" \
              "mov %%rdi, 1072(%%rbx)\n\tmov %%rsi, 1080(%%rbx)\n\tmov %%rdx, 1088(%%rbx)\n\t" \
              "mov %%r10, 1096(%%rbx)\n\tmov %%r8, 1104(%%rbx)\n\tmov %%r9, 1112(%%rbx)\n\t" \
              "mov %%rbp, 1120(%%rbx)\n\tmov %%r12, 1128(%%rbx)\n\tmov %%r13, 1136(%%rbx)\n\t" \
              "mov %%r14, 1144(%%rbx)\n\tmov %%r15, 1152(%%rbx)\n\tmov %%rax, 1184(%%rbx)\n\t" \
              "mov -8(%%rsp), %%rax\n\tmov %%rax, 1160(%%rbx)\n\tmov -128(%%rsp), %%rax\n\tmov %%rax, 1168(%%rbx)\n\t" \
              "mov $0, %%eax\n\tadc $0, %%rax\n\tmov %%rax, 1176(%%rbx)\n\t" EACH(store) \
                     : \
                     : "b"(&seen), [call] "i"(SYS_io_uring_enter) \
                     : "rax", "rcx", "rdx", "rsi", "rdi", "r8", "r9", "r10", "r11", "r12", "r13", \
                     "r14", "r15", "xmm0", "xmm1", "xmm2", "xmm3", "xmm4", "xmm5", "xmm6", "xmm7", \
                     "xmm8", "xmm9", "xmm10", "xmm11", "xmm12", "xmm13", "xmm14", "xmm15", \
                     "memory", "cc")

/* Calls with the arguments and vectors of `seen`, and the carry set. */
static void call_with_registers(bool has_upper_halves)
{
    if (has_upper_halves)
        CALL(LOAD, STORE);
    else
        CALL(LOAD_HALF, STORE_HALF);
}

/* Vectors that are all different, by this number. */
static inline void fill_vectors(bool is_whole, uint64_t salt)
{
    for (unsigned i = 0; i < 64; i++)
        seen.vectors[i / 4][i % 4] = is_whole || i % 4 < 2 ? 0x9e3779b97f4a7c15u * (i + salt) : 0;
}

#endif
