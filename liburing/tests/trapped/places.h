/* Functions that call io_uring_enter, and whether uring-run rewrites their calls. */
#ifndef PLACES_H
#define PLACES_H

#include <stdbool.h>
#include <stddef.h>

typedef long call_function(long fd, unsigned to_submit, unsigned min_complete, unsigned flags,
    const void *argument, size_t size);

/* A function that calls io_uring_enter: what is to stand before it, its first instruction, which
 * has three bytes, and what is to stand between the number and the call. */
#define PLACE(name, before, first, between) \
    call_function name; \
    __asm__(".text\n\t.balign 64\n\t" before "\n.globl " #name "\n.type " #name \
            ", @function\n" #name ":\n\t.cfi_startproc\n\t" first "\n\tmov $426, %eax\n\t" between \
            "\n" #name "_call:\n\tsyscall\n\tret\n\t.cfi_endproc\n.size " #name ", .-" #name "\n")

PLACE(plain, "", "mov %rcx, %r10", "");
PLACE(moved, "", "not %r10",
    "xor %r9d, %r9d\n\tmov %rcx, %r10\n\tmov %edx, %edx\n\tmovq $8, %r9\n\tmov $8, %r9d\n\t");
PLACE(within_line, ".fill 10, 1, 0x90", "mov %rcx, %r10", "");
PLACE(across_lines, ".fill 58, 1, 0x90", "mov %rcx, %r10", "");
PLACE(with_flag, "", "mov %rcx, %r10", "stc");
PLACE(with_jump, "", "mov %rcx, %r10", "jmp 1f\n1:");
PLACE(with_stack, "", "mov %rcx, %r10", "lea 8(%rsp), %r9");

/* Another instruction has the bytes of the number: lea 426(%r8), %edi. */
PLACE(within_other, "", "mov %rcx, %r10",
    "lea -426(%rdi), %r8\n\tlea 426(%r8), %edi\n\txor %r8d, %r8d");

/* Its number comes from elsewhere. */
PLACE(with_number, "", "mov %rcx, %r10", "mov $426, %r11d\n\tmov %r11d, %eax");

/* Whoever comes from elsewhere to the call. */
call_function jumped;
__asm__(
    ".text\n.globl jumped\n.type jumped, @function\njumped:\n\t.cfi_startproc\n\tmov %rcx, %r10\n\tmov $425, %eax\n\tinc %eax\n\tjmp plain_call\n\t.cfi_endproc\n");

static const struct {
    call_function *call;
    bool is_rewritten;
} places[] = {{plain, true}, {moved, true}, {within_line, true}, {across_lines, false},
    {with_flag, false}, {with_jump, false}, {with_stack, false}, {within_other, false},
    {with_number, false}};

#endif
