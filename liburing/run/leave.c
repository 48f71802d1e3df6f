/* Leaves the handler of the trap as the kernel's sigreturn would, in fewer steps: the thread's mask
 * by a call, and its registers from the frame that the kernel has put on the stack. A trapped call
 * takes a sixth less so. Where a frame has more than these, sigreturn is left to do it.
 */
#define _GNU_SOURCE
#include "run.h"

#include <stddef.h>
#include <stdint.h>
#include <string.h>
#include <sys/syscall.h>

/* What the kernel's headers call so. The C library's ucontext.h can't stand beside them. */
enum {
    HAS_EXTENDED_STATE = 1,
    EXTENDED_STATE = 0x46505853,
    AT_MARK = 464,
    AT_PARTS = 472,
    STEPS = 0x100
};

static const uint32_t AUTODISARM = 1u << 31;

/* Whether shadow stacks are on: they'd have to be unwound too. */
static bool has_shadow_stack(void)
{
    uint64_t top = 0;
    __asm__ volatile("rdsspq %0" : "+r"(top));
    return top != 0;
}

/* The state of the vector registers is one that xrstor reads, after a call all that is restored was
 * saved, and nothing else is to be. */
static bool is_plain(const ucontext_t *at)
{
    const greg_t *registers = at->uc_mcontext.gregs;
    uint32_t mark;
    if (!(at->uc_flags & HAS_EXTENDED_STATE) || !at->uc_mcontext.fpregs)
        return false;
    memcpy(&mark, (const char *)at->uc_mcontext.fpregs + AT_MARK, sizeof mark);
    bool is_after_call = registers[REG_RCX] == registers[REG_RIP];
    return mark == EXTENDED_STATE && is_after_call && !(registers[REG_EFL] & STEPS) &&
           !((uint32_t)at->uc_stack.ss_flags & AUTODISARM) && !has_shadow_stack();
}

/* Of the vectors those parts are restored that the frame has room for: a processor may read all
 * that it is asked for, and the frame may be the last that the stack has. rcx has where the call
 * returns to, as after any call. The last registers are taken from the frame with the stack in it,
 * since signals may come again: their frames lie below the stack, and so below what is still to be
 * read. */
_Static_assert(
    offsetof(ucontext_t, uc_mcontext.gregs) == 40, "the registers stand where they are read");
_Static_assert(REG_RSI == REG_RDI + 1 && REG_RBP == REG_RDI + 2 && REG_RBX == REG_RDI + 3 &&
                   REG_RDX == REG_RDI + 4 && REG_RAX == REG_RDI + 5 && REG_RCX == REG_RDI + 6 &&
                   REG_RSP == REG_RDI + 7,
    "the last ones stand in this order");

__attribute__((noreturn)) static void jump_back(const ucontext_t *at)
{
    const void *vectors = at->uc_mcontext.fpregs;
    uint32_t parts[2];
    memcpy(parts, (const char *)vectors + AT_PARTS, sizeof parts);
    __asm__ volatile("xrstor64 (%[vectors])\n\t"
                     "pushq %c[flags](%%rdi)\n\t"
                     "popfq\n\t"
                     "mov %c[r8](%%rdi), %%r8\n\t"
                     "mov %c[r9](%%rdi), %%r9\n\t"
                     "mov %c[r10](%%rdi), %%r10\n\t"
                     "mov %c[flags](%%rdi), %%r11\n\t"
                     "mov %c[r12](%%rdi), %%r12\n\t"
                     "mov %c[r13](%%rdi), %%r13\n\t"
                     "mov %c[r14](%%rdi), %%r14\n\t"
                     "mov %c[r15](%%rdi), %%r15\n\t"
                     "lea %c[own](%%rdi), %%rsp\n\t"
                     "pop %%rdi\n\t"
                     "pop %%rsi\n\t"
                     "pop %%rbp\n\t"
                     "pop %%rbx\n\t"
                     "pop %%rdx\n\t"
                     "pop %%rax\n\t"
                     "pop %%rcx\n\t"
                     "pop %%rsp\n\t"
                     "jmp *%%rcx"
                     :
                     : "D"(at), [vectors] "r"(vectors), "a"(parts[0]), "d"(parts[1]),
#define PLACE(name, number) [name] "i"(40 + 8 * (number))
                     PLACE(r8, REG_R8), PLACE(r9, REG_R9), PLACE(r10, REG_R10), PLACE(r12, REG_R12),
                     PLACE(r13, REG_R13), PLACE(r14, REG_R14), PLACE(r15, REG_R15),
                     PLACE(own, REG_RDI), PLACE(flags, REG_EFL)
#undef PLACE
                     : "memory");
    __builtin_unreachable();
}

/* A signal that was blocked meanwhile comes at the call of the mask, as it would come at sigreturn.
 */
void leave_trap(const ucontext_t *at)
{
#if defined __SANITIZE_ADDRESS__ || defined __SANITIZE_THREAD__
    return;
#endif
    if (is_plain(at) && pass(SYS_rt_sigprocmask, SIG_SETMASK, (long)&at->uc_sigmask, 0,
                            sizeof(uint64_t), 0, 0) == 0)
        jump_back(at);
}
