/* The one range of code whose calls go to the kernel untrapped: a call with six words; one that
 * makes a thread, which begins here; what a handler of ours returns by; where a wait's mask is put,
 * its signals' handlers are called, and the thread's mask is put back; and what sets the stack of
 * signals as if from another stack, since the kernel refuses that on the one that is changed.
 * Registers of a thread that begins are loaded one by one, as `gregs` has them. Unwinders know what
 * a handler returns by by its bytes (signals.c).
 */
#define _GNU_SOURCE
#include "dispatch.h"
#include "turns.h"

_Static_assert(
    REG_RSP == 15 && REG_RIP == 16 && REG_RDI == 8, "the registers stand where they are read");
_Static_assert(offsetof(struct thread, begins_on) == offsetof(struct thread, registers) + 184,
    "the stack to begin on stands behind them");

#define WORDS_OF_CALL \
    "mov %rdi, %rax\n\tmov %rsi, %rdi\n\tmov %rdx, %rsi\n\tmov %rcx, %rdx\n\tmov %r8, %r10\n\tmov %r9, %r8\n\t"
#define FUNCTION(name) \
    ".globl " #name "\n\t.hidden " #name "\n\t.type " #name ", @function\n" #name ":\n\t"

__asm__(".pushsection .text.passing, \"ax\", @progbits\n\t"
        ".balign 4096\n\t"
        ".globl passing_begins\n\t.hidden passing_begins\npassing_begins:\n\t" FUNCTION(
            turns_kernel) WORDS_OF_CALL
    "mov 8(%rsp), %r9\n\t"
    "syscall\n\t"
    "ret\n\t" FUNCTION(
        make_thread) "push %rbx\n\t"
                     "mov 16(%rsp), %rbx\n\t" WORDS_OF_CALL "syscall\n\t"
                     "test %rax, %rax\n\t"
                     "jz 1f\n\t"
                     "pop %rbx\n\t"
                     "ret\n"
                     "1:\tmov %rsp, 120(%rbx)\n\t"
                     "mov 184(%rbx), %rsp\n\t"
                     "mov %rbx, %rdi\n\t"
                     "call begin_thread\n\t"
                     "hlt\n\t" FUNCTION(
                         return_from_program) "mov %rdi, %rsp\n"
                                              "nop\n" FUNCTION(
                                                  return_from_ours) "mov $15, %rax\n\t"
                                                                    "syscall\n\t"
                                                                    "hlt\n\t" FUNCTION(
                                                                        set_signal_stack_from) "push %rbx\n\t"
                                                                                               "mov %rsp, %rbx\n\t"
                                                                                               "mov %rdx, %rsp\n\t"
                                                                                               "mov $131, %eax\n\t"
                                                                                               "syscall\n\t"
                                                                                               "mov %rbx, %rsp\n\t"
                                                                                               "pop %rbx\n\t"
                                                                                               "ret\n\t" FUNCTION(
                                                                                                   take_pending) "lea 40(%rsp), %rdi\n\t"
                                                                                                                 "mov $8, %esi\n\t"
                                                                                                                 "mov $130, %eax\n\t"
                                                                                                                 "syscall\n\t"
                                                                                                                 "mov $2, %edi\n\t"
                                                                                                                 "lea 48(%rsp), %rsi\n\t"
                                                                                                                 "mov $0, %edx\n\t"
                                                                                                                 "mov $8, %r10d\n\t"
                                                                                                                 "mov $14, %eax\n\t"
                                                                                                                 "syscall\n\t"
                                                                                                                 "mov 8(%rsp), %rdi\n\t"
                                                                                                                 "mov 16(%rsp), %rsi\n\t"
                                                                                                                 "mov 24(%rsp), %rdx\n\t"
                                                                                                                 "mov 32(%rsp), %r10\n\t"
                                                                                                                 "mov (%rsp), %rcx\n\t"
                                                                                                                 "mov $-4, %rax\n\t"
                                                                                                                 "lea 184(%rsp), %rsp\n\t"
                                                                                                                 "jmp *%rcx\n\t" FUNCTION(
                                                                                                                     load_registers) "mov 0(%rdi), %r8\n\t"
                                                                                                                                     "mov 8(%rdi), %r9\n\t"
                                                                                                                                     "mov 16(%rdi), %r10\n\t"
                                                                                                                                     "mov 24(%rdi), %r11\n\t"
                                                                                                                                     "mov 32(%rdi), %r12\n\t"
                                                                                                                                     "mov 40(%rdi), %r13\n\t"
                                                                                                                                     "mov 48(%rdi), %r14\n\t"
                                                                                                                                     "mov 56(%rdi), %r15\n\t"
                                                                                                                                     "mov 72(%rdi), %rsi\n\t"
                                                                                                                                     "mov 80(%rdi), %rbp\n\t"
                                                                                                                                     "mov 88(%rdi), %rbx\n\t"
                                                                                                                                     "mov 96(%rdi), %rdx\n\t"
                                                                                                                                     "mov 120(%rdi), %rsp\n\t"
                                                                                                                                     "mov 128(%rdi), %rcx\n\t"
                                                                                                                                     "mov 64(%rdi), %rdi\n\t"
                                                                                                                                     "xor %eax, %eax\n\t"
                                                                                                                                     "jmp *%rcx\n\t"
                                                                                                                                     ".balign 4096\n\t"
                                                                                                                                     ".globl passing_ends\n\t.hidden passing_ends\npassing_ends:\n\t"
                                                                                                                                     ".popsection\n");
