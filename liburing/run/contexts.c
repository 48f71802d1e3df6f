/* A context that the C library goes on in has a mask: SIGSYS stays open in it. The mask of one that
 * it comes to by itself, where another's function ends (uc_link), is the program's.
 *
 * Whoever comes back to where a context was kept comes back to the program's call, maybe more than
 * once: so these calls have no frame of their own by then, and jump to the C library's.
 */
#define _GNU_SOURCE
#include "run.h"

#include <dlfcn.h>
#include <signal.h>
#include <ucontext.h>

void *before_setcontext(ucontext_t *to);
void *before_swapcontext(ucontext_t *kept, ucontext_t *to);

static struct {
    void *setcontext, *swapcontext;
} real;

/* (looked up once, and on a stack that is large: a context's may be small) */
__attribute__((constructor)) static void find_real(void)
{
    real.setcontext = dlsym(RTLD_NEXT, "setcontext");
    real.swapcontext = dlsym(RTLD_NEXT, "swapcontext");
}

/* Another library's constructor may be first. */
static void open_trap_in(ucontext_t *context)
{
    if (!real.setcontext)
        find_real();
    if (sigismember(&context->uc_sigmask, SIGSYS) == 1)
        sigdelset(&context->uc_sigmask, SIGSYS);
}

__attribute__((used)) void *before_setcontext(ucontext_t *to)
{
    open_trap_in(to);
    return real.setcontext;
}

__attribute__((used)) void *before_swapcontext(ucontext_t *kept, ucontext_t *to)
{
    (void)kept;
    open_trap_in(to);
    return real.swapcontext;
}

#define JUMPS(name) \
    __asm__(".text\n" \
            ".globl " #name "\n" \
            ".type " #name ", @function\n" #name ":\n\t" \
            ".cfi_startproc\n\t" \
            "endbr64\n\t" \
            "push %rdi\n\t" \
            ".cfi_adjust_cfa_offset 8\n\t" \
            "push %rsi\n\t" \
            ".cfi_adjust_cfa_offset 8\n\t" \
            "sub $8, %rsp\n\t" \
            ".cfi_adjust_cfa_offset 8\n\t" \
            "call before_" #name "\n\t" \
            "add $8, %rsp\n\t" \
            ".cfi_adjust_cfa_offset -8\n\t" \
            "pop %rsi\n\t" \
            ".cfi_adjust_cfa_offset -8\n\t" \
            "pop %rdi\n\t" \
            ".cfi_adjust_cfa_offset -8\n\t" \
            "jmp *%rax\n\t" \
            ".cfi_endproc\n" \
            ".size " #name ", .-" #name "\n")

JUMPS(setcontext);
JUMPS(swapcontext);
