/* The trap of turns: Syscall User Dispatch (prctl(2)) has the kernel raise SIGSYS in the thread for
 * each call that isn't made in the one range of code that passes. It is a thread's own, so each
 * begins with it; a child that is forked and a program that is exec'd are without.
 *
 * A call is served on the stack of the thread's slot, since one of signals may be small, and with
 * all signals blocked: those that came meanwhile come as it returns. A call of a ring is the
 * layer's, as in trap.c; what that calls itself is trapped within it, and served as any other call.
 */
#define _GNU_SOURCE
#include "dispatch.h"
#include "../run.h"
#include "calls.h"
#include "chance.h"
#include "clocks.h"
#include "dates.h"
#include "logged.h"
#include "notices.h"
#include "turns.h"
#include "watch.h"

#include <errno.h>
#include <string.h>
#include <sys/mman.h>
#include <sys/prctl.h>

enum { BY_FILTER = 1, BY_DISPATCH = 2, RESTORED = 0x04000000 };

uint64_t mask_at(const ucontext_t *at)
{
    uint64_t mask;
    memcpy(&mask, &at->uc_sigmask, sizeof mask);
    return mask;
}

void call_on(char *top, void (*function)(void *), void *argument)
{
    __asm__ volatile("mov %%rsp, %%rbx\n\t"
                     "mov %[top], %%rsp\n\t"
                     "call *%[function]\n\t"
                     "mov %%rbx, %%rsp"
                     : "+D"(argument)
                     : [top] "r"(top), [function] "r"(function)
                     : "rbx", "rax", "rcx", "rdx", "rsi", "r8", "r9", "r10", "r11", "xmm0", "xmm1",
                     "xmm2", "xmm3", "xmm4", "xmm5", "xmm6", "xmm7", "xmm8", "xmm9", "xmm10",
                     "xmm11", "xmm12", "xmm13", "xmm14", "xmm15", "memory", "cc");
}

long pass_on(const struct trap *trap)
{
    const long *words = trap->words;
    return kernel(trap->call, words[0], words[1], words[2], words[3], words[4], words[5]);
}

static void note_place(const struct trap *trap)
{
    self->call = trap->call;
    memcpy(self->words, trap->words, sizeof self->words);
    self->mask = mask_at(trap->at);
    self->stack = (uintptr_t)trap->at->uc_mcontext.gregs[REG_RSP];
}

/* Of which none is a point, since malloc makes them with a lock of its own. */
static bool is_of_memory(long call)
{
    return call == SYS_brk || call == SYS_mmap || call == SYS_munmap || call == SYS_mremap ||
           call == SYS_mprotect || call == SYS_madvise;
}

/* A thread that makes many calls of which no other hears may wait for one all the same, or for a
 * timer. */
static bool is_point(long call, const struct row *row)
{
    enum { MOST_QUIET = 1000, LOOK = 1000 };
    if (!row || !row->is_quiet)
        return true;
    world->now += LOOK;
    return !is_of_memory(call) && ++self->looks > MOST_QUIET;
}

static long serve_row(struct trap *trap)
{
    const struct row *row = row_of(trap->call);
    if (is_point(trap->call, row))
        make_point(trap->call == SYS_sched_yield || trap->call == YIELD_AT_LOCK);
    long result;
    if (serve_logged(trap, &result))
        return result;
    if (row && row->serve)
        return row->serve(trap);
    change_world();
    if (!row)
        tell_unserved(trap, "if it waits, nobody else goes on meanwhile");
    return pass_on(trap);
}

static void serve_trap(void *argument)
{
    struct trap *trap = argument;
    greg_t *registers = trap->at->uc_mcontext.gregs;
    note_place(trap);
    long result = serve_row(trap);
    if (has_left_turns) { /* (a child that was forked) */
        registers[REG_RAX] = result;
        return;
    }
    note_call(trap, result);
    if (result == RESTARTS && is_made_again(trap->call) && is_restarted()) {
        registers[REG_RIP] -= 2;
        registers[REG_RAX] = trap->call;
    } else {
        registers[REG_RAX] = result == RESTARTS ? -EINTR : result;
    }
    process_of(self)->is_doomed |= result == -EPIPE;
    self->mask = mask_at(trap->at);
    end_by_signal(self->mask);
}

static void serve_in_guest(void *argument)
{
    struct trap *trap = argument;
    note_place(trap);
    trap->at->uc_mcontext.gregs[REG_RAX] = serve_guest(trap);
    self->mask = mask_at(trap->at);
}

static void point_before_ring(void *argument)
{
    note_place(argument);
    make_point(false);
}

/* Memory that is shared with a file may be a ring's, unless this library itself maps it. */
static bool is_of_ring(const struct trap *trap)
{
    switch (trap->call) {
    case SYS_io_uring_setup:
    case SYS_io_uring_enter:
    case SYS_io_uring_register:
        return true;
    case SYS_mmap:
        return !(trap->words[3] & MAP_ANONYMOUS) && trap->words[3] & MAP_SHARED &&
               (uint64_t)trap->words[4] >> 32 != PASSES;
    default:
        return false;
    }
}

/* What is marked so is asked of the kernel in earnest. */
static bool asks_kernel(const struct trap *trap)
{
    return (uint64_t)trap->words[5] == ASKS_KERNEL;
}

static char *own_stack(void)
{
    return stack_of_slot(slot_of(self) + 1);
}

/* Calls of the layer's are trapped before it is on a stack of its own (stacks.c), and this one may
 * be small: so it begins on the slot's, with signals on another part of that, since the program's
 * stack of signals may have this trap's frame. */
struct beginning {
    struct trap *trap;
    bool is_served;
};

static void begin_apart(void *argument)
{
    struct beginning *beginning = argument;
    const struct trap *trap = beginning->trap;
    const stack_t signals = {.ss_sp = stack_of_slot(slot_of(self)), .ss_size = SIGNALS_STACK},
                  *program = &trap->at->uc_stack;
    bool has_signals = program->ss_size > 0 && !(program->ss_flags & SS_DISABLE);
    self->is_in_ring = true;
    if (has_signals)
        kernel(SYS_sigaltstack, &signals, 0);
    beginning->is_served = wants_own_stack(trap->at);
    if (beginning->is_served)
        serve_by_layer(trap->at, trap->call);
    if (has_signals)
        kernel(SYS_sigaltstack, program, 0);
    self->is_in_ring = false;
}

static void serve_ring(struct trap *trap)
{
    struct beginning beginning = {trap, false};
    call_on(own_stack(), point_before_ring, trap);
    int kept = errno;
    self->ring_calls++;
    if (!self->is_in_ring)
        call_on(own_stack() - SERVING_STACK, begin_apart, &beginning);
    if (!beginning.is_served)
        serve_by_layer(trap->at, trap->call);
    self->ring_calls--;
    process_of(self)->has_rings |= trap->call == SYS_io_uring_setup;
    errno = kept;
    if (trap->call == SYS_mmap)
        note_mapped(trap, trap->at->uc_mcontext.gregs[REG_RAX]);
    note_call(trap, trap->at->uc_mcontext.gregs[REG_RAX]);
    change_world();
}

static void on_call(int number, siginfo_t *info, void *context)
{
    ucontext_t *at = context;
    greg_t *registers = at->uc_mcontext.gregs;
    struct trap trap = {info->si_syscall,
        {registers[REG_RDI], registers[REG_RSI], registers[REG_RDX], registers[REG_R10],
            registers[REG_R8], registers[REG_R9]},
        at};
    if (info->si_code != BY_DISPATCH)
        give_signal(number, info, at, info->si_code == BY_FILTER);
    else if (trap.call == SYS_rt_sigreturn)
        return_from_program(registers[REG_RSP]);
    else if (!self || self->own_calls > 0 || asks_kernel(&trap) || is_of_log(&trap))
        registers[REG_RAX] = pass_on(&trap);
    else if (process_of(self)->is_guest)
        call_on(own_stack(), serve_in_guest, &trap);
    else if (is_of_ring(&trap))
        serve_ring(&trap);
    else
        call_on(own_stack(), serve_trap, &trap);
}

/* These stay ours, whatever the program says of them. */
bool is_ours(int signal)
{
    return signal == SIGSYS || signal == SIGVTALRM ||
           (signal == SIGSEGV && (world->has_cycles || world->has_features));
}

uint64_t without_ours(uint64_t mask)
{
    const uint64_t one = 1;
    return mask & ~(one << (SIGSYS - 1) | one << (SIGVTALRM - 1) | one << (SIGSEGV - 1) |
                      one << (SIGKILL - 1) | one << (SIGSTOP - 1));
}

struct kernels_action {
    void (*handler)(int, siginfo_t *, void *);
    unsigned long flags;
    void (*restorer)(void);
    uint64_t mask;
};

static void catch_signal(
    int number, void (*handler)(int, siginfo_t *, void *), int flags, uint64_t mask)
{
    struct kernels_action action = {handler,
        (unsigned long)(SA_SIGINFO | SA_ONSTACK | RESTORED | flags), return_from_ours, mask};
    kernel(SYS_rt_sigaction, number, &action, 0, sizeof mask);
}

/* A thread's own: its calls are trapped from here on. */
void catch_calls(void)
{
    kernel(SYS_prctl, PR_SET_SYSCALL_USER_DISPATCH, PR_SYS_DISPATCH_ON, passing_begins,
        passing_ends - passing_begins, &self->is_trapped);
}

/* Without it nothing can be done: the kernel says so here. */
static void demand_dispatch(void)
{
    if (kernel(SYS_prctl, PR_SET_SYSCALL_USER_DISPATCH, PR_SYS_DISPATCH_ON, passing_begins,
            passing_ends - passing_begins, &self->is_trapped) == 0)
        return;
    enum { STOPPED = 125 };
    say_line("--threads: this kernel has no Syscall User Dispatch (prctl(2), Linux 5.11)");
    kernel(SYS_exit_group, STOPPED);
}

void begin_dispatch(void)
{
    const uint64_t all_but_call = ~(
        (uint64_t)1 << (SIGSYS - 1) | (uint64_t)1 << (SIGSEGV - 1)); /* (cpuid faults there too) */
    take_vdso();
    take_chance();
    catch_signal(SIGSYS, on_call, SA_NODEFER, all_but_call);
    catch_signal(SIGVTALRM, on_tick, SA_RESTART, ~(uint64_t)0);
    if (world->has_cycles || world->has_features)
        catch_signal(SIGSEGV, on_fault, SA_NODEFER, 0);
    begin_watch();
    demand_dispatch();
}

/* The layer's stack of signals while it runs on one of its own (stacks.c), which isn't the
 * program's. */
bool set_signal_stack_in_turns(const stack_t *stack);
bool set_signal_stack_in_turns(const stack_t *stack)
{
    return self && kernel(SYS_sigaltstack, stack, 0) == 0;
}

/* In a child that is forked: time, chance and calls are the kernel's again, and rings are trapped
 * as without turns. */
void leave_turns(void)
{
    has_left_turns = true;
    self = NULL;
    pause_chance(true);
    begin_without_turns();
}
