/* What the files of the preloaded library share. */
#ifndef RUN_H
#define RUN_H

#include "../layer/process/passing.h"

#include <signal.h>
#include <stdbool.h>
#include <stdint.h>
#include <ucontext.h>

/* The 6th argument, which none of the trapped calls uses, of those that are our own: the filter
 * lets them pass. The layer's strict.h has the same. */
#define ASKS_KERNEL 0x57756c6761636821

/* Says a line on standard error: of what, if it is of something, and what is to be said of it. */
void say(const char *message, const char *of);

/* The C library's call after the one that is preloaded; or, where the run has a log and that would
 * be trapped, the kernel's. */
int real_sigmask(int how, const sigset_t *set, sigset_t *before);

/* Carries out a trapped rt_sigprocmask, but that SIGSYS stays open: the mask with which the thread
 * goes on. Returns what the kernel's does. */
long set_mask_without_trap(const long words[6], ucontext_t *at);

/* The same of a trapped rt_sigaction of another signal: SIGSYS stays open while that is handled. */
long set_action_without_trap(const long words[6]);

/* The set without SIGSYS, in this copy. NULL stays NULL. */
const sigset_t *without_trap(const sigset_t *set, sigset_t *copy);

/* SIGSYS may come to this thread again. */
void unblock_trap(void);

/* While a call is served all signals are blocked but SIGSYS and the two of the C library's own. */
#define OPEN_IN_TRAP ((uint64_t)1 << (SIGSYS - 1) | (uint64_t)3 << 31)

/* The thread's mask, by the kernel's call itself, whose set is 64 bits: it becomes another, and is
 * put back. */
static inline void set_mask(uint64_t mask, sigset_t *before)
{
    pass(SYS_rt_sigprocmask, SIG_SETMASK, (long)&mask, (long)before, sizeof mask, 0, 0);
}

static inline void put_mask_back(const sigset_t *before)
{
    pass(SYS_rt_sigprocmask, SIG_SETMASK, (long)before, 0, sizeof(uint64_t), 0, 0);
}

/* Catches SIGSYS, whoever has a filter already. */
bool catch_for_good(void (*handler)(int, siginfo_t *, void *));

/* Whether a program is reached that a process becomes, with these variables. */
bool is_reached(int folder, const char *path, char *const *surrounding);

/* Does with a SIGSYS that isn't the trap's what the program asked for, as its own filter raises
 * one, or another process. It came here. */
void give_signal(int number, siginfo_t *info, ucontext_t *at, bool is_of_filter);

/* Whether a call was trapped on a stack that may be small, as any other than the one that the
 * thread was made with, or that has little room left; what the program says of where its signals
 * come; and calling a function on one that is large. False: there is no memory for one. */
bool wants_own_stack(const ucontext_t *at);
void note_signal_stack(const stack_t *stack);
bool call_on_own_stack(ucontext_t *at, void (*function)(void *), void *argument);

/* Whether the program has set a filter of its own. */
bool has_filter_of_its_own(void);

/* Hears from here on who begins to wait for edges of a ring's descriptor, if that can be; and traps
 * what the program's own instructions do of that: false if that can't be. */
void hear_waiters(void);
bool trap_own_calls(void);

/* What is heard of that, for the layer (layer/rings/waiters.c). */
bool wulgach_share_waiters(void);
void wulgach_hear_waiters(void);
bool wulgach_listens_for_waiters(void);
void wulgach_note_waiter(uint32_t change, int fd);
void wulgach_note_message(uint64_t control);
void wulgach_note_start(void);
void wulgach_note_unheard(void);

/* Tells the layer where the stack stands of a call that runs on another one, or NULL, and returns
 * what it was told before. */
const void *wulgach_note_caller(const void *now);

/* Goes back to where a call was trapped, with the registers and the mask of signals that stand
 * there. Where that can't be done here it returns, and the handler does. */
void leave_trap(const ucontext_t *at);

#define SEEN __attribute__((visibility("default"), externally_visible))

#endif
