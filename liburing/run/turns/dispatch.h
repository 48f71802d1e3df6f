/* The code whose calls pass (passing.c). */
#ifndef DISPATCH_H
#define DISPATCH_H

#include <signal.h>

extern const char passing_begins[], passing_ends[];

/* Makes a thread by clone or clone3, which begins with these registers (begin_thread). */
long make_thread(long call, long a, long b, long c, long d, long e, long *registers);
__attribute__((noreturn)) void load_registers(const long *registers);

/* Goes on where a handler of the program's returns, whose frame stands at this stack. */
__attribute__((noreturn)) void return_from_program(long stack);

/* By which handlers of ours return. */
void return_from_ours(void);

/* Waits by a mask for signals that are pending, whose handlers are called, and goes on after the
 * call: on the stack are where that is, rdi, rsi, rdx, r10, the mask and the thread's. */
void take_pending(void);

/* As sigaltstack(2), called with the stack at this place. */
long set_signal_stack_from(const stack_t *stack, stack_t *before, long at);

#endif
