/* Where code is mapped, what of it is the program's, and where a thread is, in words: the file and
 * line by addr2line(1), or the object and the place in it. */
#ifndef TURNS_CODE_H
#define TURNS_CODE_H

#include <stdint.h>
#include <ucontext.h>

enum { PLACE_ROOM = 320 };

/* Of an address of code. */
void describe_place(const void *at, char room[PLACE_ROOM]);

/* A fault ends the program (telling.c). */
void tell_fault(const ucontext_t *at);

/* Reads what is mapped now. */
void read_code(void);

/* The nearest place on a stack that an instruction of the program's calls from; NULL: none.
 * Libraries of the system are passed over. */
const void *caller_on_stack(uintptr_t stack);

#endif
