/* Calls of io_uring_enter that are made again and again at one place: a jump is written there, to a
 * piece of code near it which calls the layer without a trap. */
#ifndef REWRITING_H
#define REWRITING_H

#include <stdbool.h>
#include <stddef.h>
#include <stdint.h>
#include <ucontext.h>

/* mov $426, %eax, and how many bytes at most stand between it and after what is moved with it. */
#define NUMBER "\xb8\xaa\x01\x00\x00"
enum { NUMBER_LENGTH = 5, MOST_MOVED = 64 };

/* The length of an instruction; 0 if it isn't known. */
size_t length_of(const uint8_t *at);

/* Where the call's number is put into eax, if only instructions that can be moved stand between
 * there and the call; else NULL. They are read from the function's first one on. */
const uint8_t *find_number(const uint8_t *function, const uint8_t *call);

/* Where the function begins that has an instruction, as the tables for unwinding say; NULL if they
 * don't. */
const uint8_t *function_of(const uint8_t *call);

/* Whether this processor saves its vectors in the way that a bypass wants. */
bool can_bypass(void);

/* Writes the bypass of a call into a page: what stands from the number on to the call is carried
 * out, and then the layer's call. */
void write_bypass(uint8_t *page, const uint8_t *number, const uint8_t *call);

/* Writes a jump that stands at `from`, and returns where its bytes end. */
uint8_t *put_jump(uint8_t *at, const uint8_t *from, const uint8_t *to);

/* The stack that the thread was made with, but for its last part, if that is large and known; else
 * it has no size. */
struct stack {
    uintptr_t lowest, size;
};
extern __thread struct stack large_stack
    __attribute__((tls_model("initial-exec"), visibility("hidden")));

static inline bool is_on(const struct stack *stack, uintptr_t at)
{
    return at - stack->lowest < stack->size;
}

/* A bypass that is on that stack calls there, and another one on this stack of the thread: none
 * (0), so that each has to be trapped, none but that large one (HERE), or one from here down. While
 * it is called it is none. */
enum { NONE, HERE };
extern __thread uintptr_t bypass_stack
    __attribute__((tls_model("initial-exec"), visibility("hidden")));

/* Lets the thread bypass, from its next call on. It was trapped here. */
void allow_bypass(const ucontext_t *at);

/* A call of io_uring_enter was trapped here. */
void note_site(const ucontext_t *at);

#endif
