/* What the layer's own trap has for turns (trap.c), and which calls are made again after a signal's
 * handler. */
#ifndef TURNS_CALLS_H
#define TURNS_CALLS_H

#include <stdbool.h>
#include <ucontext.h>

/* Serves a trapped call of a ring; the result is put into the registers. */
void serve_by_layer(ucontext_t *at, long call);

/* Sets the filters that a process without turns has. */
void begin_without_turns(void);

bool is_made_again(long call);

#endif
