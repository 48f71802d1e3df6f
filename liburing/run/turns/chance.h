/* Random bytes, the counter of cycles and what a processor says of itself, of the seed or the same
 * in each run. */
#ifndef TURNS_CHANCE_H
#define TURNS_CHANCE_H

#include "turns.h"

void take_chance(void);

/* This thread reads cycles and features itself, or is stopped there again. */
void pause_chance(bool is_paused);
void on_fault(int number, siginfo_t *info, void *context);

void fill_by_chance(void *at, size_t size);
serving serve_getrandom;

#endif
