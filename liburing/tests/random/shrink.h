#ifndef SHRINK_H
#define SHRINK_H

#include "program.h"

/* Makes a program that fails shorter, for a minute at most. What the shorter one says is said last.
 */
void shrink(struct program *program);

#endif
