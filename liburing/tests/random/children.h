/* Running a program in children of its own, on the layer and, if it is plain, on a real ring too.
 */
#ifndef CHILDREN_H
#define CHILDREN_H

#include "program.h"

/* Whether plain programs are run on a real ring too, and whether this machine's kernel gives one.
 */
extern bool has_kernel_rings;
bool look_for_kernel_rings(void);

/* Runs a program, for so many seconds at most. Returns whether all is right; if not, what was said
 * is kept. */
bool is_right(const struct program *program, unsigned seconds);

/* What was last said, or how the child ended. */
const char *last_said(void);

/* How many programs were run on a real ring too. */
extern unsigned compared_with_kernel;

#endif
