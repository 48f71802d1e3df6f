/* Whether a fork of this process would go on as the process itself would. */
#ifndef ALONE_H
#define ALONE_H

#include <stdbool.h>

/* NULL if it would; else why not, in words. `folder` is the working folder if each run gets its
 * state back, or NULL. Before main, `is_early`, the program has opened nothing: what it has was
 * given to it. */
const char *why_not_alone(const char *folder, bool is_early);

/* In a forked run: gives each regular file that is open a place in it of its own. What lies in the
 * folder is opened there. */
void reopen_files(void);

#endif
