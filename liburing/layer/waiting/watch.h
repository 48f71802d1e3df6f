/* Who watches that no thread calls, where the policy chooses when requests go on. */
#ifndef WATCH_H
#define WATCH_H

#include <stdbool.h>

/* From here on this process has one, unless its threads take turns. */
void watch_for_calls(void);

/* Whether it has: a thread of its own. */
bool watches(void);

#endif
