/* Items of a recorder's scenario, and the pipes for which its holds wait. */
#ifndef ITEMS_H
#define ITEMS_H

#include <stdbool.h>
#include <stdint.h>

/* Stages the item that these words are, or says that they are none. */
bool item(int count, char **words);

/* Writes the byte into the pipes of this name that have none yet; or into each in its turn, and
 * waits for what comes. */
void release(uint64_t user_data);
void release_all(void);

#endif
