/* Syncing a file, or not: under WULGACH_SYNC=skip the disk isn't waited for. A run that ends by no
 * power failure reads the same, and `explore` runs many.
 */
#ifndef SYNCING_H
#define SYNCING_H

#include <stdbool.h>

/* Whether an fsync(2) or fdatasync(2) of a descriptor isn't made. */
bool is_taken_for_synced(int fd);

#endif
