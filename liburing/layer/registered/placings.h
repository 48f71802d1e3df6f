/* Registered files that are put where there is room. */
#ifndef PLACINGS_H
#define PLACINGS_H

#include <stdint.h>

struct ring;

/* Puts each of these descriptors into a slot that is free, and tells which ones in their place.
 * Returns how many, or the negative of an error number. */
int place_files(struct ring *ring, uint64_t fds, uint32_t count);

#endif
