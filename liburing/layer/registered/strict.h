/* Strictness: under WULGACH_STRICT=yes the layer refuses what the kernel of this machine would
 * refuse. */
#ifndef STRICT_H
#define STRICT_H

#include "rings/ring.h"

/* The 6th argument, which the calls don't use, of those that are to reach the kernel: the filter of
 * uring-run lets them. */
#define ASKS_KERNEL 0x57756c6761636821

bool is_strict(void);

/* Has the kernel judge a set-up: 0, or the negative of the error number that it refuses it with. */
int ask_set_up(uint32_t entries, const struct io_uring_params *params);

/* What an entry is refused with that was read just now, or 0: by a strict ring, or as a drain
 * beside skipped success, as Linux's rules have it. */
int32_t strict_fault(struct ring *ring, const struct io_uring_sqe *entry);

#endif
