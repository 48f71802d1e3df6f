/* Rings that a thread has registered by number, so that its calls needn't name a descriptor:
 * IORING_REGISTER_RING_FDS. */
#ifndef ENROLLING_H
#define ENROLLING_H

#include "wulgach_register.h"

#include <stdbool.h>
#include <stdint.h>

/* The calls of io_uring_register(2). Each returns how many were done, or the negative of an error
 * number. */
int enroll_rings(uint64_t list, uint32_t count);
int dismiss_rings(uint64_t list, uint32_t count);

/* The thread has done this, by which it may become known: of a call, it was asked for so many
 * entries, on a ring with a thread of its own or without. */
void note_deed(enum wulgach_deed deed, uint32_t to_submit, bool has_thread);

/* The descriptor of a number, the layer's own; or the negative of an error number. */
int enrolled_fd(uint32_t number);

#endif
