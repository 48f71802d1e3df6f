/* What a ring that was made disabled lets its application do, once it is enabled. */
#ifndef RESTRICTIONS_H
#define RESTRICTIONS_H

#include <linux/io_uring.h>
#include <stdbool.h>
#include <stdint.h>

struct ring;

/* The calls of io_uring_register(2). Each returns 0 or the negative of an error number. */
int register_restrictions(struct ring *ring, uint64_t list, uint32_t count);
int enable_ring(struct ring *ring);

/* Whether an enabled ring may be asked for this. */
bool allows_entry(const struct ring *ring, const struct io_uring_sqe *entry);
bool allows_call(const struct ring *ring, uint32_t code);

#endif
