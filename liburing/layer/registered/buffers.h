/* Registered buffers: memory of the application's, by index. */
#ifndef BUFFERS_H
#define BUFFERS_H

#include "wulgach_buffers.h"
#include "wulgach_register.h"
#include "wulgach_tables.h"

#include <stdbool.h>
#include <stdint.h>
#include <sys/uio.h>

struct inbox;
struct message;

/* A registered buffer. It is gone once no slot and no request has it. */
struct buffer {
    struct iovec bytes;
    struct wulgach_uses uses; /* when that is, is the library's decision */
    struct inbox *told; /* who is told its tag then, */
    struct message *tag; /* or NULL: it has none */
};

struct buffers {
    struct wulgach_table table; /* which slot holds what is the library's: */
    uint64_t *words; /* of each slot the address of its buffer, or 0 */
};

struct ring;

/* The calls of io_uring_register(2), with the lists that the library says. Each returns 0 or the
 * number of buffers updated, or the negative of an error number. */
int register_buffers(struct ring *ring, const struct wulgach_lists *lists);
int unregister_buffers(struct ring *ring, bool has_argument);
void free_buffers(struct ring *ring);
int update_buffers(struct ring *ring, const struct wulgach_lists *lists);

/* The buffer of an index, one use more, if these bytes lie in it: 0, or its fault. */
int use_buffer(struct ring *ring, uint32_t index, const struct iovec *bytes, struct buffer **used);

/* One use less. Nothing, of NULL. */
void release_buffer(struct buffer *buffer);

#endif
