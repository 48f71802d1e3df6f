/* Provided buffers: groups from which a request takes one when it is carried out. */
#ifndef GROUPS_H
#define GROUPS_H

#include "requests/requests.h"
#include "wulgach_buffers.h"

#include <stdbool.h>
#include <stdint.h>

struct group;
struct ring;

/* The operations. Each returns its result. */
int32_t provide_buffers(struct ring *ring, const struct io_uring_sqe *entry);
int32_t remove_buffers(struct ring *ring, const struct io_uring_sqe *entry);

/* The calls of io_uring_register(2), for groups that are rings in memory of the application's. */
int register_buffer_ring(struct ring *ring, uint64_t at, uint32_t count);
int unregister_buffer_ring(struct ring *ring, uint64_t at, uint32_t count);

/* The next buffer of a group, which stays there; false if there is none. */
bool find_provided(struct ring *ring, uint16_t id, struct wulgach_buffer *found);

/* Whether a group is a ring. */
bool has_buffer_ring(struct ring *ring, uint16_t id);

/* Takes the next buffer out. There is one. */
void take_provided(struct ring *ring, uint16_t id);

void free_groups(struct ring *ring);

#endif
