/* A registered eventfd: it is told of completions. */
#ifndef EVENTFDS_H
#define EVENTFDS_H

#include <stdbool.h>
#include <stdint.h>

struct ring;

/* The calls of io_uring_register(2). Each returns 0 or the negative of an error number. */
int register_eventfd(struct ring *ring, uint64_t fd, bool is_async);
int unregister_eventfd(struct ring *ring);

/* So many completions have come into the ring, shown together, of which it is to be told. It waits
 * for nothing. */
void tell_eventfd(struct ring *ring, uint64_t told);

/* Whether it is what this descriptor is open on. */
bool is_own_eventfd(const struct ring *ring, int fd);

#endif
