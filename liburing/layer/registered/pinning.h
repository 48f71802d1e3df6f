/* Memory that is registered: its pages stay, and are written. */
#ifndef PINNING_H
#define PINNING_H

#include <stdbool.h>
#include <stddef.h>
#include <sys/uio.h>

/* What a call knows of the memory of its process: nothing at first. It asks once. */
struct known_memory {
    struct span *spans; /* what is shared with files that the kernel writes back, */
    size_t count, room;
    bool is_looked_up; /* once it is looked up, */
    bool is_listed; /* and if it is known */
};

/* The fault of registering these bytes, or 0. */
int pinning_fault(struct known_memory *known, const struct iovec *bytes);

void forget_memory(struct known_memory *known);

#endif
