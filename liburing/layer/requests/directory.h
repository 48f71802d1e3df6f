/* Outstanding requests by their user data. */
#ifndef DIRECTORY_H
#define DIRECTORY_H

#include "wulgach_cancel.h"

#include <stdbool.h>
#include <stddef.h>
#include <stdint.h>

struct request;
struct ring;

/* Requests whose user data fall together, by rising number; or none. */
struct drawer {
    struct request *first, *last;
};

/* All that are outstanding, once it is kept. */
struct directory {
    struct drawer *drawers; /* a power of two of them, */
    size_t room; /* so many; 0: it isn't kept */
    size_t count; /* how many requests stand there */
};

void free_directory(struct directory *directory);

/* Where it is kept, a request that was accepted last is put there; one is taken out; and one gets
 * these user data. */
void put_into_directory(struct ring *ring, struct request *request);
void take_from_directory(struct ring *ring, struct request *request);
void rename_in_directory(struct ring *ring, struct request *request, uint64_t user_data);

/* The requests that a cancel has to look at, in the library's order: rank by rank. */
struct seeking {
    struct ring *ring;
    uint64_t user_data;
    uint32_t first, rank; /* the rank with which it began, and the one that is looked at */
    bool is_by_directory; /* those of this user data; else all that are outstanding */
    struct request *next; /* by the directory: the next one, or NULL */
    size_t place; /* else its place; backwards, the one after it */
};

/* Begins with the first. Where many are outstanding and the cancel goes by user data, it keeps the
 * directory from then on. */
void begin_seeking(struct seeking *seeking, struct ring *ring, const struct wulgach_sought *sought);
void begin_seeking_named(struct seeking *seeking, struct ring *ring, uint64_t user_data);

/* The next one, or NULL. None may be accepted or end meanwhile. */
struct request *next_sought(struct seeking *seeking);

#endif
