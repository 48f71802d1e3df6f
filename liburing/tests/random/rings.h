/* A ring as an application sees it: of the layer, whose descriptor is memory or polls, or of the
 * kernel. */
#ifndef RINGS_H
#define RINGS_H

#include <linux/io_uring.h>
#include <stdbool.h>
#include <stddef.h>
#include <stdint.h>

enum way { LAYER_MEMORY, LAYER_POLLED, KERNEL };

struct ring {
    enum way way;
    int fd;
    struct io_uring_params params;
    char *sq, *cq;
    struct io_uring_sqe *entries;
    size_t sq_size, cq_size, entries_size;
};

struct completion {
    uint64_t user_data;
    int32_t res;
    uint32_t flags;
};

/* Makes a ring. Returns 0 or the negative of an error number. */
int open_ring(
    struct ring *ring, enum way way, uint32_t entries, uint32_t completions, uint32_t flags);
void close_ring(struct ring *ring);

/* One call. A limit is in nanoseconds, or negative; a mask that blocks nothing is given if
 * `has_mask`. */
long enter_ring(const struct ring *ring, uint32_t to_submit, uint32_t min_complete, bool is_getting,
    int64_t limit, bool has_mask);

/* One call of io_uring_register. */
long register_at_ring(const struct ring *ring, unsigned code, const void *argument, unsigned count);

/* Publishes an index word. */
void publish(struct ring *ring, uint32_t word);

/* Words that the other side stores. */
uint32_t sq_head(const struct ring *ring);
uint32_t sq_flags(const struct ring *ring);
uint32_t sq_dropped(const struct ring *ring);
uint32_t cq_tail(const struct ring *ring);
uint32_t cq_overflow(const struct ring *ring);
uint32_t cq_head(const struct ring *ring);

/* Whether the words that never change tell the sizes. */
bool tells_sizes(const struct ring *ring);

/* Whether the descriptor is readable. */
bool is_readable(const struct ring *ring);

/* The completion of a position, and having reaped up to one. */
struct completion completion_at(const struct ring *ring, uint32_t position);
void store_head(struct ring *ring, uint32_t position);

/* Stores the completion ring's flags, which are the application's. */
void store_cq_flags(struct ring *ring, uint32_t flags);

#endif
