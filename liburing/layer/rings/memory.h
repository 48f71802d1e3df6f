/* Ring memory: the application maps it as it maps a ring of the kernel. It mirrors the core's
 * rings: the same sizes, the same heads and tails.
 */
#ifndef MEMORY_H
#define MEMORY_H

#include <linux/io_uring.h>
#include <stdbool.h>
#include <stddef.h>
#include <stdint.h>

#include "wulgach_setup.h"

/* The words of each ring, at the start of its mapping. */
struct sq_words {
    uint32_t head, tail, mask, entries, dropped, flags;
};

struct cq_words {
    uint32_t head, tail, mask, entries, overflow, flags;
};

struct memory {
    struct sq_words *sq;
    struct cq_words *cq;
    uint32_t *array; /* the index words, sq_entries of them */
    struct io_uring_cqe *completions; /* cq_entries of them */
    struct io_uring_sqe *entries; /* the entry table, of sq_entries slots */
    uint32_t entry_cells, completion_cells; /* how many cells an entry and a completion take: 1, or
                                               2 where they are large */
    uint32_t sq_entries,
        cq_entries; /* as the layer made them: the application can write to the words */
    size_t sq_size, cq_size, entries_size; /* in bytes */
    bool is_single; /* both rings stand in one mapping, the completion ring after the other */
};

/* A memfd. Returns it, or the negative of an error number. */
int make_file(void);

/* Plans the memory of rings of these sizes, both powers of two, in a single mapping or one for
 * each, and writes into the parameters where everything stands. */
void plan_memory(struct memory *memory, bool is_single, uint32_t sq_entries, uint32_t cq_entries,
    struct io_uring_params *params);

/* Makes it in a memfd, or without a file if `fd` is negative. Returns 0 or the negative of an error
 * number. */
int make_memory(struct memory *memory, int fd);

struct wulgach_mapping;

/* Maps a part of memory without a file once more, as mmap would that is asked so. */
void *map_again(const struct memory *memory, const struct wulgach_mapping *asked);

void free_memory(struct memory *memory);

/* The words are shared with the application: one side stores after what it wrote, the other loads
 * before it reads. */
static inline uint32_t load_word(const uint32_t *word)
{
    return __atomic_load_n(word, __ATOMIC_ACQUIRE);
}

/* The entry of a slot, and the completion of an index: of large ones the first half. */
static inline struct io_uring_sqe *entry_at(const struct memory *memory, uint32_t slot)
{
    return &memory->entries[slot * memory->entry_cells];
}

static inline struct io_uring_cqe *completion_at(const struct memory *memory, uint32_t index)
{
    return &memory->completions[(index & (memory->cq_entries - 1)) * memory->completion_cells];
}

static inline void store_word(uint32_t *word, uint32_t value)
{
    __atomic_store_n(word, value, __ATOMIC_RELEASE);
}

#endif
