/* The ring of a recorder's scenario: its words, the calls on it, and what is seen of it, a line
 * each. */
#ifndef RING_H
#define RING_H

#include <linux/io_uring.h>
#include <stdbool.h>
#include <stdint.h>

enum { MOST_FILES = 64, MOST_ITEMS = 4096, NO_RING = 77, BAD_LINE = 2 };

struct setup {
    unsigned sq, cq, files;
    unsigned flags; /* of io_uring_setup, beside those that each ring has */
    bool is_stop;
};

struct ring {
    int descriptor;
    unsigned features;
    unsigned *sq_head, *sq_tail, *sq_array, *sq_dropped, *cq_head, *cq_tail;
    unsigned sq_mask, cq_mask, sq_entries;
    struct io_uring_sqe *entries;
    struct io_uring_cqe *completions;
    unsigned staged, seen;
    bool is_head_stored;
};

extern struct ring ring;

/* Ends the process with this status, and says why; and so if something didn't go well. */
_Noreturn void stop(int status, const char *why);
void must(bool is_well, const char *what);

/* Sets the ring up, with so many files, and ends the process if there is none; whether it can. */
void open_ring(struct setup asked);
bool can_open_ring(struct setup asked);

/* The descriptor of a file of this number, or -1. */
int descriptor_of(const char *word);

/* A completion of this name is awaited; whether any is. */
void await(uint64_t user_data);
bool is_any_awaited(void);

/* How many items are staged, and weren't taken. */
unsigned left_staged(void);

/* A call that submits so many, after which it looks at the completion ring. */
void call(unsigned asked, unsigned flags);

/* Waits for so many completions, and no longer than half a second for each. Returns whether they
 * came. */
bool wait_for(unsigned count);

/* Waits until nothing new is seen. */
void wait_for_quiet(void);

#endif
