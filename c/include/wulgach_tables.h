/* Wulgach: what a ring's restrictions allow, and what the slots of its tables of registered files
 * and buffers hold, as decisions, for whoever keeps one as the kernel does. The functions are in
 * the library of wulgach.h, and proved as those are. The layer under liburing calls them.
 */
#ifndef WULGACH_TABLES_H
#define WULGACH_TABLES_H

#include <stdbool.h>
#include <stdint.h>

#include "wulgach_register.h"

#ifdef __cplusplus
extern "C" {
#endif

/* ---- restrictions ---- */

/* A row of a list: `struct io_uring_restriction`. What is reserved isn't looked at. */
struct wulgach_restriction {
    uint16_t kind; /* IORING_RESTRICTION_.. */
    uint8_t number; /* a call of io_uring_register(2), an operation, or flags of entries */
    uint8_t resv;
    uint32_t second_resv, third_resv, fourth_resv;
};

/* What the application of a ring may do. The fields belong to the library. */
struct wulgach_restrictions {
    bool are_registered;
    uint8_t allowed, required;
    uint64_t codes, calls;
};

/* The fault of a list of so many rows, before any is looked at, or 0: -77 (EBADFD) if the ring
 * isn't disabled, -16 (EBUSY) of a second list, -22 (EINVAL) of none or of more than 103 rows. And
 * of enabling a ring: -22 with an argument, -77 if it isn't disabled. */
int32_t wulgach_restricting_fault(
    bool is_disabled, bool are_registered, bool has_list, uint32_t count);
int32_t wulgach_enabling_fault(bool is_disabled, bool has_argument);

/* Those of a ring for which none are registered. */
void wulgach_restrictions_none(struct wulgach_restrictions *restrictions);

/* Registers a list of these rows, which are taken in turn: one without rows allows nothing. Returns
 * 0, or -22 if one is of no kind, or of no call or operation that there is: then nothing changes.
 */
int32_t wulgach_restrictions_register(struct wulgach_restrictions *restrictions,
    const struct wulgach_restriction *rows, size_t count);

/* Whether an entry of this operation may have these flags: a row names the operation, and the flags
 * are all that are required, and no others but those that are allowed. And whether a call of
 * io_uring_register(2) may be made: a row names it, or the ring is disabled. */
bool wulgach_restrictions_allow_entry(
    const struct wulgach_restrictions *restrictions, uint8_t code, uint8_t flags);
bool wulgach_restrictions_allow_call(
    const struct wulgach_restrictions *restrictions, uint32_t code, bool is_disabled);

/* ---- tables of registered files and buffers ---- */

/* A table, or none. What its slots hold are words of the caller's, one for each, as many as it has:
 * 0 in a free one. A call that is given these looks at no other. The fields may be read. */
struct wulgach_table {
    bool is_registered;
    uint32_t count; /* slots */
    uint32_t from, end; /* those that are given out, */
    uint32_t hint; /* and where the search begins */
};

void wulgach_table_begin(struct wulgach_table *table);

/* The fault of registering a table of so many files or buffers, where a process may have `limit`
 * files open, or 0: -16 if there is one, -22 of none, of files -24 (EMFILE) if they are more than
 * 2^20 or than the limit, of buffers -22 if they are more than 2^14. */
int32_t wulgach_table_registering_fault(
    const struct wulgach_table *table, uint32_t count, uint64_t limit, bool is_of_files);

/* A table with these words takes the place of what there was. */
void wulgach_table_register(struct wulgach_table *table, const uint64_t *words, size_t count);

/* The fault of unregistering it, or 0: -22 with an argument, -6 (ENXIO) if there is none; and that
 * is done. */
int32_t wulgach_table_unregistering_fault(const struct wulgach_table *table, bool has_argument);
void wulgach_table_unregister(struct wulgach_table *table);

/* The slots of a range are given out: from `off` on, `len` of them. Returns 0, or -75 (EOVERFLOW)
 * if they end past 32 bits, -22 of a reserved field that isn't 0, or if they end past the table:
 * then nothing changes. */
int32_t wulgach_table_give_out(struct wulgach_table *table, const struct wulgach_range_form *range);

/* The fault of updating so many slots from one on, before any is looked at, or 0: -6, -75 and -22,
 * as above. And of closing what a slot holds: -6, -22, or -9 (EBADF) if it is free. */
int32_t wulgach_table_updating_fault(
    const struct wulgach_table *table, uint32_t from, uint32_t count);
int32_t wulgach_table_closing_fault(
    const struct wulgach_table *table, const uint64_t *words, size_t count, uint32_t slot);

/* Writes the slot for a file of an entry with this `file_index`, and returns 0; else returns the
 * fault, and writes nothing. Of one slot it is -6 if there is no table, and -22 if it hasn't that
 * slot. A file that asks for any (IORING_FILE_INDEX_ALLOC) gets the first free one of those that
 * are given out: from the one on after which the last was filled, or which was emptied last, and
 * then from their first on. -23 (ENFILE) if none is free. */
int32_t wulgach_table_place(const struct wulgach_table *table, const uint64_t *words, size_t count,
    uint32_t file_index, uint32_t *slot);

/* A slot gets this word, which is written. Returns the one that it had, or 0 where there is no such
 * slot: then nothing changes. */
uint64_t wulgach_table_fill(
    struct wulgach_table *table, uint64_t *words, size_t count, uint32_t slot, uint64_t word);

/* What a slot holds: 0 if it is free, or where there is no such slot. */
uint64_t wulgach_table_content(
    const struct wulgach_table *table, const uint64_t *words, size_t count, uint32_t slot);

/* What a row of a list does with its slot. */
enum wulgach_row {
    WULGACH_ROW_KEEPS = 0,
    WULGACH_ROW_EMPTIES = 1,
    WULGACH_ROW_FILLS =
        2, /* gives it the file or buffer that the row names, in the place of what it has */
    WULGACH_ROW_REFUSED = 3 /* the call ends with a fault */
};

/* Returns what a row with this descriptor does (enum wulgach_row), and writes its fault, or 0: -1
 * empties the slot, -2 of an update leaves it as it is, neither with a tag (-22), and another fills
 * it. Of a buffer: one without an address and bytes empties the slot, without a tag (-22), and
 * another has 1 to 2^30 bytes (-14, EFAULT); but first of all, a length of 2^63 or more, below 0 as
 * a signed one, is -22. */
uint32_t wulgach_file_row(int32_t fd, uint64_t tag, bool is_update, int32_t *fault);
uint32_t wulgach_buffer_row(uint64_t from, uint64_t size, uint64_t tag, int32_t *fault);

/* What an update does with a slot by such a row. */
enum wulgach_row_step {
    WULGACH_STEP_EMPTIES = 0, /* the slot is emptied, */
    WULGACH_STEP_MAKES = 1, /* the file or buffer of the row is looked for, and made, */
    WULGACH_STEP_PUTS = 2 /* and the slot gets it */
};

/* Returns what an update does by a row (enum wulgach_row): the bit 1 << STEP of each step, which
 * are done by rising bits until one fails. A slot that gets a file is emptied first, so it stays
 * empty if there is none; one that gets a buffer keeps what it has until that is there. */
uint32_t wulgach_row_steps(uint32_t row, bool is_of_files);

/* In which steps a row of lists is read, the file of a descriptor made, the buffer of a row made, a
 * ring of provided buffers registered, a list of restrictions registered, the number of a ring
 * taken back, and a descriptor closed. */
enum wulgach_reading_step {
    WULGACH_READING_TAG = 0, /* the tag */
    WULGACH_READING_ROW = 1 /* the descriptor, or the vector */
};

enum wulgach_making_step {
    WULGACH_MAKING_FINDS = 0, /* it is looked whether the descriptor is open: -9 (EBADF), */
    WULGACH_MAKING_TAGS = 1, /* and for memory for its tag: -12 (ENOMEM), */
    WULGACH_MAKING_JUDGES = 2, /* and whether it is a ring's: -9; */
    WULGACH_MAKING_COPIES = 3 /* and it is copied: -24 (EMFILE) */
};

enum wulgach_buffer_step {
    WULGACH_BUFFER_PAGES = 0, /* its pages are looked at: wulgach_pinning_fault; */
    WULGACH_BUFFER_TAGS = 1, /* and there is memory for its tag: -12 (ENOMEM); */
    WULGACH_BUFFER_MEMORY = 2 /* and for it */
};

enum wulgach_ring_step {
    WULGACH_RING_FORM = 0, /* its form is looked at, */
    WULGACH_RING_PAGES = 1, /* and its pages: -14 (EFAULT); */
    WULGACH_RING_GROUP = 2 /* and there is memory for its group: -12 */
};

enum wulgach_restricting_step {
    WULGACH_RESTRICTING_LIST =
        0, /* the ring and the length of the list are looked at: wulgach_restricting_fault; */
    WULGACH_RESTRICTING_READS = 1, /* the list is read: -14; */
    WULGACH_RESTRICTING_ROWS = 2 /* and its rows are taken: wulgach_restrictions_register */
};

enum wulgach_dismissing_step {
    WULGACH_DISMISSING_READS = 0, /* a row of a ring that loses its number is read: -14, */
    WULGACH_DISMISSING_JUDGES = 1, /* and judged: wulgach_dismissing_fault; */
    WULGACH_DISMISSING_EMPTIES = 2 /* and the ring loses it */
};

enum wulgach_closing_step {
    WULGACH_CLOSING_KEEPS = 0, /* those that were accepted before it keep their files, */
    WULGACH_CLOSING_CLOSES = 1 /* and the descriptor is closed */
};

/* The bit 1 << STEP of each step: they are done by rising bits, until one fails. A list that isn't
 * there isn't read, but that of an update or of a placing, which ends so with -14 (EFAULT); only a
 * file that is registered is looked for and has a tag; a tag of 0 is none; a list of restrictions
 * without rows isn't read; and a close with a fault does nothing. */
uint32_t wulgach_reading_steps(bool has_tags, bool has_list, bool is_update);
uint32_t wulgach_making_steps(bool is_registered, uint64_t tag);
uint32_t wulgach_buffer_steps(uint64_t tag);
uint32_t wulgach_ring_steps(void);
uint32_t wulgach_restricting_steps(uint32_t count);
uint32_t wulgach_dismissing_steps(void);
uint32_t wulgach_closing_steps(int32_t fault);

/* The fault of a descriptor that a request is to close or to register, or 0: -9 (EBADF) of none and
 * of a ring. */
int32_t wulgach_holding_fault(int32_t fd, bool is_ring);

/* Whether a system call of this number takes an epoll instance as its first word, as epoll_ctl(2)
 * does: a ring's descriptor is none, whatever stands for it. */
bool wulgach_takes_instance(uint64_t number);

/* What the row of a file ends with that was put into a slot, which could be told or not: 0, or -14
 * (EFAULT), and then it is taken out again. */
int32_t wulgach_telling_fault(bool is_told);

/* How the registration of a table goes on. */
enum wulgach_listing {
    WULGACH_LISTING_TAKES =
        0, /* the next row is read, and the file or buffer that it names is made */
    WULGACH_LISTING_PUTS = 1, /* the table is registered, with what the rows have made */
    WULGACH_LISTING_DROPS =
        2 /* it isn't: what the rows have made goes, and none of its tags is told */
};

/* Returns that of a table of so many slots (enum wulgach_listing), of whose rows so many were
 * taken, the last with this fault or 0: the first fault ends it. `has_lists`: there is a list of
 * descriptors or vectors, or one of tags; without any no row is read, and the slots are empty. */
uint32_t wulgach_table_listing(uint32_t taken, uint32_t count, bool has_lists, int32_t fault);

/* Whether an update, a placing or an enrolling of so many rows takes the next one, which has
 * carried out so many, and come to this fault or 0: what was done by rows before a fault stays. */
bool wulgach_takes_next(uint32_t done, uint32_t count, int32_t fault);

/* Writes which slot goes next of a table of so many that is gone, of which so many have gone: the
 * last one first, so that its tag is told first. False, and nothing is written: all have. */
bool wulgach_next_to_go(uint32_t count, uint32_t gone, uint32_t *slot);

/* What is done by a row of a list that puts a file where there is room. */
enum wulgach_placing {
    WULGACH_PLACING_READS = 0, /* it is read, */
    WULGACH_PLACING_MAKES = 1, /* the file of its descriptor is made, */
    WULGACH_PLACING_PUTS = 2, /* a slot that is free gets it, */
    WULGACH_PLACING_TELLS = 3, /* and that is told in the row */
    WULGACH_PLACING_FAILS = 4, /* it fails with what the last came to, */
    WULGACH_PLACING_TAKES_OUT = 5, /* and its file is taken out of the slot again */
    WULGACH_PLACING_IS_DONE = 6,
    WULGACH_PLACING_BEGINS = 7
};

/* Returns what is done after this (enum wulgach_placing), which came to `res`: BEGINS, and 0, at
 * first. The first fault ends it. */
uint32_t wulgach_placing_next(uint32_t last, int32_t res);

/* What a call returns that has changed so many slots, and ended with this fault or 0: how many, or
 * of none the fault. */
int32_t wulgach_updated(uint32_t done, int32_t fault);

#ifdef __cplusplus
}
#endif

#endif
