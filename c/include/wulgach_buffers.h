/* Wulgach: which buffer an operation takes of those that are provided, and when a registered file
 * or buffer is gone, as decisions, for whoever keeps a ring as the kernel does. The functions are
 * in the library of wulgach.h, and proved as those are. The layer under liburing calls them.
 */
#ifndef WULGACH_BUFFERS_H
#define WULGACH_BUFFERS_H

#include "wulgach.h"

#ifdef __cplusplus
extern "C" {
#endif

/* ---- groups of provided buffers ---- */

/* A buffer, with its number in its group. */
struct wulgach_buffer {
    uint64_t address;
    uint32_t length;
    uint16_t id;
};

/* Buffers that are provided at once, one after another. */
struct wulgach_buffers {
    uint64_t address; /* of the first */
    uint32_t length; /* of each */
    uint32_t count;
    uint16_t id; /* of the first */
};

/* A group, or none. It is a list, whose buffers are rows of the caller's memory, at most 2^32 - 1,
 * or a ring in memory of the application's. A call that is given rows looks at no others; they are
 * the same ones each time, or copies. The fields may be read. */
struct wulgach_group {
    bool is_there;
    uint16_t entries; /* of its ring; 0: it is a list */
    uint16_t head; /* of its ring: the position of the next */
    uint32_t first; /* of a list: the row of the next, */
    uint32_t count; /* and how many are left */
};

void wulgach_group_begin(struct wulgach_group *group);

/* The fault of providing so many buffers of so many bytes, from an address on and with numbers from
 * one on, or 0: -75 (EOVERFLOW) if they don't end before 2^64, -7 (E2BIG) if the first number is
 * past 65,535, -22 (EINVAL) if the last one is, or of a ring, and -75 of a list that has 65,535
 * buffers. */
int32_t wulgach_group_providing_fault(const struct wulgach_group *group, uint64_t address,
    uint32_t size, uint32_t count, uint64_t id);

/* How many rows a list wants for so many buffers more, where it has `room`: as many, or if these
 * are too few twice what it needs. */
uint64_t wulgach_group_room(const struct wulgach_group *group, uint32_t more, uint64_t room);

/* A list has these buffers too, after all others, which may be moved to the first rows: the first
 * of them, up to 65,535 with the others. False: there are too few rows for them, and nothing
 * changes. */
bool wulgach_group_provide(struct wulgach_group *group, struct wulgach_buffer *rows, size_t room,
    const struct wulgach_buffers *asked);

/* The fault of removing buffers, or 0: -2 (ENOENT) of no group, -22 of a ring. And then the first
 * so many are gone, or all if there are fewer. Returns how many. */
int32_t wulgach_group_removing_fault(const struct wulgach_group *group);
uint32_t wulgach_group_remove(struct wulgach_group *group, uint32_t count);

/* Whether a group is a ring, and no list. */
bool wulgach_group_is_ring(const struct wulgach_group *group);

/* Writes the next buffer of a list, the one that was provided first of those that are left. False:
 * there is none. */
bool wulgach_group_next(const struct wulgach_group *group, const struct wulgach_buffer *rows,
    size_t room, struct wulgach_buffer *next);

/* Writes the cell of the next buffer of a ring, whose tail the application has stored. False: there
 * is none, where the tail is the head, or it couldn't be read, or the group is a list. And the
 * buffer of a cell in which this stands; false: it couldn't be read. */
bool wulgach_group_cell(
    const struct wulgach_group *group, bool is_read, uint16_t tail, uint16_t *cell);
bool wulgach_group_in_cell(
    bool is_read, const struct wulgach_buffer *stands, struct wulgach_buffer *buffer);

/* An operation has taken the next buffer. */
void wulgach_group_take(struct wulgach_group *group);

/* The fault of the argument of a call that registers a ring or unregisters one, or 0: -22 unless
 * there is one argument, -14 (EFAULT) if it can't be read, -22 if what is reserved isn't 0. */
int32_t wulgach_group_argument_fault(
    uint32_t count, bool has_argument, bool is_read, bool has_reserved);

/* The fault of registering a ring for a group, or 0: -22 if its entries aren't a power of two up to
 * 32,768, -17 (EEXIST) if the group has one, or buffers, -14 of no address, -22 if that isn't a
 * page's first byte. And that is done. */
int32_t wulgach_group_registering_fault(
    const struct wulgach_group *group, uint64_t address, uint32_t entries, uint64_t page);
void wulgach_group_register(struct wulgach_group *group, uint16_t entries);

/* Whether a group goes where a ring of so many entries is to be registered for it, before the fault
 * of that is asked: a list without buffers does, if a ring may have so many. */
bool wulgach_group_gives_way(const struct wulgach_group *group, uint32_t entries);

/* The fault of unregistering a group's ring, or 0: -2 of no group, -22 of a list. And that is done:
 * then there is no group. */
int32_t wulgach_group_unregistering_fault(const struct wulgach_group *group);
void wulgach_group_unregister(struct wulgach_group *group);

/* How many bytes an operation that wants so many has of a provided buffer of this length. 0 wants
 * all. */
uint32_t wulgach_buffer_part(uint64_t wanted, uint32_t length);

/* The flags of the completion of an operation that had a provided buffer (IORING_CQE_F_BUFFER and
 * its number), or 0 if it hasn't taken it: it has if it came to bytes, or takes it for nothing
 * (wulgach_takes_for_nothing). One that would have to wait has taken it if it has put any bytes
 * there so far, whatever it came to. */
uint32_t wulgach_buffer_flags(
    bool would_wait, uint32_t moved, int32_t res, bool takes_for_nothing, uint16_t id);

/* Whether a provided buffer is none, which stands at address 0: an operation ends as without a
 * buffer, and may take it out of its group all the same. */
bool wulgach_buffer_is_none(const struct wulgach_buffer *buffer);

/* Whether it has taken its buffer, by these flags: then that is taken out of its group
 * (wulgach_group_take). */
bool wulgach_buffer_is_taken(uint32_t flags);

/* Writes where the next try of an operation begins that has put so many bytes into the buffer `had`
 * so far, which end before 2^64: after them, in the same one. False, and nothing is written: it has
 * put none there, and takes the next of its group. */
bool wulgach_buffer_further(
    const struct wulgach_buffer *had, uint32_t moved, struct wulgach_buffer *further);

/* ---- registered files and buffers ---- */

/* Who has a registered file or buffer. It is gone once no slot and no request has it. Where threads
 * share one, each change of the count is made at once, from the value that the call was given to
 * the one that it leaves. */
struct wulgach_uses {
    uint32_t count; /* slots and requests */
    bool has_tag; /* and it is to be told */
};

/* Begins with one: a slot that is to get it, or a request. */
void wulgach_uses_begin(struct wulgach_uses *uses, bool has_tag);

/* One more has it. There are fewer than 2^32 - 1. */
void wulgach_uses_take(struct wulgach_uses *uses);

/* Its table isn't registered after all: no tag is told. */
void wulgach_uses_drop_tag(struct wulgach_uses *uses);

/* What becomes of what one has given up. */
enum wulgach_ending {
    WULGACH_STAYS = 0, /* others have it */
    WULGACH_GOES = 1, /* it is gone */
    WULGACH_TELLS = 2 /* it is gone, and its tag is told */
};

/* A slot has lost it, or a request has given it back. Returns what becomes of it (enum
 * wulgach_ending). */
uint32_t wulgach_uses_release(struct wulgach_uses *uses);

/* The fault of so many bytes from there on, as a part of a registered buffer of `size` bytes, or 0:
 * -14 if they aren't all its. */
int32_t wulgach_bytes_fault(uint64_t start, uint64_t size, uint64_t from, uint64_t count);

#ifdef __cplusplus
}
#endif

#endif
