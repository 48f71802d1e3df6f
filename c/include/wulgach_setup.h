/* Wulgach: which rings a set-up makes, what is mapped of a ring and when it is freed, as decisions,
 * for whoever keeps one as the kernel does. The functions are in the library of wulgach.h, and
 * proved as those are. The layer under liburing calls them.
 */
#ifndef WULGACH_SETUP_H
#define WULGACH_SETUP_H

#include <stdbool.h>
#include <stdint.h>

#include "wulgach.h"

#ifdef __cplusplus
extern "C" {
#endif

/* ---- set-up ---- */

/* What a set-up asks for, and what is so of what it names. */
struct wulgach_asked_ring {
    uint32_t entries; /* of the submission ring, */
    uint32_t cq_entries; /* and of the completion ring, with IORING_SETUP_CQSIZE */
    uint32_t flags; /* IORING_SETUP_.. */
    bool is_online; /* with IORING_SETUP_SQ_AFF: the processor on which the ring's thread is to run
                       is online */
    bool has_reserved; /* a reserved field isn't 0 */
    bool is_open; /* with IORING_SETUP_ATTACH_WQ: the descriptor is open, */
    bool is_ring; /* a ring, */
    bool has_thread; /* and one with IORING_SETUP_SQPOLL */
    bool linux_rules; /* requests are to be kept by Linux's rules; else by the manual pages' */
};

/* Writes the set-up of the core of the ring that is asked for, with the sizes that the ring has and
 * the rules that are asked for, and returns 0. Else returns the first of these faults, and writes
 * nothing: -22 (EINVAL) of a reserved field, of a flag that isn't served, stands without one that
 * it wants or beside one that it can't, and of the sizes; of the ring to be shared, -6 (ENXIO) if
 * its descriptor isn't open, and -22 if it is no ring, or has no thread that is to be shared; -22
 * of the processor. */
int32_t wulgach_set_up(const struct wulgach_asked_ring *asked, struct wulgach_setup *setup);

/* Whether a ring with these flags has a thread that takes its entries, so that a call which wakes
 * it submits by rounds: IORING_SETUP_SQPOLL. */
bool wulgach_has_thread(uint32_t flags);

/* Whether it is asked of a set-up with these flags whether the processor is online that it names:
 * with IORING_SETUP_SQ_AFF, of a thread that isn't shared. And what the descriptor is by which it
 * names a ring: with IORING_SETUP_ATTACH_WQ. To no other these matter. */
bool wulgach_asks_processor(uint32_t flags);
bool wulgach_asks_shared(uint32_t flags);

/* Writes in how many cells, of 64 bytes, an entry of a ring with these flags stands: in two with
 * IORING_SETUP_SQE128. And in how many, of 16, a completion: in two with IORING_SETUP_CQE32. */
void wulgach_cells_of(uint32_t flags, uint32_t *entry, uint32_t *completion);

/* What a ring can do (IORING_FEAT_..), whose rings stand in one mapping or in two. */
uint32_t wulgach_features(bool is_one_mapping);

/* What a set-up does. */
enum wulgach_stage {
    WULGACH_SET_UP_READS = 0, /* it reads the parameters, */
    WULGACH_SET_UP_ASKS = 1, /* asks the kernel, where the ring is strict, */
    WULGACH_SET_UP_MAKES = 2, /* makes the ring, */
    WULGACH_SET_UP_TELLS = 3, /* tells the parameters, */
    WULGACH_SET_UP_OPENS = 4, /* and opens the ring's descriptor */
    WULGACH_SET_UP_FAILS = 5, /* it fails with what the last came to, */
    WULGACH_SET_UP_DROPS = 6, /* and the ring is dropped */
    WULGACH_SET_UP_IS_DONE = 7,
    WULGACH_SET_UP_BEGINS = 8
};

/* Returns what a set-up does after this (enum wulgach_stage), which came to `res`: BEGINS, and 0,
 * at first. The first fault ends it. */
uint32_t wulgach_set_up_next(uint32_t last, int32_t res);

/* ---- the memory of a ring, and its end ---- */

enum wulgach_region { WULGACH_NO_REGION = 0, WULGACH_RINGS = 1, WULGACH_ENTRIES = 2 };

/* The part of a ring's memory at an offset (enum wulgach_region), where both rings stand in one
 * mapping. */
uint32_t wulgach_region_of(uint64_t offset);

/* What a call of mmap asks for. */
struct wulgach_mapping {
    uint64_t at; /* at which address, */
    uint64_t size; /* how many bytes, */
    uint64_t offset; /* from where on */
    uint32_t protection; /* PROT_.. */
    uint32_t flags; /* MAP_.. */
};

/* Whether such a call, with these flags, maps what a descriptor names. */
bool wulgach_names_descriptor(uint32_t flags);

/* Why memory of a ring whose entries take so many bytes isn't mapped so, or 0. -22 (EINVAL) of an
 * offset within a page, of huge pages and of no bytes; -12 (ENOMEM) of more bytes than there are
 * addresses; -22 of an address, since the kernel chooses that; -12 of an offset that names no part;
 * -22 of what is neither shared nor private, and -95 (EOPNOTSUPP) of a flag that
 * MAP_SHARED_VALIDATE doesn't know; -1 (EPERM) of memory to be run, -22 of a stack, and -19
 * (ENODEV) of a private copy that is to be written; -14 (EFAULT) of fewer pages than the entries
 * take. A mapping may be longer than its part. */
int32_t wulgach_mapping_fault(const struct wulgach_mapping *asked, uint64_t table);

/* Returns which of its flags say where a ring's memory is to be that is mapped so: MAP_FIXED,
 * MAP_FIXED_NOREPLACE and MAP_32BIT; the others change nothing of what is there. And what may be
 * done with it: PROT_READ and PROT_WRITE. */
uint32_t wulgach_mapping_placing(const struct wulgach_mapping *asked);
uint32_t wulgach_mapping_protection(const struct wulgach_mapping *asked);

enum wulgach_fate {
    WULGACH_RING_STAYS = 0,
    WULGACH_RING_ASKS = 1, /* whether a descriptor of this process is open on it is to be asked */
    WULGACH_RING_GOES = 2 /* it is freed */
};

/* Returns what becomes of a ring (enum wulgach_fate) of this process or another, with so many calls
 * on it, once one of its descriptors is closed or another ring is made: it is freed once no call is
 * on it and no descriptor is open on it, if that is known. */
uint32_t wulgach_ring_fate(bool is_own, uint32_t calls, bool knows, bool is_open);

/* Whether a descriptor of this process may name a ring that was made by that one: to a child it
 * names none of its parent's, so that its call ends with -95. Our own rule. */
bool wulgach_may_name_ring_of(uint32_t maker, uint32_t process);

/* What is known of something. */
enum wulgach_knowledge { WULGACH_IS_NOT_SO = 0, WULGACH_IS_SO = 1, WULGACH_IS_NOT_KNOWN = 2 };

/* Whether nobody can reach a ring any more, by what is known (enum wulgach_knowledge): whether a
 * descriptor is open on it in the table of the thread that looks; whether it was made in that
 * table, or in one that another thread has of its own (CLONE_FILES), so that what it keeps open has
 * other numbers here; and whether a descriptor is open on it in another table. It is gone only if
 * all of these are known, and nobody has one. Our own rule. */
bool wulgach_is_gone(uint32_t listed, uint32_t of_table, uint32_t elsewhere);

/* Whether a ring was made in the table of descriptors of the thread that looks: the thread in whose
 * table it was made shares this one; or that had none of its own (was_apart), and nobody is seen to
 * have one (sees_apart), since a thread that has ended can't be asked. */
bool wulgach_was_made_here(bool shares, bool was_apart, bool sees_apart);

/* It is looked of all rings whether they are closed. */
enum { WULGACH_ALL_RINGS = 0x7fffffff };

/* Of how many rings it is looked whether they are closed, in their turn, where not every close is
 * heard: before a call sleeps; and as one ends, since a ring may have been closed while a call was
 * on it, or once in ten milliseconds, where there are so many rings in all. Where one is closed,
 * all that are let go what they have. And whether it matters how long ago it was last looked, in
 * nanoseconds: else that may be anything. Our own rule. */
uint32_t wulgach_looked_at_before_sleep(void);
uint32_t wulgach_looked_at_after(bool may_be_left, uint32_t rings, uint64_t elapsed);
bool wulgach_asks_elapsed(bool may_be_left, uint32_t rings);

/* Whether the lock of all rings is tried once more after a close in a signal's handler, which was
 * tried so often: a hundred times, with a moment for others between two. Who has it may wait for
 * what the handler's own thread has. Our own rule. */
bool wulgach_tries_rings_again(uint32_t tries);

/* ---- what can't be asked, as where there is no /proc ---- */

enum wulgach_matter {
    WULGACH_IS_REACHED = 0, /* a descriptor is open on a ring */
    WULGACH_IS_EVENTFD = 1, /* it is an eventfd's, as a call says */
    WULGACH_IS_COUNTER = 2, /* one of no kind of file counts, as an eventfd or a timerfd does */
    WULGACH_IS_ONLINE = 3, /* a processor is online */
    WULGACH_IS_SAME_FILE = 4, /* two descriptors are on one file */
    WULGACH_IS_LOCKED = 5 /* the process has a lock on a file */
};

/* Whether this is taken to be so (enum wulgach_matter), where it is known to be so or not, or isn't
 * known: then all but a counter and one file are. */
bool wulgach_is_taken_so(uint32_t matter, bool knows, bool is_so);

/* Whether a list of processors has this number, as the kernel lists those that are online: numbers,
 * and two with a hyphen between for all from the one to the other, with commas between them, in one
 * line. A part that is anything else has none. */
bool wulgach_lists_number(const uint8_t *list, size_t length, uint32_t number);

#ifdef __cplusplus
}
#endif

#endif
