/* The rings of this process, by their descriptors. */
#ifndef DESCRIPTORS_H
#define DESCRIPTORS_H

#include "rings/ring.h"

/* Puts a ring that is made among the others, and frees those that nobody can reach any more. */
void add_ring(struct ring *ring);

/* The ring of a descriptor, which isn't locked; NULL if it is none of this process's. It lives at
 * least until it is released. */
struct ring *hold_ring(int fd);
void release_ring(struct ring *ring);

/* Those with requests on which no call is, by rising numbers: the first from this one on whose last
 * caller is elsewhere, as this says. NULL: there is none, or another thread has the lock. And how
 * many calls there were on all, or 0 then. */
struct ring *hold_uncalled(uint32_t from, bool (*is_elsewhere)(int32_t caller));
void release_uncalled(struct ring *ring);
uint64_t count_calls(void);

/* What this process leaves undone with a ring, as the library says. */
uint32_t what_is_left(const struct ring *ring);

/* Whether a descriptor is a ring's; and then that one's number among the process's rings. */
bool is_ring(int fd);
bool find_index(int fd, uint32_t *index);

/* Closes a descriptor, and frees its ring if nobody can reach it any more. Returns 0 or the
 * negative of an error number. */
int close_descriptor(int fd);

/* Whether a descriptor may be a ring's, by its number alone; to be asked without a lock. */
bool may_be_ring(int fd);

/* Looks at a few of the rings, in turn: a close that isn't heard may have left one of them, and
 * what that keeps open be waited for. Returns whether any was. */
bool let_others_go(void);

/* Closes what they keep open, where a handler may call so. They are freed with the next call's end,
 * or set-up. What is given to free meanwhile is to be kept for later by whoever calls. */
void let_go_in_handler(void);

/* Frees a ring: first what it has, then its trace and itself. */
void free_ring(struct ring *ring);
void let_go(struct ring *ring);
void end_ring(struct ring *ring);

#endif
