/* Rings whose lock a call holds. */
#ifndef LOCKING_H
#define LOCKING_H

#include "rings/ring.h"

/* The ring of a descriptor, with its lock held; NULL if it is none of this process's. It lives at
 * least until it is unlocked, also if its descriptor is closed. */
struct ring *lock_ring(int fd);
void unlock_ring(struct ring *ring);

/* The ring of the least number from this on that has requests, a descriptor, and no call on it, and
 * whose last caller is elsewhere, as this says; with its lock. NULL: there is none, or another
 * thread has the lock of all rings. No lock is waited for. */
struct ring *lock_uncalled(uint32_t from, bool (*is_elsewhere)(int32_t caller));
void unlock_uncalled(struct ring *ring);

/* The lock of a ring is held again in a call by this descriptor, which another thread may have
 * closed: then another that is open stands for it. */
void call_by(struct ring *ring, int fd);

/* Posts the messages that wait for a ring with this descriptor, unless another thread has it: that
 * one does. */
void visit_ring(struct ring *ring, int fd);

#endif
