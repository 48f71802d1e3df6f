/* By which descriptors a ring is reached. */
#ifndef REACHED_H
#define REACHED_H

#include "rings/ring.h"

/* Whether a descriptor is open on this ring, */
bool is_reached_by(const struct ring *ring, int fd);

/* and whether one that was is so still. The lock of all rings is held. */
bool is_still_reached_by(struct ring *ring, int fd);

/* From here on each close of a ring's descriptor is heard, by which it may get another's number or
 * none; and one was. */
void hear_closes(void);
void note_close(void);

/* A descriptor that is open on a ring in this process: the one that was found last, or another;
 * negative: there is none. Where that can't be found out, the last. */
int find_descriptor(const struct ring *ring);

/* Notes in whose table of descriptors a ring is made, by this thread. */
void note_table(struct ring *ring);

/* Whether a ring of which no descriptor of this thread's is found counts as reached all the same:
 * another thread has a table of its own in which one is, or the ring was made in another table than
 * this thread's, so that what it keeps open has other numbers here. */
bool is_reached_elsewhere(const struct ring *ring);

/* Whether a descriptor that may be an epoll instance's is kept open by a program that is started
 * now, or that can't be found out. */
bool is_instance_kept_open(void);

#endif
