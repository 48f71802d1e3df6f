/* A ring's descriptor that polls: readable while completions wait or something can go on. */
#ifndef READINESS_H
#define READINESS_H

#include "rings/ring.h"

/* Makes the descriptor of a ring, and returns it, or the negative of an error number. */
int make_polled(struct ring *ring);
void free_polled(struct ring *ring);

/* Whether a descriptor is open on this ring, which has one that polls. */
bool is_polled_by(const struct ring *ring, int fd);

/* The same of a descriptor that was open on it: by the ring's mark, which no other has but by a
 * chance in 2^37. */
bool is_still_polled_by(const struct ring *ring, int fd);

struct epoll_event;

/* Changes what such a ring's descriptor polls, by one that is open on the ring now: another thread
 * may have closed that of the call, and opened something under its number. Returns what
 * epoll_ctl(2) does. */
int change_polled(struct ring *ring, int change, int fd, struct epoll_event *event);

/* A descriptor of the layer's may be closed: it isn't polled for any more, until the next call
 * lists it again. */
void unwatch(struct ring *ring, int fd);

/* Makes the descriptor readable, or no more so. */
void show_readiness(struct ring *ring);

#endif
