/* Who may wait for edges of a ring's descriptor (EPOLLET). */
#ifndef WAITERS_H
#define WAITERS_H

#include <stdbool.h>
#include <stdint.h>

/* The calls by which an epoll instance keeps its ring's mark, and tells it. */
#define SETS_MARK _IOW(0x8a, 1, uint64_t)
#define GETS_MARK _IOR(0x8a, 2, uint64_t)

/* A ring is about to have a descriptor that polls, with this mark, or 0: it has none, as where no
 * instance keeps one. */
void note_polled_ring(uint64_t mark);

/* Whether somebody may wait for edges of one. */
bool may_wait_for_edges(void);

/* A descriptor is about to be put into an epoll instance, or changed there (EPOLL_CTL_...); and a
 * message is about to be sent with so many bytes of control data. */
void note_waiter(uint32_t change, int fd);
void note_message(uint64_t control);

/* Whether memory begins with what a process and its children share of waiters; and in a forked run,
 * from here on it shares that with its own children alone. */
bool is_page_of_waiters(const void *at);
void part_waiters(void);

/* Whether a descriptor may be an epoll instance's, as a ring's is. */
bool may_be_instance(int fd);

#endif
