/* Looks at descriptors as poll(2) does, also in a process that may have fewer open than it looks
 * at. */
#ifndef GLANCE_H
#define GLANCE_H

#include <poll.h>
#include <signal.h>
#include <time.h>

/* What they show now: as poll(2) without a time does. */
int poll_now(struct pollfd *polled, nfds_t count);

/* Waits until one shows something, as ppoll(2) does. */
int poll_until(
    struct pollfd *polled, nfds_t count, const struct timespec *time, const sigset_t *signals);

#endif
