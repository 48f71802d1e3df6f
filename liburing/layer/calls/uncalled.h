/* Rings with requests on which no thread has a call: these go on all the same, as the kernel's do.
 * When, whoever chooses: the turns of a program's threads (run/turns), or who watches that no
 * thread calls (waiting/watch.c).
 */
#ifndef UNCALLED_H
#define UNCALLED_H

#include <stdbool.h>
#include <stdint.h>

struct wulgach_uncalled {
    uint32_t ring; /* its number among the process's rings */
    int32_t caller; /* the thread that has called on it last */
    bool can_go_on; /* now; */
    bool has_next; /* or once a timeout is over, */
    uint64_t next; /* at this time of CLOCK_MONOTONIC */
};

/* Looks at those whose last caller is elsewhere, as this says: by rising number, `most` at most.
 * Returns how many there are; none where a thread has the lock of all rings. */
uint32_t wulgach_look_at_uncalled(
    struct wulgach_uncalled *rows, uint32_t most, bool (*is_elsewhere)(int32_t caller));

/* Goes on with one by one choice, or by the end of its timeouts that are over. Where time is
 * virtual it passes if nothing else can go on. Returns whether anything has gone on. */
bool wulgach_go_on_uncalled(uint32_t ring);

#endif
