/* Completions that are posted and not reaped, in their order: what the application is shown, beside
 * what the core holds for it.
 */
#ifndef COMPLETIONS_H
#define COMPLETIONS_H

#include "wulgach_course.h"

#include <stdbool.h>
#include <stddef.h>
#include <stdint.h>

struct completions {
    struct wulgach_posted *queue; /* the oldest first, from `first` on */
    size_t first, room;
    struct wulgach_shown at; /* how many there are, and stand in ring memory; the others have
                                overflowed, or are to be shown */
    uint64_t told; /* of so many of those that were stored last an eventfd is told */
    bool is_behind; /* some ended since ring memory was last brought up to date */
};

struct ring;

/* Makes sure that this many more can be posted; false if memory was refused. */
bool reserve_completions(struct completions *completions, size_t more);

struct request;

/* A request has ended, as the core was told: keeps its completion if the core posted one, and says
 * whether it did. */
bool note_end(struct ring *ring, const struct request *request, int32_t told);

/* Shows the application what the core's tail says. */
void show(struct ring *ring);

/* Stores the flags word alone: what it tells beside completions may have changed. */
void show_flags(struct ring *ring);

/* The same, if anything has ended since it was last done. */
void show_ends(struct ring *ring);

/* Tells the core what the application has reaped. Where the library asks for what has overflowed,
 * or if none has, the dispatcher loads the head, so that completions that overflowed come into the
 * ring. False, and nothing is reaped, if the application has stored a head past the tail. */
bool hear(struct ring *ring, enum wulgach_occasion occasion);

/* How many completions the application can reap, of those that are shown. */
uint32_t count_ready(const struct ring *ring);

void free_completions(struct completions *completions);

#endif
