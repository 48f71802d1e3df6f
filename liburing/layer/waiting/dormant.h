/* Requests that wait for their descriptors and aren't looked at meanwhile: an epoll instance of the
 * ring's tells when one is ready. */
#ifndef DORMANT_H
#define DORMANT_H

#include "wulgach_lookout.h"

#include <stdbool.h>
#include <stddef.h>
#include <stdint.h>

struct request;
struct ring;

/* What tells of the descriptors of dormant requests. */
struct dormant {
    int instance; /* the epoll instance, or negative: none was needed so far, */
    bool is_refused; /* or the kernel refuses it: all are looked at */
    size_t count; /* how many requests are dormant */
    struct wulgach_waiter asked; /* the moment in which the instance was asked last */
};

/* So many of those that wait are looked at in any case: that costs less than to have the instance
 * tell of them. (Tests under the sanitizers have it tell of all.) */
#ifndef MOST_LOOKED_AT
#define MOST_LOOKED_AT 32
#endif

void make_dormant(struct dormant *dormant);
void free_dormant(struct dormant *dormant);

/* How many of those that run wait for their descriptors: timeouts don't. */
uint64_t count_waiting(const struct ring *ring);

/* Those become dormant that were looked at in this moment and wait for nothing but their
 * descriptors. They keep their files from then on. */
void let_lie(struct ring *ring);

/* Rouses those whose descriptors are ready, if that wasn't asked in this moment: they run among the
 * others again. */
void rouse_ready(struct ring *ring);

/* Rouses a request, if it is dormant, since something has happened to it; and the same of one that
 * has changed, or ends: the instance doesn't have its descriptor any more. */
void rouse(struct ring *ring, struct request *request);
void delist(struct ring *ring, struct request *request);

#endif
