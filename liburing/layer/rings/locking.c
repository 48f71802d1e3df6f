/* Locking the ring of a descriptor for a call, and what is done as that is over: messages that came
 * meanwhile. */
#define _GNU_SOURCE
#include "rings/locking.h"
#include "calls/duties.h"
#include "calls/extras.h"
#include "rings/descriptors.h"
#include "rings/reached.h"
#include "waiting/sleep.h"
#include "wulgach_sleeps.h"

struct ring *lock_ring(int fd)
{
    struct ring *ring = hold_ring(fd);
    if (!ring)
        return NULL;
    pthread_mutex_lock(&ring->lock);
    ring->called_fd = fd;
    return ring;
}

/* (where it has no descriptor any more it is closed, which isn't known yet) */
struct ring *lock_uncalled(uint32_t from, bool (*is_elsewhere)(int32_t caller))
{
    struct ring *ring;
    for (; (ring = hold_uncalled(from, is_elsewhere)); from = ring->index + 1) {
        if (pthread_mutex_trylock(&ring->lock) == 0) {
            ring->called_fd = find_descriptor(ring);
            if (ring->called_fd >= 0)
                return ring;
            pthread_mutex_unlock(&ring->lock);
        }
        release_uncalled(ring);
    }
    return NULL;
}

void unlock_uncalled(struct ring *ring)
{
    int fd = ring->called_fd;
    wake_sleepers(ring);
    pthread_mutex_unlock(&ring->lock);
    visit_ring(ring, fd);
    release_uncalled(ring);
}

void call_by(struct ring *ring, int fd)
{
    if (ring->ready_fd >= 0)
        ring->called_fd = is_reached_by(ring, fd) ? fd : find_descriptor(ring);
}

/* A message that comes while the lock is held is posted by who holds it; one that comes between its
 * last look and its unlocking, by who looks again. When that is done, the library says. */
__attribute__((noinline)) static void visit_with_messages(struct ring *ring, int fd)
{
    bool is_left = false, may_post = false;
    while (wulgach_visits_again(has_messages(ring), is_left, may_post) &&
           pthread_mutex_trylock(&ring->lock) == 0) {
        call_by(ring, fd);
        post_messages(ring);
        is_left = has_messages(ring);
        may_post = is_left && can_post_extra(ring);
        do_duties_after_posting(ring);
        wake_sleepers(ring);
        pthread_mutex_unlock(&ring->lock);
    }
}

void visit_ring(struct ring *ring, int fd)
{
    if (has_messages(ring))
        visit_with_messages(ring, fd);
}

void unlock_ring(struct ring *ring)
{
    if (ring->left & WULGACH_LEAVES_END)
        return;
    int fd = ring->called_fd;
    wake_sleepers(ring);
    pthread_mutex_unlock(&ring->lock);
    visit_ring(ring, fd);
    release_ring(ring);
}
