/* Whether a sleep was left by a jump is seen on the stack: a mark stands there, in the frame of the
 * sleep, while that lasts, and a handler that comes in a sleep has its frames below. What that
 * comes to is the library's decision. Of a call that runs on a stack of the layer's it is told
 * where it was made.
 */
#define _GNU_SOURCE
#include "waiting/sleepers.h"
#include "process/fault.h"
#include "process/numbers.h"
#include "process/process.h"
#include "requests/copying.h"
#include "rings/descriptors.h"
#include "rings/locking.h"
#include "rings/ring.h"
#include "wulgach_sleeps.h"

#include <stdlib.h>
#include <unistd.h>

__thread struct sleeps own_sleeps;
__thread const void *caller;

/* By which a thread that ends leaves its sleeps: a program may have taken all keys, and then they
 * stay. */
static pthread_key_t key;
static bool has_key;
static pthread_once_t once = PTHREAD_ONCE_INIT;

static uint64_t next_mark(void)
{
    static uint64_t count = 0x9e3779b97f4a7c15u;
    return __atomic_add_fetch(&count, 0x9e3779b97f4a7c15u, __ATOMIC_RELAXED) | 1;
}

/* Takes a sleep out of its ring's, whose lock is held. */
static void take_out(struct sleeper *sleeper)
{
    struct sleeper **at = &sleeper->ring->sleepers;
    while (*at != sleeper)
        at = &(*at)->next;
    *at = sleeper->next;
}

/* The innermost sleep of the thread is over. */
static void forget(struct sleeper *sleeper)
{
    own_sleeps.innermost = sleeper->outer;
    free(sleeper);
}

void end_sleep(struct sleeper *sleeper)
{
    if (sleeper->ring->left & WULGACH_LEAVES_SLEEP) {
        forget(sleeper);
        return;
    }
    take_out(sleeper);
    if (sleeper->wake >= 0)
        close(sleeper->wake);
    if (sleeper->instance >= 0)
        close(sleeper->instance);
    forget(sleeper);
}

/* Leaves the innermost sleep, and its call, for the thread. */
static void leave(struct sleeper *sleeper)
{
    struct ring *ring = sleeper->ring;
    if (what_is_left(ring) & WULGACH_LEAVES_SLEEP) {
        forget(sleeper);
        return;
    }
    pthread_mutex_lock(&ring->lock);
    end_sleep(sleeper);
    unlock_ring(ring);
}

static void leave_all(void *none)
{
    sigset_t signals;
    (void)none;
    block_signals(&signals);
    while (own_sleeps.innermost)
        leave(own_sleeps.innermost);
    allow_signals(&signals);
}

static void make_key(void)
{
    has_key = pthread_key_create(&key, leave_all) == 0;
}

/* How the thread can be cancelled is remembered, for one that leaves the C library's sleep by a
 * jump. */
static void note_cancel_type(void)
{
    pthread_setcanceltype(PTHREAD_CANCEL_DEFERRED, &own_sleeps.cancel_type);
    pthread_setcanceltype(own_sleeps.cancel_type, NULL);
}

struct sleeper *begin_sleep(struct ring *ring, size_t most, volatile uint64_t *place)
{
    struct sleeper *sleeper = calloc(1, sizeof *sleeper + most * sizeof *sleeper->polled);
    if (!sleeper)
        return NULL;
    pthread_once(&once, make_key);
    if (has_key)
        pthread_setspecific(key, &own_sleeps);
    if (!own_sleeps.innermost)
        note_cancel_type();
    *sleeper = (struct sleeper){.next = ring->sleepers,
        .outer = own_sleeps.innermost,
        .ring = ring,
        .place = place,
        .mark = next_mark(),
        .from = caller ? caller : (const volatile void *)place};
    sleeper->wake = made_eventfd();
    sleeper->instance = made_instance();
    sigaltstack(NULL, &sleeper->for_handlers);
    *place = sleeper->mark;
    ring->sleepers = own_sleeps.innermost = sleeper;
    return sleeper;
}

void leave_inner_sleeps(const struct sleeper *sleeper)
{
    while (own_sleeps.innermost != sleeper) {
        demand(own_sleeps.innermost != NULL, "a sleep goes on that was left by a jump");
        leave(own_sleeps.innermost);
    }
}

static bool has_mark(const struct sleeper *sleeper)
{
    uint64_t found = 0;
    bool is_read = copy_in(&found, (uintptr_t)sleeper->place, sizeof found) == 0;
    return wulgach_has_mark(sleeper->mark, is_read, found);
}

/* Finds out which stacks the thread has: the one that it was made with, and that of its handlers,
 * as it is now and was as the sleep began. */
static void find_stacks(struct wulgach_seen_sleep *seen, const struct sleeper *sleeper)
{
    pthread_attr_t attributes;
    void *lowest = NULL;
    size_t size = 0;
    if (pthread_getattr_np(pthread_self(), &attributes) == 0) {
        pthread_attr_getstack(&attributes, &lowest, &size);
        pthread_attr_destroy(&attributes);
    }
    stack_t now = {.ss_flags = SS_DISABLE};
    sigaltstack(NULL, &now);
    seen->own_lowest = (uintptr_t)lowest;
    seen->own_size = size;
    seen->is_on_handlers = now.ss_flags & SS_ONSTACK;
    if (sleeper->for_handlers.ss_flags & SS_DISABLE)
        return;
    seen->handlers_lowest = (uintptr_t)sleeper->for_handlers.ss_sp;
    seen->handlers_size = sleeper->for_handlers.ss_size;
}

/* Whether a sleep was left by a jump, of a thread that calls here. */
static bool was_left(const struct sleeper *sleeper, const void *here)
{
    struct wulgach_seen_sleep seen = {
        .place = (uintptr_t)sleeper->place,
        .from = (uintptr_t)sleeper->from,
        .here = (uintptr_t)here,
        .is_marked = has_mark(sleeper),
    };
    if (wulgach_asks_stacks(&seen))
        find_stacks(&seen, sleeper);
    return wulgach_was_left(&seen);
}

static void go_on_with_cancel_type(void)
{
    int now;
    pthread_setcanceltype(PTHREAD_CANCEL_DEFERRED, &now);
    if (wulgach_is_cancellable_at_once(own_sleeps.innermost,
            own_sleeps.cancel_type == PTHREAD_CANCEL_ASYNCHRONOUS,
            now == PTHREAD_CANCEL_ASYNCHRONOUS))
        pthread_setcanceltype(PTHREAD_CANCEL_ASYNCHRONOUS, NULL);
}

int leave_jumped_sleeps(const void *here, int cancel_state)
{
    sigset_t signals;
    block_signals(&signals);
    while (own_sleeps.innermost && was_left(own_sleeps.innermost, here))
        leave(own_sleeps.innermost);
    allow_signals(&signals);
    go_on_with_cancel_type();
    bool is_cancellable = wulgach_is_cancellable(own_sleeps.innermost,
        own_sleeps.cancel_state == PTHREAD_CANCEL_ENABLE, cancel_state == PTHREAD_CANCEL_ENABLE);
    return is_cancellable ? PTHREAD_CANCEL_ENABLE : PTHREAD_CANCEL_DISABLE;
}
