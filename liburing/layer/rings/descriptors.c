/* Finding the ring of a descriptor. Where the layer isn't told that a descriptor is closed, it
 * keeps each ring until somebody finds that nobody can reach it any more and that no call is on it:
 * a set-up, a close that is heard, a call on another ring that sleeps, and once in a while any
 * call. What is left when the process ends isn't freed: threads may use it to the last.
 *
 * A close that the layer is told of may stand in a signal's handler, amid whatever the thread does
 * (signal-safety(7)): after it nothing is asked of the C library's memory, and no lock is waited
 * for long.
 */
#define _GNU_SOURCE
#include "rings/descriptors.h"
#include "choices/policy.h"
#include "operations/unwilling.h"
#include "process/numbers.h"
#include "process/process.h"
#include "rings/reached.h"
#include "wulgach_setup.h"
#include "wulgach_sleeps.h"
#include "wulgach_times.h"

#include <errno.h>
#include <fcntl.h>
#include <sched.h>
#include <stdlib.h>
#include <string.h>
#include <sys/stat.h>
#include <time.h>
#include <unistd.h>

static struct ring *rings; /* those of this process and of its parents, the newest first */
static struct ring **by_number; /* the ring that was last found under each descriptor, or NULL */
static size_t by_number_room;
static struct ring *looked_at; /* the one that was last looked at, or NULL */
static struct ring
    *ending; /* those that have let go what they had, and whose traces and memory are left */
static uint32_t ring_count;
static pthread_mutex_t rings_lock = PTHREAD_MUTEX_INITIALIZER;
static sigset_t
    forker; /* the signals that the thread has blocked else which forks now, with that lock */

/* A child has its parent's locks as they were at the fork: so none is held then by another thread.
 * The lock of a ring may be, but a child doesn't take those. */
static void lock_for_fork(void)
{
    sigset_t own;
    block_signals(&own);
    pthread_mutex_lock(&rings_lock);
    lock_choices();
    lock_kept();
    lock_unwilling();
    forker = own;
}

static void end_fork(void)
{
    sigset_t own = forker;
    unlock_unwilling();
    unlock_kept();
    unlock_choices();
    pthread_mutex_unlock(&rings_lock);
    allow_signals(&own);
}

static void begin_as_child(void)
{
    close_parents();
    end_fork();
}

__attribute__((constructor)) static void watch_forks(void)
{
    pthread_atfork(lock_for_fork, end_fork, begin_as_child);
}

static bool is_own(const struct ring *ring)
{
    return wulgach_may_name_ring_of(ring->image, this_image());
}

uint32_t what_is_left(const struct ring *ring)
{
    return wulgach_left_of(ring->image, this_image());
}

/* The numbers under which rings were found. Those from MOST_NOTED on aren't noted. */
enum { MOST_NOTED = 1 << 16, BITS = 64 };

static uint64_t numbers[MOST_NOTED / BITS];

static void note_number(int fd)
{
    if (fd < MOST_NOTED)
        __atomic_or_fetch(&numbers[fd / BITS], (uint64_t)1 << fd % BITS, __ATOMIC_RELAXED);
}

bool may_be_ring(int fd)
{
    return fd >= MOST_NOTED ||
           (fd >= 0 && __atomic_load_n(&numbers[fd / BITS], __ATOMIC_RELAXED) >> fd % BITS & 1);
}

/* Whether a descriptor is open on a ring, or may be in another thread's table of them: its close
 * will be heard. */
static bool is_reached(struct ring *ring)
{
    int fd = find_descriptor(ring);
    if (fd < 0)
        return is_reached_elsewhere(ring);
    note_number(fd);
    __atomic_store_n(&ring->fd, fd, __ATOMIC_RELAXED);
    return true;
}

/* Whether a ring is to be freed now. A call begins under the list's lock. It ends without: after
 * that it doesn't touch the ring. */
static bool is_gone(struct ring *ring)
{
    bool is_of_process = is_own(ring);
    uint32_t calls = __atomic_load_n(&ring->calls, __ATOMIC_SEQ_CST);
    uint32_t fate = wulgach_ring_fate(is_of_process, calls, false, false);
    if (fate == WULGACH_RING_ASKS)
        fate = wulgach_ring_fate(is_of_process, calls, true, is_reached(ring));
    return fate == WULGACH_RING_GOES;
}

/* Whether a ring may be closed that a call is on. */
static bool is_left_in_call;

/* The same. One that only a call keeps goes as that ends, which may have been just before that was
 * noted. */
static bool is_to_go(struct ring *ring)
{
    if (is_gone(ring))
        return true;
    if (!is_own(ring) || is_reached(ring))
        return false;
    __atomic_store_n(&is_left_in_call, true, __ATOMIC_SEQ_CST);
    return is_gone(ring);
}

static void forget(const struct ring *ring)
{
    for (size_t i = 0; i < by_number_room; i++)
        if (by_number[i] == ring)
            by_number[i] = NULL;
    if (looked_at == ring)
        looked_at = NULL;
}

/* Ends those that have let go what they had. (the numbers of the traces of a parent's may be its
 * child's own by now) */
static void end_rings(void)
{
    while (ending) {
        struct ring *ring = ending;
        ending = ring->next;
        if (!(what_is_left(ring) & WULGACH_LEAVES_MEMORY))
            end_ring(ring);
    }
}

/* Has the rings that nobody can reach any more, and that no call is on, let go what they have: they
 * are to be ended. */
static void let_go_closed(void)
{
    __atomic_store_n(&is_left_in_call, false, __ATOMIC_SEQ_CST);
    for (struct ring **at = &rings; *at;) {
        struct ring *ring = *at;
        if (is_to_go(ring)) {
            *at = ring->next;
            forget(ring);
            let_go(ring);
            ring->next = ending;
            ending = ring;
        } else {
            at = &ring->next;
        }
    }
}

static void free_closed_rings(void)
{
    let_go_closed();
    end_rings();
}

/* Remembers the ring of a descriptor. If memory is refused, it is searched for again. */
static void remember(int fd, struct ring *ring)
{
    size_t at = (size_t)fd;
    note_number(fd);
    if (at >= by_number_room) {
        size_t room = 2 * at + 16;
        struct ring **rows = realloc(by_number, room * sizeof *rows);
        if (!rows)
            return;
        memset(rows + by_number_room, 0, (room - by_number_room) * sizeof *rows);
        by_number = rows;
        by_number_room = room;
    }
    by_number[at] = ring;
}

void add_ring(struct ring *ring)
{
    pthread_mutex_lock(&rings_lock);
    free_closed_rings();
    ring->index = __atomic_fetch_add(&ring_count, 1, __ATOMIC_RELAXED);
    ring->next = rings;
    rings = ring;
    remember(ring->fd, ring);
    pthread_mutex_unlock(&rings_lock);
}

/* Takes a ring out of the list, and frees it. */
static void drop_ring(struct ring *ring)
{
    struct ring **at = &rings;
    while (*at != ring)
        at = &(*at)->next;
    *at = ring->next;
    forget(ring);
    free_ring(ring);
}

/* One whose mark it has comes before another: the number of a ring's eventfd may be that of
 * another's, in another thread's table of descriptors. */
static struct ring *search_rings(int fd)
{
    struct ring *found = NULL;
    for (struct ring *ring = rings; ring; ring = ring->next) {
        if (!is_own(ring) || !is_reached_by(ring, fd))
            continue;
        found = ring;
        if (is_still_reached_by(ring, fd))
            break;
    }
    return found;
}

/* The ring of a descriptor, with the list's lock held. It is looked for by number first, and then
 * among all. */
static struct ring *find_ring(int fd)
{
    if (fd < 0)
        return NULL;
    struct ring *ring = (size_t)fd < by_number_room ? by_number[fd] : NULL;
    if (ring && is_own(ring) && is_still_reached_by(ring, fd))
        return ring;
    ring = search_rings(fd);
    if (ring)
        remember(fd, ring);
    return ring;
}

int close_descriptor(int fd)
{
    sigset_t own;
    block_signals(&own);
    pthread_mutex_lock(&rings_lock);
    struct ring *ring = find_ring(fd);
    int result = close(fd) < 0 ? -errno : 0;
    if (ring && is_to_go(ring))
        drop_ring(ring);
    pthread_mutex_unlock(&rings_lock);
    allow_signals(&own);
    return result;
}

static void free_closed(void)
{
    sigset_t own;
    block_signals(&own);
    pthread_mutex_lock(&rings_lock);
    free_closed_rings();
    pthread_mutex_unlock(&rings_lock);
    allow_signals(&own);
}

/* The one after the last in the list, round and round. */
static struct ring *next_to_look_at(void)
{
    looked_at = looked_at && looked_at->next ? looked_at->next : rings;
    return looked_at;
}

/* Looks at so many in their turn, and where one has gone at all. */
static bool look_at_others(uint32_t most)
{
    pthread_mutex_lock(&rings_lock);
    struct ring *first = next_to_look_at();
    bool has_gone = first && is_gone(first);
    for (uint32_t i = 1; i < most && !has_gone && next_to_look_at() != first; i++)
        has_gone = is_gone(looked_at);
    if (has_gone)
        free_closed_rings();
    pthread_mutex_unlock(&rings_lock);
    return has_gone;
}

bool let_others_go(void)
{
    return look_at_others(wulgach_looked_at_before_sleep());
}

/* Tries the lock as often as the library says. */
static bool try_rings(void)
{
    for (uint32_t tries = 0; wulgach_tries_rings_again(tries); tries++) {
        if (pthread_mutex_trylock(&rings_lock) == 0)
            return true;
        sched_yield();
    }
    return false;
}

void let_go_in_handler(void)
{
    sigset_t own;
    block_signals(&own);
    __atomic_store_n(&is_left_in_call, true, __ATOMIC_SEQ_CST);
    if (try_rings()) {
        let_go_closed();
        if (ending)
            __atomic_store_n(&is_left_in_call, true, __ATOMIC_SEQ_CST);
        pthread_mutex_unlock(&rings_lock);
    }
    allow_signals(&own);
}

struct ring *hold_ring(int fd)
{
    pthread_mutex_lock(&rings_lock);
    struct ring *ring = find_ring(fd);
    if (ring)
        __atomic_add_fetch(&ring->calls, 1, __ATOMIC_RELAXED);
    pthread_mutex_unlock(&rings_lock);
    return ring;
}

struct ring *hold_uncalled(uint32_t from, bool (*is_elsewhere)(int32_t caller))
{
    struct ring *found = NULL;
    if (pthread_mutex_trylock(&rings_lock) != 0)
        return NULL;
    for (struct ring *ring = rings; ring; ring = ring->next)
        if (is_own(ring) && ring->index >= from && (!found || ring->index < found->index) &&
            __atomic_load_n(&ring->calls, __ATOMIC_SEQ_CST) == 0 && ring->requests.count > 0 &&
            is_elsewhere(ring->caller))
            found = ring;
    if (found)
        __atomic_add_fetch(&found->calls, 1, __ATOMIC_SEQ_CST);
    pthread_mutex_unlock(&rings_lock);
    return found;
}

void release_uncalled(struct ring *ring)
{
    __atomic_sub_fetch(&ring->calls, 1, __ATOMIC_SEQ_CST);
}

uint64_t count_calls(void)
{
    uint64_t count = 1;
    if (pthread_mutex_trylock(&rings_lock) != 0)
        return 0;
    for (const struct ring *ring = rings; ring; ring = ring->next)
        count += 1 + __atomic_load_n(&ring->call_number, __ATOMIC_RELAXED);
    pthread_mutex_unlock(&rings_lock);
    return count;
}

static uint64_t last_look; /* when it was last looked as a call ended, in nanoseconds */

static uint64_t coarse_time(void)
{
    struct timespec now = {0};
    clock_gettime(CLOCK_MONOTONIC_COARSE, &now);
    return wulgach_time_of(now.tv_sec, now.tv_nsec);
}

/* Looks whether rings are closed, as the library says that a call does which ends. */
static void look_after_call(void)
{
    bool may_be_left = __atomic_load_n(&is_left_in_call, __ATOMIC_SEQ_CST);
    uint32_t rings = __atomic_load_n(&ring_count, __ATOMIC_RELAXED);
    uint64_t now = wulgach_asks_elapsed(may_be_left, rings) ? coarse_time() : 0;
    uint32_t most = wulgach_looked_at_after(
        may_be_left, rings, now - __atomic_load_n(&last_look, __ATOMIC_RELAXED));
    if (most == 0)
        return;
    if (most == WULGACH_ALL_RINGS) {
        free_closed();
        return;
    }
    __atomic_store_n(&last_look, now, __ATOMIC_RELAXED);
    look_at_others(most);
}

void release_ring(struct ring *ring)
{
    __atomic_sub_fetch(&ring->calls, 1, __ATOMIC_SEQ_CST);
    look_after_call();
}

bool find_index(int fd, uint32_t *index)
{
    pthread_mutex_lock(&rings_lock);
    const struct ring *ring = find_ring(fd);
    if (ring)
        *index = ring->index;
    pthread_mutex_unlock(&rings_lock);
    return ring;
}

bool is_ring(int fd)
{
    uint32_t index;
    return find_index(fd, &index);
}
