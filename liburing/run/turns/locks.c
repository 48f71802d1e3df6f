/* In the places of the C library's functions: each is a point, and whether another goes on there is
 * decided without a call; only where one does it is made. Who tries a lock in vain yields, and a
 * lock that spins is tried. */
#define _GNU_SOURCE
#include "turns.h"
#include "uncalled.h"
#include "../run.h"

#include <dlfcn.h>
#include <pthread.h>
#include <semaphore.h>
#include <string.h>
#include <unistd.h>

enum { STEP = 1000, LOOK_AGAIN = 1024 };

/* What the thread is about, while it is. */
struct lock {
    const char *name;
    const void *lock;
    bool is_mutex;
};
static struct lock locks[MOST_THREADS];

const char *name_of_lock(const struct thread *thread)
{
    return locks[slot_of(thread)].name;
}

int owner_of_lock(const struct thread *thread)
{
    const struct lock *lock = locks + slot_of(thread);
    return thread->place && lock->is_mutex ? ((const pthread_mutex_t *)lock->lock)->__data.__owner
                                           : 0;
}

/* Whether it is enough to look at who is ready: nobody waits for what may have come since. */
static int find_ready(int *ready, uint64_t now)
{
    int count = 0;
    if ((world->points + 1) % LOOK_AGAIN == 0 || world->due <= now || has_uncalled())
        return -1;
    for (int i = 0; i < world->count; i++) {
        const struct thread *thread = world->threads + i;
        if (thread->state == READY)
            ready[count++] = i;
        else if (thread->state == WAITS &&
                 (thread->limit <= now ||
                     (thread->is_ready && (thread->is_met || thread->asked != world->changes))))
            return -1;
    }
    return count;
}

static void make_point_at(const void *lock)
{
    static int ready[MOST_THREADS];
    uint64_t now = world->now + STEP;
    int count = find_ready(ready, now);
    if (count < 0) {
        syscall(POINT_AT_LOCK, lock);
        return;
    }
    world->points++;
    world->now = now;
    self->looks = 0;
    int next = pick_of(ready, count);
    if (next != slot_of(self))
        syscall(GO_ON_AS, next, lock);
}

/* Where this library's code is: its own locks are no points. */
extern const char __ehdr_start[] __attribute__((visibility("hidden"))),
    etext[] __attribute__((visibility("hidden")));

static bool is_of_library(const void *place)
{
    return (const char *)place >= __ehdr_start && (const char *)place < etext;
}

static void begin_lock(const char *name, const void *lock, const void *place, bool is_mutex)
{
    if (!self || is_of_library(place))
        return;
    self->call = POINT_AT_LOCK;
    make_point_at(lock);
    locks[slot_of(self)] = (struct lock){name, lock, is_mutex};
    self->place = place;
}

static int end_lock(int result)
{
    if (self)
        self->place = NULL;
    return result;
}

static void yield_if(bool is_taken)
{
    if (is_taken && self)
        syscall(YIELD_AT_LOCK);
}

static void *find(const char *name, const char *version)
{
    return version ? dlvsym(RTLD_NEXT, name, version) : dlsym(RTLD_NEXT, name);
}

/* A function in the place of one, with that found once. */
#define REAL(name, version, given) \
    static int(*real) given; \
    if (!real) \
    *(void **)&real = find(#name, version)

#define LOCKS(name, version, is_mutex, given, words, lock) \
    SEEN int name given \
    { \
        REAL(name, version, given); \
        begin_lock(#name, lock, __builtin_return_address(0), is_mutex); \
        return end_lock(real words); \
    }

#define TRIES(name, given, words) \
    SEEN int name given \
    { \
        REAL(name, NULL, given); \
        begin_lock(#name, NULL, __builtin_return_address(0), false); \
        int result = end_lock(real words); \
        yield_if(result != 0); \
        return result; \
    }

#define OF_CONDITION "GLIBC_2.3.2"

LOCKS(pthread_mutex_lock, NULL, true, (pthread_mutex_t * mutex), (mutex), mutex)
LOCKS(pthread_mutex_timedlock, NULL, true, (pthread_mutex_t * mutex, const struct timespec *time),
    (mutex, time), mutex)
TRIES(pthread_mutex_trylock, (pthread_mutex_t * mutex), (mutex))
LOCKS(pthread_cond_wait, OF_CONDITION, false, (pthread_cond_t * condition, pthread_mutex_t *mutex),
    (condition, mutex), condition)
LOCKS(pthread_cond_timedwait, OF_CONDITION, false,
    (pthread_cond_t * condition, pthread_mutex_t *mutex, const struct timespec *time),
    (condition, mutex, time), condition)
LOCKS(
    pthread_cond_signal, OF_CONDITION, false, (pthread_cond_t * condition), (condition), condition)
LOCKS(pthread_cond_broadcast, OF_CONDITION, false, (pthread_cond_t * condition), (condition),
    condition)
LOCKS(pthread_rwlock_rdlock, NULL, false, (pthread_rwlock_t * lock), (lock), lock)
LOCKS(pthread_rwlock_wrlock, NULL, false, (pthread_rwlock_t * lock), (lock), lock)
TRIES(pthread_rwlock_tryrdlock, (pthread_rwlock_t * lock), (lock))
TRIES(pthread_rwlock_trywrlock, (pthread_rwlock_t * lock), (lock))
LOCKS(pthread_join, NULL, false, (pthread_t thread, void **result), (thread, result), NULL)
LOCKS(sem_wait, NULL, false, (sem_t * semaphore), (semaphore), semaphore)
LOCKS(sem_timedwait, NULL, false, (sem_t * semaphore, const struct timespec *time),
    (semaphore, time), semaphore)
LOCKS(sem_post, NULL, false, (sem_t * semaphore), (semaphore), semaphore)
TRIES(sem_trywait, (sem_t * semaphore), (semaphore))

/* One processor runs: who has it has to go on. */
SEEN int pthread_spin_lock(pthread_spinlock_t *lock)
{
    REAL(pthread_spin_lock, NULL, (pthread_spinlock_t *));
    begin_lock("pthread_spin_lock", (const void *)lock, __builtin_return_address(0), false);
    while (self && pthread_spin_trylock(lock) != 0)
        yield_if(true);
    return self ? end_lock(0) : real(lock);
}
