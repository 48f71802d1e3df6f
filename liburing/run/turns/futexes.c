/* Futexes: who waits for one is kept here, and the kernel hears of none. They are told by where
 * they lie in memory that processes share (memory.c), or by their address in a process. */
#define _GNU_SOURCE
#include "turns.h"

#include <errno.h>
#include <linux/futex.h>
#include <sys/uio.h>

_Static_assert(MOST_WANTED == FUTEX_WAITV_MAX, "so many are awaited at once");

static uint32_t word_at(uint64_t at)
{
    return __atomic_load_n((uint32_t *)at, __ATOMIC_SEQ_CST);
}

static void put_word(uint64_t at, uint32_t value)
{
    __atomic_store_n((uint32_t *)at, value, __ATOMIC_SEQ_CST);
}

static struct wanted *wanted_of(const struct thread *thread)
{
    return world->wanted[slot_of(thread)];
}

static bool is_same(struct key one, struct key other)
{
    return one.space == other.space && one.place == other.place;
}

/* Which of the futexes that a thread waits for is this one, by one of these bits; -1: none. */
static int place_among_wanted(const struct thread *thread, struct key key, uint32_t bits)
{
    const struct wanted *wanted = wanted_of(thread);
    for (int i = 0; thread->state == WAITS && i < thread->wanted_count; i++)
        if (is_same(wanted[i].key, key) && wanted[i].bits & bits)
            return i;
    return -1;
}

/* Who has waited longest. */
static struct thread *first_waiter(struct key key, uint32_t bits)
{
    struct thread *first = NULL;
    for (int i = 0; i < world->count; i++) {
        struct thread *thread = world->threads + i;
        if (place_among_wanted(thread, key, bits) >= 0 &&
            (!first || thread->ticket < first->ticket))
            first = thread;
    }
    return first;
}

static void wake(struct thread *thread, int which)
{
    thread->woken = which;
    thread->wanted_count = 0;
    thread->reason = WOKEN;
    thread->state = READY;
}

int wake_futex(struct key key, int most, uint32_t bits)
{
    int woken = 0;
    for (struct thread *first; woken < most && (first = first_waiter(key, bits)); woken++)
        wake(first, place_among_wanted(first, key, bits));
    return woken;
}

/* A process has ended, and the kernel has marked its locks: who waits for what processes share
 * looks again. */
void wake_sharers(void)
{
    for (int i = 0; i < world->count; i++) {
        struct thread *thread = world->threads + i;
        bool is_shared = thread->state == WAITS && thread->wanted_count > 0 &&
                         wanted_of(thread)->key.space >= MOST_PROCESSES;
        if (is_shared)
            wake(thread, 0);
    }
}

static enum reason wait_for_words(int count, uint64_t limit)
{
    self->wanted_count = count;
    return wait_until(NULL, NULL, false, limit);
}

/* The futex of a call's word. */
static struct key key_at(const long *words, int word)
{
    return key_of((uint64_t)words[word], words[1] & FUTEX_PRIVATE_FLAG);
}

static long wait_for_word(const long *words, uint32_t bits, uint64_t limit)
{
    if (bits == 0)
        return -EINVAL;
    if (word_at((uint64_t)words[0]) != (uint32_t)words[2])
        return -EAGAIN;
    *wanted_of(self) = (struct wanted){key_at(words, 0), bits};
    enum reason reason = wait_for_words(1, limit);
    return reason == WOKEN ? 0 : reason == INTERRUPTED ? RESTARTS : -ETIMEDOUT;
}

/* Wakes some, and has others wait for another word. */
static long requeue(const long *words)
{
    struct key from = key_at(words, 0), to = key_at(words, 4);
    int changed = wake_futex(from, (int)words[2], FUTEX_BITSET_MATCH_ANY);
    struct thread *first;
    for (long moved = 0; moved < words[3] && (first = first_waiter(from, FUTEX_BITSET_MATCH_ANY));
         moved++, changed++) {
        wanted_of(first)[place_among_wanted(first, from, FUTEX_BITSET_MATCH_ANY)].key = to;
        first->ticket = world->tickets++;
    }
    return changed;
}

/* FUTEX_WAKE_OP's word: what is put, and whether the second word's waiters are waked. */
static uint32_t changed_word(uint32_t how, uint32_t before)
{
    int by = (int)(how << 8) >> 20;
    uint32_t value = how >> 28 & FUTEX_OP_OPARG_SHIFT ? (uint32_t)1 << (by & 31) : (uint32_t)by;
    switch (how >> 28 & 7) {
    case FUTEX_OP_SET:
        return value;
    case FUTEX_OP_ADD:
        return before + value;
    case FUTEX_OP_OR:
        return before | value;
    case FUTEX_OP_ANDN:
        return before & ~value;
    default:
        return before ^ value;
    }
}

static bool compares(uint32_t how, uint32_t before)
{
    int with = (int)(how << 20) >> 20, is = (int)before;
    switch (how >> 24 & 15) {
    case FUTEX_OP_CMP_EQ:
        return is == with;
    case FUTEX_OP_CMP_NE:
        return is != with;
    case FUTEX_OP_CMP_LT:
        return is < with;
    case FUTEX_OP_CMP_LE:
        return is <= with;
    case FUTEX_OP_CMP_GT:
        return is > with;
    default:
        return is >= with;
    }
}

static long wake_by_word(const long *words)
{
    uint32_t how = (uint32_t)words[5], before = word_at((uint64_t)words[4]);
    put_word((uint64_t)words[4], changed_word(how, before));
    int woken = wake_futex(key_at(words, 0), (int)words[2], FUTEX_BITSET_MATCH_ANY);
    return woken + (compares(how, before)
                           ? wake_futex(key_at(words, 4), (int)words[3], FUTEX_BITSET_MATCH_ANY)
                           : 0);
}

static bool has_waiter(struct key key)
{
    return first_waiter(key, FUTEX_BITSET_MATCH_ANY) != NULL;
}

/* The word of a lock with inheritance names its owner: it goes to who has waited longest, or is
 * free. */
static void hand_over(uint64_t word, struct key key, uint32_t marks)
{
    struct thread *next = first_waiter(key, FUTEX_BITSET_MATCH_ANY);
    if (next)
        wake(next, 0);
    put_word(
        word, marks | (next ? (uint32_t)next->number | (has_waiter(key) ? FUTEX_WAITERS : 0) : 0));
}

static long lock_by_owner(const long *words, bool tries, bool is_date)
{
    uint64_t word = (uint64_t)words[0];
    uint32_t is = word_at(word), owner = is & FUTEX_TID_MASK;
    if (owner == 0) {
        put_word(word, (is & ~(uint32_t)FUTEX_TID_MASK) | (uint32_t)self->number);
        return 0;
    }
    if ((int)owner == self->number)
        return -EDEADLK;
    if (tries)
        return -EAGAIN;
    put_word(word, is | FUTEX_WAITERS);
    *wanted_of(self) = (struct wanted){key_at(words, 0), FUTEX_BITSET_MATCH_ANY};
    const struct timespec *time = (const struct timespec *)words[3];
    enum reason reason = wait_for_words(1, time ? limit_at(is_date, ns_of(time)) : NEVER);
    if (reason == WOKEN && (int)(word_at(word) & FUTEX_TID_MASK) != self->number)
        return lock_by_owner(words, tries, is_date);
    return reason == WOKEN ? 0 : reason == INTERRUPTED ? RESTARTS : -ETIMEDOUT;
}

static long unlock_by_owner(const long *words)
{
    uint64_t word = (uint64_t)words[0];
    if ((int)(word_at(word) & FUTEX_TID_MASK) != self->number)
        return -EPERM;
    hand_over(word, key_at(words, 0), 0);
    return 0;
}

static long wait_by_operation(const long *words)
{
    const struct timespec *time = (const struct timespec *)words[3];
    bool is_span = (words[1] & FUTEX_CMD_MASK) == FUTEX_WAIT;
    uint64_t limit = !time     ? NEVER
                     : is_span ? limit_after(time)
                               : limit_at(words[1] & FUTEX_CLOCK_REALTIME, ns_of(time));
    return wait_for_word(words, is_span ? FUTEX_BITSET_MATCH_ANY : (uint32_t)words[5], limit);
}

long serve_futex(struct trap *trap)
{
    const long *words = trap->words;
    int operation = (int)words[1] & FUTEX_CMD_MASK;
    if (operation == FUTEX_CMP_REQUEUE && word_at((uint64_t)words[0]) != (uint32_t)words[5])
        return -EAGAIN;
    switch (operation) {
    case FUTEX_WAIT:
    case FUTEX_WAIT_BITSET:
        return wait_by_operation(words);
    case FUTEX_WAKE:
        return wake_futex(
            key_at(words, 0), (int)words[2] > 0 ? (int)words[2] : 1, FUTEX_BITSET_MATCH_ANY);
    case FUTEX_WAKE_BITSET:
        return (uint32_t)words[5] ? wake_futex(key_at(words, 0), (int)words[2], (uint32_t)words[5])
                                  : -EINVAL;
    case FUTEX_REQUEUE:
    case FUTEX_CMP_REQUEUE:
        return requeue(words);
    case FUTEX_WAKE_OP:
        return wake_by_word(words);
    case FUTEX_LOCK_PI:
        return lock_by_owner(words, false, true);
    case FUTEX_LOCK_PI2:
        return lock_by_owner(words, false, words[1] & FUTEX_CLOCK_REALTIME);
    case FUTEX_TRYLOCK_PI:
        return lock_by_owner(words, true, false);
    case FUTEX_UNLOCK_PI:
        return unlock_by_owner(words);
    default:
        tell_unserved(trap, "it is refused with ENOSYS");
        return -ENOSYS;
    }
}

/* futex_waitv(2): one of many. */
long serve_waitv(struct trap *trap)
{
    enum { SIZE_OF_32 = 2 };
    const struct futex_waitv *given = (const struct futex_waitv *)trap->words[0];
    struct wanted *wanted = wanted_of(self);
    uint64_t count = (uint64_t)trap->words[1];
    const struct timespec *time = (const struct timespec *)trap->words[3];
    if (count == 0 || count > FUTEX_WAITV_MAX || trap->words[2] != 0)
        return -EINVAL;
    for (uint64_t i = 0; i < count; i++) {
        if (!(given[i].flags & SIZE_OF_32) || given[i].__reserved)
            return -EINVAL;
        if (word_at(given[i].uaddr) != (uint32_t)given[i].val)
            return -EAGAIN;
        wanted[i] = (struct wanted){
            key_of(given[i].uaddr, given[i].flags & FUTEX_PRIVATE_FLAG), FUTEX_BITSET_MATCH_ANY};
    }
    enum reason reason = wait_for_words(
        (int)count, time ? limit_at(trap->words[4] == CLOCK_REALTIME, ns_of(time)) : NEVER);
    return reason == WOKEN ? self->woken : reason == INTERRUPTED ? RESTARTS : -ETIMEDOUT;
}

/* Whether so many bytes are there: the kernel's walk ends where they aren't. */
static bool reads(uint64_t at, void *word, size_t size)
{
    struct iovec to = {word, size}, from = {(void *)at, size};
    return kernel(SYS_process_vm_readv, self->number, &to, 1, &from, 1, 0) == (long)size;
}

/* A lock whose owner ends is marked, and one who waits for it goes on. */
static void mark_ended(uint64_t word, bool inherits)
{
    uint32_t is;
    if (!reads(word, &is, sizeof is) || (int)(is & FUTEX_TID_MASK) != self->number)
        return;
    if (inherits) {
        hand_over(word, key_of(word, false), FUTEX_OWNER_DIED);
        return;
    }
    put_word(word, (is & FUTEX_WAITERS) | FUTEX_OWNER_DIED);
    if (is & FUTEX_WAITERS)
        wake_futex(key_of(word, false), 1, FUTEX_BITSET_MATCH_ANY);
}

/* The list of set_robust_list(2), whose lowest bits say which inherit. */
void free_robust_locks(void)
{
    enum { INHERITS = 1, MOST = 2048 };
    struct robust_list_head head;
    uint64_t next;
    if (!self->robust || !reads(self->robust, &head, sizeof head))
        return;
    uint64_t at = (uint64_t)head.list.next, offset = (uint64_t)head.futex_offset,
             pending = (uint64_t)head.list_op_pending;
    for (int i = 0; i < MOST && (at & ~(uint64_t)INHERITS) != self->robust; i++, at = next) {
        if (!reads(at & ~(uint64_t)INHERITS, &next, sizeof next))
            return;
        if (at != pending)
            mark_ended((at & ~(uint64_t)INHERITS) + offset, at & INHERITS);
    }
    if (pending & ~(uint64_t)INHERITS)
        mark_ended((pending & ~(uint64_t)INHERITS) + offset, pending & INHERITS);
}
