/* Rings by direct calls, for tests that need no sources of liburing: set-up and mapping, entries,
 * and completions. */
#ifndef RING_H
#define RING_H

#include <errno.h>
#include <fcntl.h>
#include <linux/io_uring.h>
#include <pthread.h>
#include <stdbool.h>
#include <stdint.h>
#include <stdio.h>
#include <stdlib.h>
#include <string.h>
#include <sys/mman.h>
#include <sys/syscall.h>
#include <sys/uio.h>
#include <sys/wait.h>
#include <unistd.h>

long wulgach_syscall(long call, ...);
long wulgach_polled_syscall(long call, ...);
void *wulgach_mmap(void *at, size_t size, int protection, int flags, int fd, off_t offset);

/* A ring as a program maps it. */
struct ring {
    int fd;
    struct io_uring_params params;
    char *sq, *cq;
    struct io_uring_sqe *entries;
    size_t sq_size, cq_size;
};

struct completion {
    uint64_t user_data;
    int32_t res;
};

static const char *test = ""; /* the one that runs */

static inline void check_at(bool is_so, const char *what, int line)
{
    if (is_so)
        return;
    printf("%s: line %d: %s\n", test, line, what);
    exit(1);
}

#define check(is_so) check_at(is_so, #is_so, __LINE__)

/* The seconds after which a test that hangs is ended by an alarm, if it sets one. */
enum { PATIENCE = 60 };

/* How many times as patient the test is as on a quiet machine. */
static inline int patience(void)
{
    const char *said = getenv("PATIENCE");
    return said && atoi(said) > 0 ? atoi(said) : 1;
}

/* ---- calls ---- */

static inline long set_up(unsigned entries, struct io_uring_params *params)
{
    /* A descriptor that polls, or one that mmap maps. */
    bool is_polled = getenv("WULGACH_TEST_POLLED");
    long result = is_polled ? wulgach_polled_syscall(SYS_io_uring_setup, entries, params)
                            : wulgach_syscall(SYS_io_uring_setup, entries, params);
    return result < 0 ? -errno : result;
}

static inline long enter(
    const struct ring *ring, unsigned to_submit, unsigned min_complete, unsigned flags)
{
    long result = wulgach_syscall(
        SYS_io_uring_enter, ring->fd, to_submit, min_complete, flags, NULL, (size_t)0);
    return result < 0 ? -errno : result;
}

static inline long enter_for(const struct ring *ring, unsigned min_complete, long long nanoseconds)
{
    struct __kernel_timespec time = {nanoseconds / 1000000000, nanoseconds % 1000000000};
    struct io_uring_getevents_arg argument = {.ts = (uintptr_t)&time};
    long result = wulgach_syscall(SYS_io_uring_enter, ring->fd, 0u, min_complete,
        IORING_ENTER_GETEVENTS | IORING_ENTER_EXT_ARG, &argument, sizeof argument);
    return result < 0 ? -errno : result;
}

static inline long register_at(int fd, unsigned code, void *argument, unsigned count)
{
    long result = wulgach_syscall(SYS_io_uring_register, fd, code, argument, count);
    return result < 0 ? -errno : result;
}

/* ---- ring memory ---- */

static inline unsigned *sq_word(const struct ring *ring, unsigned offset)
{
    return (unsigned *)(void *)(ring->sq + offset);
}

static inline unsigned *cq_word(const struct ring *ring, unsigned offset)
{
    return (unsigned *)(void *)(ring->cq + offset);
}

static inline void *map(const struct ring *ring, size_t size, unsigned long long offset)
{
    void *at = wulgach_mmap(
        NULL, size, PROT_READ | PROT_WRITE, MAP_SHARED | MAP_POPULATE, ring->fd, (off_t)offset);
    check(at != MAP_FAILED);
    return at;
}

static inline void make_ring(
    struct ring *ring, unsigned entries, unsigned completions, unsigned flags)
{
    memset(ring, 0, sizeof *ring);
    ring->params.flags = flags | (completions ? IORING_SETUP_CQSIZE : 0);
    ring->params.cq_entries = completions;
    ring->fd = (int)set_up(entries, &ring->params);
    check(ring->fd >= 0);
    ring->sq_size = ring->params.sq_off.array + ring->params.sq_entries * sizeof(unsigned);
    ring->cq_size = ring->params.cq_off.cqes +
                    ring->params.cq_entries * sizeof(struct io_uring_cqe);
#ifndef IS_ALSO_REAL
    check(!(ring->params.features & IORING_FEAT_SINGLE_MMAP) == !getenv("WULGACH_TEST_POLLED"));
#endif
    ring->sq = map(ring, ring->sq_size, IORING_OFF_SQ_RING);
    ring->cq = map(ring, ring->cq_size, IORING_OFF_CQ_RING);
    ring->entries = map(ring, ring->params.sq_entries * sizeof *ring->entries, IORING_OFF_SQES);
}

static inline void close_ring(struct ring *ring)
{
    munmap(ring->sq, ring->sq_size);
    munmap(ring->cq, ring->cq_size);
    munmap(ring->entries, ring->params.sq_entries * sizeof *ring->entries);
    close(ring->fd);
}

/* Both ends of a pipe or of a pair of sockets. */
static inline void close_pair(const int ends[2])
{
    close(ends[0]);
    close(ends[1]);
}

/* Publishes an index word, and returns the entry of its slot. */
static inline struct io_uring_sqe *publish(struct ring *ring, unsigned word)
{
    unsigned *tail = sq_word(ring, ring->params.sq_off.tail), mask = ring->params.sq_entries - 1;
    sq_word(ring, ring->params.sq_off.array)[*tail & mask] = word;
    __atomic_store_n(tail, *tail + 1, __ATOMIC_RELEASE);
    return &ring->entries[word & mask];
}

static inline struct io_uring_sqe *put(
    struct ring *ring, uint8_t code, uint64_t user_data, uint8_t flags)
{
    unsigned tail = *sq_word(ring, ring->params.sq_off.tail);
    struct io_uring_sqe *entry = publish(ring, tail & (ring->params.sq_entries - 1));
    memset(entry, 0, sizeof *entry);
    entry->opcode = code;
    entry->flags = flags;
    entry->user_data = user_data;
    return entry;
}

/* Writes an entry to a slot, and publishes it. */
static inline struct io_uring_sqe *put_at(
    struct ring *ring, unsigned slot, uint8_t code, uint64_t user_data, uint8_t flags)
{
    struct io_uring_sqe *entry = publish(ring, slot);
    *entry = (struct io_uring_sqe){
        .opcode = code, .flags = flags, .fd = -1, .user_data = user_data};
    return entry;
}

static inline struct io_uring_sqe *put_transfer(struct ring *ring, uint8_t code, uint64_t user_data,
    uint8_t flags, int fd, void *bytes, unsigned length, uint64_t offset)
{
    struct io_uring_sqe *entry = put(ring, code, user_data, flags);
    entry->fd = fd;
    entry->addr = (uintptr_t)bytes;
    entry->len = length;
    entry->off = offset;
    return entry;
}

static inline unsigned flags_of(const struct ring *ring)
{
    return *sq_word(ring, ring->params.sq_off.flags);
}

/* Whether nothing is outstanding, and nothing has overflowed. A descriptor that polls is readable
 * until the next call. */
static inline bool is_at_rest(const struct ring *ring)
{
    return flags_of(ring) == 0 ||
           (getenv("WULGACH_TEST_POLLED") && flags_of(ring) == IORING_SQ_TASKRUN);
}

static inline unsigned count_ready(const struct ring *ring)
{
    return __atomic_load_n(cq_word(ring, ring->params.cq_off.tail), __ATOMIC_ACQUIRE) -
           *cq_word(ring, ring->params.cq_off.head);
}

static inline struct completion reap(struct ring *ring)
{
    check(count_ready(ring) > 0);
    unsigned *head = cq_word(ring, ring->params.cq_off.head);
    const struct io_uring_cqe *cells = (const void *)(ring->cq + ring->params.cq_off.cqes);
    const struct io_uring_cqe *cell = &cells[*head & (ring->params.cq_entries - 1)];
    struct completion found = {cell->user_data, cell->res};
    check(cell->flags == 0);
    __atomic_store_n(head, *head + 1, __ATOMIC_RELEASE);
    return found;
}

/* Waits for this many completions, and puts the result of user data n into place n. */
static inline void reap_all(struct ring *ring, unsigned count, int32_t *results)
{
    check(enter(ring, 0, count, IORING_ENTER_GETEVENTS) == 0);
    check(count_ready(ring) == count);
    for (unsigned i = 0; i < count; i++) {
        struct completion found = reap(ring);
        results[found.user_data] = found.res;
    }
}

static inline int make_file(void)
{
    int fd = memfd_create("file", MFD_CLOEXEC);
    check(fd >= 0);
    return fd;
}

#endif
