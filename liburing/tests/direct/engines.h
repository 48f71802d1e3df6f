/* What tests share beside rings: single requests, completions with their flags, and a list of
 * tests. */
#ifndef ENGINES_H
#define ENGINES_H

#include "ring.h"

#include <dirent.h>

static inline struct io_uring_sqe *put_plain(
    struct ring *ring, uint8_t code, uint64_t user_data, int fd)
{
    struct io_uring_sqe *entry = put(ring, code, user_data, 0);
    entry->fd = fd;
    return entry;
}

static inline void put_poll(
    struct ring *ring, uint64_t user_data, int fd, uint32_t events, uint32_t how)
{
    struct io_uring_sqe *entry = put_plain(ring, IORING_OP_POLL_ADD, user_data, fd);
    entry->poll32_events = events;
    entry->len = how;
}

/* A splice or a tee of at most so many bytes, at the places where its files are. */
static inline struct io_uring_sqe *put_splice(
    struct ring *ring, uint8_t code, uint64_t user_data, int from, int to, uint32_t length)
{
    struct io_uring_sqe *entry = put_plain(ring, code, user_data, to);
    entry->splice_fd_in = from;
    entry->len = length;
    entry->off = entry->splice_off_in = code == IORING_OP_SPLICE ? (uint64_t)-1 : 0;
    return entry;
}

/* Whether rings go by the manual pages' rules, where Linux's are others. */
static inline bool is_by_manual(void)
{
    const char *profile = getenv("WULGACH_PROFILE");
    return profile && strcmp(profile, "manual") == 0;
}

/* Submits this many entries, whose user data are 0, 1 and so on, waits for all, and returns the
 * result of the last. */
static inline int32_t result_of_one(struct ring *ring, uint32_t count)
{
    int32_t results[16];
    check(enter(ring, count, 0, 0) == (long)count);
    check(enter(ring, 0, count, IORING_ENTER_GETEVENTS) == 0);
    check(count_ready(ring) == count);
    for (uint32_t i = 0; i < count; i++) {
        struct completion found = reap(ring);
        results[found.user_data] = found.res;
    }
    return results[count - 1];
}

/* The entry that is staged, whose user data is 0, ends with this fault as it is taken, so that a
 * call stops after it; or it has NO_FAULT. */
enum { NO_FAULT = 1 };

static inline void expect_entry_fault(struct ring *ring, int32_t fault)
{
    int32_t results[2];
    put(ring, IORING_OP_NOP, 1, 0);
    long taken = enter(ring, 2, 0, 0);
    check(taken == (fault == NO_FAULT ? 2 : 1));
    check(taken == 2 || enter(ring, 1, 0, 0) == 1);
    reap_all(ring, 2, results);
    check(fault == NO_FAULT || results[0] == fault);
    check(results[1] == 0);
}

static inline void submit_nop(struct ring *ring, uint64_t user_data)
{
    put(ring, IORING_OP_NOP, user_data, 0);
    check(enter(ring, 1, 0, 0) == 1);
}

/* Whether it runs under valgrind, which maps no ring whose descriptor polls, and tells of each
 * address where nothing is. */
static inline bool is_under_valgrind(void)
{
    return getenv("WULGACH_TEST_VALGRIND");
}

/* Whether requests go on by their numbers, so that a call has what can go on in it. */
static inline bool is_in_order(void)
{
    const char *policy = getenv("WULGACH_POLICY");
    return !policy || strcmp(policy, "order") == 0;
}

/* All that can go on has, and what waits was waited for. */
static inline void settle(struct ring *ring)
{
    check(enter_for(ring, 1, 1000) == -ETIME);
}

/* Nothing comes of the request that was put. */
static inline void expect_waiting(struct ring *ring)
{
    check(enter(ring, 1, 0, 0) == 1);
    settle(ring);
}

/* How many names /proc has for the process's descriptors, to be compared with what it was before.
 */
static inline size_t count_descriptors(void)
{
    size_t count = 0;
    DIR *folder = opendir("/proc/self/fd");
    while (readdir(folder))
        count++;
    closedir(folder);
    return count;
}

/* Waits for one completion, and returns its result. */
static inline int32_t wait_for_one(struct ring *ring)
{
    check(enter(ring, 0, 1, IORING_ENTER_GETEVENTS) == 0);
    return reap(ring).res;
}

static inline int32_t read_at(
    struct ring *ring, int fd, void *bytes, unsigned length, uint64_t offset)
{
    put_transfer(ring, IORING_OP_READ, 0, 0, fd, bytes, length, offset);
    check(enter(ring, 1, 0, 0) == 1);
    return wait_for_one(ring);
}

/* The next completion, with its flags. */
struct seen {
    uint64_t user_data;
    int32_t res;
    uint32_t flags;
};

static inline struct seen next_of(struct ring *ring)
{
    while (count_ready(ring) == 0)
        check(enter(ring, 0, 1, IORING_ENTER_GETEVENTS) == 0);
    unsigned *head = cq_word(ring, ring->params.cq_off.head);
    const struct io_uring_cqe *cells = (const void *)(ring->cq + ring->params.cq_off.cqes);
    const struct io_uring_cqe *cell = &cells[*head & (ring->params.cq_entries - 1)];
    struct seen found = {cell->user_data, cell->res, cell->flags};
    __atomic_store_n(head, *head + 1, __ATOMIC_RELEASE);
    return found;
}

/* Whether the kernel makes rings, where these are its own. */
static inline bool are_rings_there(void)
{
#ifdef IS_ALSO_REAL
    struct io_uring_params params = {0};
    long fd = set_up(1, &params);
    if (fd < 0) {
        puts("this kernel makes no rings");
        return false;
    }
    close((int)fd);
#endif
    return true;
}

struct named {
    const char *name;
    void (*run)(void);
};

/* Runs all tests, or the one that is named. */
static inline int run_tests(const struct named *tests, size_t count, const char *name)
{
    for (size_t i = 0; i < count; i++) {
        test = tests[i].name;
        if (!name || strcmp(name, test) == 0)
            tests[i].run();
    }
    return 0;
}

#endif
