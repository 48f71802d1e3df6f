/* Rings by direct calls of the layer or of the kernel. */
#define _GNU_SOURCE
#include "rings.h"

#include <errno.h>
#include <poll.h>
#include <string.h>
#include <sys/mman.h>
#include <sys/syscall.h>
#include <unistd.h>

long wulgach_syscall(long call, ...);
long wulgach_polled_syscall(long call, ...);
void *wulgach_mmap(void *at, size_t size, int protection, int flags, int fd, off_t offset);

static uint32_t *word_at(char *base, uint32_t offset)
{
    return (uint32_t *)(void *)(base + offset);
}

static uint32_t load(char *base, uint32_t offset)
{
    return __atomic_load_n(word_at(base, offset), __ATOMIC_ACQUIRE);
}

static long set_up(enum way way, uint32_t entries, struct io_uring_params *params)
{
    switch (way) {
    case LAYER_MEMORY:
        return wulgach_syscall(SYS_io_uring_setup, entries, params);
    case LAYER_POLLED:
        return wulgach_polled_syscall(SYS_io_uring_setup, entries, params);
    default:
        return syscall(SYS_io_uring_setup, entries, params);
    }
}

static void *map(const struct ring *ring, size_t size, uint64_t offset)
{
    int protection = PROT_READ | PROT_WRITE, flags = MAP_SHARED | MAP_POPULATE;
    if (ring->way == LAYER_POLLED)
        return wulgach_mmap(NULL, size, protection, flags, ring->fd, (off_t)offset);
    return mmap(NULL, size, protection, flags, ring->fd, (off_t)offset);
}

int open_ring(
    struct ring *ring, enum way way, uint32_t entries, uint32_t completions, uint32_t flags)
{
    memset(ring, 0, sizeof *ring);
    ring->way = way;
    ring->params.flags = flags | (completions ? IORING_SETUP_CQSIZE : 0);
    ring->params.cq_entries = completions;
    ring->fd = (int)set_up(way, entries, &ring->params);
    if (ring->fd < 0)
        return -errno;
    const struct io_uring_params *params = &ring->params;
    ring->sq_size = params->sq_off.array + params->sq_entries * sizeof(uint32_t);
    ring->cq_size = params->cq_off.cqes + params->cq_entries * sizeof(struct io_uring_cqe);
    ring->entries_size = params->sq_entries * sizeof *ring->entries;
    ring->sq = map(ring, ring->sq_size, IORING_OFF_SQ_RING);
    ring->cq = map(ring, ring->cq_size, IORING_OFF_CQ_RING);
    ring->entries = map(ring, ring->entries_size, IORING_OFF_SQES);
    bool is_mapped = ring->sq != MAP_FAILED && ring->cq != MAP_FAILED &&
                     (void *)ring->entries != MAP_FAILED;
    return is_mapped ? 0 : -errno;
}

void close_ring(struct ring *ring)
{
    munmap(ring->sq, ring->sq_size);
    munmap(ring->cq, ring->cq_size);
    munmap(ring->entries, ring->entries_size);
    close(ring->fd);
}

long enter_ring(const struct ring *ring, uint32_t to_submit, uint32_t min_complete, bool is_getting,
    int64_t limit, bool has_mask)
{
    uint64_t signals = 0;
    struct __kernel_timespec time = {limit / 1000000000, limit % 1000000000};
    struct io_uring_getevents_arg argument = {.ts = (uintptr_t)&time};
    uint32_t flags = is_getting ? IORING_ENTER_GETEVENTS : 0;
    const void *last = has_mask ? &signals : NULL;
    size_t size = has_mask ? sizeof signals : 0;
    if (limit >= 0) {
        flags |= IORING_ENTER_EXT_ARG;
        argument.sigmask = (uintptr_t)last;
        argument.sigmask_sz = (uint32_t)size;
        last = &argument;
        size = sizeof argument;
    }
    long result = ring->way == KERNEL ? syscall(SYS_io_uring_enter, ring->fd, to_submit,
                                            min_complete, flags, last, size)
                                      : wulgach_syscall(SYS_io_uring_enter, ring->fd, to_submit,
                                            min_complete, flags, last, size);
    return result < 0 ? -errno : result;
}

long register_at_ring(const struct ring *ring, unsigned code, const void *argument, unsigned count)
{
    long result = ring->way == KERNEL
                      ? syscall(SYS_io_uring_register, ring->fd, code, argument, count)
                      : wulgach_syscall(SYS_io_uring_register, ring->fd, code, argument, count);
    return result < 0 ? -errno : result;
}

void publish(struct ring *ring, uint32_t word)
{
    uint32_t *tail = word_at(ring->sq, ring->params.sq_off.tail);
    word_at(ring->sq, ring->params.sq_off.array)[*tail & (ring->params.sq_entries - 1)] = word;
    __atomic_store_n(tail, *tail + 1, __ATOMIC_RELEASE);
}

uint32_t sq_head(const struct ring *ring)
{
    return load(ring->sq, ring->params.sq_off.head);
}

uint32_t sq_flags(const struct ring *ring)
{
    return load(ring->sq, ring->params.sq_off.flags);
}

uint32_t sq_dropped(const struct ring *ring)
{
    return load(ring->sq, ring->params.sq_off.dropped);
}

uint32_t cq_tail(const struct ring *ring)
{
    return load(ring->cq, ring->params.cq_off.tail);
}

uint32_t cq_head(const struct ring *ring)
{
    return load(ring->cq, ring->params.cq_off.head);
}

uint32_t cq_overflow(const struct ring *ring)
{
    return load(ring->cq, ring->params.cq_off.overflow);
}

bool tells_sizes(const struct ring *ring)
{
    const struct io_uring_params *params = &ring->params;
    return load(ring->sq, params->sq_off.ring_mask) == params->sq_entries - 1 &&
           load(ring->sq, params->sq_off.ring_entries) == params->sq_entries &&
           load(ring->cq, params->cq_off.ring_mask) == params->cq_entries - 1 &&
           load(ring->cq, params->cq_off.ring_entries) == params->cq_entries;
}

bool is_readable(const struct ring *ring)
{
    struct pollfd polled = {.fd = ring->fd, .events = POLLIN};
    return poll(&polled, 1, 0) == 1;
}

struct completion completion_at(const struct ring *ring, uint32_t position)
{
    const struct io_uring_cqe *cells = (const void *)(ring->cq + ring->params.cq_off.cqes);
    const struct io_uring_cqe *cell = &cells[position & (ring->params.cq_entries - 1)];
    return (struct completion){cell->user_data, cell->res, cell->flags};
}

void store_cq_flags(struct ring *ring, uint32_t flags)
{
    __atomic_store_n(word_at(ring->cq, ring->params.cq_off.flags), flags, __ATOMIC_RELEASE);
}

void store_head(struct ring *ring, uint32_t position)
{
    __atomic_store_n(word_at(ring->cq, ring->params.cq_off.head), position, __ATOMIC_RELEASE);
}
