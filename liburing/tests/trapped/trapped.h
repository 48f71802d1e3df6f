/* Rings of a program that is linked with nothing of ours, by the processor's own instruction. */
#ifndef TRAPPED_H
#define TRAPPED_H

#include <errno.h>
#include <linux/io_uring.h>
#include <poll.h>
#include <stdbool.h>
#include <stddef.h>
#include <stdint.h>
#include <stdio.h>
#include <stdlib.h>
#include <string.h>
#include <sys/epoll.h>
#include <sys/mman.h>
#include <sys/syscall.h>
#include <unistd.h>

#define WANT(is_so) \
    do { \
        if (!(is_so)) { \
            fprintf(stderr, "%s: line %d: %s\n", __FILE__, __LINE__, #is_so); \
            _exit(1 + __LINE__ % 120); \
        } \
    } while (0)

/* Ends the program if it hangs: after so many seconds, or as many times that as PATIENCE says. */
static inline void end_after(unsigned seconds)
{
    const char *said = getenv("PATIENCE");
    int times = said ? atoi(said) : 0;
    alarm(times > 0 ? seconds * (unsigned)times : seconds);
}

static inline long call(long number, long a, long b, long c, long d, long e, long f)
{
    long result;
    register long fourth __asm__("r10") = d, fifth __asm__("r8") = e, sixth __asm__("r9") = f;
    __asm__ volatile("syscall"
                     : "=a"(result)
                     : "0"(number), "D"(a), "S"(b), "d"(c), "r"(fourth), "r"(fifth), "r"(sixth)
                     : "rcx", "r11", "memory");
    return result;
}

static inline void want_layer(int ring)
{
    char name[64], target[64] = {0};
    snprintf(name, sizeof name, "/proc/self/fd/%d", ring);
    WANT(readlink(name, target, sizeof target - 1) > 0 && strstr(target, "[eventpoll]"));
}

static inline void *map(size_t size, int fd, uint64_t offset)
{
    long at = call(SYS_mmap, 0, (long)size, PROT_READ | PROT_WRITE, MAP_SHARED, fd, (long)offset);
    return at < 0 && at > -4096 ? NULL : (void *)at;
}

/* Whether a descriptor is readable, for an epoll instance too. */
static inline void want_readable(int fd, bool is_readable)
{
    struct pollfd polled = {.fd = fd, .events = POLLIN};
    struct epoll_event event = {.events = EPOLLIN};
    int all = epoll_create1(0);
    WANT(all >= 0 && epoll_ctl(all, EPOLL_CTL_ADD, fd, &event) == 0);
    WANT(poll(&polled, 1, 0) == is_readable && epoll_wait(all, &event, 1, 0) == is_readable);
    WANT(close(all) == 0);
}

struct ring {
    int fd;
    struct io_uring_params params;
    char *sq, *cq;
    struct io_uring_sqe *entries;
};

/* Both rings stand in one mapping. No epoll instance is given the descriptor. */
static inline struct ring set_up_alone(uint32_t flags)
{
    struct ring ring = {.params.flags = flags};
    ring.fd = (int)call(SYS_io_uring_setup, 4, (long)&ring.params, 0, 0, 0, 0);
    WANT(ring.fd >= 0);
    want_layer(ring.fd);
    WANT(ring.params.features & IORING_FEAT_SINGLE_MMAP);
    size_t size = ring.params.cq_off.cqes + ring.params.cq_entries * sizeof(struct io_uring_cqe);
    ring.sq = map(size, ring.fd, IORING_OFF_SQ_RING);
    ring.cq = map(size, ring.fd, IORING_OFF_CQ_RING);
    ring.entries = map(ring.params.sq_entries * sizeof *ring.entries, ring.fd, IORING_OFF_SQES);
    WANT(ring.sq && ring.cq && ring.entries && !map(size, ring.fd, 0x18000000));
    return ring;
}

static inline struct ring set_up(uint32_t flags)
{
    struct ring ring = set_up_alone(flags);
    want_readable(ring.fd, false);
    return ring;
}

/* Publishes the first entry. */
static inline void publish(const struct ring *ring, struct io_uring_sqe entry)
{
    ring->entries[0] = entry;
    *(uint32_t *)(ring->sq + ring->params.sq_off.array) = 0;
    __atomic_store_n((uint32_t *)(ring->sq + ring->params.sq_off.tail), 1, __ATOMIC_RELEASE);
}

static inline long enter(
    const struct ring *ring, unsigned to_submit, unsigned min_complete, const uint64_t *signals)
{
    return call(SYS_io_uring_enter, ring->fd, to_submit, min_complete, IORING_ENTER_GETEVENTS,
        (long)signals, signals ? sizeof *signals : 0);
}

static inline void no_op_on(const struct ring *ring)
{
    publish(ring, (struct io_uring_sqe){.opcode = IORING_OP_NOP, .user_data = 77});
    errno = 5;
    WANT(enter(ring, 1, 1, NULL) == 1);
    WANT(errno == 5);
    WANT(__atomic_load_n((uint32_t *)(ring->cq + ring->params.cq_off.tail), __ATOMIC_ACQUIRE) == 1);
    struct io_uring_cqe *completion = (struct io_uring_cqe *)(ring->cq + ring->params.cq_off.cqes);
    WANT(completion->user_data == 77 && completion->res == 0);
    WANT(memcmp(ring->sq + ring->params.cq_off.cqes, completion, sizeof *completion) == 0);
    want_readable(ring->fd, true);
}

/* A no-op through a ring of its own. */
static inline void no_op(void)
{
    struct ring ring = set_up(0);
    no_op_on(&ring);
    WANT(call(SYS_io_uring_enter, -1, 0, 0, 0, 0, 0) == -EBADF);
    WANT(close(ring.fd) == 0);
}

#endif
