/* Rings of a program that calls io_uring_enter often at one place, so that uring-run rewrites it,
 * and what is wanted of such a place. */
#ifndef REWRITTEN_H
#define REWRITTEN_H

#include "modes.h"
#include "places.h"
#include "registers.h"

#include <errno.h>
#include <linux/io_uring.h>
#include <stdio.h>
#include <stdlib.h>
#include <string.h>
#include <sys/mman.h>
#include <unistd.h>

#define WANT(is_so) \
    do { \
        if (!(is_so)) { \
            fprintf(stderr, "%s: line %d: %s\n", program_invocation_short_name, __LINE__, #is_so); \
            _exit(1 + __LINE__ % 120); \
        } \
    } while (0)

enum { OFTEN = 40, NUMBER_AT = 3, NUMBER = 0xb8, JUMP = 0xe9 };

static bool is_none_wanted;

struct ring {
    int fd;
    struct io_uring_params params;
    char *sq, *cq;
    struct io_uring_sqe *entries;
};

static inline struct ring set_up(void)
{
    struct ring ring = {0};
    ring.fd = (int)syscall(SYS_io_uring_setup, 4, &ring.params);
    WANT(ring.fd >= 0);
    size_t size = ring.params.cq_off.cqes + ring.params.cq_entries * sizeof(struct io_uring_cqe);
    ring.sq = ring.cq = mmap(
        NULL, size, PROT_READ | PROT_WRITE, MAP_SHARED, ring.fd, IORING_OFF_SQ_RING);
    ring.entries = mmap(NULL, ring.params.sq_entries * sizeof *ring.entries, PROT_READ | PROT_WRITE,
        MAP_SHARED, ring.fd, IORING_OFF_SQES);
    WANT(ring.sq != MAP_FAILED && ring.entries != MAP_FAILED);
    return ring;
}

static inline void publish(const struct ring *ring, struct io_uring_sqe entry)
{
    uint32_t *tail = (uint32_t *)(ring->sq + ring->params.sq_off.tail);
    uint32_t slot = *tail & (ring->params.sq_entries - 1);
    ring->entries[slot] = entry;
    ((uint32_t *)(ring->sq + ring->params.sq_off.array))[slot] = slot;
    __atomic_store_n(tail, *tail + 1, __ATOMIC_RELEASE);
}

/* The user data of a completion, which is reaped; 0 if there is none. */
static inline uint64_t reap(const struct ring *ring)
{
    uint32_t *head = (uint32_t *)(ring->cq + ring->params.cq_off.head);
    const struct io_uring_cqe *completions = (struct io_uring_cqe *)(ring->cq +
                                                                     ring->params.cq_off.cqes);
    if (*head ==
        __atomic_load_n((uint32_t *)(ring->cq + ring->params.cq_off.tail), __ATOMIC_ACQUIRE))
        return 0;
    uint64_t found = completions[*head & (ring->params.cq_entries - 1)].user_data;
    __atomic_store_n(head, *head + 1, __ATOMIC_RELEASE);
    return found;
}

static inline void no_op(const struct ring *ring, call_function *call, uint64_t number)
{
    publish(ring, (struct io_uring_sqe){.opcode = IORING_OP_NOP, .user_data = number});
    errno = 5;
    WANT(call(ring->fd, 1, 1, IORING_ENTER_GETEVENTS, NULL, 8) == 1 && errno == 5);
    WANT(reap(ring) == number);
}

static inline void no_ops(const struct ring *ring, call_function *call, unsigned count)
{
    for (unsigned i = 1; i <= count; i++)
        no_op(ring, call, i);
}

static inline void want_rewritten(call_function *call, bool is_rewritten)
{
    const uint8_t *code = (const uint8_t *)(uintptr_t)call;
    WANT(code[NUMBER_AT] == (is_rewritten && !is_none_wanted ? JUMP : NUMBER));
}

/* Somewhere in its first bytes a function jumps to another place, in the place of a number. */
static inline void want_jump(void (*function)(void))
{
    static const uint8_t rest[] = {0x0f, 0x05};
    const uint8_t *code = (const uint8_t *)(uintptr_t)function;
    while (memcmp(code + 5, rest, sizeof rest) != 0)
        code++;
    WANT(*code == (is_none_wanted ? NUMBER : JUMP));
}

/* (its own calls are looked for in it) */
__attribute__((noinline)) static void want_registers(const struct ring *ring, uint64_t salt)
{
    static const uint64_t others[] = {112, 113, 114, 115, 116, 117, 1, 1};
    const uint64_t arguments[6] = {(uint64_t)ring->fd, 1, 1, IORING_ENTER_GETEVENTS, 0, 8};
    bool is_whole = __builtin_cpu_supports("avx");
    memcpy(seen.arguments, arguments, sizeof arguments);
    fill_vectors(is_whole, salt);
    publish(ring, (struct io_uring_sqe){.opcode = IORING_OP_NOP, .user_data = salt});
    call_with_registers(is_whole);
    WANT(memcmp(seen.after, arguments, sizeof arguments) == 0 && seen.after[6] == seen.frame &&
         memcmp(seen.after + 7, others, sizeof others) == 0);
    WANT(memcmp(seen.vectors, seen.vectors_after, sizeof seen.vectors) == 0);
    WANT(reap(ring) == salt);
}

#endif
