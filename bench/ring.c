/* No-ops through a ring of the kernel, in batches of the ring's size: ring ENTRIES REQUESTS. Writes
 * the seconds that they took. */
#define _GNU_SOURCE
#include <linux/io_uring.h>
#include <stdio.h>
#include <stdlib.h>
#include <string.h>
#include <sys/mman.h>
#include <sys/syscall.h>
#include <time.h>
#include <unistd.h>

static void *map(int ring, size_t size, long long offset)
{
    void *start = mmap(NULL, size, PROT_READ | PROT_WRITE, MAP_SHARED | MAP_POPULATE, ring, offset);
    if (start == MAP_FAILED) {
        perror("mmap");
        exit(1);
    }
    return start;
}

int main(int argc, char **argv)
{
    unsigned entries = argc > 1 ? atoi(argv[1]) : 64;
    unsigned long requests = argc > 2 ? strtoul(argv[2], NULL, 10) : 1000000;
    struct io_uring_params params;
    memset(&params, 0, sizeof params);
    int ring = syscall(SYS_io_uring_setup, entries, &params);
    if (ring < 0) {
        perror("io_uring_setup");
        return 1;
    }
    char *sq = map(
        ring, params.sq_off.array + params.sq_entries * sizeof(unsigned), IORING_OFF_SQ_RING);
    char *cq = map(ring, params.cq_off.cqes + params.cq_entries * sizeof(struct io_uring_cqe),
        IORING_OFF_CQ_RING);
    struct io_uring_sqe *slots = map(
        ring, params.sq_entries * sizeof(struct io_uring_sqe), IORING_OFF_SQES);
    unsigned *tail = (unsigned *)(sq + params.sq_off.tail),
             *array = (unsigned *)(sq + params.sq_off.array);
    unsigned *head = (unsigned *)(cq + params.cq_off.head),
             *cq_tail = (unsigned *)(cq + params.cq_off.tail);
    struct io_uring_cqe *completions = (struct io_uring_cqe *)(cq + params.cq_off.cqes);
    unsigned sq_mask = params.sq_entries - 1, cq_mask = params.cq_entries - 1;
    unsigned long sum = 0, reaped = 0;
    struct timespec start, end;
    clock_gettime(CLOCK_MONOTONIC, &start);
    while (reaped < requests) {
        unsigned first = *tail;
        for (unsigned k = 0; k < entries; k++) {
            unsigned slot = (first + k) & sq_mask;
            memset(&slots[slot], 0, sizeof slots[slot]);
            slots[slot].opcode = IORING_OP_NOP;
            slots[slot].user_data = reaped + k;
            array[slot] = slot;
        }
        __atomic_store_n(tail, first + entries, __ATOMIC_RELEASE);
        if (syscall(SYS_io_uring_enter, ring, entries, entries, IORING_ENTER_GETEVENTS, NULL, 0) !=
            (long)entries) {
            perror("io_uring_enter");
            return 1;
        }
        unsigned from = *head, to = __atomic_load_n(cq_tail, __ATOMIC_ACQUIRE);
        for (; from != to; from++, reaped++)
            sum += completions[from & cq_mask].user_data;
        __atomic_store_n(head, from, __ATOMIC_RELEASE);
    }
    clock_gettime(CLOCK_MONOTONIC, &end);
    printf("%.6f\n", end.tv_sec - start.tv_sec + (end.tv_nsec - start.tv_nsec) / 1e9);
    /* Each user data came back once, if their sum is right. */
    return sum == reaped * (reaped - 1) / 2 ? 0 : 1;
}
