/* What a call costs, in nanoseconds of the clock: the least of many rounds. Linked with the layer,
 * or, compiled with -DRAW, by inline assembler: then it is the kernel's, or, under uring-run, the
 * layer's after a trap or where it is rewritten. tests/speed/costs prints all four.
 *
 *   cost                     NANOSECONDS of a call that does nothing, of one with a no-op, and of a
 *                            no-op in batches of 32
 */
#define _GNU_SOURCE
#include "../direct/clocks.h"
#include "../direct/ring.h"

#include <stdarg.h>

#ifdef RAW
long wulgach_syscall(long call, ...)
{
    va_list arguments;
    long result = call, words[6];
    va_start(arguments, call);
    for (int i = 0; i < 6; i++)
        words[i] = va_arg(arguments, long);
    va_end(arguments);
    register long r10 __asm__("r10") = words[3], r8 __asm__("r8") = words[4],
                      r9 __asm__("r9") = words[5];
    if (call == SYS_io_uring_enter)
        __asm__ volatile("mov $426, %%eax\n\tsyscall"
                         : "=a"(result)
                         : "D"(words[0]), "S"(words[1]), "d"(words[2]), "r"(r10), "r"(r8), "r"(r9)
                         : "rcx", "r11", "memory");
    else
        __asm__ volatile("syscall"
                         : "+a"(result)
                         : "D"(words[0]), "S"(words[1]), "d"(words[2]), "r"(r10), "r"(r8), "r"(r9)
                         : "rcx", "r11", "memory");
    if (result >= 0)
        return result;
    errno = (int)-result;
    return -1;
}

void *wulgach_mmap(void *at, size_t size, int protection, int flags, int fd, off_t offset)
{
    return mmap(at, size, protection, flags, fd, offset);
}

/* (a descriptor that polls isn't asked for) */
long wulgach_polled_syscall(long call, ...)
{
    return call;
}
#endif

enum { ROUNDS = 200, CALLS = 200 };

/* The least that a call took in a round of many, each with so many no-ops. */
static double least(struct ring *ring, unsigned batch)
{
    double found = 1e18;
    for (int round = 0; round < ROUNDS; round++) {
        int64_t start = real_time();
        for (int i = 0; i < CALLS; i++) {
            for (unsigned j = 0; j < batch; j++)
                put(ring, IORING_OP_NOP, j, 0);
            check(enter(ring, batch, batch, batch ? IORING_ENTER_GETEVENTS : 0) == (long)batch);
            for (unsigned j = 0; j < batch; j++)
                reap(ring);
        }
        double took = (double)(real_time() - start) / CALLS;
        found = took < found ? took : found;
    }
    return found;
}

int main(void)
{
    struct ring ring;
    struct io_uring_params params = {0};
    test = "cost";
    memset(&ring, 0, sizeof ring);
    ring.fd = (int)set_up(32, &params);
    check(ring.fd >= 0);
    ring.params = params;
    ring.sq = map(
        &ring, params.sq_off.array + params.sq_entries * sizeof(unsigned), IORING_OFF_SQ_RING);
    ring.cq = map(&ring, params.cq_off.cqes + params.cq_entries * sizeof(struct io_uring_cqe),
        IORING_OFF_CQ_RING);
    ring.entries = map(&ring, params.sq_entries * sizeof *ring.entries, IORING_OFF_SQES);
    printf("%.0f %.0f %.0f\n", least(&ring, 0), least(&ring, 1), least(&ring, 32) / 32);
    return 0;
}
