/* A program that is linked with nothing of ours and calls io_uring_enter often at one place, so
 * that uring-run rewrites it: what a call keeps of registers, flags and vectors.
 *
 *   saved registers | vectors [WORD]
 *
 * With another word nothing is to be rewritten. Status 0: all was as it is to be. Else a line says
 * what wasn't.
 */
#define _GNU_SOURCE
#include "rewritten.h"
#include "vectors.h"

/* How many of a function's calls are rewritten: their number stands right before them. */
static unsigned count_rewritten(const uint8_t *function, size_t length)
{
    unsigned count = 0;
    for (const uint8_t *at = function + 5; at < function + length; at++)
        count += at[0] == 0x0f && at[1] == 0x05 && at[-5] == JUMP;
    return count;
}

/* What the processor's own call leaves in rcx and r11, and how it rounds: those of a call after
 * which the direction is down. */
static void want_words(const struct ring *ring)
{
    static uint32_t rounding = 0x9f80, later;
    uint64_t after, flags, wanted;
    publish(ring, (struct io_uring_sqe){.opcode = IORING_OP_NOP, .user_data = 1});
    register long r10 __asm__("r10") = IORING_ENTER_GETEVENTS, r8 __asm__("r8") = 0,
                      r9 __asm__("r9") = 8;
    __asm__ volatile(
        "sub $128, %%rsp\n\tldmxcsr %[rounding]\n\tstd\n\tmov $426, %%eax\n\tsyscall\n1:\tpushfq\n\tpop %[wanted]\n\tcld\n\tadd $128, %%rsp\n\tstmxcsr %[later]\n\tmov %%r11, %[flags]\n\tlea 1b(%%rip), %%rax\n\tsub %%rax, %%rcx\n\tmov %%rcx, %[after]"
        : [after] "=&b"(after), [flags] "=&r"(flags), [wanted] "=&r"(wanted), [later] "=m"(later)
        : [rounding] "m"(rounding), "D"((long)ring->fd), "S"(1L), "d"(1L), "r"(r10), "r"(r8),
        "r"(r9)
        : "rax", "rcx", "r11", "memory", "cc");
    WANT(after == 0 && (flags & 0x400) && (wanted & 0x400) && later == rounding && reap(ring) == 1);
}

static void registers(void)
{
    struct ring ring = set_up();
    for (uint64_t i = 1; i <= OFTEN; i++)
        want_registers(&ring, i);
    WANT(
        (count_rewritten((const uint8_t *)(uintptr_t)want_registers, 4096) > 0) == !is_none_wanted);
    for (int i = 0; i < OFTEN; i++)
        want_words(&ring);
}

/* An open, for which a path's end is looked for, as the C library does with masks where there are
 * any. It ends with an error, and its completion is reaped. */
static void call_wide(const struct ring *ring, void (*call)(void), uint64_t number)
{
    publish(ring, (struct io_uring_sqe){.opcode = IORING_OP_OPENAT,
                      .fd = -1,
                      .addr = (uintptr_t) "there/is/no/such/file/as/this/one",
                      .user_data = number});
    memset(wide.vectors_after, 0x55, sizeof wide.vectors_after);
    call();
    WANT(reap(ring) == number);
}

static void want_vectors(size_t length)
{
    for (unsigned i = 0; i < 32; i++)
        WANT(memcmp(wide.vectors[i], wide.vectors_after[i], length) == 0);
    WANT(memcmp(wide.masks, wide.masks_after, sizeof wide.masks) == 0);
}

/* Vectors of 64 bytes, masks and x87 are kept (of vectors 32 bytes, where the user says that this
 * is enough), also where the upper halves of the first aren't in use; and where a program has no
 * more than their first 16 bytes in use, no more are after it. */
static void vectors(void)
{
    enum { UPPER = 0x44 };
    struct ring ring = set_up();
    const char *said = getenv("WULGACH_VECTORS");
    bool are_short = said && strcmp(said, "short") == 0;
    if (!has_wide_vectors())
        return;
    wide.fd = ring.fd;
    for (unsigned i = 1; i <= OFTEN; i++) {
        for (unsigned j = 0; j < sizeof wide.vectors; j++)
            wide.vectors[j / 64][j % 64] = (uint8_t)(i + j * 37 + j / 64 * 11);
        for (unsigned j = 0; j < 8; j++)
            wide.masks[j] = 0x9e3779b97f4a7c15u * (i + j);
        wide.top = i / 7.0;
        call_wide(&ring, call_with_all, i);
        want_vectors(are_short ? 32 : 64);
        WANT(wide.top_after == i / 7.0);
        memset(wide.masks_after, 0, sizeof wide.masks_after);
        call_wide(&ring, call_with_halves, i + 2 * OFTEN);
        want_vectors(32);
        call_wide(&ring, call_with_quarters, i + OFTEN);
        for (unsigned j = 0; j < 16; j++) {
            WANT(memcmp(wide.vectors[j], wide.vectors_after[j], 16) == 0);
            for (unsigned k = 16; k < 64; k++)
                WANT(wide.vectors_after[j][k] == 0);
        }
        WANT(i < OFTEN || is_none_wanted || !(wide.in_use_after & UPPER));
    }
    want_jump(call_with_all);
    want_jump(call_with_halves);
    want_jump(call_with_quarters);
}

int main(int argc, char **argv)
{
    static const struct mode modes[] = {{"registers", registers}, {"vectors", vectors}};
    is_none_wanted = argc > 2;
    return run_mode(modes, sizeof modes / sizeof *modes, argc, argv);
}
