/* A bypass: a piece of code beside a call of io_uring_enter that calls the layer as the trap would.
 * It keeps what a system call keeps: all registers but rax, rcx and r11, those of vectors, the
 * flags, and the 128 bytes below the stack that are the program's.
 *
 * Each has what is its own, and goes on to what all have in common, with the call's end in the
 * place of a caller's: so whoever walks the stack finds the program's function.
 */
#define _GNU_SOURCE
#include "rewriting.h"
#include "run.h"

#include <cpuid.h>
#include <errno.h>
#include <stdlib.h>
#include <string.h>
#include <unistd.h>

long wulgach_blocked_enter(const long words[6], const sigset_t *signals);
bool wulgach_leaves_signals_open(const long words[6]);
long enter_bypassed(const long words[6]);
extern const uint8_t bypass_all[];
__thread uintptr_t bypass_stack;

/* What a bypass saves of vectors: that of x87, of 16, 32 and 64 bytes, and masks; and what of them
 * this processor has. It takes so much room at most. */
enum { OF_64 = 0x40, VECTORS = 0xe7, ROOM = 2560 };
uint32_t bypassed_vectors __attribute__((visibility("hidden")));

/* Whether the user says that no vector of 64 bytes is kept over a call (WULGACH_VECTORS). Then no
 * more than 32 bytes of each are saved, by plain moves, which take next to no time; those of 64
 * would slow the processor down. */
uint32_t are_vectors_short __attribute__((visibility("hidden")));

/* On the stack, from its top on: 32 vectors of 32 bytes, 8 masks, and how numbers are rounded; and
 * after the room which way was taken: 0, all is saved; 1, of the first vectors 16 bytes are; 2, 32.
 * What isn't in use isn't written, since a program that has none of it would be slow after that.
 * The state of x87, of which nothing here has an instruction, stays. */
#define OF_FIRST "0,1,2,3,4,5,6,7,8,9,10,11,12,13,14,15"
#define OF_FURTHER "16,17,18,19,20,21,22,23,24,25,26,27,28,29,30,31"
#define OF_MASKS "0,1,2,3,4,5,6,7"
#define EACH(numbers, line) ".irp n," numbers "\n\t" line "\n\t.endr\n\t"

#define SAVE_VECTORS \
    "cmpl $0, are_vectors_short(%rip)\n\t" \
    "je 4f\n\t" \
    "mov $1, %ecx\n\t" \
    "xgetbv\n\t" \
    "stmxcsr 1088(%rsp)\n\t" \
    "test $0x04, %al\n\t" \
    "jnz 1f\n\t" EACH(OF_FIRST, \
        "movaps %xmm\\n, \\n*32(%rsp)") "jmp 2f\n" \
                                        "1:\tmov $2, %ecx\n\t" EACH(OF_FIRST, \
                                            "vmovdqa %ymm\\n, \\n*32(%rsp)") "vzeroupper\n" \
                                                                             "2:\tmov %ecx, 2560(%rsp)\n\t" \
                                                                             "testb $0x40, bypassed_vectors(%rip)\n\t" \
                                                                             "jz 5f\n\t" EACH( \
                                                                                 OF_FURTHER, \
                                                                                 "vmovdqa64 %ymm\\n, \\n*32(%rsp)") \
                                                                                 EACH(OF_MASKS, \
                                                                                     "kmovq %k\\n, 1024+\\n*8(%rsp)") "jmp 5f\n" \
                                                                                                                      "4:\txor %eax, %eax\n\t" \
                                                                                                                      "mov %eax, 2560(%rsp)\n\t" EACH( \
                                                                                                                          OF_MASKS, \
                                                                                                                          "mov %rax, 512+\\n*8(%rsp)") "mov bypassed_vectors(%rip), %eax\n\t" \
                                                                                                                                                       "xor %edx, %edx\n\t" \
                                                                                                                                                       "xsavec64 (%rsp)\n" \
                                                                                                                                                       "5:\n\t"

#define PUT_VECTORS_BACK \
    "mov 2560(%rsp), %ecx\n\t" \
    "test %ecx, %ecx\n\t" \
    "jz 4f\n\t" \
    "testb $0x40, bypassed_vectors(%rip)\n\t" \
    "jz 1f\n\t" EACH(OF_FURTHER, "vmovdqa64 \\n*32(%rsp), %ymm\\n") EACH(OF_MASKS, \
        "kmovq 1024+\\n*8(%rsp), %k\\n") "1:\tcmp $2, %ecx\n\t" \
                                         "je 2f\n\t" \
                                         "testb $0x04, bypassed_vectors(%rip)\n\t" \
                                         "jz 3f\n\t" \
                                         "vzeroupper\n" \
                                         "3:\n\t" EACH(OF_FIRST, \
                                             "movaps \\n*32(%rsp), %xmm\\n") "ldmxcsr 1088(%rsp)\n\t" \
                                                                             "jmp 5f\n" \
                                                                             "2:\n\t" EACH( \
                                                                                 OF_FIRST, \
                                                                                 "vmovdqa \\n*32(%rsp), %ymm\\n") "ldmxcsr 1088(%rsp)\n\t" \
                                                                                                                  "jmp 5f\n" \
                                                                                                                  "4:\tmov bypassed_vectors(%rip), %eax\n\t" \
                                                                                                                  "xor %edx, %edx\n\t" \
                                                                                                                  "xrstor64 (%rsp)\n" \
                                                                                                                  "5:\n\t"

/* All signals are blocked as in the trap, and may come as it ends; but where the layer says that
 * they needn't be. The program's stack stood 192 bytes above the words, and 48 above them it was
 * asked which one that is. */
__attribute__((used)) long enter_bypassed(const long words[6])
{
    int kept = errno;
    sigset_t before;
    bool is_open = wulgach_leaves_signals_open(words);
    if (!is_open) {
        sigemptyset(&before);
        set_mask(~OPEN_IN_TRAP, &before);
    }
    const void *caller = wulgach_note_caller(
        is_on(&large_stack, (uintptr_t)words + 48) ? NULL : (const void *)((uintptr_t)words + 192));
    long result = wulgach_blocked_enter(words, is_open ? NULL : &before);
    wulgach_note_caller(caller);
    if (!is_open)
        put_mask_back(&before);
    errno = kept;
    return result;
}

/* On the stack stand the end of the call and the program's 128 bytes. What follows runs where r11
 * says: here, if this stack is large, 64 bytes of it below, or on the thread's; and if there is
 * none, the call itself is made, and trapped. The flags are put as a handler has them: a program
 * that is stepped through isn't while signals are blocked. */
__asm__(".text\n"
        ".hidden bypass_all\n"
        ".globl bypass_all\n"
        ".type bypass_all, @function\n"
        "bypass_all:\n\t"
        ".cfi_startproc\n\t"
        ".cfi_def_cfa %rsp, 136\n\t"
        ".cfi_offset %rip, -136\n\t"
        "pushfq\n\t"
        "pushq $0x202\n\t"
        "popfq\n\t"
        "mov bypass_stack@gottpoff(%rip), %rax\n\t"
        "mov %fs:(%rax), %rcx\n\t"
        "mov large_stack@gottpoff(%rip), %rax\n\t"
        "mov %rsp, %r11\n\t"
        "sub %fs:(%rax), %r11\n\t"
        "cmp %fs:8(%rax), %r11\n\t"
        "mov %rcx, %r11\n\t"
        "cmovb %rsp, %r11\n\t"
        "cmp $1, %r11\n\t"
        "je 9f\n\t"
        "mov bypass_stack@gottpoff(%rip), %rax\n\t"
        "movq $0, %fs:(%rax)\n\t"
        "push %r9\n\t"
        "push %r8\n\t"
        "push %r10\n\t"
        "push %rdx\n\t"
        "push %rsi\n\t"
        "push %rdi\n\t"
        "push %rbp\n\t"
        "mov %rsp, %rbp\n\t"
        ".cfi_def_cfa %rbp, 200\n\t"
        ".cfi_offset %rbp, -200\n\t"
        "push %rcx\n\t"
        "lea -64(%r11), %rcx\n\t"
        "and $-64, %rcx\n\t"
        "lea -2624(%rcx), %rsp\n\t" SAVE_VECTORS "lea 8(%rbp), %rdi\n\t"
        "call enter_bypassed\n\t"
        "mov %rax, %r8\n\t" PUT_VECTORS_BACK "lea -8(%rbp), %rsp\n\t"
        "pop %rcx\n\t"
        "mov bypass_stack@gottpoff(%rip), %rax\n\t"
        "mov %rcx, %fs:(%rax)\n\t"
        "mov %r8, %rax\n\t"
        "pop %rbp\n\t"
        ".cfi_def_cfa %rsp, 192\n\t"
        ".cfi_restore %rbp\n\t"
        "pop %rdi\n\t"
        "pop %rsi\n\t"
        "pop %rdx\n\t"
        "pop %r10\n\t"
        "pop %r8\n\t"
        "pop %r9\n\t"
        ".cfi_def_cfa %rsp, 144\n\t"
        "mov (%rsp), %r11\n\t"
        "mov 8(%rsp), %rcx\n\t"
        "popfq\n\t"
        ".cfi_def_cfa %rsp, 136\n\t"
        "lea 136(%rsp), %rsp\n\t"
        ".cfi_def_cfa %rsp, 0\n\t"
        ".cfi_register %rip, %rcx\n\t"
        "jmp *%rcx\n"
        "9:\n\t"
        ".cfi_def_cfa %rsp, 144\n\t"
        ".cfi_offset %rip, -136\n\t"
        "popfq\n\t"
        ".cfi_def_cfa %rsp, 136\n\t"
        "mov (%rsp), %rcx\n\t"
        "lea 136(%rsp), %rsp\n\t"
        ".cfi_def_cfa %rsp, 0\n\t"
        ".cfi_register %rip, %rcx\n\t"
        "mov $426, %eax\n\t"
        "lea -2(%rcx), %rcx\n\t"
        "jmp *%rcx\n\t"
        ".cfi_endproc\n"
        ".size bypass_all, .-bypass_all\n");

/* How much room the vectors of this mask take, as the processor says. */
static uint32_t room_of(uint32_t vectors)
{
    enum { IS_ALIGNED = 2 };
    uint32_t room = 512 + 64, size, offset, how, none;
    for (unsigned part = 2; part < 32; part++)
        if (vectors >> part & 1 && __get_cpuid_count(13, part, &size, &offset, &how, &none))
            room = (how & IS_ALIGNED ? (room + 63) / 64 * 64 : room) + size;
    return room;
}

/* Whether the processor says what is in use, and has vectors and masks in the parts that are saved
 * so. */
static bool has_parts(void)
{
    enum { SAYS_IN_USE = 4, LONG_MASKS = 1 << 30 };
    static const uint32_t shorter_too = 1u << 31;
    uint32_t a, b, c, d;
    if (!__get_cpuid_count(13, 1, &a, &b, &c, &d) || !(a & SAYS_IN_USE))
        return false;
    return !(bypassed_vectors & OF_64) ||
           (__get_cpuid_count(7, 0, &a, &b, &c, &d) && b & LONG_MASKS && b & shorter_too);
}

static bool reads_short(void)
{
    const char *word = getenv("WULGACH_VECTORS");
    if (!word || !*word || strcmp(word, "whole") == 0)
        return false;
    if (strcmp(word, "short") == 0)
        return true;
    say("WULGACH_VECTORS is whole or short", "");
    _exit(125);
}

bool can_bypass(void)
{
    enum { SYSTEM_SAVES = 1 << 27, SAVES_COMPACTLY = 2 };
    uint32_t a, b, c, d, low, high;
    if (!__get_cpuid(1, &a, &b, &c, &d) || !(c & SYSTEM_SAVES) ||
        !__get_cpuid_count(13, 1, &a, &b, &c, &d) || !(a & SAVES_COMPACTLY))
        return false;
    __asm__("xgetbv" : "=a"(low), "=d"(high) : "c"(0));
    bypassed_vectors = low & VECTORS;
    are_vectors_short = reads_short() && has_parts();
    return room_of(bypassed_vectors) <= ROOM;
}

static uint8_t *put(uint8_t *at, const void *bytes, size_t length)
{
    memcpy(at, bytes, length);
    return at + length;
}

static uint8_t *put_address(uint8_t *at, const char *opcode, const void *address)
{
    at = put(at, opcode, 2);
    return put(at, &address, sizeof address);
}

uint8_t *put_jump(uint8_t *at, const uint8_t *from, const uint8_t *to)
{
    int32_t way = (int32_t)(to - (from + 5));
    *at = 0xe9;
    return put(at + 1, &way, sizeof way);
}

/* Where the thread's stack of bypasses is, from the thread's own register on. */
static int32_t offset_of_stack(void)
{
    uintptr_t thread;
    __asm__("mov %%fs:0, %0" : "=r"(thread));
    return (int32_t)((uintptr_t)&bypass_stack - thread);
}

/* A thread that has no stack for it makes the call itself, and is trapped. */
void write_bypass(uint8_t *page, const uint8_t *number, const uint8_t *call)
{
    int32_t offset = offset_of_stack();
    uint8_t *at = put(page, number, (size_t)(call - number));
    at = put(at, "\x64\x48\x8b\x0c\x25", 5); /* mov %fs:offset, %rcx */
    at = put(at, &offset, sizeof offset);
    at = put(at, "\xe3\x1c", 2); /* jrcxz: to the last jump */
    at = put(at, "\x48\x8d\x64\x24\x80", 5); /* lea -128(%rsp), %rsp */
    at = put_address(at, "\x48\xb9", call + 2); /* movabs $after, %rcx */
    at = put(at, "\x51", 1); /* push %rcx */
    at = put_address(at, "\x48\xb8", bypass_all); /* movabs $bypass_all, %rax */
    at = put(at, "\xff\xe0", 2); /* jmp *%rax */
    put_jump(at, at, call);
}
