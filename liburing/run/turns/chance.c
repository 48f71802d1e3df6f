/* Where a program gets what no run before had: random bytes come from the seed; rdtsc faults, and
 * counts the run's time; cpuid faults, and hides rdrand, rdseed and transactions. */
#define _GNU_SOURCE
#include "chance.h"
#include "code.h"

#include <string.h>
#include <sys/auxv.h>
#include <sys/prctl.h>

enum { SET_FEATURES = 0x1012 };

void fill_by_chance(void *at, size_t size)
{
    char *to = at;
    for (size_t done = 0; done < size; done += sizeof(uint64_t)) {
        uint64_t bytes = roll(&world->chance_random);
        memcpy(to + done, &bytes, size - done < sizeof bytes ? size - done : sizeof bytes);
    }
}

long serve_getrandom(struct trap *trap)
{
    fill_by_chance((void *)trap->words[0], (size_t)trap->words[1]);
    return trap->words[1];
}

void pause_chance(bool is_paused)
{
    if (world->has_cycles)
        kernel(SYS_prctl, PR_SET_TSC, is_paused ? PR_TSC_ENABLE : PR_TSC_SIGSEGV);
    if (world->has_features)
        kernel(SYS_arch_prctl, SET_FEATURES, is_paused);
}

/* A processor that can't fault there is read as it is. */
void take_chance(void)
{
    enum { SEED_BYTES = 16 };
    void *bytes = (void *)getauxval(AT_RANDOM);
    if (bytes)
        fill_by_chance(bytes, SEED_BYTES);
    world->has_cycles = kernel(SYS_prctl, PR_SET_TSC, PR_TSC_SIGSEGV) == 0;
    world->has_features = kernel(SYS_arch_prctl, SET_FEATURES, 0) == 0;
}

/* rdtsc and rdtscp: cycles of 2.5 GHz. */
static bool count_cycles(greg_t *registers, const uint8_t *at)
{
    bool is_plain = at[0] == 0x0f && at[1] == 0x31,
         is_of_processor = at[0] == 0x0f && at[1] == 0x01 && at[2] == 0xf9;
    if (!is_plain && !is_of_processor)
        return false;
    uint64_t cycles = look_at_clock(CLOCK_MONOTONIC) * 5 / 2;
    registers[REG_RAX] = (long)(cycles & UINT32_MAX);
    registers[REG_RDX] = (long)(cycles >> 32);
    if (is_of_processor)
        registers[REG_RCX] = 0;
    registers[REG_RIP] += is_of_processor ? 3 : 2;
    return true;
}

/* Which processor it is that answers differs too. */
static bool say_features(greg_t *registers, const uint8_t *at)
{
    enum { RDRAND = 1 << 30, RDSEED = 1 << 18, TRANSACTIONS = 1 << 11, NUMBER = 0x00ffffff };
    uint32_t leaf = (uint32_t)registers[REG_RAX], part = (uint32_t)registers[REG_RCX], a = leaf, b,
             c = part, d;
    if (at[0] != 0x0f || at[1] != 0xa2)
        return false;
    kernel(SYS_arch_prctl, SET_FEATURES, 1);
    __asm__ volatile("cpuid" : "+a"(a), "=b"(b), "+c"(c), "=d"(d));
    kernel(SYS_arch_prctl, SET_FEATURES, 0);
    if (leaf == 1) {
        c &= ~(uint32_t)RDRAND;
        b &= NUMBER;
    }
    if (leaf == 7 && part == 0)
        b &= ~(uint32_t)(RDSEED | TRANSACTIONS);
    if (leaf == 0xb || leaf == 0x1f)
        d = 0;
    registers[REG_RAX] = a;
    registers[REG_RBX] = b;
    registers[REG_RCX] = c;
    registers[REG_RDX] = d;
    registers[REG_RIP] += 2;
    return true;
}

/* A fault of the program's own: its handler is called, or the fault comes again and ends it. */
static void give_fault(int number, siginfo_t *info, void *context)
{
    const struct program_action ends = {0, 0, 0, 0};
    uint64_t handler = self ? process_of(self)->actions[SIGSEGV].handler : 0;
    if (handler > (uint64_t)SIG_IGN) {
        ((void (*)(int, siginfo_t *, void *))handler)(number, info, context);
        return;
    }
    tell_fault(context);
    if (self)
        leave_run(true);
    kernel(SYS_rt_sigaction, SIGSEGV, &ends, 0, sizeof(uint64_t));
    if (info->si_code <= 0) /* (it was sent, and doesn't come again) */
        kernel(SYS_tgkill, kernel(SYS_getpid), kernel(SYS_gettid), number);
}

void on_fault(int number, siginfo_t *info, void *context)
{
    greg_t *registers = ((ucontext_t *)context)->uc_mcontext.gregs;
    const uint8_t *at = (const uint8_t *)registers[REG_RIP];
    bool is_of_instruction = info->si_code == SI_KERNEL && (uintptr_t)at > 4096;
    if (is_of_instruction && (count_cycles(registers, at) || say_features(registers, at)))
        return;
    give_fault(number, info, context);
}
