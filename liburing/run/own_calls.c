/* Traps the calls of epoll_ctl that the program makes by an instruction of its own, or by the C
 * library's `syscall`. A filter for that call alone would end a program that is linked statically,
 * inherits it, and has an event loop: so it names the places where such instructions stand, in all
 * that is loaded as the first ring is made. No other program has one at just that address, but by a
 * chance in 2^28 where it has one in the same place of a page; since places are drawn anew for
 * each.
 */
#define _GNU_SOURCE
#include "../layer/process/passing.h"
#include "filters.h"
#include "run.h"

#include <emmintrin.h>
#include <errno.h>
#include <fcntl.h>
#include <link.h>
#include <stddef.h>
#include <stdlib.h>
#include <string.h>
#include <sys/epoll.h>
#include <sys/personality.h>
#include <sys/syscall.h>
#include <unistd.h>

/* So many places stand together, before the line that traps: a jump goes over no more than 255. */
enum { TOGETHER = 200 };

/* The filter as it is written, and of the places since the last line that traps how many stand
 * together, and in which 4 GB. */
static struct filter filter;
static size_t standing;
static uint32_t high;

/* One of them may be another program's. */
static bool is_useless;

static void put_jump_of(uint32_t value)
{
    put_line(&filter, (struct sock_filter)BPF_JUMP(BPF_JMP | BPF_JEQ | BPF_K, value, 0, 0));
}

/* Ends the places that stand together: each of them jumps to the line that traps, and else it is
 * gone over. */
static void close_places(void)
{
    if (standing == 0)
        return;
    put_line(&filter, (struct sock_filter)BPF_STMT(BPF_JMP | BPF_JA, 1));
    put_line(&filter, (struct sock_filter)BPF_STMT(BPF_RET | BPF_K, SECCOMP_RET_TRAP));
    if (!has_room(&filter))
        return;
    for (size_t i = 0; i < standing; i++)
        filter.lines[filter.count - 3 - i].jt = (uint8_t)(i + 1);
    filter.lines[filter.count - 4 - standing].jf = (uint8_t)(standing + 3);
    standing = 0;
}

/* Begins places in one part of 4 GB. */
static void open_places(uint32_t part)
{
    const uint32_t at = offsetof(struct seccomp_data, instruction_pointer);
    high = part;
    put_line(&filter, (struct sock_filter)BPF_STMT(BPF_LD | BPF_W | BPF_ABS, at + 4));
    put_jump_of(part);
    put_line(&filter, (struct sock_filter)BPF_STMT(BPF_LD | BPF_W | BPF_ABS, at));
}

/* A system call's instruction ends here, as the kernel says where one stands. At a fixed place
 * another program may have its own. */
static void add_place(uintptr_t end)
{
    is_useless |= end <= UINT32_MAX;
    if (standing == TOGETHER || (standing > 0 && high != end >> 32))
        close_places();
    if (standing == 0)
        open_places((uint32_t)(end >> 32));
    put_jump_of((uint32_t)end);
    standing++;
}

/* What isn't looked for by its place: other calls, other changes, and calls of our own. */
static const struct filter_row passing[] = {
    {ANY_CALL, SECCOMP_RET_ALLOW, {{IS_NOT, offsetof(struct seccomp_data, nr), SYS_epoll_ctl}}},
    {ANY_CALL, SECCOMP_RET_ALLOW,
        {{IS_NOT, ARGUMENT(1), EPOLL_CTL_ADD}, {IS_NOT, ARGUMENT(1), EPOLL_CTL_MOD}}},
    {ANY_CALL, SECCOMP_RET_ALLOW, {{IS, UPPER(5), PASSES}}},
};

/* Adds each place where the two bytes of such an instruction stand, also within others. */
static void add_places(const uint8_t *at, const uint8_t *end)
{
    const __m128i first = _mm_set1_epi8(0x0f), second = _mm_set1_epi8(0x05);
    for (; end - at > 16; at += 16) {
        __m128i here = _mm_loadu_si128((const void *)at),
                after = _mm_loadu_si128((const void *)(at + 1));
        unsigned found = (unsigned)_mm_movemask_epi8(
            _mm_and_si128(_mm_cmpeq_epi8(here, first), _mm_cmpeq_epi8(after, second)));
        for (; found; found &= found - 1)
            add_place((uintptr_t)at + (unsigned)__builtin_ctz(found) + 2);
    }
    for (; end - at > 1; at++)
        if (at[0] == 0x0f && at[1] == 0x05)
            add_place((uintptr_t)at + 2);
}

static int look_at_object(struct dl_phdr_info *object, size_t size, void *argument)
{
    bool *are_all_read = argument;
    (void)size;
    for (int i = 0; i < object->dlpi_phnum; i++) {
        const ElfW(Phdr) *part = &object->dlpi_phdr[i];
        uintptr_t start = object->dlpi_addr + part->p_vaddr;
        if (part->p_type != PT_LOAD || !(part->p_flags & PF_X))
            continue;
        *are_all_read &= (part->p_flags & PF_R) != 0;
        if (*are_all_read)
            add_places((const uint8_t *)start, (const uint8_t *)start + part->p_memsz);
    }
    return !*are_all_read;
}

/* Whether the kernel draws places at all; where that can't be read it may not. */
static bool does_kernel_draw(void)
{
    char word = '0';
    long file = pass(SYS_openat, AT_FDCWD, (long)"/proc/sys/kernel/randomize_va_space",
        O_RDONLY | O_CLOEXEC, 0, 0, 0);
    if (file < 0)
        return false;
    pass(SYS_read, file, (long)&word, 1, 0, 0, 0);
    pass(SYS_close, file, 0, 0, 0, 0, 0);
    return word != '0';
}

/* (other libraries are loaded besides where there are auditors) */
static bool are_places_drawn(void)
{
    int how = personality(0xffffffff);
    return how >= 0 && !(how & ADDR_NO_RANDOMIZE) && does_kernel_draw() && !getenv("LD_AUDIT");
}

bool trap_own_calls(void)
{
    int kept = errno;
    bool are_all_read = are_places_drawn() && !has_filter_of_its_own();
    standing = 0;
    begin_filter(&filter);
    put_rows(&filter, passing, COUNT(passing));
    if (are_all_read)
        dl_iterate_phdr(look_at_object, &are_all_read);
    close_places();
    bool is_set = are_all_read && !is_useless && add_filter_for_all(&filter);
    errno = kept;
    return is_set;
}
