/* Which calls of io_uring_enter are rewritten. A trap costs a signal and the way back from it; so
 * where one place has been trapped often, the five bytes `mov $426, %eax` before its call become a
 * jump to a bypass (bypass.c). The call's own two bytes stay, so that whoever jumps between is
 * trapped. All is left as it is, and trapped,
 *
 * - where those bytes aren't an instruction, read from the function's beginning on
 *   (instructions.c), or where no table for unwinders says where it begins, as in code that a
 *   program makes;
 * - where what stands between them and the call isn't a few moves between registers, or of numbers
 *   into them;
 * - where they cross a line of the cache: other threads may run there, and have to see all five or
 *   none;
 * - where they aren't a file's, mapped privately and not to be written, the page can't be made
 *   writable for a moment, or none within 2 GB below is free;
 * - where the processor can't save its vectors in parts (xsavec);
 * - after the 64th place that was trapped; and everywhere, if WULGACH_REWRITING is `no`.
 *
 * A thread bypasses from its first trap at such a place on, and not from within a call, as in a
 * signal's handler.
 */
#define _GNU_SOURCE
#include "rewriting.h"
#include "run.h"

#include <pthread.h>
#include <stdatomic.h>
#include <stdio.h>
#include <stdlib.h>
#include <string.h>
#include <sys/mman.h>

enum { PAGE = 4096, LINE = 64, REACH = 0x7fff0000, MOST_SITES = 64, OFTEN = 16 };

struct site {
    const uint8_t *call;
    unsigned traps;
    bool is_rewritten;
};

static struct site sites[MOST_SITES];
static atomic_flag is_looked_at = ATOMIC_FLAG_INIT;

static bool is_wanted(void)
{
    const char *said = getenv("WULGACH_REWRITING");
    return (!said || strcmp(said, "no") != 0) && can_bypass();
}

/* A free page below an instruction, from which a jump reaches it, if its own page is a file's and
 * private; else NULL. */
static uint8_t *find_place(const uint8_t *call)
{
    FILE *maps = fopen("/proc/self/maps", "re");
    char line[512], rights[5];
    uintptr_t start, end, file, before = PAGE * 16, place = 0;
    bool is_plain = false;
    while (maps && !is_plain && fgets(line, sizeof line, maps)) {
        bool is_whole = strchr(line, '\n');
        if (sscanf(line, "%lx-%lx %4s %*x %*s %lu", &start, &end, rights, &file) == 4) {
            if (start > before && (uintptr_t)call - start < REACH)
                place = start - PAGE;
            is_plain = (uintptr_t)call - start < end - start && strcmp(rights, "r-xp") == 0 &&
                       file != 0;
            before = end;
        }
        for (; !is_whole && fgets(line, sizeof line, maps); is_whole = strchr(line, '\n'))
            ;
    }
    if (maps)
        fclose(maps);
    return is_plain ? (uint8_t *)place : NULL;
}

/* A page that nobody writes any more, with the bypass of a call; NULL if there is no room for it.
 */
static uint8_t *make_bypass(const uint8_t *number, const uint8_t *call)
{
    uint8_t *place = find_place(call);
    if (!place)
        return NULL;
    uint8_t *page = mmap(place, PAGE, PROT_READ | PROT_WRITE,
        MAP_PRIVATE | MAP_ANONYMOUS | MAP_FIXED_NOREPLACE, -1, 0);
    if (page == MAP_FAILED)
        return NULL;
    if (page == place) {
        write_bypass(page, number, call);
        if (mprotect(page, PAGE, PROT_READ | PROT_EXEC) == 0)
            return page;
    }
    munmap(page, PAGE);
    return NULL;
}

/* Eight bytes that lie in one line of the cache become others at once. */
static void exchange(uint8_t *at, uint64_t before, uint64_t after)
{
    __asm__ volatile("lock cmpxchgq %[after], (%[at])"
                     : "+a"(before)
                     : [at] "r"(at), [after] "r"(after)
                     : "memory", "cc");
}

/* The page is copied for this process by a first exchange that changes nothing, so that the second
 * one is seen at once. */
static bool jump_to(uint8_t *page, uint8_t *number)
{
    uint8_t *code = number - (uintptr_t)number % PAGE, *line = number - (uintptr_t)number % LINE;
    uint8_t *window = number - line > LINE - 8 ? line + LINE - 8 : number;
    uint64_t before, after;
    if (mprotect(code, PAGE, PROT_READ | PROT_WRITE | PROT_EXEC) < 0)
        return false;
    memcpy(&before, window, sizeof before);
    after = before;
    put_jump((uint8_t *)&after + (number - window), number, page);
    exchange(window, before, before);
    exchange(window, before, after);
    mprotect(code, PAGE, PROT_READ | PROT_EXEC);
    return true;
}

static bool rewrite(const uint8_t *call)
{
    const uint8_t *function = function_of(call),
                  *number = function ? find_number(function, call) : NULL;
    if (!number || (uintptr_t)number % LINE > LINE - NUMBER_LENGTH)
        return false;
    uint8_t *page = make_bypass(number, call);
    if (!page)
        return false;
    bool is_done = jump_to(page, (uint8_t *)number);
    if (!is_done)
        munmap(page, PAGE);
    return is_done;
}

/* A thread isn't cancelled in a call of the C library's here, as it isn't in the call that was
 * trapped. */
static bool rewrite_whole(const uint8_t *call)
{
    int before;
    pthread_setcancelstate(PTHREAD_CANCEL_DISABLE, &before);
    bool is_done = rewrite(call);
    pthread_setcancelstate(before, NULL);
    return is_done;
}

/* The place of a call, among those that are known or as a new one; NULL if there is no room. */
static struct site *site_of(const uint8_t *call)
{
    struct site *site = sites;
    while (site < sites + MOST_SITES && site->call && site->call != call)
        site++;
    if (site == sites + MOST_SITES)
        return NULL;
    site->call = call;
    return site;
}

/* All signals are blocked here. Where another thread looks at the places, this trap isn't counted.
 */
void note_site(const ucontext_t *at)
{
    static int is_on = -1;
    const uint8_t *after = (const uint8_t *)at->uc_mcontext.gregs[REG_RIP];
    if (is_on == 0 || atomic_flag_test_and_set(&is_looked_at))
        return;
    if (is_on < 0)
        is_on = is_wanted();
    struct site *site = is_on ? site_of(after - 2) : NULL;
    if (site && site->traps < OFTEN && ++site->traps == OFTEN)
        site->is_rewritten = rewrite_whole(site->call);
    if (site && site->is_rewritten)
        allow_bypass(at);
    atomic_flag_clear(&is_looked_at);
}
