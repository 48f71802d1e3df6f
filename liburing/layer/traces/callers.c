/* The addresses are found by the C library's backtrace, which needs no frame pointers, and are told
 * as places in the files that are mapped there: so whoever reads the trace can ask addr2line for
 * lines, also where programs are loaded anywhere. A thread may have a small stack, so no path
 * stands on it.
 */
#define _GNU_SOURCE
#include "traces/callers.h"
#include "choices/turns.h"
#include "rings/ring.h"
#include "traces/trace.h"

#include <execinfo.h>
#include <inttypes.h>
#include <limits.h>
#include <link.h>
#include <pthread.h>
#include <string.h>
#include <unistd.h>

enum { MOST_FRAMES = 48, MOST_TOLD = 16 };

static __thread const void *caller;

void note_caller(const void *address)
{
    caller = address;
}

/* The program's own path. */
static char program[PATH_MAX];
static pthread_once_t once = PTHREAD_ONCE_INIT;

static void find_program(void)
{
    if (readlink("/proc/self/exe", program, sizeof program - 1) < 0)
        program[0] = '\0';
}

struct place {
    uintptr_t address;
    const char *file;
    uintptr_t offset;
};

static bool holds(const struct dl_phdr_info *object, uintptr_t address)
{
    for (int i = 0; i < object->dlpi_phnum; i++) {
        const ElfW(Phdr) *part = &object->dlpi_phdr[i];
        uintptr_t start = object->dlpi_addr + part->p_vaddr;
        if (part->p_type == PT_LOAD && address >= start && address - start < part->p_memsz)
            return true;
    }
    return false;
}

static int look_at_object(struct dl_phdr_info *object, size_t size, void *argument)
{
    struct place *place = argument;
    (void)size;
    if (!holds(object, place->address))
        return 0;
    place->file = *object->dlpi_name ? object->dlpi_name
                                     : program; /* (the program itself has no name there) */
    place->offset = place->address - object->dlpi_addr;
    return 1;
}

void trace_callers(struct ring *ring)
{
    void *frames[MOST_FRAMES];
    if (!ring->trace)
        return;
    tell_own_calls(true);
    pthread_once(&once, find_program);
    int count = backtrace(frames, MOST_FRAMES), first = 0, told = 0;
    while (first < count && frames[first] != caller)
        first++;
    for (int i = first == count ? 0 : first; i < count && told < MOST_TOLD; i++) {
        struct place place = {.address = (uintptr_t)frames[i]};
        if (dl_iterate_phdr(look_at_object, &place))
            fprintf(ring->trace, "%s%s+0x%" PRIxPTR, told++ ? ", " : "# called from ", place.file,
                place.offset);
    }
    tell_own_calls(false);
    if (told > 0)
        end_trace_line(ring);
}
