/* Where the function of an instruction begins, by the table that each file has for unwinders,
 * sorted by where functions begin. */
#define _GNU_SOURCE
#include "rewriting.h"

#include <link.h>

/* The head of that table, where numbers have the usual forms: each of four bytes, counted from the
 * head. */
struct table {
    uint8_t version, pointer_form, count_form, form;
    int32_t frames;
    uint32_t count;
    struct {
        int32_t start, frame;
    } rows[];
};

enum { VERSION = 1, USUAL_POINTER = 0x1b, USUAL_COUNT = 3, USUAL_ROWS = 0x3b, LONGEST = 1 << 20 };

struct sought {
    uintptr_t address;
    const uint8_t *function;
};

/* The last one that doesn't begin after the address. */
static const uint8_t *look_up(const struct table *table, uintptr_t address)
{
    intptr_t wanted = (intptr_t)(address - (uintptr_t)table);
    uint32_t low = 0, high = table->count;
    while (low < high) {
        uint32_t middle = low + (high - low) / 2;
        if (table->rows[middle].start <= wanted)
            low = middle + 1;
        else
            high = middle;
    }
    return low > 0 ? (const uint8_t *)table + table->rows[low - 1].start : NULL;
}

static bool is_usual(const struct table *table)
{
    return table->version == VERSION && table->pointer_form == USUAL_POINTER &&
           table->count_form == USUAL_COUNT && table->form == USUAL_ROWS;
}

static int look_at_object(struct dl_phdr_info *object, size_t size, void *argument)
{
    struct sought *sought = argument;
    const struct table *table = NULL;
    bool is_here = false;
    (void)size;
    for (int i = 0; i < object->dlpi_phnum; i++) {
        const ElfW(Phdr) *part = &object->dlpi_phdr[i];
        uintptr_t start = object->dlpi_addr + part->p_vaddr;
        is_here |= part->p_type == PT_LOAD && part->p_flags & PF_X &&
                   sought->address - start < part->p_memsz;
        if (part->p_type == PT_GNU_EH_FRAME)
            table = (const struct table *)start;
    }
    if (is_here && table && is_usual(table))
        sought->function = look_up(table, sought->address);
    return is_here;
}

const uint8_t *function_of(const uint8_t *call)
{
    struct sought sought = {.address = (uintptr_t)call};
    dl_iterate_phdr(look_at_object, &sought);
    return sought.function && call - sought.function < LONGEST ? sought.function : NULL;
}
