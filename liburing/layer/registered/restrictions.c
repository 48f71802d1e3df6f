/* Restrictions are taken once, while the ring is disabled, and hold from when it is enabled. What a
 * list is refused for, and in which order, and what it allows, is the library's decision. */
#define _GNU_SOURCE
#include "registered/restrictions.h"
#include "process/process.h"
#include "requests/copying.h"
#include "rings/ring.h"
#include "wulgach_tables.h"

#include <errno.h>
#include <unistd.h>

enum { MOST_RESTRICTIONS = 103 };

_Static_assert(
    sizeof(struct io_uring_restriction) == sizeof(struct wulgach_restriction), "the library's row");

/* Does a step of what the library says. Returns its fault, or 0. */
static int do_step(struct ring *ring, enum wulgach_restricting_step step,
    struct wulgach_restriction *rows, uint64_t list, uint32_t count)
{
    switch (step) {
    case WULGACH_RESTRICTING_LIST:
        return wulgach_restricting_fault(
            ring->issuer.is_disabled, ring->restrictions.are_registered, list, count);
    case WULGACH_RESTRICTING_READS:
        return copy_in(rows, list, count * sizeof *rows);
    case WULGACH_RESTRICTING_ROWS:
        return wulgach_restrictions_register(&ring->restrictions, rows, count);
    }
    __builtin_unreachable();
}

int register_restrictions(struct ring *ring, uint64_t list, uint32_t count)
{
    struct wulgach_restriction rows[MOST_RESTRICTIONS];
    int result = 0;
    for (uint32_t steps = wulgach_restricting_steps(count); steps && result == 0;
         steps &= steps - 1)
        result = do_step(
            ring, (enum wulgach_restricting_step)__builtin_ctz(steps), rows, list, count);
    return result;
}

int enable_ring(struct ring *ring)
{
    int result = wulgach_enabling_fault(ring->issuer.is_disabled, false);
    if (result < 0)
        return result;
    wulgach_issuer_enable(&ring->issuer, (uint32_t)this_thread());
    return 0;
}

bool allows_entry(const struct ring *ring, const struct io_uring_sqe *entry)
{
    return wulgach_restrictions_allow_entry(&ring->restrictions, entry->opcode, entry->flags);
}

bool allows_call(const struct ring *ring, uint32_t code)
{
    return wulgach_restrictions_allow_call(&ring->restrictions, code, ring->issuer.is_disabled);
}
