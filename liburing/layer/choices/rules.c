/* Counts rules in the account. */
#include "choices/rules.h"
#include "choices/account.h"

#include <errno.h>

_Static_assert(WAITS_DEFERRED - WAITS_IN_GROUP == WULGACH_DEFERRED - WULGACH_SAME_GROUP,
    "reasons of waiting stand in one order");
_Static_assert(DOOMED_AS_DRAIN - DOOMED_BY_OWN_FAULT == WULGACH_REFUSED_DRAIN - WULGACH_OWN_FAULT,
    "dooms stand in one order");

void note_standing(struct ring *ring, const struct request *request)
{
    struct wulgach_why why;
    if (!has_account() || wulgach_core_why(&ring->core, request->number, &why) != 0)
        return;
    if (why.kind == WULGACH_WAITS)
        note_rule(WAITS_IN_GROUP + (why.reason - WULGACH_SAME_GROUP));
    else if (why.kind == WULGACH_DOOMED)
        note_rule(DOOMED_BY_OWN_FAULT + (why.reason - WULGACH_OWN_FAULT));
    else if (why.kind == WULGACH_MAY_START && request->entry.flags & IOSQE_IO_DRAIN)
        note_rule(DRAIN_STARTS);
}

void note_accepted(struct ring *ring, uint64_t first)
{
    for (size_t i = ring->requests.count;
         has_account() && i > 0 && ring->requests.rows[i - 1]->number >= first; i--) {
        const struct request *request = ring->requests.rows[i - 1];
        if (request->mapping == REFUSED)
            note_rule(ENTRY_HAS_FAULT);
        note_standing(ring, request);
    }
}

static void note_cancel(int32_t told)
{
    if (told >= 0)
        note_rule(CANCEL_DOOMS);
    else if (told == -EALREADY)
        note_rule(CANCEL_FINDS_RUNNING);
    else if (told == -ENOENT)
        note_rule(CANCEL_FINDS_NOBODY);
}

void note_outcome(const struct request *request, int32_t told)
{
    uint8_t flags = request->entry.flags;
    if (!has_account())
        return;
    if (request->mapping == CANCEL)
        note_cancel(told);
    if (told < 0 && flags & IOSQE_IO_HARDLINK)
        note_rule(FAILS_BY_HARD_LINK);
    else if (told < 0 && flags & IOSQE_IO_LINK)
        note_rule(FAILS_BY_SOFT_LINK);
    if (flags & IOSQE_CQE_SKIP_SUCCESS)
        note_rule(told < 0 ? FAILURE_ISNT_SKIPPED : SUCCESS_IS_SKIPPED);
}
