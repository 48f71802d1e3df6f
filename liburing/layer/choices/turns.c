/* Turns among the choices of policy.c. */
#define _GNU_SOURCE
#include "choices/turns.h"
#include "choices/account.h"
#include "choices/policy.h"
#include "wulgach_enter.h"
#include "wulgach_taking.h"

#include <stddef.h>

#define SEEN __attribute__((visibility("default"), externally_visible))

SEEN void (*wulgach_tell_own_calls)(bool begin);
SEEN void (*wulgach_hear_step)(uint32_t ring, const char *what);
SEEN void (*wulgach_hear_choice)(uint64_t at, uint32_t count, uint32_t way, const char *what);

SEEN bool wulgach_begin_turns(struct wulgach_one_list *shared)
{
    read_policy();
    share_course(shared);
    note_one_list();
    note_ring();
    begin_turn_rules();
    record_line("%s", "");
    return kind_of_policy() == WULGACH_BY_CHOICE;
}

SEEN uint32_t wulgach_choose_turn(uint32_t count, uint32_t rolled, uint64_t *at)
{
    return choose_turn(count, rolled, at);
}

SEEN void wulgach_note_turn(enum wulgach_kind_of_turn turn)
{
    note_turn_rule(turn);
}

SEEN void wulgach_record_turn(uint64_t at, uint32_t count, uint32_t way, const char *what)
{
    record_turn(at, count, way, what);
}
