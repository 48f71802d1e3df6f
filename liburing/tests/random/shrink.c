/* Makes a program that fails short: actions are left out, many at first and then one by one, as
 * long as it still fails. */
#include "shrink.h"
#include "children.h"

#include <string.h>
#include <time.h>

enum { SECONDS_OF_RUN = 2, SECONDS_IN_ALL = 60 };

static bool still_fails(const struct program *program)
{
    return !is_right(program, SECONDS_OF_RUN);
}

/* Leaves out `size` of the actions from one on that are there. False if none is left from there on.
 */
static bool leave_out(struct program *program, unsigned *at, unsigned size)
{
    bool is_any = false;
    for (; *at < program->count && size > 0; (*at)++)
        if (program->actions[*at].kind != NOTHING) {
            program->actions[*at].kind = NOTHING;
            is_any = true;
            size--;
        }
    return is_any;
}

/* Goes through the program once. Returns whether anything could be left out. */
static bool pass(struct program *program, unsigned size, time_t until)
{
    bool is_shorter = false;
    for (unsigned at = 0; at < program->count && time(NULL) < until;) {
        struct program shorter = *program;
        if (leave_out(&shorter, &at, size) && still_fails(&shorter)) {
            *program = shorter;
            is_shorter = true;
        }
    }
    return is_shorter;
}

/* Leaves out what stands beside the actions, if it still fails. */
static void simplify(struct program *program)
{
    struct program simple = *program;
    simple.fault_rate = simple.fault_count = 0;
    if (still_fails(&simple))
        *program = simple;
    simple = *program;
    simple.timeout_rate = 0;
    if (still_fails(&simple))
        *program = simple;
    simple = *program;
    strcpy(simple.policy, "order");
    if (still_fails(&simple))
        *program = simple;
}

void shrink(struct program *program)
{
    time_t until = time(NULL) + SECONDS_IN_ALL;
    simplify(program);
    for (unsigned size = program->count / 2; size > 0; size /= 2)
        pass(program, size, until);
    while (pass(program, 1, until))
        ;
    still_fails(program);
}
