/* The log of files that power failures want, of a run by turns: between the begin and the end of an
 * operation no other thread runs, and so the log is the same as often as the run is. What the log
 * itself calls goes to the kernel. */
#define _GNU_SOURCE
#include "logged.h"
#include "../../layer/process/passing.h"
#include "../../layer/traces/logging.h"
#include "../files.h"
#include "descriptors.h"
#include "dispatch.h"

#include <errno.h>
#include <sys/syscall.h>

struct logged {
    const struct trap *trap;
    bool is_served;
    long result;
};

/* Of a call that moves bytes from one descriptor to another. */
static bool are_on_disk(const struct trap *trap)
{
    bool is_sent = trap->call == SYS_sendfile;
    return kind_of((int)trap->words[0]) == ON_DISK &&
           kind_of((int)trap->words[is_sent ? 1 : 2]) == ON_DISK;
}

/* Whether it may change files; others may wait, and are served as without a log. */
static bool is_logged(const struct trap *trap)
{
    struct wulgach_bits bits;
    switch (wulgach_seen_logged_call_of((uint64_t)trap->call)) {
    case WULGACH_CALL_NOTHING:
    case WULGACH_CALL_MAP:
    case WULGACH_CALL_EXIT:
        return false;
    case WULGACH_CALL_WRITE:
        return kind_of((int)trap->words[0]) == ON_DISK;
    case WULGACH_CALL_COPY:
        return are_on_disk(trap);
    default:
        return !wulgach_seen_bits_of_call((uint64_t)trap->call, &bits) ||
               trap->words[bits.argument] & bits.bits;
    }
}

/* (what a thread goes on with a ring on, which it doesn't meanwhile) */
static void call_on_large(void (*function)(void *), void *argument)
{
    int kept = errno;
    note_own_calls(true);
    call_on(stack_of_slot(slot_of(self) + 1) - SERVING_STACK - RING_STACK, function, argument);
    note_own_calls(false);
    errno = kept;
}

static void serve(void *argument)
{
    struct logged *logged = argument;
    logged->is_served = serve_file_call(logged->trap->call, logged->trap->words, &logged->result);
}

bool serve_logged(const struct trap *trap, long *result)
{
    struct logged logged = {trap, false, 0};
    if (!is_logging() || !is_logged(trap))
        return false;
    call_on_large(serve, &logged);
    if (wulgach_seen_logged_call_of((uint64_t)trap->call) == WULGACH_CALL_OPEN)
        set_kind(logged.result, UNKNOWN);
    change_world();
    *result = logged.result;
    return logged.is_served;
}

bool is_of_log(const struct trap *trap)
{
    return is_logging() && trap->call != SYS_rt_sigprocmask &&
           ((uint64_t)trap->words[5] >> 32 == PASSES || (uint64_t)trap->words[4] >> 32 == PASSES);
}

static void compare(void *unused)
{
    (void)unused;
    compare_maps();
}

void end_logged(void)
{
    if (is_logging())
        call_on_large(compare, NULL);
}
