/* What a descriptor's number was is remembered, and what it is now isn't known: the application may
 * have closed it, and opened something else. So nothing rests on that but which call is made first:
 * a read by the number of what was a file is asked not to wait, which holds whatever is there by
 * now. What was a file in memory can't be asked so, and is asked for its seals before; but where
 * WULGACH_DEVICES says that no device is read whose reads wait: nothing else waits at an offset.
 */
#define _GNU_SOURCE
#include "operations/trying.h"
#include "choices/injection.h"
#include "choices/policy.h"
#include "process/fault.h"
#include "process/passing.h"
#include "wulgach_tries.h"

#include <fcntl.h>
#include <stdint.h>
#include <stdlib.h>
#include <string.h>

static bool are_none; /* the devices; read when a ring is set up */

void read_devices(void)
{
    const char *word = getenv("WULGACH_DEVICES");
    are_none = word && strcmp(word, "no") == 0;
    demand(are_none || !word || !*word || strcmp(word, "yes") == 0, "WULGACH_DEVICES is yes or no");
}

bool has_no_devices(void)
{
    return are_none;
}

/* Numbers from this on aren't remembered. */
enum { MOST_KNOWN = 4096 };

/* What is remembered of each (enum wulgach_remembered). */
static uint8_t remembered[MOST_KNOWN];

static bool is_known(int fd)
{
    return fd >= 0 && fd < MOST_KNOWN;
}

static uint32_t remembered_of(int fd)
{
    return is_known(fd) ? __atomic_load_n(&remembered[fd], __ATOMIC_RELAXED)
                        : (uint32_t)WULGACH_REMEMBERED_NOTHING;
}

bool was_file(int fd)
{
    return remembered_of(fd) == WULGACH_REMEMBERED_FILE;
}

static void remember(int fd, uint32_t what)
{
    if (is_known(fd) && remembered_of(fd) != what)
        __atomic_store_n(&remembered[fd], (uint8_t)what, __ATOMIC_RELAXED);
}

void note_kind(int fd, bool is_file)
{
    remember(fd, wulgach_remembered_after_status(remembered_of(fd), is_file));
}

/* Files in memory alone have seals. */
static bool has_seals(int fd)
{
    return pass(SYS_fcntl, fd, F_GET_SEALS, 0, 0, 0, 0) >= 0;
}

void note_call(int fd, bool is_at_once, int32_t res)
{
    uint32_t was = remembered_of(fd);
    if (wulgach_asks_seals(was, is_at_once, res))
        remember(fd, wulgach_remembered_after_seals(was, has_seals(fd)));
    else
        remember(fd, wulgach_remembered_after_call(was, res));
}

bool was_in_memory(int fd)
{
    return wulgach_was_in_memory(remembered_of(fd));
}

bool is_in_memory(int fd)
{
    uint32_t was = remembered_of(fd);
    if (!wulgach_was_in_memory(was))
        return false;
    uint32_t after = wulgach_remembered_after_seals(was, has_seals(fd));
    remember(fd, after);
    return wulgach_was_in_memory(after);
}

/* Elsewhere what can go on is a way of a choice, or is written down, or says which faults there may
 * be. */
bool is_asked_before(void)
{
    return (policy() != IN_ORDER && policy() != LAZY) || is_recording_ways() || has_listed_faults();
}
