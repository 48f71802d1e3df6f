/* Going on with rings on which no thread has a call. It is as in a call that asks for nothing: it
 * looks afresh, hears what the application has reaped, goes on once, and shows what has ended.
 */
#define _GNU_SOURCE
#include "calls/uncalled.h"
#include "calls/duties.h"
#include "choices/policy.h"
#include "requests/progress.h"
#include "rings/locking.h"
#include "rings/ring.h"
#include "waiting/clock.h"
#include "waiting/waiting.h"

#define SEEN __attribute__((visibility("default"), externally_visible))
SEEN uint32_t wulgach_look_at_uncalled(
    struct wulgach_uncalled *rows, uint32_t most, bool (*is_elsewhere)(int32_t caller));
SEEN bool wulgach_go_on_uncalled(uint32_t ring);

static struct wulgach_uncalled look_at(struct ring *ring)
{
    struct wulgach_timeout timeout;
    struct wulgach_uncalled row = {.ring = ring->index, .caller = ring->caller};
    do_duties_at_begin(ring, true);
    row.has_next = is_time_real() && find_next_timeout(ring, &timeout);
    if (row.has_next)
        row.next = ring->origin + timeout.expiry;
    row.can_go_on = can_go_on(ring) || (row.has_next && row.next <= real_time()) ||
                    (!is_time_real() && can_pass_time(ring));
    return row;
}

uint32_t wulgach_look_at_uncalled(
    struct wulgach_uncalled *rows, uint32_t most, bool (*is_elsewhere)(int32_t caller))
{
    uint32_t count = 0;
    struct ring *ring;
    for (uint32_t from = 0; count < most && (ring = lock_uncalled(from, is_elsewhere));) {
        from = ring->index + 1;
        rows[count++] = look_at(ring);
        unlock_uncalled(ring);
    }
    return count;
}

static bool is_any(int32_t caller)
{
    (void)caller;
    return true;
}

/* Goes on, and hears what was reaped. */
static bool go_on_once(struct ring *ring)
{
    if (go_on(ring, false) == WENT_ON)
        return hear(ring, WULGACH_HEARS_BEHIND_STEP);
    if (is_time_real() || !can_pass_time(ring))
        return false;
    pass_time(ring);
    return true;
}

bool wulgach_go_on_uncalled(uint32_t number)
{
    struct ring *ring = lock_uncalled(number, is_any);
    if (!ring)
        return false;
    bool has_gone_on = false;
    if (ring->index == number) {
        size_t count = ring->requests.count;
        ring->call_number++; /* (an eventfd is told of what ends later than its call) */
        do_duties_at_begin(ring, false);
        do_duties_before_posting(ring);
        has_gone_on = go_on_once(ring) || ring->requests.count != count;
        do_duties_at_return(ring);
    }
    unlock_uncalled(ring);
    return has_gone_on;
}
