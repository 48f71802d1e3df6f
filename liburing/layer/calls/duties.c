/* What is due at a moment of a call, and in which order it is done, is the library's decision. */
#define _GNU_SOURCE
#include "calls/duties.h"
#include "operations/operations.h"
#include "registered/eventfds.h"
#include "rings/readiness.h"
#include "waiting/clock.h"
#include "waiting/streams.h"
#include "waiting/waiting.h"
#include "wulgach_sleeps.h"

static void do_duty(struct ring *ring, enum wulgach_duty duty)
{
    switch (duty) {
    case WULGACH_LOOKS_AFRESH:
        wulgach_lookout_opens(&ring->lookout);
        return;
    case WULGACH_HEARS_PIPES:
        hear_pipes(ring);
        return;
    case WULGACH_PASSES_TIME:
        pass_real_time(ring);
        return;
    case WULGACH_FINDS_FILES:
        assign_before(ring, UINT64_MAX);
        return;
    case WULGACH_KEEPS_NEW:
        hold_new_files(ring);
        return;
    case WULGACH_HOLDS_FILES:
        hold_files(ring);
        return;
    case WULGACH_WATCHES_PIPES:
        ring->pipes.has_told |= watch_pipes(ring);
        return;
    case WULGACH_LETS_LIE:
        let_lie(ring);
        return;
    case WULGACH_SHOWS_ENDS:
        show_ends(ring);
        return;
    case WULGACH_TELLS_READINESS:
        show_readiness(ring);
        return;
    case WULGACH_HEARS_APPLICATION:
        hear(ring, WULGACH_HEARS_TO_POST);
        return;
    case WULGACH_SHOWS_FLAGS:
        show_flags(ring);
        return;
    case WULGACH_TELLS_EVENTFD:
        tell_eventfd(ring, ring->completions.told);
        return;
    }
    __builtin_unreachable();
}

/* Does what is in a set, by rising bits. */
static void do_all(struct ring *ring, uint32_t duties)
{
    if (ring->left & WULGACH_LEAVES_DUTIES)
        return;
    for (; duties; duties &= duties - 1)
        do_duty(ring, (enum wulgach_duty)__builtin_ctz(duties));
}

static struct wulgach_resting resting(const struct ring *ring)
{
    return (struct wulgach_resting){
        .waiting = count_waiting(ring),
        .looked_at = MOST_LOOKED_AT,
        .has_due = wulgach_due_is_any(&ring->due),
        .runs = ring->running.count > 0,
        .has_new = ring->requests.count > 0 &&
                   ring->held_before<ring->accepted, .has_watches = ring->pipes.count> 0,
        .has_ends = ring->completions.is_behind,
        .is_polled = ring->ready_fd >= 0,
    };
}

void do_duties_at_begin(struct ring *ring, bool has_slept)
{
    ring->has_shown = false;
    do_all(ring, wulgach_duties_at_begin(is_time_real(), has_slept));
}

bool do_duties_before_sleep(struct ring *ring, bool has_fault)
{
    struct wulgach_resting at = resting(ring);
    ring->pipes.has_told = false;
    do_all(ring, wulgach_duties_before_sleep(&at, has_fault));
    return ring->pipes.has_told;
}

bool do_duties_when_stuck(struct ring *ring)
{
    if (!ring->telling.is_registered) /* (nor is it then) */
        return false;
    struct wulgach_resting at = resting(ring);
    uint32_t duties = wulgach_duties_when_stuck(&at, ring->telling.is_registered, ring->has_shown);
    ring->has_shown |= duties != 0;
    do_all(ring, duties);
    return duties != 0;
}

/* (where nothing has ended that isn't shown, nothing is to be done) */
void do_duties_at_reply(struct ring *ring, const struct wulgach_reply *reply)
{
    if (ring->completions.is_behind)
        do_all(ring, wulgach_duties_at_reply(reply, true));
}

void do_duties_at_rest(struct ring *ring)
{
    struct wulgach_resting at = resting(ring);
    do_all(ring, wulgach_duties_at_rest(&at));
}

void do_duties_at_return(struct ring *ring)
{
    struct wulgach_resting at = resting(ring);
    do_all(ring, wulgach_duties_at_return(at.waiting, at.looked_at, at.has_due, at.runs, at.has_new,
                     at.has_watches, at.has_ends, at.is_polled));
}

void do_duties_at_register_begin(struct ring *ring, uint32_t code)
{
    do_all(ring, wulgach_duties_at_register_begin(code, is_time_real()));
}

void do_duties_at_register_return(struct ring *ring, uint32_t code)
{
    struct wulgach_resting at = resting(ring);
    do_all(ring, wulgach_duties_at_register_return(code, &at));
}

void do_duties_before_posting(struct ring *ring)
{
    do_all(ring, wulgach_duties_before_posting());
}

void do_duties_after_posting(struct ring *ring)
{
    do_all(ring, wulgach_duties_after_posting(ring->completions.is_behind, ring->ready_fd >= 0));
}

void do_duties_after_storing(struct ring *ring, uint64_t told)
{
    do_all(ring, wulgach_duties_after_storing(told));
}

void do_duties_before(struct ring *ring, const struct request *request)
{
    do_all(ring, wulgach_duties_before(request->entry.opcode, ring->completions.is_behind));
}
