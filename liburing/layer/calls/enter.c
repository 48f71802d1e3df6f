/* One call of io_uring_enter(2): what the application has reaped is heard, what it has published is
 * submitted, and requests go on, as far as the policy and what the application waits for say.
 */
#define _GNU_SOURCE
#include "calls/enter.h"
#include "calls/duties.h"
#include "calls/signals.h"
#include "calls/submit.h"
#include "choices/outlook.h"
#include "choices/policy.h"
#include "operations/openness.h"
#include "process/fault.h"
#include "process/process.h"
#include "registered/enrolling.h"
#include "registered/restrictions.h"
#include "requests/copying.h"
#include "requests/progress.h"
#include "rings/descriptors.h"
#include "rings/locking.h"
#include "rings/ring.h"
#include "traces/trace.h"
#include "waiting/waiting.h"
#include "waiting/watch.h"
#include "wulgach_enter.h"
#include "wulgach_sleeps.h"
#include "wulgach_taking.h"

#include <linux/io_uring.h>
#include <signal.h>
#include <stdio.h>
#include <string.h>

/* What the application asks for. */
struct waiting {
    uint32_t to_submit, min_complete;
    struct wulgach_limit limit; /* how long it waits at most, in nanoseconds; after the submission,
                                   until when in the ring's time */
    struct wulgach_limit
        least; /* the same of the time after which one completion is enough; none once it is over */
    bool is_trapped;
    struct sleep_masks masks; /* the thread's; it sleeps with its own, */
    uint64_t mask; /* unless the call gives one, at this address */
    size_t mask_size;
    sigset_t *given; /* room for that */
    uint32_t sleeps; /* how often the call has begun to sleep */
    uint32_t flags;
    bool is_extended; /* the last argument is a structure */
    int fault; /* of the last argument, read after the submission; 0: none */
    bool waits; /* it waits for completions, if there aren't enough */
};

/* Reads the structure that a call gives as its last argument, which has this size. Returns its
 * fault, or 0. */
static int read_extended(struct waiting *waiting)
{
    struct wulgach_extended_form extended = {0};
    struct wulgach_given given;
    struct __kernel_timespec time;
    struct wulgach_argument argument = {
        .size = waiting->mask_size, .is_extended = waiting->is_extended};
    _Static_assert(
        sizeof extended == sizeof(struct io_uring_getevents_arg), "the library's structure");
    argument.is_readable = argument.size == sizeof extended &&
                           copy_in(&extended, waiting->mask, sizeof extended) == 0;
    wulgach_argument_gives(&extended, &given);
    argument.has_time = given.has_time;
    argument.is_time_readable = given.has_time && copy_in(&time, given.time_at, sizeof time) == 0;
    int fault = wulgach_last_argument_fault(&argument);
    if (fault < 0)
        return fault;
    waiting->mask = given.mask_at;
    waiting->mask_size = given.mask_size;
    if (given.has_time)
        waiting->limit = (struct wulgach_limit){
            .at = wulgach_time_of(time.tv_sec, time.tv_nsec), .is_set = true};
    waiting->least = (struct wulgach_limit){.at = given.least, .is_set = given.has_least};
    return 0;
}

/* Reads the mask with which the call sleeps: the first 64 bits of the C library's. Returns its
 * fault, or 0. */
static int read_mask(struct waiting *waiting)
{
    sigemptyset(waiting->given);
    waiting->masks.asleep = waiting->given;
    uint64_t mask = 0;
    bool is_readable = waiting->mask_size == sizeof mask &&
                       copy_in(&mask, waiting->mask, sizeof mask) == 0;
    mask = wulgach_slept_with(mask, waiting->is_trapped);
    memcpy(waiting->given, &mask, sizeof mask);
    return wulgach_mask_fault(waiting->mask_size, is_readable);
}

/* Reads the mask where the library says so. Returns the fault with which the call doesn't sleep, or
 * 0. */
static int sleep_fault(struct waiting *waiting)
{
    bool is_read = wulgach_asks_mask(waiting->mask, waiting->fault, waiting->sleeps++);
    return wulgach_sleep_fault(waiting->fault, is_read, is_read ? read_mask(waiting) : 0);
}

static void say_stuck(struct ring *ring, uint32_t min_complete)
{
    fprintf(stderr,
        "wulgach: ring %u waits for %u completions, %u are there, and nothing can go on\n",
        (unsigned)ring->index, (unsigned)min_complete, (unsigned)count_ready(ring));
}

/* The application stored a completion head past the tail: its calls end so until it stores another.
 */
static void complain_of_head(struct ring *ring)
{
    if (!ring->has_complained)
        fprintf(stderr, "wulgach: ring %u has a completion head past its tail\n",
            (unsigned)ring->index);
    ring->has_complained = true;
}

/* What the thread that takes entries would take: all that is published, with faults among them. */
static int64_t submit_published(struct ring *ring, uint32_t to_submit)
{
    struct wulgach_rounds rounds;
    struct wulgach_round round;
    int64_t submitted;
    wulgach_rounds_begin(&rounds, to_submit);
    do {
        uint32_t head = ring->head;
        round.is_refused = submit(ring, wulgach_round_takes(&rounds)) < 0;
        round.positions = ring->head - head;
    } while (wulgach_rounds_go_on(&rounds, &round, &submitted));
    return submitted;
}

/* ---- what a call wants, and what becomes of it ---- */

/* Until when the call waits, if it does so for a time at most. */
static void note_limit(struct ring *ring, const struct waiting *waiting)
{
    ring->waits_until = (struct wulgach_limit){0};
    if (waiting->waits)
        wulgach_sleeps_to(&waiting->least, &waiting->limit, &ring->waits_until);
}

/* Submits, and says what came of it. After that the last argument is read, and the caller's time
 * counts from then on. A fault of the argument counts only where nothing was submitted; else it
 * ends the call where that would sleep. */
static enum wulgach_reply_kind submit_entries(
    struct ring *ring, struct waiting *waiting, struct wulgach_reply *reply)
{
    int64_t submitted = ring->has_thread ? submit_published(ring, waiting->to_submit)
                                         : submit(ring, waiting->to_submit);
    if (waiting->is_extended && wulgach_reads_argument(waiting->flags & IORING_ENTER_GETEVENTS,
                                    waiting->to_submit, submitted)) {
        waiting->fault = read_extended(waiting);
        submitted = wulgach_submission_with_fault(submitted, waiting->fault);
    }
    if (waiting->limit.is_set)
        wulgach_times_deadline(&ring->times, &waiting->limit);
    if (waiting->least.is_set)
        wulgach_times_deadline(&ring->times, &waiting->least);
    waiting->waits = waiting->flags & IORING_ENTER_GETEVENTS && waiting->min_complete > 0 &&
                     submitted == waiting->to_submit;
    note_limit(ring, waiting);
    reply->number = (uint32_t)(submitted < 0 ? -submitted : submitted);
    reply->kind = submitted < 0 ? WULGACH_NOT_TAKEN : WULGACH_WAS_TAKEN;
    do_duties_at_reply(ring, reply);
    if (is_recording_ways() && wulgach_looks_in_vain(waiting->flags & IORING_ENTER_GETEVENTS,
                                   waiting->min_complete, count_ready(ring)))
        record_break();
    return reply->kind;
}

static enum wulgach_reply_kind hear_application(struct ring *ring, bool asks)
{
    return hear(ring, asks ? WULGACH_HEARS_FOR_CALL_THAT_ASKS : WULGACH_HEARS_FOR_CALL)
               ? WULGACH_HEARD
               : WULGACH_WRONG_HEAD;
}

static enum wulgach_reply_kind go_on_once(struct ring *ring, bool may_end)
{
    switch (go_on(ring, may_end)) {
    case MAY_RETURN:
        return WULGACH_CHOSEN;
    case STUCK:
        return WULGACH_STUCK;
    default:
        return hear(ring, WULGACH_HEARS_BEHIND_STEP) ? WULGACH_WENT_ON : WULGACH_WRONG_HEAD;
    }
}

static enum wulgach_reply_kind go_on_fully(struct ring *ring)
{
    enum wulgach_reply_kind kind;
    do
        kind = go_on_once(ring, false);
    while (kind == WULGACH_WENT_ON);
    return kind;
}

/* Does what the library says comes before a sleep, and says whether that has brought something. */
static bool do_before_sleep(struct ring *ring, struct waiting *waiting, uint32_t step, int *fault)
{
    switch (step) {
    case WULGACH_LETS_OTHERS_GO:
        if (!let_others_go())
            return false;
        do_duties_at_begin(ring, true);
        return true;
    case WULGACH_READS_MASK:
        *fault = sleep_fault(waiting);
        return false;
    default:
        return do_duties_before_sleep(ring, *fault < 0);
    }
}

/* Waits until the least time, or else the limit. */
static enum wulgach_reply_kind wait_for_time(struct ring *ring, struct waiting *waiting, int *error)
{
    struct wulgach_limit until;
    wulgach_sleeps_to(&waiting->least, &waiting->limit, &until);
    enum wulgach_reply_kind kind = wait_for_any(
        ring, &until, waiting->least.is_set, &waiting->masks, error);
    if (kind == WULGACH_LEAST_OVER)
        waiting->least.is_set = false;
    /* (another call may have been made on the ring meanwhile) */
    note_limit(ring, waiting);
    return kind;
}

static enum wulgach_reply_kind sleep_on(
    struct ring *ring, struct waiting *waiting, struct wulgach_reply *reply)
{
    int error, fault = 0;
    bool has_brought = false;
    uint32_t next = WULGACH_SLEEP_AT_FIRST;
    while ((next = wulgach_sleep_next(next, has_brought, fault)) > WULGACH_SLEEPS)
        has_brought = do_before_sleep(ring, waiting, next, &fault);
    if (next == WULGACH_SLEEP_WAKES)
        return WULGACH_WOKEN;
    if (next == WULGACH_SLEEP_FAILS) {
        reply->number = (uint32_t)-fault;
        return WULGACH_FAILED;
    }
    do_duties_at_rest(ring);
    enum wulgach_reply_kind kind = wait_for_time(ring, waiting, &error);
    do_duties_at_begin(ring, true);
    if (kind == WULGACH_ENDLESS)
        say_stuck(ring, waiting->min_complete);
    reply->number = (uint32_t)error;
    reply->has_limit = waiting->limit.is_set;
    return kind;
}

/* Does what a call wants, and says what became of it. */
static enum wulgach_reply_kind do_wanted(struct ring *ring, struct waiting *waiting,
    const struct wulgach_command *command, struct wulgach_reply *reply)
{
    switch (command->kind) {
    case WULGACH_HEAR:
        return hear_application(ring, command->flag);
    case WULGACH_SUBMIT:
        return submit_entries(ring, waiting, reply);
    case WULGACH_GO_ON:
        return go_on_once(ring, command->flag);
    case WULGACH_GO_ON_FULLY:
        return go_on_fully(ring);
    case WULGACH_SLEEP:
        return sleep_on(ring, waiting, reply);
    default:
        pass_time(ring);
        return WULGACH_PASSED;
    }
}

static void see(struct ring *ring, struct wulgach_reply *reply)
{
    if (ring->left & WULGACH_LEAVES_SIGHT)
        return;
    do_duties_at_reply(ring, reply);
    reply->ready = count_ready(ring);
    reply->expired = ring->times.expired;
    reply->is_due = has_expired(ring);
}

/* Carries a call out: what it does next, when it sleeps and what it returns is the library's
 * decision. */
static int64_t carry_call_out(struct ring *ring, struct waiting *waiting, uint32_t flags)
{
    struct wulgach_asked asked = {
        .to_submit = waiting->to_submit,
        .min_complete = waiting->min_complete,
        .cq = ring->memory.cq_entries,
        .policy = kind_of_policy(),
        .gets = flags & IORING_ENTER_GETEVENTS,
        /* One with an eventfd may sleep on it. */
        .may_leave = wulgach_eventfd_may_leave(&ring->telling, ring->has_thread),
        .has_thread = ring->has_thread,
    };
    struct wulgach_enter call;
    struct wulgach_command command;
    demand(wulgach_enter_begin(&call, &asked, &command) == 0, "a call can't begin");
    while (command.kind != WULGACH_RETURN) {
        struct wulgach_reply reply = {0};
        reply.kind = do_wanted(ring, waiting, &command, &reply);
        if (reply.kind == WULGACH_WRONG_HEAD)
            complain_of_head(ring);
        see(ring, &reply);
        demand(wulgach_enter_next(&call, &reply, &command) == 0, "a call doesn't take a reply");
    }
    ring->waits_until.is_set = ring->is_rushed = false;
    return command.result;
}

/* Does what the library says is done of a call that passes, by rising bits. */
static int64_t enter_ring(struct ring *ring, struct waiting *waiting, uint32_t steps)
{
    int64_t result = 0;
    for (; steps; steps &= steps - 1)
        switch (steps & -steps) {
        case WULGACH_HAS_STRUCTURE:
            waiting->is_extended = true;
            break;
        case WULGACH_BEGINS_CALL:
            do_duties_at_begin(ring, false);
            break;
        case WULGACH_MAKES_CALL:
            note_deed(WULGACH_CALLS, waiting->to_submit, ring->has_thread);
            result = carry_call_out(ring, waiting, waiting->flags);
            break;
        default:
            do_duties_at_return(ring);
            if (policy() != IN_ORDER && ring->requests.count > 0)
                watch_for_calls();
        }
    return result;
}

/* Does what the library says comes before a call is carried out. Returns its fault, or 0; the ring
 * is held once it was found. */
static int do_next(struct ring **ring, int *fd, const struct waiting *waiting, uint32_t wanted)
{
    switch (wanted) {
    case WULGACH_CHECKS_NUMBER:
        *fd = enrolled_fd((uint32_t)*fd);
        return *fd;
    case WULGACH_CHECKS_DESCRIPTOR:
        *ring = lock_ring(*fd);
        return *ring ? 0 : wulgach_no_ring_fault(is_open_besides(*fd));
    case WULGACH_COUNTS_CALL:
        (*ring)->call_number++;
        return 0;
    default:
        (*ring)->caller = this_thread();
        return wulgach_entering_fault(&(*ring)->issuer, (uint32_t)(*ring)->caller,
            waiting->to_submit, waiting->flags & IORING_ENTER_GETEVENTS);
    }
}

static int64_t enter_by(int fd, struct waiting *waiting)
{
    struct ring *ring = NULL;
    int32_t next = wulgach_entering_next(waiting->flags, WULGACH_AT_FIRST, 0);
    while (next >= 0 && next < WULGACH_AT_FIRST)
        next = wulgach_entering_next(
            waiting->flags, (uint32_t)next, do_next(&ring, &fd, waiting, (uint32_t)next));
    int64_t result = next < 0 ? next : enter_ring(ring, waiting, (uint32_t)next);
    if (ring)
        unlock_ring(ring);
    return result;
}

int64_t enter(int fd, uint32_t to_submit, uint32_t min_complete, uint32_t flags,
    const void *argument, size_t size, const sigset_t *signals, bool is_open)
{
    sigset_t given;
    struct call_signals own;
    const sigset_t *mask = signals ? signals : &own.own;
    struct waiting waiting = {
        .to_submit = to_submit,
        .min_complete = min_complete,
        .is_trapped = signals != NULL,
        .masks = {.own = mask, .asleep = mask},
        .mask = (uintptr_t)argument,
        .mask_size = size,
        .given = &given,
        .flags = flags,
    };
    /* Operations are carried out in the call, where the kernel's would be out of a signal's reach.
     */
    if (!signals)
        begin_signals(&own, is_open);
    int64_t result = enter_by(fd, &waiting);
    if (!signals)
        end_signals(&own);
    return result;
}
