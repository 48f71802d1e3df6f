/* What a ring looks out for, and which polls are told of writes: written by hand, of runs of a few
 * happenings. */
#include "demand.h"
#include "wulgach.h"
#include "wulgach_lookout.h"

#include <stdio.h>
#include <string.h>

/* A ring of which so many requests run, and all were found to wait. */
static struct wulgach_lookout waiting(unsigned running)
{
    struct wulgach_lookout lookout;
    wulgach_lookout_begin(&lookout);
    for (unsigned i = 0; i < running; i++)
        wulgach_lookout_starts(&lookout, i);
    demand(lookout.count == 0, "one that has started is looked at");
    for (unsigned i = 0; i < running; i++)
        wulgach_lookout_passes(&lookout);
    demand(lookout.count == running, "one that waits is passed over");
    return lookout;
}

static void pass_over(void)
{
    static const struct wulgach_end_of_one plain = {0}, counted = {.is_count_reached = true},
                                           drained = {.has_drains = true};
    struct wulgach_lookout lookout = waiting(5);
    wulgach_lookout_starts(&lookout, 5);
    demand(lookout.count == 5, "one after all others");
    wulgach_lookout_leaves(&lookout, 5);
    wulgach_lookout_ends(&lookout, &plain);
    demand(lookout.count == 5, "an end that lets none go on");
    wulgach_lookout_updates(&lookout, 4, false);
    demand(lookout.count == 5, "one that waits after its update");
    wulgach_lookout_updates(&lookout, 4, true);
    demand(lookout.count == 4, "one that needn't wait after its update");
    wulgach_lookout_touches(&lookout, 3);
    demand(lookout.count == 3, "one that is cancelled is looked at again");
    wulgach_lookout_leaves(&lookout, 1);
    demand(lookout.count == 1, "those after one that has left are looked at again");
    lookout = waiting(5);
    wulgach_lookout_ends(&lookout, &counted);
    demand(lookout.count == 0, "a count that is reached");
    lookout = waiting(5);
    wulgach_lookout_ends(&lookout, &drained);
    demand(lookout.count == 0, "an end beside drains");
    lookout = waiting(5);
    struct wulgach_waiter waiter;
    wulgach_waiter_begin(&waiter);
    wulgach_waiter_waits(&waiter, &lookout);
    demand(lookout.count == 5, "one that had to wait lets none go on");
    wulgach_lookout_ends(&lookout, &plain);
    demand(lookout.count == 0, "an end where one had to wait");
}

static const struct wulgach_standing stream = {.is_stream = true};
static const struct wulgach_needs no_needs;
static const struct wulgach_course runs = {.has_started = true},
                                   is_cancelled = {.has_started = true, .is_cancelled = true};
static const struct wulgach_moment not_ready = {.knows_readiness = true},
                                   ready = {.knows_readiness = true, .is_ready = true}, unknown;

/* Whether a request that may have to wait for its descriptor is asked, and what is told of it. */
static uint32_t ask(struct wulgach_waiter *waiter, const struct wulgach_lookout *lookout,
    const struct wulgach_moment *known)
{
    return wulgach_can_finish(waiter, lookout, &stream, &no_needs, &runs, known);
}

/* It was asked, and waits. */
static void find_waiting(struct wulgach_waiter *waiter, const struct wulgach_lookout *lookout)
{
    demand(ask(waiter, lookout, &unknown) == WULGACH_ASK_READINESS &&
               ask(waiter, lookout, &not_ready) == WULGACH_LOOK_WAITS,
        "one that isn't known to wait is asked");
    demand(ask(waiter, lookout, &ready) == WULGACH_LOOK_WAITS, "one that is known to wait isn't");
}

#define BIT(duty) (1u << (duty))

/* What a request does as it starts, and whether it lies down. */
static void look_at_starts(void)
{
    static const struct wulgach_standing none = {0};
    demand(wulgach_lies_down(&stream, &no_needs, &runs, true, false) &&
               !wulgach_lies_down(&none, &no_needs, &runs, true, false) &&
               !wulgach_lies_down(&stream, &no_needs, &is_cancelled, true, false),
        "one that waits for its descriptor alone");
    demand(!wulgach_lies_down(&stream, &no_needs, &runs, false, false) &&
               !wulgach_lies_down(&stream, &no_needs, &runs, true, true),
        "whose descriptor is unready, and which an instance takes");
    enum {
        EARLIER = 1 << WULGACH_FINDS_EARLIER,
        OWN = 1 << WULGACH_FINDS_OWN,
        TIME = 1 << WULGACH_BEGINS_TIME,
        UP = 1 << WULGACH_LOOKS_UP,
        EVENTS = 1 << WULGACH_ASKS_EVENTS,
        LOOKS = 1 << WULGACH_LOOKS,
        BUFFER = 1 << WULGACH_SEEKS_BUFFER
    };
    struct wulgach_submission receive = {.opcode = 27}, open = {.opcode = 28, .op_flags = 2};
    demand(wulgach_steps_at_start(&receive, 64, true) == (EARLIER | TIME) &&
               wulgach_steps_at_start(&receive, 64, false) == (EARLIER | OWN | TIME) &&
               EARLIER < OWN && OWN < TIME && TIME < UP && UP < EVENTS && EVENTS < LOOKS &&
               LOOKS < BUFFER,
        "what is done as one starts");
    demand(wulgach_lets_start(WULGACH_MAY_START) && wulgach_lets_start(WULGACH_DOOMED) &&
               !wulgach_lets_start(WULGACH_WAITS) && !wulgach_lets_start(WULGACH_RUNS) &&
               !wulgach_lets_start(WULGACH_HAS_ENDED) &&
               !wulgach_lets_start(WULGACH_NEVER_ACCEPTED),
        "whom the core lets start");
    demand(wulgach_steps_at_start(&open, 64, true) == (EARLIER | TIME | UP) &&
               wulgach_steps_at_start(&open, 0, true) == (EARLIER | TIME),
        "a path is looked up");
    demand(
        wulgach_steps_after_files(&none, &(struct wulgach_needs){.is_poll = true}, 0) == EVENTS &&
            wulgach_steps_after_files(&stream, &(struct wulgach_needs){.is_poll = true}, -9) ==
                LOOKS &&
            wulgach_steps_after_files(&none, &no_needs, 0) == 0,
        "a poll that hasn't failed asks for its events");
    demand(wulgach_steps_after_files(&stream, &(struct wulgach_needs){.selects = true}, 0) ==
                   (LOOKS | BUFFER) &&
               wulgach_steps_after_files(&none, &(struct wulgach_needs){.selects = true}, 0) == 0,
        "and what may wait looks for its buffer");
    demand(
        !wulgach_lies_down(&stream, &(struct wulgach_needs){.selects = true}, &runs, true, false) &&
            !wulgach_lies_down(
                &stream, &(struct wulgach_needs){.is_timeout = true}, &runs, true, false) &&
            !wulgach_lies_down(
                &stream, &(struct wulgach_needs){.needs_second = true}, &runs, true, false),
        "and one that doesn't");
}

static void ask_again(void)
{
    static const struct wulgach_end_of_one plain = {0}, counted = {.is_count_reached = true};
    static const struct wulgach_standing none = {0};
    struct wulgach_lookout lookout = waiting(2);
    struct wulgach_waiter waiter, other;
    wulgach_waiter_begin(&waiter);
    wulgach_waiter_begin(&other);
    find_waiting(&waiter, &lookout);
    wulgach_lookout_ends(&lookout, &plain);
    wulgach_lookout_starts(&lookout, 0);
    demand(ask(&waiter, &lookout, &ready) == WULGACH_LOOK_WAITS,
        "an end, or a start, that lets none go on");
    wulgach_lookout_ends(&lookout, &counted);
    find_waiting(&waiter, &lookout);
    wulgach_lookout_moves(&lookout);
    find_waiting(&waiter, &lookout);
    wulgach_lookout_opens(&lookout);
    find_waiting(&waiter, &lookout);
    wulgach_waiter_meets_update(&waiter);
    find_waiting(&waiter, &lookout);
    wulgach_waiter_meets_cancel(&waiter);
    demand(wulgach_can_finish(&waiter, &lookout, &none, &no_needs, &is_cancelled, &unknown) ==
               WULGACH_LOOK_FINISHES,
        "one that a cancel has found");
    wulgach_waiter_waits(&other, &lookout);
    demand(ask(&other, &lookout, &ready) == WULGACH_LOOK_WAITS, "one that would have waited");
    wulgach_lookout_moves(&lookout);
    demand(ask(&other, &lookout, &ready) == WULGACH_LOOK_WAITS, "whatever becomes ready");
    wulgach_lookout_ends(&lookout, &plain);
    demand(ask(&other, &lookout, &ready) == WULGACH_LOOK_FINISHES, "until another has ended");
    wulgach_waiter_waits(&other, &lookout);
    wulgach_lookout_opens(&lookout);
    demand(ask(&other, &lookout, &ready) == WULGACH_LOOK_FINISHES, "or a call begins");
    wulgach_waiter_waits(&other, &lookout);
    wulgach_waiter_meets_update(&other);
    demand(ask(&other, &lookout, &ready) == WULGACH_LOOK_FINISHES, "or it is updated");
}

static uint32_t sighting(const struct wulgach_waiter *waiter, const struct wulgach_lookout *lookout)
{
    return wulgach_waiter_sighting(waiter, lookout);
}

static void look_afresh(void)
{
    struct wulgach_lookout lookout = waiting(2);
    struct wulgach_waiter waiter;
    wulgach_waiter_begin(&waiter);
    demand(sighting(&waiter, &lookout) == WULGACH_SIGHTING_UNSEEN, "one that was never looked at");
    demand(!wulgach_waiter_sees(&waiter, &lookout, false) &&
               sighting(&waiter, &lookout) == WULGACH_SIGHTING_UNREADY,
        "what was looked at is known");
    wulgach_lookout_hears(&lookout);
    wulgach_lookout_changes(&lookout);
    demand(sighting(&waiter, &lookout) == WULGACH_SIGHTING_UNREADY && lookout.count == 2,
        "a change makes no descriptor ready");
    wulgach_lookout_moves(&lookout);
    demand(sighting(&waiter, &lookout) == WULGACH_SIGHTING_UNSEEN && lookout.count == 0,
        "an operation may have");
    demand(!wulgach_waiter_sees(&waiter, &lookout, true) &&
               sighting(&waiter, &lookout) == WULGACH_SIGHTING_READY,
        "one that is ready");
    demand(!wulgach_waiter_takes(&waiter, &lookout) &&
               sighting(&waiter, &lookout) == WULGACH_SIGHTING_UNREADY,
        "one that has taken what there was");
    wulgach_lookout_opens(&lookout);
    demand(sighting(&waiter, &lookout) == WULGACH_SIGHTING_UNSEEN, "a call begins");
}

static void wake(void)
{
    static const struct wulgach_end_of_one plain = {0};
    struct wulgach_lookout lookout;
    wulgach_lookout_begin(&lookout);
    demand(!wulgach_lookout_wakes(&lookout), "nothing has changed");
    wulgach_lookout_ends(&lookout, &plain);
    demand(
        wulgach_lookout_wakes(&lookout) && !wulgach_lookout_wakes(&lookout), "an end wakes once");
    wulgach_lookout_changes(&lookout);
    wulgach_lookout_opens(&lookout);
    demand(wulgach_lookout_wakes(&lookout), "a change wakes in a later call");
}

static const struct wulgach_pipe_poll reading = {
    .watch = 3, .events = 1, .is_poll = true, .is_of_pipe = true};

/* A poll that has heard of a write, of which what was written was there. */
static struct wulgach_waiter hearing(struct wulgach_lookout *lookout)
{
    struct wulgach_waiter waiter;
    wulgach_waiter_begin(&waiter);
    wulgach_waiter_waits(&waiter, lookout);
    wulgach_waiter_hears(&waiter, lookout, &reading, true);
    demand(ask(&waiter, lookout, &ready) == WULGACH_LOOK_FINISHES,
        "one that has heard of a write needn't wait for an end");
    demand(sighting(&waiter, lookout) == WULGACH_SIGHTING_UNSEEN,
        "what is there is found by its descriptor");
    return waiter;
}

static void tell_of_writes(void)
{
    struct wulgach_lookout lookout;
    struct wulgach_pipe_poll cancelled = reading;
    cancelled.is_cancelled = true;
    wulgach_lookout_begin(&lookout);
    struct wulgach_waiter waiter = hearing(&lookout), other = waiter, third = waiter,
                          fourth = waiter;
    demand(wulgach_lookout_wakes(&lookout), "a write that was heard wakes those that sleep");
    demand(!wulgach_waiter_sees(&waiter, &lookout, true) &&
               wulgach_waiter_sees(&waiter, &lookout, false),
        "one that finds nothing of what it has heard");
    demand(wulgach_waiter_misses(&waiter, &lookout, &reading, false) &&
               sighting(&waiter, &lookout) == WULGACH_SIGHTING_READY,
        "is told of what is gone");
    demand(wulgach_waiter_takes(&waiter, &lookout) &&
               sighting(&waiter, &lookout) == WULGACH_SIGHTING_UNREADY &&
               !wulgach_waiter_takes(&waiter, &lookout),
        "once");
    demand(!wulgach_waiter_misses(&other, &lookout, &reading, true) &&
               !wulgach_waiter_sees(&other, &lookout, false),
        "not of what is there");
    demand(!wulgach_waiter_misses(&third, &lookout, &cancelled, false), "one that was cancelled");
    wulgach_lookout_moves(&lookout);
    demand(!wulgach_waiter_misses(&fourth, &lookout, &reading, false),
        "what the ring's own may have read");
    wulgach_waiter_hears(&fourth, &lookout, &reading, false);
    demand(
        sighting(&fourth, &lookout) == WULGACH_SIGHTING_READY, "what was gone when it was heard");
}

static void hear_pipes(void)
{
    struct wulgach_lookout lookout;
    wulgach_lookout_begin(&lookout);
    hearing(&lookout);
    demand(!lookout.may_be_own, "a poll that was told has written nothing");
    wulgach_lookout_moves(&lookout);
    wulgach_lookout_opens(&lookout);
    demand(lookout.may_be_own, "an operation may have");
    wulgach_lookout_hears(&lookout);
    demand(!lookout.may_be_own, "that was heard");
    struct wulgach_pipe_poll poll = reading, other = poll, cancelled = poll, writing = poll,
                             unwatched = poll;
    cancelled.is_cancelled = true;
    writing.events = 4;
    other.is_of_pipe = false;
    unwatched.watch = 0;
    demand(wulgach_awaits_writes(&poll) && !wulgach_awaits_writes(&other) &&
               !wulgach_awaits_writes(&cancelled) && !wulgach_awaits_writes(&writing),
        "who awaits writes");
    demand(wulgach_telling_of(&poll, 3, true) == WULGACH_TELLING_TELLS &&
               wulgach_telling_of(&poll, 3, false) == WULGACH_TELLING_ASKS,
        "the write of its pipe");
    demand(wulgach_telling_of(&poll, 4, true) == WULGACH_TELLING_PASSES_OVER &&
               wulgach_telling_of(&unwatched, 0, true) == WULGACH_TELLING_PASSES_OVER &&
               wulgach_telling_of(&cancelled, 3, false) == WULGACH_TELLING_PASSES_OVER,
        "and of another");
}

/* What comes one after the other, as a call begins or rests, where so many pipes are watched. */
static void hear_in_order(void)
{
    static const uint32_t rest[] = {WULGACH_HEARING_ADDS, WULGACH_HEARING_DROPS,
        WULGACH_HEARING_TELLS_OF_GONE, WULGACH_HEARING_SORTS, WULGACH_HEARING_IS_DONE};
    uint32_t at = WULGACH_HEARING_IS_DONE;
    for (size_t i = 0; i < sizeof rest / sizeof *rest; i++)
        demand((at = wulgach_hearing_at_rest(at, 1)) == rest[i],
            "how writes are heard as a call rests");
    demand(wulgach_hearing_at_rest(WULGACH_HEARING_IS_DONE, 0) == WULGACH_HEARING_ADDS &&
               wulgach_hearing_at_rest(WULGACH_HEARING_ADDS, 0) == WULGACH_HEARING_IS_DONE,
        "where no pipe is watched");
    demand(wulgach_hearing_at_begin(WULGACH_HEARING_IS_DONE, 1) == WULGACH_HEARING_READS &&
               wulgach_hearing_at_begin(WULGACH_HEARING_READS, 1) == WULGACH_HEARING_COUNTS &&
               wulgach_hearing_at_begin(WULGACH_HEARING_COUNTS, 1) == WULGACH_HEARING_IS_DONE,
        "and as one begins");
    demand(wulgach_hearing_at_begin(WULGACH_HEARING_IS_DONE, 0) == WULGACH_HEARING_COUNTS,
        "without a pipe");
}

static void keep_files(void)
{
    demand(wulgach_keeps_before_close(3, 5, 4, 5) && !wulgach_keeps_before_close(4, 5, 4, 5) &&
               !wulgach_keeps_before_close(5, 5, 4, 5) && !wulgach_keeps_before_close(3, 6, 4, 5),
        "before a close");
    struct wulgach_standing still = {0}, waits = {.is_stream = true};
    demand(wulgach_shares_copy(&still, 5, true, 5) && !wulgach_shares_copy(&still, 5, true, 6) &&
               !wulgach_shares_copy(&still, 5, false, 5) &&
               !wulgach_shares_copy(&waits, 5, true, 5),
        "a copy that was just made");
    demand(wulgach_may_close_last(1, true, true, true, true) &&
               wulgach_may_close_last(2, true, true, false, false) &&
               !wulgach_may_close_last(2, true, true, false, true) &&
               !wulgach_may_close_last(2, true, false, true, false),
        "the last descriptor of a file");
    demand(!wulgach_may_close_last(0, true, true, true, false) &&
               !wulgach_may_close_last(2, false, true, true, false),
        "nobody else, and none that was closed");
    demand(wulgach_instance_takes(true, false) && wulgach_instance_takes(false, true) &&
               !wulgach_instance_takes(false, false),
        "what an instance takes");
    demand(wulgach_dormant_events(0x203b) == 0x4000203b, "it tells once");
    demand(wulgach_asks_locks(true) && !wulgach_asks_locks(false), "what has locks");
    demand(wulgach_stays_open(true, WULGACH_MOST_LEFT - 1) &&
               !wulgach_stays_open(true, WULGACH_MOST_LEFT) && !wulgach_stays_open(false, 0),
        "a copy of what is locked");
}

static bool is_lock(const char *line)
{
    return wulgach_is_lock_of((const uint8_t *)line, strlen(line), 5433, 7864448);
}

static void tell_locks(void)
{
    demand(is_lock("1: POSIX  ADVISORY  WRITE 5433 08:01:7864448 128 EOF") &&
               is_lock("12: POSIX  ADVISORY  READ  5433 00:2f:7864448 0 0"),
        "a lock on any device");
    demand(is_lock("1: -> POSIX  ADVISORY  WRITE 5433 08:01:7864448 128 EOF"),
        "one that is waited for");
    demand(!is_lock("1: POSIX  ADVISORY  WRITE 5434 08:01:7864448 5433 EOF") &&
               !is_lock("1: POSIX  ADVISORY  WRITE 5433 08:01:17864448 0 EOF"),
        "another process's, and another file's");
    demand(!is_lock("1: FLOCK  ADVISORY  WRITE 5433 08:01:7864448 0 EOF") &&
               !is_lock("1: OFDLCK ADVISORY  WRITE 5433 08:01:7864448 0 EOF"),
        "one of an open file");
    demand(!is_lock("") && !is_lock("1: POSIX  *NOINODE* READ  5433 <none>:0 0 0") &&
               !is_lock("1: POSIX"),
        "a line without an inode");
}

static void tell_others(void)
{
    static const struct {
        bool was_readable, is_readable, has_posted, may_wait_for_edges, is_told;
    } rows[] = {
        {false, true, false, false, true},
        {true, false, true, true, true},
        {false, false, true, true, false},
        {true, true, true, true, true},
        {true, true, true, false, false},
        {true, true, false, true, false},
    };
    for (size_t i = 0; i < sizeof rows / sizeof *rows; i++)
        demand(wulgach_tells_anew(rows[i].was_readable, rows[i].is_readable, rows[i].has_posted,
                   rows[i].may_wait_for_edges) == rows[i].is_told,
            "who polls the ring's descriptor");
    demand(wulgach_may_begin_to_wait(1, true) && wulgach_may_begin_to_wait(3, true) &&
               !wulgach_may_begin_to_wait(2, true) && !wulgach_may_begin_to_wait(1, false),
        "a call by which one may begin to wait for edges");
    demand(wulgach_may_hand_on(16) && !wulgach_may_hand_on(0),
        "a message that may carry a descriptor");
    demand(wulgach_may_wait_for_edges(false, false, false) &&
               wulgach_may_wait_for_edges(false, true, true) &&
               !wulgach_may_wait_for_edges(false, true, false) &&
               !wulgach_may_wait_for_edges(true, false, true),
        "who may wait for edges");
    demand(wulgach_counts_as_written(0x4000, false) && wulgach_counts_as_written(2, true) &&
               !wulgach_counts_as_written(2, false) && !wulgach_counts_as_written(1, true),
        "a pipe that was written to");
    demand(wulgach_heard_events() == 2 && wulgach_left_events() == 1,
        "what is heard, and what is left");
    demand(wulgach_is_heard(010600, 0) && wulgach_is_heard(010600, 2) &&
               !wulgach_is_heard(010600, 1) && !wulgach_is_heard(0140600, 2) &&
               !wulgach_is_heard(010600, 1u << 21),
        "which pipes are heard");
}

static void take_from_polls(void)
{
    static const struct wulgach_needs read = {.events = 1}, write = {.events = 4},
                                      none = {.events = 0}, poll = {.events = 1, .is_poll = true};
    static const struct wulgach_standing stream = {.is_stream = true}, file = {.is_stream = false};
    demand(wulgach_may_take(&stream, &read) && !wulgach_may_take(&file, &read) &&
               wulgach_may_take(&stream, &write) && !wulgach_may_take(&stream, &none) &&
               !wulgach_may_take(&stream, &poll),
        "what may take what polls wait for");
    demand(wulgach_has_event_first(&poll, true, true) &&
               !wulgach_has_event_first(&poll, false, true) &&
               !wulgach_has_event_first(&poll, true, false) &&
               !wulgach_has_event_first(&read, true, true),
        "who has its event first");
}

static void lie(void)
{
    struct wulgach_lookout lookout = waiting(1);
    struct wulgach_waiter waiter;
    wulgach_waiter_begin(&waiter);
    demand(!wulgach_lookout_wakes(&lookout), "nothing has changed");
    wulgach_waiter_is_told_ready(&waiter, &lookout);
    demand(wulgach_waiter_sighting(&waiter, &lookout) == WULGACH_SIGHTING_READY &&
               wulgach_lookout_wakes(&lookout),
        "one that an instance tells of");
    demand(wulgach_instance_answered(64, 64) == WULGACH_INSTANCE_ASKS &&
               wulgach_instance_answered(63, 64) == WULGACH_INSTANCE_IS_DONE &&
               wulgach_instance_answered(0, 64) == WULGACH_INSTANCE_IS_DONE &&
               wulgach_instance_answered(-1, 64) == WULGACH_INSTANCE_ROUSES,
        "what an instance answers");
    struct wulgach_submission write = {.opcode = 23}, send = {.opcode = 26},
                              receive = {.opcode = 27};
    demand(wulgach_asks_broken(&write, 1, 1) && wulgach_asks_broken(&send, 1, 1) &&
               !wulgach_asks_broken(&receive, 1, 1) && !wulgach_asks_broken(&send, 2, 1) &&
               !wulgach_asks_broken(&send, 1, 2),
        "what is asked whether it was shut down for writing");
    demand(wulgach_is_found_ready(true, false, true, false) &&
               wulgach_is_found_ready(false, true, false, false) &&
               !wulgach_is_found_ready(false, true, true, false) &&
               wulgach_is_found_ready(false, true, true, true) &&
               !wulgach_is_found_ready(false, false, false, false),
        "what is found ready");
    demand(wulgach_asks_breaking(false, true, true) && wulgach_asks_breaking(false, false, false) &&
               !wulgach_asks_breaking(true, false, false) &&
               !wulgach_asks_breaking(false, true, false),
        "for what that is asked");
    demand(wulgach_glance_of(true, true, -1, 0) == WULGACH_GLANCE_READY &&
               wulgach_glance_of(false, true, -1, 0) == WULGACH_GLANCE_ASKS_ALONE &&
               wulgach_glance_of(false, false, -1, 0) == WULGACH_GLANCE_READY &&
               wulgach_glance_of(false, true, 1, 4) == WULGACH_GLANCE_READY &&
               wulgach_glance_of(false, true, 1, 0) == WULGACH_GLANCE_UNREADY,
        "a look");
    demand(wulgach_unshown_glance(true) == WULGACH_GLANCE_READY &&
               wulgach_unshown_glance(false) == WULGACH_GLANCE_UNREADY,
        "one that has shown nothing");
}

static void miss(void)
{
    struct wulgach_lookout lookout = waiting(1);
    const struct wulgach_waiter silent = {0}, heard = {.has_heard = true};
    demand(wulgach_waiter_gone(&silent, false, false) == WULGACH_GONE_NO &&
               wulgach_waiter_gone(&silent, true, false) == WULGACH_GONE_NO,
        "one that has heard of nothing");
    demand(wulgach_waiter_gone(&heard, false, false) == WULGACH_GONE_ASKS &&
               wulgach_waiter_gone(&heard, true, false) == WULGACH_GONE_YES &&
               wulgach_waiter_gone(&heard, true, true) == WULGACH_GONE_NO,
        "one that has heard of something");
    demand(!wulgach_lookout_drops_writes(&lookout), "what is another's");
    wulgach_lookout_moves(&lookout);
    demand(wulgach_lookout_drops_writes(&lookout), "what may be the ring's own");
}

static void follow(void)
{
    const uint32_t always = BIT(WULGACH_END_KEEPS) | BIT(WULGACH_END_COUNTS) |
                            BIT(WULGACH_END_STOPS_TIMEOUT) | BIT(WULGACH_END_LOOKS_AT_COUNTS) |
                            BIT(WULGACH_END_LOOKS_BEHIND) | BIT(WULGACH_END_LETS_START) |
                            BIT(WULGACH_END_LEAVES) | BIT(WULGACH_END_HAS_ENDS);
    demand(wulgach_duties_after_end(false, false, false, false) == always, "after each end");
    demand(wulgach_duties_after_end(true, false, false, false) ==
                   (always | BIT(WULGACH_END_UNWATCHES)) &&
               wulgach_duties_after_end(false, true, false, false) ==
                   (always | BIT(WULGACH_END_UNWATCHES)),
        "after that of one with a file");
    demand(wulgach_duties_after_end(false, false, true, false) ==
                   (always | BIT(WULGACH_END_FORGETS)) &&
               wulgach_duties_after_end(false, false, false, true) ==
                   (always | BIT(WULGACH_END_ENDS_DRAIN)),
        "after others");
}

int main(void)
{
    pass_over();
    ask_again();
    look_at_starts();
    look_afresh();
    wake();
    tell_of_writes();
    hear_pipes();
    hear_in_order();
    keep_files();
    tell_locks();
    tell_others();
    take_from_polls();
    lie();
    miss();
    follow();
    printf("what a ring looks out for: it is as written\n");
    return 0;
}
