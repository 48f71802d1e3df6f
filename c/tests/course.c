/* The course of a request, what is shown of its end, and its chain: each call once, with what the
 * manual page calls for, written by hand. */
#include "demand.h"
#include "wulgach_cancel.h"
#include "wulgach_course.h"
#include "wulgach_form.h"
#include "wulgach_times.h"

#include <stdio.h>
#include <stdlib.h>

static struct wulgach_course started(void)
{
    struct wulgach_course course;
    int32_t res = 7;
    wulgach_course_begin(&course);
    demand(wulgach_course_act(&course, &res) == WULGACH_ACT_NOTHING && res == 7,
        "one that the core didn't let start");
    demand(
        !wulgach_course_note(&course, WULGACH_FACT_DONE, 5) && !wulgach_course_note(&course, 99, 0),
        "what can't be");
    demand(wulgach_course_note(&course, WULGACH_FACT_STARTED, 0) &&
               !wulgach_course_note(&course, WULGACH_FACT_STARTED, 0),
        "a start");
    return course;
}

/* Ends with what its operation gave. */
static struct wulgach_course carried_out(void)
{
    struct wulgach_course course = started();
    int32_t res = 7;
    demand(wulgach_course_act(&course, &res) == WULGACH_ACT_CARRY_OUT && res == 7,
        "it is to be carried out");
    demand(wulgach_course_act(&course, &res) == WULGACH_ACT_NOTHING, "while it is");
    demand(wulgach_course_note(&course, WULGACH_FACT_WAITS, 0) &&
               wulgach_course_act(&course, &res) == WULGACH_ACT_CARRY_OUT,
        "one that waited");
    demand(wulgach_course_note(&course, WULGACH_FACT_WENT_ON, 0) &&
               wulgach_course_act(&course, &res) == WULGACH_ACT_CARRY_OUT,
        "one that goes on");
    demand(wulgach_course_note(&course, WULGACH_FACT_DONE, 512) &&
               wulgach_course_act(&course, &res) == WULGACH_ACT_END && res == 512,
        "it is done");
    demand(wulgach_course_note(&course, WULGACH_FACT_ENDED, 0) &&
               !wulgach_course_note(&course, WULGACH_FACT_CANCELLED, 0),
        "it has ended");
    return course;
}

static void cancel_one(void)
{
    struct wulgach_course course = started();
    struct wulgach_awaiting awaiting;
    int32_t res;
    wulgach_awaiting_begin(&awaiting);
    demand(wulgach_awaiting_sees(&awaiting, 3, &course, true) == WULGACH_NOT_AWAITED &&
               !wulgach_course_asks_start(&course) && wulgach_course_steps_at_update(&course) == 63,
        "nobody waits for one that no cancel has found");
    demand(wulgach_course_steps_at_cancel(&course) == 15 &&
               WULGACH_CANCELLING_ROUSES < WULGACH_CANCELLING_STOPS &&
               WULGACH_CANCELLING_STOPS < WULGACH_CANCELLING_MARKS,
        "one that runs is roused");
    demand(wulgach_course_note(&course, WULGACH_FACT_CANCELLED, 0), "a cancel");
    demand(wulgach_awaiting_sees(&awaiting, 3, &course, false) == WULGACH_WRONG_TURN &&
               wulgach_awaiting_sees(&awaiting, 2, &course, false) == WULGACH_WRONG_TURN,
        "each is looked at in its turn");
    demand(wulgach_awaiting_sees(&awaiting, 4, &course, false) == WULGACH_AWAITED_RUNS,
        "but for one that it has");
    demand(wulgach_awaiting_sees(&awaiting, 5, &course, false) == WULGACH_WRONG_TURN,
        "which ends before another is looked at");
    wulgach_awaiting_ends(&awaiting);
    demand(wulgach_course_act(&course, &res) == WULGACH_ACT_END && res == -125,
        "one that was cancelled");
    demand(wulgach_course_note(&course, WULGACH_FACT_NOTIFIED, 0) &&
               wulgach_course_act(&course, &res) == WULGACH_ACT_END && res == 0,
        "a send without copies");
    wulgach_course_begin(&course);
    demand(wulgach_course_steps_at_cancel(&course) ==
               (1 << WULGACH_CANCELLING_STOPS | 1 << WULGACH_CANCELLING_MARKS),
        "another isn't");
    demand(wulgach_course_note(&course, WULGACH_FACT_CANCELLED, 0) &&
               wulgach_course_asks_start(&course),
        "one that hasn't started");
    demand(wulgach_awaiting_sees(&awaiting, 5, &course, false) == WULGACH_NOT_AWAITED &&
               wulgach_awaiting_sees(&awaiting, 8, &course, true) == WULGACH_AWAITED_WAITS,
        "if it may start");
}

/* The time of a linked timeout runs while the request runs that it limits; that of another from its
 * own start on. */
static void time_two(void)
{
    struct wulgach_member read = {.number = 3, .chain = 3, .entry = {.links = true}},
                          linked = {.number = 4,
                              .chain = 3,
                              .is_linked = true,
                              .entry = {.is_linked_timeout = true}},
                          plain = {.number = 9, .chain = 9};
    demand(wulgach_is_timeout(11) && !wulgach_is_timeout(15) && wulgach_is_linked_timeout(15) &&
               !wulgach_is_linked_timeout(11) && !wulgach_is_timeout(12),
        "which are timeouts");
    demand(wulgach_is_timed(11) && wulgach_is_timed(15) && !wulgach_is_timed(12), "what is timed");
    demand(wulgach_timing_after_start(&linked, &read, false) == WULGACH_TIMING_BEGINS &&
               wulgach_timing_after_start(&linked, &linked, false) == WULGACH_TIMING_STAYS,
        "a linked timeout");
    demand(wulgach_timing_after_start(&plain, &plain, false) == WULGACH_TIMING_BEGINS &&
               wulgach_timing_after_start(&plain, &plain, true) == WULGACH_TIMING_STAYS,
        "another, and one that a cancel has found");
    demand(wulgach_timing_after_end(&linked, &read) == WULGACH_TIMING_STOPS &&
               wulgach_timing_after_end(&linked, &linked) == WULGACH_TIMING_STOPS &&
               wulgach_timing_after_end(&linked, &plain) == WULGACH_TIMING_STAYS,
        "an end");
    demand(wulgach_timing_after_finding(&plain, &plain) == WULGACH_TIMING_STOPS &&
               wulgach_timing_after_finding(&linked, &linked) == WULGACH_TIMING_STAYS,
        "a cancel");
    demand(
        wulgach_is_one_chain(&read, &linked) && !wulgach_is_one_chain(&read, &plain), "one chain");
}

/* What has moved bytes, and would have to wait for more, ends with these once a cancel finds it. */
static void cancel_a_part(void)
{
    struct wulgach_course course = started();
    int32_t res;
    demand(wulgach_course_act(&course, &res) == WULGACH_ACT_CARRY_OUT &&
               wulgach_course_note(&course, WULGACH_FACT_WAITS, 5) && course.moved == 5,
        "a part");
    demand(wulgach_course_note(&course, WULGACH_FACT_CANCELLED, 0) &&
               wulgach_course_act(&course, &res) == WULGACH_ACT_END && res == 5,
        "a cancel after it");
    course = started();
    demand(wulgach_course_act(&course, &res) == WULGACH_ACT_CARRY_OUT &&
               wulgach_course_note(&course, WULGACH_FACT_WAITS, 5) &&
               wulgach_course_act(&course, &res) == WULGACH_ACT_CARRY_OUT,
        "another try");
    demand(wulgach_course_note(&course, WULGACH_FACT_WENT_ON, 0) &&
               wulgach_course_note(&course, WULGACH_FACT_CANCELLED, 0) &&
               wulgach_course_act(&course, &res) == WULGACH_ACT_END && res == -125,
        "that had a completion of its own");
}

/* The three that each request has. */
static void go_plainly(void)
{
    struct wulgach_course course;
    int32_t res;
    wulgach_course_begin(&course);
    demand(!wulgach_course_done(&course, 1) && !wulgach_course_end(&course), "before it starts");
    demand(wulgach_course_start(&course) && !wulgach_course_start(&course) &&
               !wulgach_course_end(&course),
        "a start");
    demand(wulgach_course_act(&course, &res) == WULGACH_ACT_CARRY_OUT &&
               wulgach_course_done(&course, -9) && !wulgach_course_done(&course, 0),
        "an operation");
    demand(wulgach_course_act(&course, &res) == WULGACH_ACT_END && res == -9 &&
               wulgach_course_end(&course) && !wulgach_course_end(&course),
        "an end");
}

static void notify(void)
{
    struct wulgach_course course = started();
    int32_t res;
    demand(!wulgach_course_note(&course, WULGACH_FACT_NOTIFIED, 0) &&
               wulgach_course_act(&course, &res) == WULGACH_ACT_CARRY_OUT,
        "a send");
    demand(wulgach_course_note(&course, WULGACH_FACT_DONE, 9) &&
               wulgach_course_note(&course, WULGACH_FACT_NOTIFIED, 0),
        "its result has a completion of its own");
    demand(
        wulgach_course_act(&course, &res) == WULGACH_ACT_END && res == 0, "it ends with another");
}

/* Two ends with a completion, one that is skipped, and one too many. */
static void show_ends(void)
{
    struct wulgach_posted rows[2];
    struct wulgach_shown shown;
    struct wulgach_course course = carried_out(), dropped, fresh = started();
    struct wulgach_posted end = {.user_data = 11, .res = 99, .token = 1, .told = 0};
    struct wulgach_completion core = {.user_data = 1, .res = 0},
                              other = {.user_data = 1, .res = -9};
    wulgach_course_begin(&dropped);
    demand(wulgach_course_note(&dropped, WULGACH_FACT_DROPPED, -125), "the core ends one");
    wulgach_shown_begin(&shown);
    demand(wulgach_shown_end(&shown, rows, 2, &fresh, &end, &core, true) == -22,
        "one that hasn't ended");
    demand(
        wulgach_shown_end(&shown, rows, 2, &course, &end, &other, true) == -22 && shown.posted == 0,
        "another completion");
    demand(wulgach_shown_end(&shown, rows, 2, &course, &end, &core, true) == 1 &&
               shown.posted == 1 && rows[0].res == 512 && rows[0].user_data == 11,
        "its result");
    demand(
        wulgach_shown_end(&shown, rows, 2, &course, &end, &core, false) == 0 && shown.posted == 1,
        "a success that is skipped");
    demand(
        wulgach_shown_end(&shown, rows, 2, &dropped, &end, &core, true) == 1 && rows[1].res == -125,
        "one that never started");
    demand(
        wulgach_shown_end(&shown, rows, 2, &course, &end, &core, true) == -22 && shown.posted == 2,
        "no row is left");
}

static void judge_results(void)
{
    struct wulgach_submission read = {.opcode = 22}, splice = {.opcode = 30, .len = 9},
                              receive = {.opcode = 10, .op_flags = 256};
    struct wulgach_carried with_control = {.length = 5, .control = 24, .has_message = true},
                           cut_control = {
                               .length = 5, .control = 24, .has_message = true, .message_flags = 8};
    demand(wulgach_has_succeeded(&receive, &with_control, true, 4) &&
               !wulgach_has_succeeded(&receive, &cut_control, true, 4),
        "one with room for control data");
    struct wulgach_carried carried = {.length = 5, .has_message = true},
                           short_message = {.length = 5, .has_message = true, .message_flags = 32};
    demand(wulgach_has_succeeded(&read, &carried, true, 5) &&
               !wulgach_has_succeeded(&read, &carried, true, 4),
        "a read");
    demand(wulgach_has_succeeded(&splice, &carried, true, 9) &&
               !wulgach_has_succeeded(&splice, &carried, true, 5),
        "a splice");
    demand(wulgach_has_succeeded(&receive, &carried, true, 5) &&
               !wulgach_has_succeeded(&receive, &carried, true, 4) &&
               !wulgach_has_succeeded(&receive, &short_message, true, 5),
        "a message");
    struct wulgach_submission timeout = {.opcode = 11, .op_flags = 32},
                              plain_timeout = {.opcode = 11}, linked = {.opcode = 15};
    struct wulgach_submission fsync = {.opcode = 3}, shutdown = {.opcode = 34},
                              advice = {.opcode = 24};
    struct wulgach_carried plainly = {0}, missing = {.is_missing = true},
                           cancelled = {.is_cancelled = true};
    demand(wulgach_has_succeeded(&fsync, &plainly, true, -22) &&
               !wulgach_has_succeeded(&fsync, &plainly, false, -22),
        "a failure that Linux doesn't mark");
    demand(!wulgach_has_succeeded(&fsync, &missing, true, -9) &&
               !wulgach_has_succeeded(&fsync, &cancelled, true, -125),
        "one that wasn't carried out");
    demand(wulgach_has_succeeded(&timeout, &plainly, true, -62) &&
               !wulgach_has_succeeded(&timeout, &plainly, true, -125) &&
               !wulgach_has_succeeded(&plain_timeout, &plainly, true, -62),
        "a timeout");
    demand(wulgach_has_succeeded(&linked, &plainly, true, -62) &&
               !wulgach_has_succeeded(&linked, &cancelled, true, -125),
        "a linked timeout");
    demand(wulgach_has_succeeded(&shutdown, &plainly, true, -107) &&
               !wulgach_has_succeeded(&shutdown, &plainly, true, -88) &&
               !wulgach_has_succeeded(&advice, &plainly, true, -22),
        "a socket, and an advice");
    demand(wulgach_completion_flags(WULGACH_PART_EVENT, 1) == 3 &&
               wulgach_completion_flags(WULGACH_PART_SENT, 0) == 2 &&
               wulgach_completion_flags(WULGACH_PART_NOTICE, 0) == 8,
        "more follow, or memory is free");
    demand(wulgach_completion_flags(WULGACH_PART_OWN, 1) == 1, "an end");
    demand(wulgach_untold_after(WULGACH_PART_EVENT, 65537) == 0 &&
               wulgach_untold_after(WULGACH_PART_OWN, 65537) == 0 &&
               wulgach_untold_after(WULGACH_PART_SENT, 65537) == 65537,
        "a buffer that was told");
    demand(wulgach_after_try(false, true) == 1 << WULGACH_TRIED_WAITS &&
               wulgach_after_try(false, false) == 1 << WULGACH_TRIED_ASKS_GOING_ON,
        "after what would wait, and what came to a result");
    demand(wulgach_after_try(true, true) ==
               (1 << WULGACH_TRIED_LOOKS_AFRESH | 1 << WULGACH_TRIED_WAITS),
        "after what makes others ready");
    struct wulgach_ended_early faulty = {.is_faulty = true, .fault = -14},
                               cancel = {.is_cancel = true, .has_cancelled = true},
                               late = {.is_cancel = true};
    struct wulgach_ended_early fired = {.is_linked_timeout = true, .has_fired = true},
                               idle = {.is_linked_timeout = true};
    demand(wulgach_shown_of(&faulty, -22) == -14 && wulgach_shown_of(&faulty, -125) == -125,
        "an entry with a fault");
    demand(wulgach_shown_of(&cancel, -114) == 0 && wulgach_shown_of(&late, -114) == -114 &&
               wulgach_shown_of(&cancel, -2) == 0 && wulgach_shown_of(&late, -2) == -2,
        "a cancel");
    demand(wulgach_looks_ahead(true, true) && !wulgach_looks_ahead(true, false) &&
               !wulgach_looks_ahead(false, true),
        "and before its end");
    demand(wulgach_shown_of(&fired, -125) == -62 && wulgach_shown_of(&idle, -125) == -125 &&
               wulgach_shown_of(&idle, -22) == -22,
        "a linked timeout's end");
}

static void look_after_cancels(void)
{
    struct wulgach_ended_cancel cancel = {.is_cancel = true, .has_next = true, .linux_rules = true},
                                other = {.has_next = true, .linux_rules = true};
    demand(wulgach_next_sought(&cancel, -114) == WULGACH_SEEKS_RUNNING &&
               wulgach_next_sought(&other, -114) == WULGACH_SEEKS_NO_MORE,
        "what runs");
    demand(wulgach_next_sought(&cancel, -2) == WULGACH_SEEKS_NEXT &&
               wulgach_next_sought(&other, -2) == WULGACH_SEEKS_NO_MORE,
        "what could start");
    cancel.has_looked = true;
    demand(wulgach_next_sought(&cancel, -114) == WULGACH_SEEKS_NO_MORE &&
               wulgach_next_sought(&cancel, -2) == WULGACH_SEEKS_NEXT,
        "what comes after those that run");
    cancel.linux_rules = false;
    demand(wulgach_next_sought(&cancel, -2) == WULGACH_SEEKS_NO_MORE, "by the manual pages' rules");
    cancel.linux_rules = cancel.has_cancelled = true;
    demand(wulgach_next_sought(&cancel, -2) == WULGACH_SEEKS_NO_MORE, "one is cancelled");
}

static void link_requests(void)
{
    struct wulgach_link links = {.links = true}, timeout = {.is_linked_timeout = true};
    struct wulgach_member first, second, third;
    wulgach_member_first(&first, 6, &links);
    wulgach_member_next(&second, &first, 7, &timeout);
    wulgach_member_next(&third, &second, 8, &timeout);
    demand(first.chain == 6 && !first.is_linked && second.chain == 6 && second.is_linked &&
               third.chain == 8 && !third.is_linked,
        "chains");
    demand(wulgach_member_limits(&second, &first) && !wulgach_member_limits(&third, &second) &&
               !wulgach_member_limits(&third, &first),
        "whom a timeout limits");
    static const struct {
        uint32_t flags;
        int32_t clock;
    } clocks[] = {{0, -2}, {1, 1}, {5, 7}, {9, 0}};
    for (size_t i = 0; i < sizeof clocks / sizeof *clocks; i++)
        demand(wulgach_timeout_clock(&(struct wulgach_submission){.op_flags = clocks[i].flags}) ==
                   clocks[i].clock,
            "clocks");
    demand(wulgach_timeout_lasts(50, 20, false) == 50 &&
               wulgach_timeout_lasts(50, 20, true) == 30 &&
               wulgach_timeout_lasts(50, 60, true) == 0,
        "how long it lasts");
}

int main(void)
{
    time_two();
    cancel_one();
    cancel_a_part();
    go_plainly();
    notify();
    show_ends();
    judge_results();
    look_after_cancels();
    link_requests();
    printf("course: as called for\n");
    return 0;
}
