/* The time of a ring and its timeouts: each call once, with what the manual page and the header
 * call for, written by hand. */
#include "demand.h"
#include "wulgach_course.h"
#include "wulgach_form.h"
#include "wulgach_times.h"

#include <stdio.h>

enum { ROOM = 3, SECOND = 1000000000 };

static struct wulgach_times times;
static struct wulgach_timeout rows[ROOM];

static int32_t start(uint64_t number, uint64_t more, uint64_t count, bool is_linked)
{
    struct wulgach_start start = {number, more, count, is_linked};
    return wulgach_times_start(&times, rows, ROOM, &start, 0);
}

static void check_sums(void)
{
    demand(wulgach_time_of(1, 5) == SECOND + 5, "a second and five nanoseconds");
    struct wulgach_span span, longest;
    wulgach_span_of(3 * (uint64_t)SECOND + 7, &span);
    wulgach_span_of(UINT64_MAX, &longest);
    demand(span.seconds == 3 && span.nanoseconds == 7 && longest.seconds == 18446744073 &&
               longest.nanoseconds == 709551615,
        "a time as ppoll(2) takes it");
    demand(wulgach_timeout_count(&(struct wulgach_submission){.off = (1ull << 32) + 3}) == 3 &&
               wulgach_timeout_count(&(struct wulgach_submission){.off = 1ull << 63}) == 0,
        "how many completions are counted");
    demand(wulgach_time_of(-1, 5) == 0 && wulgach_time_of(0, -5) == 0 &&
               wulgach_time_of(-1, -5) == 0 && wulgach_time_of(INT64_MIN, INT64_MAX) == 0,
        "a negative time is none");
    demand(wulgach_time_of(-5, 5050000000) == 50000000 &&
               wulgach_time_of(1, -950000000) == 50000000 &&
               wulgach_time_of(-1, INT64_MAX) == INT64_MAX - SECOND,
        "a time is a sum");
    demand(wulgach_time_of(9223372035, -1) == 9223372034999999999 &&
               wulgach_time_of(9223372036, INT64_MIN) == INT64_MAX &&
               wulgach_time_of(INT64_MAX, INT64_MIN) == INT64_MAX,
        "from so many seconds on it is the largest");
    demand(wulgach_time_of(INT64_MAX, 0) == INT64_MAX, "a time past the largest is the largest");
    demand(wulgach_time_left(5, 3) == 2 && wulgach_time_left(3, 5) == 0, "what is left");
}

/* Of equal ones the one that was submitted first ends first, each at its time and once. */
static void check_order(void)
{
    struct wulgach_timeout next;
    struct wulgach_wake_sources sources = {0};
    int32_t res = 1;
    wulgach_times_begin(&times);
    demand(wulgach_times_passing(&times, rows, ROOM, &sources, &next) == -2, "no timeout runs");
    demand(
        start(7, 20, 0, false) == 0 && start(4, 20, 0, false) == 0 && start(9, 10, 0, false) == 0,
        "three start");
    demand(start(11, 1, 0, false) == -12, "there is no room for a fourth");
    demand(wulgach_times_nth(&times, rows, ROOM, 2, &next) == 0 && next.number == 9 &&
               wulgach_times_nth(&times, rows, ROOM, 3, &next) == -2,
        "they run");
    demand(wulgach_times_due(&times, rows, ROOM, &next) == -2 &&
               wulgach_times_end(&times, rows, ROOM, 9, &res) == -2 && res == 1,
        "none is over");
    for (uint64_t i = 0; i < ROOM; i++) {
        static const uint64_t order[ROOM] = {9, 4, 7};
        demand(wulgach_times_passing(&times, rows, ROOM, &sources, &next) == 0 &&
                   next.number == order[i],
            "who ends next");
        wulgach_times_pass(&times, &next);
        demand(times.time == (i == 0 ? 10 : 20), "time has passed");
        demand(wulgach_times_end(&times, rows, ROOM, next.number, &res) == 0 && res == -62 &&
                   times.expired == i + 1,
            "it ends");
    }
    demand(times.count == 0, "none runs any more");
}

/* A timeout counts what its own submission's requests have ended with before it started, unless it
 * is issued late. */
static void check_held(void)
{
    struct wulgach_held_back held;
    wulgach_held_begin(&held, 5);
    wulgach_held_posts(&held, 4, false);
    wulgach_held_posts(&held, 5, false);
    wulgach_held_posts(&held, 6, true);
    wulgach_held_posts(&held, 7, false);
    demand(wulgach_held_for(&held, 8, false) == 2 && wulgach_held_for(&held, 8, true) == 0 &&
               wulgach_held_for(&held, 4, false) == 0,
        "what is held back");
    demand(wulgach_is_at_once(27) && wulgach_is_at_once(40) && !wulgach_is_at_once(6) &&
               !wulgach_is_at_once(47) && !wulgach_is_at_once(48),
        "what is posted at once");
    wulgach_times_begin(&times);
    times.posted = 4;
    struct wulgach_start begun = {.number = 1, .more = 100, .count = 2},
                         other = {.number = 2, .more = 100};
    demand(wulgach_times_start(&times, rows, ROOM, &begun, 2) == 0 &&
               wulgach_times_start(&times, rows, ROOM, &other, 2) == 0,
        "two start");
    demand(wulgach_times_has_counted(&times, rows, ROOM, 1) &&
               !wulgach_times_has_counted(&times, rows, ROOM, 2),
        "one has counted enough");
}

static void check_counts_and_changes(void)
{
    struct wulgach_timeout reached = {.number = 7};
    int32_t res;
    wulgach_times_begin(&times);
    demand(start(1, 100, 2, false) == 0 && start(2, 100, 0, false) == 0, "two start");
    struct wulgach_timeout running;
    demand(wulgach_times_nth(&times, rows, ROOM, 0, &running) == 0 && running.number == 1 &&
               wulgach_times_nth(&times, rows, ROOM, 1, &running) == 0 && running.number == 2,
        "in that order");
    demand(wulgach_times_nth(&times, rows, ROOM, 2, &running) == -2 && running.number == 2,
        "and no others");
    struct wulgach_course course;
    wulgach_course_begin(&course);
    demand(wulgach_times_count_end(&times, &course, false, true), "an end counts");
    wulgach_course_note(&course, WULGACH_FACT_STARTED, 0);
    demand(!wulgach_times_count_end(&times, &course, true, true), "one doesn't");
    demand(times.posted == 1, "a timeout that its time has ended doesn't count");
    demand(!wulgach_times_has_counted(&times, rows, ROOM, 1), "one completion isn't two");
    demand(wulgach_times_reached(&times, rows, ROOM, &reached) == -2 && reached.number == 7,
        "no count is reached");
    wulgach_course_note(&course, WULGACH_FACT_CANCELLED, 0);
    wulgach_times_count_end(&times, &course, true, false);
    demand(times.posted == 1, "what is skipped doesn't count");
    wulgach_times_count_end(&times, &course, true, true);
    demand(wulgach_times_has_counted(&times, rows, ROOM, 1) &&
               !wulgach_times_has_counted(&times, rows, ROOM, 2),
        "two are");
    demand(wulgach_times_reached(&times, rows, ROOM, &reached) == 0 && reached.number == 1,
        "the first one's count is reached");
    demand(wulgach_times_end(&times, rows, ROOM, 1, &res) == 0 && res == 0, "it ends by its count");
    wulgach_times_move_to(&times, 50);
    wulgach_times_change(&times, rows, ROOM, 2, 7);
    demand(rows[0].number == 2 && rows[0].expiry == 57, "its time is changed");
    wulgach_times_move_to(&times, 40);
    demand(times.time == 50, "time doesn't go back");
    wulgach_times_stop(&times, rows, ROOM, 2);
    demand(times.count == 0 && times.expired == 1, "a cancelled one doesn't count as ended");
    wulgach_times_slept(&times, false, 900, 1000, 1010);
    wulgach_times_slept(&times, false, 900, 1005, 1015);
    demand(times.time == 65, "what two slept at once counts once");
    wulgach_times_slept(&times, true, 900, 1000, 1010);
    demand(times.time == 110, "where time is real, a clock says it");
    wulgach_times_slept(&times, true, 900, 1000, 905);
    demand(times.time == 110, "and it doesn't go back");
}

static void check_waits(void)
{
    struct wulgach_wake_sources none = {0}, stream = {.has_streams = true},
                                thread = {.has_threads = true}, real = {.is_real = true},
                                signal = {.has_signal = true};
    struct wulgach_limit never = {0, false}, soon = {5, true};
    struct wulgach_wait wait;
    demand(wulgach_asks_signals(true, false) && !wulgach_asks_signals(true, true) &&
               !wulgach_asks_signals(false, false),
        "whether signals are asked about");
    wulgach_times_begin(&times);
    wulgach_times_wait(&times, rows, ROOM, &none, &never, &wait);
    demand(wait.kind == WULGACH_WAIT_NEVER, "there is nothing to wait for");
    wulgach_times_wait(&times, rows, ROOM, &thread, &never, &wait);
    demand(wait.kind == WULGACH_WAIT_SLEEP && !wait.until.is_set, "another thread may call");
    wulgach_times_wait(&times, rows, ROOM, &real, &never, &wait);
    demand(wait.kind == WULGACH_WAIT_SLEEP && !wait.until.is_set,
        "time passes by itself, though it brings nothing");
    wulgach_times_wait(&times, rows, ROOM, &signal, &never, &wait);
    demand(wait.kind == WULGACH_WAIT_SLEEP && wait.until.is_set && wait.until.at == times.time,
        "a signal waits");
    demand(wulgach_times_asks_threads(&times, false) && !wulgach_times_asks_threads(&times, true),
        "then it matters whether one may");
    demand(wulgach_may_have_others(false, 3) && wulgach_may_have_others(true, 4) &&
               !wulgach_may_have_others(true, 3),
        "whether one may");
    demand(start(3, 10, 0, true) == 0, "a linked timeout starts");
    demand(!wulgach_times_asks_threads(&times, false), "beside a timeout it doesn't matter");
    wulgach_times_wait(&times, rows, ROOM, &stream, &soon, &wait);
    demand(wait.kind == WULGACH_WAIT_SLEEP && wait.until.is_set && wait.until.at == 5,
        "it sleeps to its limit");
    wulgach_times_wait(&times, rows, ROOM, &none, &never, &wait);
    demand(wait.kind == WULGACH_WAIT_MOVE && wait.until.at == 10, "time moves on to a timeout");
    wulgach_times_wait(&times, rows, ROOM, &signal, &never, &wait);
    demand(wait.kind == WULGACH_WAIT_SLEEP && wait.until.is_set && wait.until.at == 0,
        "but not before a signal that waits");
}

/* What has come of a wait: of a limit at 5, and of the linked timeout at 10. */
static void check_woken(void)
{
    struct wulgach_limit soon = {5, true};
    struct wulgach_woken woken;
    uint64_t limited = 0;
    wulgach_times_woken(&times, rows, ROOM, &soon, &woken);
    demand(woken.kind == WULGACH_WOKEN_OTHER, "nothing has come");
    wulgach_times_move_to(&times, 5);
    wulgach_times_woken(&times, rows, ROOM, &soon, &woken);
    demand(woken.kind == WULGACH_WOKEN_TIMED_OUT, "the limit is over");
    wulgach_times_move_to(&times, 10);
    wulgach_times_woken(&times, rows, ROOM, &soon, &woken);
    demand(woken.kind == WULGACH_WOKEN_OVER && woken.timeout.number == 3, "the timeout is");
    demand(wulgach_timeout_cancels(&woken.timeout, &limited) == 0 && limited == 2,
        "it cancels the request before it");
    demand(wulgach_timeout_fires(&woken.timeout, true, true) &&
               !wulgach_timeout_fires(&woken.timeout, true, false) &&
               !wulgach_timeout_fires(&woken.timeout, false, true),
        "if that runs, and can be cancelled");
    demand(wulgach_timeout_linked_outcome(true) == -62 &&
               wulgach_timeout_linked_outcome(false) == -125,
        "how a linked one ends");
    woken.timeout.is_linked = false;
    demand(wulgach_timeout_cancels(&woken.timeout, &limited) == -2 &&
               !wulgach_timeout_fires(&woken.timeout, true, true),
        "one that isn't linked cancels none");
}

static void check_sleeps(void)
{
    struct wulgach_limit until = {.at = 5, .is_set = true}, unset = {.at = 5};
    wulgach_times_deadline(&times, &until);
    wulgach_times_deadline(&times, &unset);
    demand(until.is_set && until.at == times.time + 5 && !unset.is_set, "until when a call waits");
    struct wulgach_limit late = {.at = times.time + 20000000, .is_set = true}, limit, end;
    wulgach_times_sleeps_for(&times, &late, true, &limit, &end);
    demand(limit.is_set && limit.at == 20000000 && end.is_set && end.at == late.at, "a sleep");
    wulgach_times_sleeps_for(&times, &late, false, &limit, &end);
    demand(limit.is_set && limit.at == 10000000 && !end.is_set, "a nap");
    wulgach_times_sleeps_for(&times, &until, false, &limit, &end);
    demand(limit.is_set && limit.at == 5 && end.is_set && end.at == until.at, "one that isn't cut");
    wulgach_times_sleeps_for(&times, &unset, true, &limit, &end);
    demand(!limit.is_set && !end.is_set, "one without an end");
    uint64_t before = times.time;
    wulgach_times_wake(&times, &end, 0);
    wulgach_times_wake(&times, &late, 1);
    wulgach_times_wake(&times, &late, -4);
    demand(times.time == before, "one that something has ended");
    wulgach_times_wake(&times, &late, 0);
    demand(times.time == late.at, "one that came to its end");
}

int main(void)
{
    check_sums();
    check_order();
    check_held();
    check_counts_and_changes();
    check_waits();
    check_woken();
    check_sleeps();
    printf("times: as called for\n");
    return 0;
}
