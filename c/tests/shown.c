/* What the application of a ring is shown: each call once, on a ring of two entries whose positions
 * wrap, with what the header calls for, written by hand. */
#include "demand.h"
#include "wulgach_course.h"

#include <stdio.h>

static void watch(void)
{
    struct wulgach_watched before, after;
    wulgach_watched_begin(&before);
    wulgach_watched_begin(&after);
    wulgach_watched_add(&before, 1, 4);
    wulgach_watched_add(&before, 4, 2);
    demand(before.events == 5 && before.begun == 4, "two wait for a descriptor");
    wulgach_watched_add(&after, 5, 4);
    demand(wulgach_watch_of(&before, true, &after, true) == WULGACH_WATCH_STAYS &&
               wulgach_watch_of(&before, false, &after, false) == WULGACH_WATCH_STAYS,
        "nothing changes");
    demand(wulgach_watch_of(&before, false, &after, true) == WULGACH_WATCH_ADDS &&
               wulgach_watch_of(&before, true, &after, false) == WULGACH_WATCH_REMOVES,
        "one comes or goes");
    wulgach_watched_add(&after, 1, 6);
    demand(wulgach_watch_of(&before, true, &after, true) == WULGACH_WATCH_RENEWS, "another waits");
    wulgach_watched_give_back(&before);
    demand(wulgach_watch_of(&before, true, &before, true) == WULGACH_WATCH_RENEWS &&
               wulgach_watch_of(&before, true, &after, false) == WULGACH_WATCH_REMOVES,
        "one was given back");
    wulgach_watched_enlist(&before, -40);
    demand(before.is_untold &&
               wulgach_watch_of(&before, true, &after, true) == WULGACH_WATCH_ADDS &&
               wulgach_watch_of(&before, true, &before, true) == WULGACH_WATCH_ADDS,
        "one that can't be told of");
    wulgach_watched_enlist(&before, 0);
    demand(!before.is_untold && before.events == 5, "and can again");
    demand(wulgach_watch_adds_after(-2) && !wulgach_watch_adds_after(0) &&
               !wulgach_watch_adds_after(-1),
        "a number that another file has");
    demand(wulgach_enlisted_with(WULGACH_INSTANCE_TELLS, 0) == WULGACH_INSTANCE_TELLS &&
               wulgach_enlisted_with(WULGACH_INSTANCE_TELLS, -17) == WULGACH_INSTANCE_TELLS &&
               wulgach_enlisted_with(WULGACH_INSTANCE_TELLS, -1) == WULGACH_IS_READY_AT_ONCE &&
               wulgach_enlisted_with(WULGACH_INSTANCE_TELLS, -9) == WULGACH_IS_READY_AT_ONCE &&
               wulgach_enlisted_with(WULGACH_INSTANCE_TELLS, -40) == WULGACH_INSTANCE_CANT_TELL,
        "what an instance is given");
    demand(
        wulgach_enlisted_with(WULGACH_IS_READY_AT_ONCE, 0) == WULGACH_IS_READY_AT_ONCE &&
            wulgach_enlisted_with(WULGACH_INSTANCE_CANT_TELL, -1) == WULGACH_INSTANCE_CANT_TELL &&
            wulgach_enlisted_with(WULGACH_IS_READY_AT_ONCE, -40) == WULGACH_INSTANCE_CANT_TELL,
        "and more than one");
    demand(wulgach_polls_besides(0, false) == 0 &&
               wulgach_polls_besides(2, false) == WULGACH_POLLS_WRITES &&
               wulgach_polls_besides(0, true) == WULGACH_POLLS_INSTANCE,
        "what is polled for besides");
}

/* A request ends that hasn't started, and the core posts a completion of it. */
static void post(struct wulgach_shown *shown)
{
    static const struct wulgach_completion core;
    struct wulgach_posted rows[4], end = {0};
    struct wulgach_course course;
    wulgach_course_begin(&course);
    demand(wulgach_course_note(&course, WULGACH_FACT_DROPPED, 0) &&
               wulgach_shown_end(shown, rows, 4, &course, &end, &core, true) == 1,
        "one is posted");
}

/* What is told of a ring's descriptor, or asked. */
static void poll_ring(void)
{
    struct wulgach_shown shown;
    wulgach_shown_begin(&shown);
    demand(wulgach_shown_readable(&shown, 1, &(struct wulgach_prospect){0}) == WULGACH_IS_READABLE,
        "a head that isn't at the tail");
    demand(wulgach_shown_readable(&shown, 0, &(struct wulgach_prospect){.can_go_on = true}) ==
               WULGACH_ASK_REQUESTS,
        "an empty ring");
    demand(wulgach_shown_readable(
               &shown, 0, &(struct wulgach_prospect){.knows_requests = true, .can_go_on = true}) ==
               WULGACH_IS_READABLE,
        "one whose requests go on");
    demand(wulgach_shown_readable(&shown, 0,
               &(struct wulgach_prospect){.knows_requests = true, .can_pass_time = true}) ==
               WULGACH_ASK_TIME,
        "one whose requests wait");
    demand(wulgach_shown_readable(&shown, 0,
               &(struct wulgach_prospect){true, false, true, true, false}) == WULGACH_IS_READABLE &&
               wulgach_shown_readable(
                   &shown, 0, &(struct wulgach_prospect){true, false, true, false, false}) ==
                   WULGACH_IS_NOT_READABLE,
        "time that passes");
    demand(wulgach_shown_readable(&shown, 0, &(struct wulgach_prospect){.is_untold = true}) ==
               WULGACH_IS_READABLE,
        "one that can't tell of all");
    post(&shown);
    demand(wulgach_shown_readable(&shown, 0,
               &(struct wulgach_prospect){true, false, true, false, false}) == WULGACH_IS_READABLE,
        "a completion");
}

int main(void)
{
    struct wulgach_shown shown;
    struct wulgach_store store;
    uint32_t count = 7, first = UINT32_MAX;
    wulgach_shown_begin(&shown);
    demand(shown.head == 0 && shown.shown == 0 && shown.posted == 0 &&
               !wulgach_shown_overflows(&shown),
        "nothing was posted");
    shown.head = first;
    for (int i = 0; i < 3; i++)
        post(&shown);
    demand(wulgach_shown_overflows(&shown) && wulgach_shown_takes(&shown, 2) &&
               !wulgach_shown_takes(&shown, 3),
        "three were posted");
    for (uint32_t place = 0; place < 2; place++) {
        wulgach_shown_store(&shown, 1, &store);
        demand(store.is_cell && store.place == place && store.position == (uint32_t)(first + place),
            "a completion is stored into its cell");
    }
    wulgach_shown_store(&shown, 1, &store);
    demand(!store.is_cell && store.position == 1, "the tail comes last");
    demand(wulgach_shown_flags(&shown, 0, false, false) == 2 &&
               wulgach_shown_flags(&shown, 1, false, true) == 7 &&
               wulgach_shown_flags(&shown, 0, true, false) == 6,
        "one has overflowed");
    demand(wulgach_shown_ready(&shown, first) == 2 && wulgach_shown_ready(&shown, 0) == 1 &&
               wulgach_shown_ready(&shown, 2) == 0,
        "two can be reaped");
    demand(wulgach_shown_heard(&shown, 2, &count) == -22 && count == 7,
        "a head past the tail is refused");
    demand(wulgach_shown_heard(&shown, 0, &count) == 0 && count == 1, "one was reaped");
    demand(!wulgach_shown_loads_head(&shown, 1, true, 2), "there is no room yet");
    wulgach_shown_reap(&shown, count);
    demand(shown.head == 0 && shown.shown == 1 && shown.posted == 2, "it is gone");
    demand(wulgach_shown_loads_head(&shown, 1, true, 2) &&
               !wulgach_shown_loads_head(&shown, 1, false, 2),
        "what has overflowed is asked for");
    wulgach_shown_store(&shown, 2, &store);
    demand(store.is_cell && store.place == 1 && store.position == 1 &&
               wulgach_shown_flags(&shown, 0, false, true) == 1,
        "the last one is stored");
    demand(wulgach_shown_loads_head(&shown, 1, false, 2) &&
               !wulgach_shown_loads_head(&shown, 0, true, 2),
        "the head is loaded if any was reaped");
    demand(
        wulgach_heard_steps(0, false) == 0 && wulgach_heard_steps(1, false) == 7 &&
            wulgach_heard_steps(0, true) == (1 << WULGACH_HEARD_SHOWS | 1 << WULGACH_HEARD_MOVES),
        "what is done where something is heard");
    demand(wulgach_shows_again(1) && !wulgach_shows_again(0), "and where something has moved");
    demand(!wulgach_asks_overflow(WULGACH_HEARS_FOR_CALL) &&
               wulgach_asks_overflow(WULGACH_HEARS_FOR_CALL_THAT_ASKS) &&
               !wulgach_asks_overflow(WULGACH_HEARS_BEHIND_STEP) &&
               !wulgach_asks_overflow(WULGACH_HEARS_TO_POST),
        "where what has overflowed is asked for");
    uint32_t posted = 1;
    demand(wulgach_shown_has_posted(&shown, &posted) && posted == 2 &&
               !wulgach_shown_has_posted(&shown, &posted) && posted == 2,
        "what was posted since");
    poll_ring();
    watch();
    printf("shown: as called for\n");
    return 0;
}
