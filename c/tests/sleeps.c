/* When a call sleeps, for what, and what came of it: written by hand. */
#include "demand.h"
#include "wulgach_sleeps.h"
#include "wulgach_times.h"

#include <stdio.h>

static uint32_t waited(struct wulgach_waited waited)
{
    return wulgach_reply_of_wait(&waited);
}

static struct wulgach_slept_for slept_for(
    bool is_stream, bool needs_file, uint32_t vain, bool is_ready, bool asks_broken)
{
    struct wulgach_standing standing = {.is_stream = is_stream};
    struct wulgach_needs needs = {.needs_file = needs_file};
    struct wulgach_slept_for slept;
    wulgach_sleep_effect(&standing, &needs, vain, is_ready, asks_broken, &slept);
    return slept;
}

/* Whether a sleep polls for such a request, naps for it, and counts so many tries in vain from then
 * on. */
static bool is_slept_for(struct wulgach_slept_for slept, bool is_polled, bool naps, uint32_t vain)
{
    return slept.is_polled == is_polled && slept.naps == naps && slept.vain == vain;
}

static void sleep_for_requests(void)
{
    struct wulgach_needs file = {.needs_file = true}, none = {0};
    demand(is_slept_for(slept_for(true, true, 1, true, false), true, false, 1) &&
               is_slept_for(slept_for(true, true, 2, true, false), false, true, 2) &&
               is_slept_for(slept_for(true, true, 2, false, false), true, false, 0) &&
               is_slept_for(slept_for(true, false, 1, true, false), false, true, 1),
        "for which request a sleep naps");
    demand(is_slept_for(slept_for(true, true, 0, false, true), true, true, 0) &&
               is_slept_for(slept_for(false, true, 3, true, true), false, false, 3),
        "beside a poll, and without any");
    demand(!wulgach_asks_before_nap(&file, 1) && wulgach_asks_before_nap(&file, 2) &&
               !wulgach_asks_before_nap(&none, 2),
        "whether what it shows is asked");
    demand(wulgach_can_be_woken(true, false) && !wulgach_can_be_woken(true, true) &&
               !wulgach_can_be_woken(false, false),
        "whether a sleep can be woken");
    struct wulgach_poll_row rows[] = {
        {7, 1, 0}, {3, 4, 0}, {UINT32_MAX, 1, 0}, {7, 4, 0}, {3, 0, 0}, {7, 1, 0}};
    demand(wulgach_join_polled(rows, 6) == 3 && rows[0].fd == 3 && rows[0].events == 4 &&
               rows[1].fd == 7 && rows[1].events == 5 && rows[2].fd == UINT32_MAX &&
               rows[2].events == 1,
        "a descriptor is asked once for all");
    demand(wulgach_join_polled(rows, 0) == 0 && wulgach_join_polled(rows, 1) == 1, "none, and one");
}

static void sleep_or_not(void)
{
    demand(wulgach_fires_after(&(struct wulgach_waited){0}) &&
               wulgach_fires_after(&(struct wulgach_waited){.result = 2}) &&
               !wulgach_fires_after(&(struct wulgach_waited){.result = -4}) &&
               !wulgach_fires_after(&(struct wulgach_waited){.is_never = true}),
        "after which sleep a timeout fires");
    demand(wulgach_sleep_next(WULGACH_SLEEP_AT_FIRST, true, -14) == WULGACH_LETS_OTHERS_GO &&
               wulgach_sleep_next(WULGACH_LETS_OTHERS_GO, true, -14) == WULGACH_SLEEP_WAKES &&
               wulgach_sleep_next(WULGACH_LETS_OTHERS_GO, false, 0) == WULGACH_READS_MASK &&
               wulgach_sleep_next(WULGACH_READS_MASK, true, -14) == WULGACH_DOES_DUTIES,
        "what comes before a sleep");
    demand(wulgach_sleep_next(WULGACH_DOES_DUTIES, true, -14) == WULGACH_SLEEP_FAILS &&
               wulgach_sleep_next(WULGACH_DOES_DUTIES, true, 0) == WULGACH_SLEEP_WAKES &&
               wulgach_sleep_next(WULGACH_DOES_DUTIES, false, 0) == WULGACH_SLEEPS,
        "whether a sleep begins");
    demand(wulgach_sleep_came_to(2, false) == 2 && wulgach_sleep_came_to(-12, false) == -12 &&
               wulgach_sleep_came_to(2, true) == -4,
        "a child leaves a sleep");
    demand(wulgach_sleeps_by_poll(-38) && wulgach_sleeps_by_poll(-1) &&
               !wulgach_sleeps_by_poll(-4) && !wulgach_sleeps_by_poll(0),
        "which sleep is by poll(2)");
    struct wulgach_limit none = {0}, now = {0, true}, later = {7, true}, lasts;
    demand(wulgach_sleep_call_of(false, WULGACH_INSTANCE_TELLS, &later, &lasts) ==
                   WULGACH_SLEEPS_BY_POLL &&
               wulgach_sleep_call_of(true, WULGACH_INSTANCE_CANT_TELL, &later, &lasts) ==
                   WULGACH_SLEEPS_BY_POLL,
        "one without an instance");
    demand(wulgach_sleep_call_of(true, WULGACH_INSTANCE_TELLS, &later, &lasts) ==
                   WULGACH_SLEEPS_BY_INSTANCE &&
               lasts.is_set && lasts.at == 7 &&
               wulgach_sleep_call_of(true, WULGACH_INSTANCE_TELLS, &none, &lasts) ==
                   WULGACH_SLEEPS_BY_INSTANCE &&
               !lasts.is_set,
        "one by an instance");
    demand(wulgach_sleep_call_of(true, WULGACH_INSTANCE_TELLS, &now, &lasts) ==
                   WULGACH_SLEEPS_BY_INSTANCE &&
               lasts.is_set && lasts.at == 1,
        "one of no time");
    demand(wulgach_sleep_call_of(true, WULGACH_IS_READY_AT_ONCE, &none, &lasts) ==
                   WULGACH_LOOKS_BY_INSTANCE &&
               lasts.is_set && lasts.at == 0,
        "one beside a descriptor that is ready");
    demand(wulgach_sleep_came(WULGACH_LOOKS_BY_INSTANCE, 0) == 1 &&
               wulgach_sleep_came(WULGACH_LOOKS_BY_INSTANCE, -4) == -4 &&
               wulgach_sleep_came(WULGACH_SLEEPS_BY_INSTANCE, 0) == 0,
        "and what it came to");
    demand(wulgach_asks_select(-22) && !wulgach_asks_select(-4) && !wulgach_asks_select(1),
        "in the place of which poll select(2) is asked");
    demand(wulgach_left_of(7, 7) == 0 && wulgach_left_of(7, 8) == 63,
        "a child leaves its parent's ring");
    demand(waited((struct wulgach_waited){0}) == WULGACH_WOKEN &&
               waited((struct wulgach_waited){.result = 2}) == WULGACH_WOKEN &&
               waited((struct wulgach_waited){.is_over = true}) == WULGACH_TIMED_OUT &&
               waited((struct wulgach_waited){.is_over = true, .is_least = true}) ==
                   WULGACH_LEAST_OVER &&
               waited((struct wulgach_waited){.is_least = true}) == WULGACH_WOKEN,
        "a sleep that ends");
    demand(waited((struct wulgach_waited){.result = -4, .is_over = true}) == WULGACH_INTERRUPTED &&
               waited((struct wulgach_waited){.result = -12}) == WULGACH_FAILED,
        "a sleep that fails");
    demand(waited((struct wulgach_waited){.is_never = true}) == WULGACH_ENDLESS &&
               waited((struct wulgach_waited){.is_never = true, .has_messages = true}) ==
                   WULGACH_ENDLESS &&
               waited((struct wulgach_waited){
                   .is_never = true, .has_messages = true, .may_post = true}) == WULGACH_WOKEN,
        "nothing to wait for");
}

#define LEFT(...) wulgach_was_left(&(struct wulgach_seen_sleep){__VA_ARGS__})
#define ASKS(...) wulgach_asks_stacks(&(struct wulgach_seen_sleep){__VA_ARGS__})

/* The thread's stack has a hundred bytes from 1000 on, and its handlers' ten from 1040 on. */
static void jump(void)
{
    demand(wulgach_has_mark(7, true, 7) && !wulgach_has_mark(7, true, 8) &&
               !wulgach_has_mark(7, false, 7),
        "a mark that stands");
    demand(LEFT(.place = 1050, .from = 1050, .here = 1040) &&
               !ASKS(.place = 1050, .from = 1050, .here = 1060),
        "a mark that is gone");
    demand(!ASKS(.is_marked = true, .place = 1050, .from = 1050, .here = 1040) &&
               !LEFT(.is_marked = true, .place = 1050, .from = 1050, .here = 1040,
                   .own_lowest = 1000, .own_size = 100),
        "from below");
    demand(ASKS(.is_marked = true, .place = 1050, .from = 1050, .here = 1060) &&
               LEFT(.is_marked = true, .place = 1050, .from = 1050, .here = 1060,
                   .own_lowest = 1000, .own_size = 100),
        "from above");
    demand(LEFT(.is_marked = true, .place = 7, .from = 1050, .here = 1040, .own_lowest = 1000,
               .own_size = 100),
        "a sleep that has a stack of its own");
    demand(!LEFT(.is_marked = true, .place = 1050, .from = 1050, .here = 1100, .own_lowest = 1000,
               .own_size = 100) &&
               !LEFT(.is_marked = true, .place = 1050, .from = 1050, .here = 1060),
        "another stack");
    demand(!LEFT(.is_marked = true, .place = 7, .from = 1050, .here = 1049, .own_lowest = 1000,
               .own_size = 100, .handlers_lowest = 1040, .handlers_size = 10),
        "the handlers' stack");
    demand(!LEFT(.is_marked = true, .place = 1050, .from = 1050, .here = 1060, .own_lowest = 1000,
               .own_size = 100, .is_on_handlers = true),
        "a handler");
}

static void allow_cancelling(void)
{
    demand(wulgach_is_cancellable(false, true, false) &&
               !wulgach_is_cancellable(true, true, false) &&
               wulgach_is_cancellable(false, false, true) &&
               !wulgach_is_cancellable(false, false, false),
        "a thread that can be cancelled");
    demand(!wulgach_is_cancellable_at_once(false, false, true) &&
               wulgach_is_cancellable_at_once(true, false, true) &&
               !wulgach_is_cancellable_at_once(false, true, false) &&
               wulgach_is_cancellable_at_once(false, true, true),
        "at any moment");
}

int main(void)
{
    sleep_for_requests();
    sleep_or_not();
    jump();
    allow_cancelling();
    printf("sleeps: as called for\n");
    return 0;
}
