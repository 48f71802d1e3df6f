/* Who goes on: at each point the threads that can are the ways of a choice, way 0 the one that has
 * the baton, or after a yield the next by number, the others following by number. Where nobody can,
 * time moves to the next moment for which one waits. */
#define _GNU_SOURCE
#include "turns.h"
#include "../../layer/choices/turns.h"
#include "clocks.h"
#include "dates.h"
#include "notices.h"
#include "uncalled.h"

#include <stdio.h>
#include <stdlib.h>
#include <string.h>

enum { STEP = 1000, MOST_HOURS = 1, LOOK_AGAIN = 1024 };

/* Where `candidates` has way 0. */
static int first_way(const int *candidates, int count)
{
    for (int i = 0; i < count; i++)
        if (candidates[i] >= slot_of(self) + world->yields)
            return i;
    return 0;
}

/* A seed has rolled how often a thread stays: where each turn is rolled anew all go equally fast,
 * which finds little. */
static int pick_by_seed(const int *candidates, int count)
{
    int first = first_way(candidates, count);
    bool can_stay = candidates[first] == slot_of(self) && !world->yields;
    if (can_stay && roll(&world->turns_random) % world->stay != 0)
        return first;
    return (int)((roll(&world->turns_random) >> 32) * (uint64_t)count >> 32);
}

static bool is_fall(uint64_t choice)
{
    for (uint64_t i = 0; i < world->fall_count; i++)
        if (world->falls[i] == choice)
            return true;
    return false;
}

static uint64_t *priority_of(int candidate)
{
    return candidate < MOST_THREADS ? &world->threads[candidate].priority
                                    : priority_of_ring(candidate - MOST_THREADS);
}

/* The highest goes on; at some choices it falls first. Who yields has fallen. */
static int pick_by_priorities(const int *candidates, int count)
{
    for (;;) {
        int best = 0;
        for (int i = 1; i < count; i++)
            if (*priority_of(candidates[i]) > *priority_of(candidates[best]))
                best = i;
        if (!is_fall(world->choices))
            return best;
        *priority_of(candidates[best]) = world->lowest--;
        world->choices++;
    }
}

/* The way that is rolled, from way 0 on. */
static int rolled_way(const int *candidates, int count, int first)
{
    int at = world->how == BY_SEED         ? pick_by_seed(candidates, count)
             : world->how == BY_PRIORITIES ? pick_by_priorities(candidates, count)
                                           : first;
    return (at - first + count) % count;
}

/* Among the policy's choices, where a turn is one of them. */
static int chosen_way(const int *candidates, int count, int first, int rolled)
{
    char what[128];
    uint64_t at;
    if (!world->chooses)
        return rolled;
    int way = (int)wulgach_choose_turn((uint32_t)count, (uint32_t)rolled, &at),
        next = candidates[(first + way) % count];
    snprintf(what, sizeof what, "thread %d at %s, then %s %d", slot_of(self) + 1,
        name_of_call(self->call), next < MOST_THREADS ? "thread" : "ring",
        next < MOST_THREADS ? next + 1 : (int)number_of_ring(next - MOST_THREADS));
    wulgach_record_turn(at, (uint32_t)count, (uint32_t)way, what);
    return way;
}

/* What is met, for `explore --coverage`. */
static void note_kind_of_turn(int picked)
{
    bool stays = picked == slot_of(self);
    switch (self->call) {
    case POINT_AT_LOCK:
    case YIELD_AT_LOCK:
    case SYS_futex:
        wulgach_note_turn(stays ? WULGACH_STAYS_AT_LOCK : WULGACH_PASSES_AT_LOCK);
        return;
    case SYS_io_uring_setup:
    case SYS_io_uring_enter:
    case SYS_io_uring_register:
        wulgach_note_turn(stays ? WULGACH_STAYS_AT_RING : WULGACH_PASSES_AT_RING);
        return;
    default:
        wulgach_note_turn(stays ? WULGACH_STAYS_AT_CALL : WULGACH_PASSES_AT_CALL);
    }
}

int pick_of(const int *candidates, int count)
{
    if (count == 1)
        return candidates[0];
    int first = first_way(candidates, count), rolled = rolled_way(candidates, count, first);
    world->choices++;
    int picked = candidates[(first + chosen_way(candidates, count, first, rolled)) % count];
    note_kind_of_turn(picked);
    return picked;
}

void change_world(void)
{
    world->changes++;
}

/* What a thread of this process waits for is asked anew only after the world has changed. */
void look_at_own(void)
{
    for (int i = 0; i < world->count; i++) {
        struct thread *thread = world->threads + i;
        if (thread->state == WAITS && is_own(thread) && thread->is_ready &&
            thread->asked != world->changes) {
            thread->asked = world->changes;
            thread->is_met = thread->is_ready(thread->argument);
        }
    }
    look_at_rings();
}

static bool is_met(const struct thread *thread)
{
    return thread->is_ready && thread->is_met;
}

/* The candidates; when the next moment is that somebody waits for; and whether somebody waits for
 * what may come from outside. */
static int find_candidates(uint64_t *moment, bool *is_outside)
{
    int count = 0;
    *moment = world->due;
    *is_outside = false;
    look_at_others();
    look_at_own();
    for (int i = 0; i < world->count; i++) {
        struct thread *thread = world->threads + i;
        if (thread->state == READY ||
            (thread->state == WAITS && (thread->limit <= world->now || is_met(thread)))) {
            world->candidates[count++] = i;
        } else if (thread->state == WAITS) {
            *moment = thread->limit < *moment ? thread->limit : *moment;
            *is_outside |= thread->is_ready && (thread->is_outside || world->has_outside);
        }
    }
    return find_rings(count, moment);
}

static struct thread *take_turn(int count)
{
    int picked = pick_of(world->candidates, count);
    if (picked >= MOST_THREADS)
        return thread_for_ring(picked - MOST_THREADS);
    struct thread *next = world->threads + picked;
    if (next->state == WAITS) {
        next->reason = next->limit <= world->now && !is_met(next) ? TIME_IS_OVER : IS_READY;
        next->state = READY;
        wulgach_note_turn(next->reason == IS_READY ? WULGACH_WAIT_ENDS : WULGACH_LIMIT_ENDS);
    }
    return next;
}

/* Somebody waits for what isn't of the run, which has a while of real time to do something. */
static bool wait_outside(uint64_t *waited, uint64_t moment)
{
    const uint64_t slice = 200000;
    const struct timespec while_ = {0, (long)slice};
    if (world->grace == 0 && !world->has_outside)
        return false;
    if (moment != NEVER && (*waited >= world->grace || *waited >= moment - world->now))
        return false;
    kernel(SYS_nanosleep, &while_);
    *waited += slice;
    hear_outside();
    ask_others(HEAR);
    change_world();
    return true;
}

static void move_time(uint64_t moment)
{
    if (moment > world->now)
        world->now = moment;
    if (world->now > MOST_HOURS * 3600 * SECOND)
        tell_endless();
    change_world();
}

struct thread *choose_next(void)
{
    uint64_t waited = 0, moment;
    bool is_outside, is_sure = false, has_waited = false;
    for (;;) {
        fire_dates();
        int count = find_candidates(&moment, &is_outside);
        if (count > 0) {
            world->from_outside += has_waited;
            if (has_waited)
                note_event("outside", count);
            return take_turn(count);
        }
        has_waited = is_outside && wait_outside(&waited, moment);
        if (has_waited)
            continue;
        if (moment != NEVER) {
            move_time(moment);
        } else if (is_sure) {
            tell_deadlock();
        } else { /* (all are asked once more) */
            is_sure = true;
            change_world();
        }
    }
}

void make_point(bool yields)
{
    world->points++;
    world->now += STEP;
    self->looks = 0;
    if (world->points % LOOK_AGAIN == 0)
        change_world();
    if (yields)
        self->priority = world->lowest--;
    world->yields = yields;
    struct thread *next = choose_next();
    world->yields = false;
    go_on_as(next);
}

enum reason wait_until(bool (*is_ready)(void *), void *argument, bool is_outside, uint64_t limit)
{
    self->is_ready = is_ready;
    self->argument = argument;
    self->is_outside = is_outside;
    self->limit = limit;
    self->asked = 0;
    self->reason = NO_REASON;
    self->ticket = world->tickets++;
    self->state = WAITS;
    note_wait();
    go_on_as(choose_next());
    while (self->goes_on_with) {
        go_on_with_ring();
        self->asked = 0;
        go_on_as(choose_next());
    }
    self->state = READY;
    self->is_ready = NULL;
    self->wanted_count = 0;
    return self->reason;
}

void place_new_thread(struct thread *thread)
{
    const uint64_t above = 1ul << 41, room = 1ul << 40;
    thread->priority = above + roll(&world->turns_random) % room;
}

/* pct:SEED:DEPTH[:CHOICES]: so many falls, less one, among so many choices. */
static void roll_falls(const char *words)
{
    char *at;
    enum { SOME_CHOICES = 1000 };
    world->seed = strtoul(words, &at, 10);
    uint64_t depth = *at == ':' ? strtoul(at + 1, &at, 10) : 1,
             most = *at == ':' ? strtoul(at + 1, &at, 10) : SOME_CHOICES;
    world->turns_random = world->seed;
    world->fall_count = depth > 64 ? 64 : depth > 0 ? depth - 1 : 0;
    for (uint64_t i = 0; i < world->fall_count; i++)
        world->falls[i] = 1 + roll(&world->turns_random) % (most > 0 ? most : SOME_CHOICES);
}

/* The layer's record and its traces are written as if nobody had called. */
void note_own_calls(bool begin)
{
    if (!self)
        return;
    self->own_calls += begin ? 1 : -1;
    self->is_trapped = self->own_calls == 0;
}

/* (a call that is trapped asks for it itself) */
static uint64_t tell_time(clockid_t clock)
{
    return self && self->own_calls > 0 ? time_at_clock(clock) : 0;
}

void go_on_with_choices(void)
{
    wulgach_tell_own_calls = note_own_calls;
    wulgach_tell_time = tell_time;
    world->chooses = wulgach_begin_turns(&world->policy);
}

/* By the policy of the rings: under a seed, by priorities, or as a list says; else a thread goes on
 * until it waits. */
void begin_choices(void)
{
    static const uint64_t stays[] = {1, 20, 100};
    const char *policy = getenv("WULGACH_POLICY");
    world->lowest = 1ul << 40;
    world->stay = 1;
    go_on_with_choices();
    if (policy && strncmp(policy, "seed:", 5) == 0) {
        world->how = BY_SEED;
        world->seed = strtoul(policy + 5, NULL, 10);
        world->turns_random = world->seed;
        world->stay = stays[roll(&world->turns_random) % 3];
    } else if (policy && strncmp(policy, "pct:", 4) == 0) {
        world->how = BY_PRIORITIES;
        roll_falls(policy + 4);
    }
    world->chance_random = world->seed ^ 0x6368616e6365;
}
