/* What is said as a run ends: that every thread waits, with each thread's place; that only clocks
 * go on; and what makes a run one that isn't replayed. */
#define _GNU_SOURCE
#include "code.h"
#include "turns.h"

#include <stdio.h>

enum { DEADLOCK = 99, ENDLESS = 98 };

static int count_threads(void)
{
    int count = 0;
    for (int i = 0; i < world->count; i++)
        count += lives(world->threads + i);
    return count;
}

/* For whom a lock is kept, if it is one of the C library's that says so. */
static void describe_owner(const struct thread *thread, char *room, size_t size)
{
    int owner = owner_of_lock(thread);
    room[0] = '\0';
    for (int i = 0; owner && i < world->count; i++)
        if (lives(world->threads + i) && world->threads[i].number == owner)
            snprintf(room, size, ", which thread %d has", i + 1);
}

static void tell_place(const struct thread *thread)
{
    char place[PLACE_ROOM], owner[64], process[64] = "";
    const void *at = thread->place ? thread->place : caller_on_stack(thread->stack);
    describe_owner(thread, owner, sizeof owner);
    if (at)
        describe_place(at, place);
    else
        snprintf(place, sizeof place, "a place that isn't known");
    if (world->living > 1)
        snprintf(process, sizeof process, " of process %d", thread->process + 1);
    say_line("  thread %d%s waits in %s at %s%s", slot_of(thread) + 1, process,
        thread->place ? name_of_lock(thread) : name_of_call(thread->call), place, owner);
}

void tell_own_places(void)
{
    read_code();
    for (int i = 0; i < world->count; i++)
        if (world->threads[i].state == WAITS && is_own(world->threads + i))
            tell_place(world->threads + i);
}

static void tell_places(int status)
{
    tell_own_places();
    ask_others(TELL_PLACES);
    tell_end();
    end_run(status);
}

static void count_processes(char *room, size_t size)
{
    room[0] = '\0';
    if (world->living > 1)
        snprintf(room, size, " of %d processes", world->living);
}

void tell_deadlock(void)
{
    char processes[64];
    count_processes(processes, sizeof processes);
    say_line("deadlock after %lu choices: all %d threads%s wait", world->choices, count_threads(),
        processes);
    tell_places(DEADLOCK);
    __builtin_unreachable();
}

void tell_endless(void)
{
    say_line("hangs: for an hour of the run's time only clocks went on");
    tell_places(ENDLESS);
    __builtin_unreachable();
}

void tell_outside(const char *what, const char *why)
{
    if (!world->has_outside)
        say_line("%s is started and takes no turns, since %s: what comes from it isn't replayed",
            what, why);
    world->has_outside = true;
}

void tell_fault(const ucontext_t *at)
{
    char place[PLACE_ROOM];
    read_code();
    describe_place((const void *)at->uc_mcontext.gregs[REG_RIP], place);
    say_line(
        "thread %d has a fault at %s, which ends the program", self ? slot_of(self) + 1 : 0, place);
}

void tell_left(void)
{
    if (world->living > 1)
        say_line(
            "the program ends, and with it %d of its processes that haven't", world->living - 1);
}

void tell_end(void)
{
    compare_end();
    if (world->from_outside > 0)
        say_line(
            "%lu times something came from outside that was waited for: this run isn't replayed",
            world->from_outside);
    if (world->interrupted > 0)
        say_line("%lu times a thread was interrupted that seemed to spin: this run isn't replayed",
            world->interrupted);
}
