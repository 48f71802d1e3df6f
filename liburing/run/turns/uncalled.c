/* Looking at rings on which no thread calls, and going on with them. The layer's calls go to the
 * kernel meanwhile: nothing of it waits, and no other thread runs. So none may have a lock of the
 * layer's: those that are in a call of a ring have to sleep there. */
#define _GNU_SOURCE
#include "uncalled.h"
#include "../../layer/calls/uncalled.h"
#include "../../layer/choices/turns.h"
#include "descriptors.h"
#include "dispatch.h"

#include <errno.h>
#include <sys/syscall.h>

enum { EPOLL_PWAIT2 = 441 };

static bool is_asleep(const struct thread *thread)
{
    return thread->state == WAITS && (thread->call == EPOLL_PWAIT2 || thread->call == SYS_ppoll ||
                                         thread->call == SYS_pselect6);
}

static bool is_amid_call(const struct thread *thread)
{
    return lives(thread) && is_own(thread) && thread->ring_calls > 0 && !is_asleep(thread);
}

/* (one that waits for the ring itself, by its descriptor, can go on) */
static bool is_elsewhere(int32_t caller)
{
    const struct thread *thread = thread_of_number(caller);
    return !thread || (thread->state == WAITS && thread->limit > world->now &&
                          !(thread->is_ready && thread->is_met));
}

/* Who goes on with a ring of a process: who has called on it last, or else the first that waits. */
static struct thread *thread_that_waits(int process, int32_t caller)
{
    struct thread *thread = thread_of_number(caller);
    if (thread && thread->state == WAITS && thread->process == process)
        return thread;
    for (int i = 0; i < world->count; i++)
        if (world->threads[i].state == WAITS && world->threads[i].process == process)
            return world->threads + i;
    return NULL;
}

static bool can_look(void)
{
    if (!process_of(self)->has_rings || has_left_turns)
        return false;
    for (int i = 0; i < world->count; i++)
        if (is_amid_call(world->threads + i))
            return false;
    return true;
}

void look_at_rings(void)
{
    struct process *process = process_of(self);
    struct wulgach_uncalled rows[MOST_RINGS];
    process->ring_count = 0;
    process->rings_due = NEVER;
    if (!can_look())
        return;
    int kept = errno;
    note_own_calls(true);
    process->ring_count = wulgach_look_at_uncalled(rows, MOST_RINGS, is_elsewhere);
    note_own_calls(false);
    errno = kept;
    for (uint32_t i = 0; i < process->ring_count; i++) {
        uint64_t next = rows[i].has_next ? limit_at(false, rows[i].next) : NEVER;
        process->rings_due = next < process->rings_due ? next : process->rings_due;
        process->rings[i] = (struct ring){rows[i].ring, rows[i].caller, rows[i].can_go_on};
    }
}

static int find_rings_of(int index, int count, uint64_t *moment)
{
    const struct process *process = world->processes + index;
    if (!process->has_rings)
        return count;
    *moment = process->rings_due < *moment ? process->rings_due : *moment;
    for (uint32_t i = 0; i < process->ring_count; i++)
        if (process->rings[i].can_go_on && thread_that_waits(index, process->rings[i].caller))
            world->candidates[count++] = MOST_THREADS + index * MOST_RINGS + (int)i;
    return count;
}

int find_rings(int count, uint64_t *moment)
{
    for (int i = 0; i < world->process_count; i++)
        if (world->processes[i].takes_turns)
            count = find_rings_of(i, count, moment);
    return count;
}

bool has_uncalled(void)
{
    for (int i = 0; i < world->process_count; i++)
        if (world->processes[i].takes_turns && world->processes[i].has_rings &&
            world->processes[i].ring_count > 0)
            return true;
    return false;
}

static struct ring *ring_at(int place)
{
    return world->processes[place / MOST_RINGS].rings + place % MOST_RINGS;
}

uint32_t number_of_ring(int place)
{
    return ring_at(place)->number;
}

uint64_t *priority_of_ring(int place)
{
    const uint64_t above = 1ul << 41, room = 1ul << 40;
    uint64_t *priority = world->processes[place / MOST_RINGS].ring_priorities +
                         number_of_ring(place) % MOST_RINGS;
    if (*priority == 0)
        *priority = above + roll(&world->turns_random) % room;
    return priority;
}

struct thread *thread_for_ring(int place)
{
    struct thread *thread = thread_that_waits(place / MOST_RINGS, ring_at(place)->caller);
    thread->goes_on_with = (int)number_of_ring(place) + 1;
    return thread;
}

static void go_on(void *unused)
{
    (void)unused;
    wulgach_go_on_uncalled((uint32_t)self->goes_on_with - 1);
}

void go_on_with_ring(void)
{
    int kept = errno;
    char *top = stack_of_slot(slot_of(self) + 1) - SERVING_STACK - RING_STACK;
    world->points++;
    world->now += 1000;
    note_event("ring goes on:", self->goes_on_with - 1);
    wulgach_note_turn(WULGACH_RING_GOES_ON);
    note_own_calls(true);
    call_on(top, go_on, NULL);
    note_own_calls(false);
    self->goes_on_with = 0;
    forget_closed();
    change_world();
    errno = kept;
}
