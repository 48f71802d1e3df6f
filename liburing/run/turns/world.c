/* The world: memory at one place that the processes of a run share, with a slot for each process
 * and each thread; behind it each process has a stack for each thread. It begins in the program
 * that `uring-run --threads` becomes (WULGACH_THREADS has the number of its process). What one of
 * its processes becomes finds it by its descriptor. */
#define _GNU_SOURCE
#include "turns.h"
#include "../run.h"
#include "dates.h"

#include <dlfcn.h>
#include <fcntl.h>
#include <sched.h>
#include <stdarg.h>
#include <stdio.h>
#include <stdlib.h>
#include <string.h>
#include <sys/auxv.h>
#include <sys/mman.h>
#include <sys/prctl.h>
#include <unistd.h>

__thread struct thread *self;
bool has_left_turns;

enum { STOPPED = 125 };

/* A generator of 64 bits whose state is a counter (splitmix64). */
uint64_t roll(uint64_t *state)
{
    uint64_t z = *state += 0x9e3779b97f4a7c15u;
    z = (z ^ z >> 30) * 0xbf58476d1ce4e5b9u;
    z = (z ^ z >> 27) * 0x94d049bb133111ebu;
    return z ^ z >> 31;
}

void say_line(const char *form, ...)
{
    char line[512];
    va_list words;
    va_start(words, form);
    int start = snprintf(line, sizeof line, "uring-run: "),
        length = vsnprintf(line + start, sizeof line - (size_t)start - 1, form, words) + start;
    va_end(words);
    if (length > (int)sizeof line - 2)
        length = (int)sizeof line - 2;
    line[length] = '\n';
    kernel(SYS_write, STDERR_FILENO, line, length + 1);
}

char *stack_of_slot(int slot)
{
    const uintptr_t page = 4096, end = (uintptr_t)(world + 1) + page;
    return (char *)(end / page * page + (uintptr_t)slot * STACKS);
}

struct thread *take_slot(int process)
{
    int slot = 0;
    while (slot < MOST_THREADS && world->threads[slot].state != FREE)
        slot++;
    if (slot == MOST_THREADS) {
        say_line("the program has over %d threads at a time, which --threads doesn't serve",
            MOST_THREADS);
        end_run(STOPPED);
    }
    struct thread *thread = world->threads + slot;
    *thread = (struct thread){.state = READY, .is_alive = 1, .is_trapped = 1, .process = process};
    place_new_thread(thread);
    if (slot >= world->count)
        world->count = slot + 1;
    return thread;
}

/* The stacks stand behind the world, and are each process's own. */
static bool map_world(void)
{
    char *stacks = stack_of_slot(0);
    return kernel(SYS_mmap, world, sizeof *world, PROT_READ | PROT_WRITE,
               MAP_SHARED | MAP_NORESERVE | MAP_FIXED_NOREPLACE, WORLD_DESCRIPTOR,
               0) == (long)world &&
           kernel(SYS_mmap, stacks, stack_of_slot(MOST_THREADS) - stacks, PROT_READ | PROT_WRITE,
               MAP_PRIVATE | MAP_ANONYMOUS | MAP_NORESERVE | MAP_FIXED_NOREPLACE, -1,
               0) == (long)stacks;
}

static bool make_world(void)
{
    long fd = kernel(SYS_memfd_create, "wulgach", 0);
    return fd >= 0 && kernel(SYS_ftruncate, fd, sizeof *world) == 0 &&
           kernel(SYS_dup2, fd, WORLD_DESCRIPTOR) == WORLD_DESCRIPTOR &&
           kernel(SYS_close, fd) == 0 && map_world();
}

bool is_descriptor_of_run(long fd)
{
    return self && (fd == WORLD_DESCRIPTOR || (fd == LOG_DESCRIPTOR && world->log.is_written));
}

static uint64_t number_in(const char *name, uint64_t otherwise)
{
    const char *word = getenv(name);
    return word && *word ? strtoul(word, NULL, 10) : otherwise;
}

void begin_slot(struct thread *thread)
{
    self = thread;
    self->number = (int)kernel(SYS_gettid);
    process_of(self)->number = (int)kernel(SYS_getpid);
    self->begins_on = (long)stack_of_slot(slot_of(self) + 1);
    self->is_alive = 1;
    kernel(SYS_set_tid_address, &self->is_alive);
}

/* What a program does with signals that the one before it has caught. */
static void forget_handlers(struct process *process)
{
    for (int signal = 1; signal <= LAST_SIGNAL; signal++)
        if (process->actions[signal].handler != (uint64_t)SIG_IGN)
            process->actions[signal] = (struct program_action){0, 0, 0, 0};
}

/* The slot of the thread that has become this program, of which the others have ended. */
static void take_slot_over(void)
{
    struct thread *thread = world->threads + world->running;
    struct process *process = process_of(thread);
    for (int i = 0; i < world->count; i++)
        if (world->threads[i].process == thread->process && world->threads + i != thread)
            world->threads[i].state = FREE;
    *thread = (struct thread){
        .state = READY, .is_trapped = 1, .process = thread->process, .priority = thread->priority};
    process->becomes = process->is_guest = process->has_rings = false;
    process->awaited = 0;
    process->due = NEVER;
    forget_handlers(process);
    begin_slot(thread);
    find_due();
    change_world();
}

/* The kernel writes into this memory of a thread's when it has moved it to another processor: it is
 * told no more. */
static void end_restarts(void)
{
    enum { SIZE = 32, UNREGISTER = 1, MARK = 0x53053053 };
    const ptrdiff_t *offset = dlsym(RTLD_DEFAULT, "__rseq_offset");
    uintptr_t thread;
    __asm__("mov %%fs:0, %0" : "=r"(thread));
    if (offset)
        kernel(SYS_rseq, thread + (uintptr_t)*offset, SIZE, UNREGISTER, MARK);
}

/* One processor, on which the threads take turns anyway: the one on which this runs, so that runs
 * side by side have others. How many it may have stays what is said. */
static void take_one_processor(void)
{
    unsigned here = 0;
    cpu_set_t all, one;
    CPU_ZERO(&all);
    CPU_ZERO(&one);
    if (kernel(SYS_sched_getaffinity, 0, sizeof all, &all) <= 0 ||
        kernel(SYS_getcpu, &here, 0, 0) < 0)
        return;
    world->processors = CPU_COUNT(&all);
    CPU_SET(here, &one);
    kernel(SYS_sched_setaffinity, 0, sizeof one, &one);
}

static bool is_wanted(void)
{
    const char *word = getenv("WULGACH_THREADS");
    return word && *word && strtol(word, NULL, 10) == kernel(SYS_getpid);
}

static void stop(const char *why)
{
    say_line("%s", why);
    kernel(SYS_exit_group, STOPPED);
}

/* Whether a process of a run has become this program: it has the baton. */
static bool goes_on(void)
{
    if (!getenv("WULGACH_THREADS") || kernel(SYS_fcntl, WORLD_DESCRIPTOR, F_GETFD) < 0 ||
        !map_world())
        return false;
    int process = find_process((int)kernel(SYS_getpid));
    if (process >= 0 && world->processes[process].becomes)
        return true;
    kernel(SYS_munmap, world, stack_of_slot(MOST_THREADS) - (char *)world);
    return false;
}

static void begin_world(void)
{
    enum { REAL_MILLISECONDS = 20, PROCESSOR_MILLISECONDS = 500 };
    if (!make_world())
        stop("--threads: there is no memory for the world, or no descriptor 900 (ulimit -n)");
    world->grace = number_in("WULGACH_OUTSIDE", REAL_MILLISECONDS) * 1000000;
    world->patience = PROCESSOR_MILLISECONDS * 1000000ul;
    world->changes = 1;
    world->due = NEVER;
    begin_choices();
    begin_slot(take_slot(take_process(-1)));
    take_one_processor();
    begin_log();
}

static void go_on_in_world(void)
{
    take_slot_over();
    go_on_with_choices();
    go_on_with_log();
}

/* In the place of the filters (trap.c): whether the program takes turns. */
bool begin_turns(void);
bool begin_turns(void)
{
    if (goes_on())
        go_on_in_world();
    else if (is_wanted())
        begin_world();
    else
        return false;
    end_restarts();
    begin_dispatch();
    return true;
}
