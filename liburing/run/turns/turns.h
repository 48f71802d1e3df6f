/* What the files of turns share: the world, in which each process of the run and each of its
 * threads has a slot; the baton, which one thread of all has; and the trap that brings each call
 * here. */
#ifndef TURNS_H
#define TURNS_H

#include "../../layer/choices/turns.h"

#include <signal.h>
#include <stdbool.h>
#include <stddef.h>
#include <stdint.h>
#include <sys/syscall.h>
#include <time.h>
#include <ucontext.h>

/* Of a slot's memory the lowest part is for signals while a call of a ring begins, the next for
 * going on with a ring while the thread waits, then one for that beginning, and the last for
 * serving a call. */
enum {
    MOST_THREADS = 1024,
    MOST_PROCESSES = 256,
    MOST_RINGS = 64,
    MOST_WANTED = 128,
    MOST_CALLS = 512,
    LAST_SIGNAL = 64,
    SIGNALS_STACK = 1 << 15,
    GOING_ON_STACK = 1 << 17,
    RING_STACK = 1 << 16,
    SERVING_STACK = 1 << 16,
    STACKS = SIGNALS_STACK + GOING_ON_STACK + RING_STACK + SERVING_STACK
};

#define NEVER UINT64_MAX
#define SECOND 1000000000ul

enum state { FREE, READY, WAITS, ENDED };
enum reason { NO_REASON, WOKEN, IS_READY, TIME_IS_OVER, INTERRUPTED };

/* A futex: its word, by its place in memory that processes share, or by its address in one of them.
 */
struct key {
    uint64_t space, place;
};

/* One that is awaited, and by which bits. */
struct wanted {
    struct key key;
    uint32_t bits;
};

struct thread {
    uint32_t baton; /* the thread is parked on this word: whether it has been given the baton, or is
                       asked something (enum given) */
    uint32_t is_alive; /* cleared by the kernel as the thread has ended */
    enum state state;
    enum reason reason;
    int number; /* the kernel's, gettid(2) */
    int process; /* its slot */
    int follows; /* the slot, and 1, of a thread that has to be gone before this one goes on; */
    int follows_process; /* or of a process; */
    bool chooses; /* and whether it chooses then who goes on, and doesn't itself */

    /* What it waits for: futexes, in the order of tickets; or that something is so; and until when.
     */
    int wanted_count, woken;
    uint64_t ticket, limit;
    bool (*is_ready)(void *);
    void *argument;
    bool is_outside; /* it may come from a process outside of the run */
    uint64_t asked; /* at which change of the world it was asked last, and whether it was so */
    bool is_met;

    /* Where it stands. */
    long call, words[6];
    uint64_t mask; /* of signals, as it was trapped */
    uint64_t awaited; /* signals for which it waits, though they are blocked */
    int by; /* the signal that has interrupted its wait */
    const void *place; /* of the program, if that is known */
    uintptr_t stack;
    uint64_t looks; /* at the clock since its last point */
    int own_calls; /* it makes calls of this library's own, of which nobody hears: */
    char is_trapped; /* what the kernel looks at for that */
    bool is_in_ring; /* whether a call of a ring has begun on the slot's stack for that, */
    int ring_calls; /* how many calls of rings it is in, */
    int goes_on_with; /* and, and 1, with which uncalled ring it goes on while it waits */

    uint64_t cleared; /* where the kernel would put 0 as it ends */
    uint64_t robust; /* the list of its robust locks */
    uint64_t priority; /* by priorities, the highest goes on */
    uint32_t rounding; /* of numbers, as it begins */

    /* With which it begins: of a thread that is made, those of the call; and its slot's stack. */
    long registers[23];
    long begins_on;
};

/* What a program asks of a signal. */
struct program_action {
    uint64_t handler, flags, restorer, mask;
};

/* A ring on which no thread calls: its number, who called on it last, and whether it can go on. */
struct ring {
    uint32_t number;
    int32_t caller;
    bool can_go_on;
};

/* A process of the run. While it becomes another program, which finds its slot by its number, it
 * has the baton. One that shares its parent's memory until then is served as little as that wants.
 */
struct process {
    bool takes_turns, becomes, is_guest;
    int number; /* the kernel's, getpid(2); */
    int awaited; /* and where its parent waits until it has become another program, that */
    int parent; /* the slot of the one that made it, or -1 */
    bool is_doomed; /* a signal was sent, or is pending, that ends it where no thread has it blocked
                     */
    uint64_t due; /* the next of its dates */
    struct program_action actions[LAST_SIGNAL + 1];
    bool has_rings;
    uint32_t ring_count;
    uint64_t rings_due; /* the next moment at which one of them can go on */
    struct ring rings[MOST_RINGS];
    uint64_t ring_priorities[MOST_RINGS]; /* by number; 0: none was drawn yet */
};

enum how { IN_ORDER_OF_SLOTS, BY_SEED, BY_PRIORITIES };

/* What a parked thread does for the one that runs, as what it is about is its process's own: it
 * looks who of its process can go on, hears signals, lets its dates come, tells where its threads
 * wait, takes a signal that ends its process, or ends the run. */
enum given { NOTHING_GIVEN, GIVEN_BATON, GIVEN_TASK };
enum task { LOOK_AT_OWN, HEAR, FIRE_DATES, TELL_PLACES, TAKE_SIGNAL, END_RUN };

/* The log of calls that isn't written yet, and what is left of the recorded one. */
enum { LOG_ROOM = 1 << 16 };
struct log {
    bool is_written, has_lanes;
    size_t length;
    const char *recorded, *recorded_end;
    char room[LOG_ROOM];
};

/* Numbers of files, as they were met; and pipes and pairs of sockets of which the run has made both
 * ends. */
enum { MOST_FILES = 1 << 16 };
struct file {
    uint64_t device, file, number;
    bool is_inside;
};
struct files {
    uint64_t met;
    struct file rows[MOST_FILES];
};

struct world {
    /* As it was begun. */
    enum how how;
    bool chooses; /* whether turns are among the policy's choices */
    uint64_t seed, stay;
    uint64_t patience, grace; /* in nanoseconds of the processor, and of real time */
    int processors;
    bool has_cycles, has_features;
    int64_t began; /* really, in seconds */

    /* As it stands. */
    int count, running;
    int process_count, living; /* slots that were ever taken; processes that take turns */
    bool yields;
    int candidates[MOST_THREADS + MOST_PROCESSES * MOST_RINGS];
    uint64_t now, due, changes, tickets, unnamed, points, choices, switches;
    uint64_t turns_random, chance_random;
    uint64_t falls[64], fall_count, lowest;
    uint64_t from_outside, interrupted;
    bool was_told[MOST_CALLS], has_outside; /* one was started that takes no turns */
    struct wulgach_one_list policy;

    /* What one process asks another that is parked: what, and whether it has answered. */
    enum task task;
    int status;
    uint32_t answered;

    struct process processes[MOST_PROCESSES];
    struct thread threads[MOST_THREADS];
    struct wanted wanted[MOST_THREADS][MOST_WANTED];
    struct log log;
    struct files files;
};

static struct world *const world = (struct world *)0x300000000000;

/* The thread that runs here; NULL before there is one. Who has left the turns, as a child that was
 * forked, calls the kernel. */
extern __thread struct thread *self
    __attribute__((tls_model("initial-exec"), visibility("hidden")));
extern bool has_left_turns __attribute__((visibility("hidden")));

static inline int slot_of(const struct thread *thread)
{
    return (int)(thread - world->threads);
}

static inline bool lives(const struct thread *thread)
{
    return thread->state == READY || thread->state == WAITS;
}

static inline bool is_own(const struct thread *thread)
{
    return thread->process == self->process;
}

static inline struct process *process_of(const struct thread *thread)
{
    return world->processes + thread->process;
}

/* A call that goes to the kernel: made in the one range of code whose calls pass. A negative result
 * is an error number. */
long turns_kernel(long call, long a, long b, long c, long d, long e, long f);
#define KERNEL(call, a, b, c, d, e, f, ...) \
    turns_kernel((long)(call), (long)(a), (long)(b), (long)(c), (long)(d), (long)(e), (long)(f))
#define kernel(...) KERNEL(__VA_ARGS__, 0, 0, 0, 0, 0, 0, 0)

/* A trapped call. What serves it returns what the kernel would, or RESTARTS where a signal's
 * handler comes first, after which the call is made again if that asks for it. */
struct trap {
    long call, words[6];
    ucontext_t *at;
};
enum { RESTARTS = -512 };
typedef long serving(struct trap *trap);
long pass_on(const struct trap *trap);

/* How each call is served (calls.c): NULL, it isn't, and is told of once. It is a point where
 * others may go on, unless it can't be heard of by others. */
struct row {
    serving *serve;
    bool is_quiet;
};
const struct row *row_of(long call);
const char *name_of_call(long call);
void tell_unserved(const struct trap *trap, const char *why);

struct thread *thread_of_number(int number);

/* Calls that nobody makes, at which a thread may be stopped, told by this library to its own trap.
 */
enum { POINT_AT_LOOK = 0x7001, POINT_AT_LOCK, YIELD_AT_LOCK, GO_ON_AS };

/* The world (world.c). Two descriptors are the run's, whatever the program closes: of the world's
 * memory, which who becomes another program finds by it, and of the log. */
struct thread *take_slot(int process);
char *stack_of_slot(int slot);
uint64_t roll(uint64_t *state);
enum { WORLD_DESCRIPTOR = 900, LOG_DESCRIPTOR };
bool is_descriptor_of_run(long fd);
void begin_slot(struct thread *thread);
void say_line(const char *form, ...) __attribute__((format(printf, 1, 2)));

/* Processes (processes.c): one is made by another, becomes another program, is asked, and ends. */
int take_process(int parent);
void free_process(int process);
int find_process(int number);
struct thread *parked_thread_of(int process);
struct thread *parked_elsewhere(void);
bool ask_process(int process, enum task task);
void ask_others(enum task task);
void do_task(void);
void look_at_others(void);
bool is_gone(const struct thread *thread);
bool inherits(int whiles);
void await_end_of_process(int process);
/* This process ends, or isn't of the run any more; another's thread chooses then, once it is gone.
 * The run ends with its first process. */
void leave_run(bool ends);
void tell_outside(const char *what, const char *why);
__attribute__((noreturn)) void end_run(int status);

/* The baton (baton.c), and who has it next (choosing.c). */
void give_baton(struct thread *next);
void go_on_as(struct thread *next);
void park(void);
struct thread *choose_next(void);
void look_at_own(void);
int pick_of(const int *candidates, int count);
void make_point(bool yields);
void begin_choices(void);
void go_on_with_choices(void);
void place_new_thread(struct thread *thread);
enum reason wait_until(bool (*is_ready)(void *), void *argument, bool is_outside, uint64_t limit);
void change_world(void);

/* Calls of this library's own begin and end: they go to the kernel, and aren't told of. */
void note_own_calls(bool begin);

/* A deadlock, or a run in which only clocks go on, is told with each thread's place (telling.c). */
__attribute__((noreturn)) void tell_deadlock(void);
__attribute__((noreturn)) void tell_endless(void);
void tell_own_places(void);
void tell_left(void);
void tell_end(void);

/* The log (turn_log.c). */
void begin_log(void);
void go_on_with_log(void);
void note_call(const struct trap *trap, long result);
void note_event(const char *what, long number);
void note_wait(void);
void end_log(void);
void compare_end(void);

/* The trap (dispatch.c). */
void begin_dispatch(void);
void catch_calls(void);
void call_on(char *top, void (*function)(void *), void *argument);
uint64_t mask_at(const ucontext_t *at);
void leave_turns(void);
bool is_ours(int signal);
uint64_t without_ours(uint64_t mask);

/* Threads (starts.c, ends.c). */
serving serve_clone, serve_fork, serve_exec, serve_exit, serve_exit_group, serve_tid_address,
    serve_robust_list;
long serve_guest(struct trap *trap);

/* Futexes. */
serving serve_futex, serve_waitv;
int wake_futex(struct key key, int most, uint32_t bits);

/* Memory that processes share (memory.c). */
struct key key_of(uint64_t word, bool is_private);
void note_mapped(const struct trap *trap, long at);
serving serve_map, serve_unmap, serve_remap, serve_shmat;
void free_robust_locks(void);
void wake_sharers(void);

/* Locks of the C library that make no call where nobody waits (locks.c): the function in which a
 * thread waits, and the number of the thread that has the lock, or 0. */
const char *name_of_lock(const struct thread *thread);
int owner_of_lock(const struct thread *thread);

/* Time. */
uint64_t look_at_clock(int clock);
uint64_t ns_of(const struct timespec *time);
uint64_t limit_after(const struct timespec *time);
uint64_t limit_at(bool is_date, uint64_t at);
#define FIRST_DATE (2000000000ul * SECOND)
#define FIRST_MOMENT (1000ul * SECOND)
void take_vdso(void);

#endif
