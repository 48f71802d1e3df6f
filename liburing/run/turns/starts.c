/* Threads and processes that are made, and programs that processes become. A thread gets a slot,
 * and runs once it is chosen; the kernel clears a word of ours as it ends, and who waits for the
 * program's word is waked here. So does the one thread of a child that is forked. A child that
 * shares memory until it has become another program has the baton until then. */
#define _GNU_SOURCE
#include "chance.h"
#include "dates.h"
#include "descriptors.h"
#include "dispatch.h"
#include "notices.h"
#include "turns.h"
#include "watch.h"

#include <errno.h>
#include <fcntl.h>
#include <linux/sched.h>
#include <string.h>
#include <sys/prctl.h>

/* What is asked for by clone(2) or clone3(2). */
struct request {
    struct clone_args arguments;
    bool is_new;
};

static bool read_request(const struct trap *trap, struct request *request)
{
    const long *words = trap->words;
    memset(request, 0, sizeof *request);
    request->is_new = trap->call == SYS_clone3;
    if (!request->is_new) {
        request->arguments.flags = (uint64_t)words[0] & ~(uint64_t)CSIGNAL;
        request->arguments.exit_signal = (uint64_t)words[0] & CSIGNAL;
        request->arguments.stack = (uint64_t)words[1];
        request->arguments.child_tid = (uint64_t)words[3];
        return true;
    }
    size_t size = (size_t)words[1];
    memcpy(&request->arguments, (const void *)words[0],
        size < sizeof request->arguments ? size : sizeof request->arguments);
    return size >= CLONE_ARGS_SIZE_VER0;
}

/* Makes it, with its flags and where the kernel clears a word; the rest stands as it was given. */
static long make(const struct trap *trap, struct request *request, uint64_t flags, uint64_t cleared,
    struct thread *thread)
{
    const long *words = trap->words;
    if (request->is_new) {
        request->arguments.flags = flags;
        request->arguments.child_tid = cleared;
        return make_thread(SYS_clone3, (long)&request->arguments, sizeof request->arguments, 0, 0,
            0, thread->registers);
    }
    return make_thread(SYS_clone, (long)(flags | request->arguments.exit_signal), words[1],
        words[2], (long)cleared, words[4], thread->registers);
}

/* How numbers are rounded and what they raise stands in the frame, where the program's vectors are.
 */
static uint32_t rounding_at(const ucontext_t *at)
{
    return at->uc_mcontext.fpregs ? at->uc_mcontext.fpregs->mxcsr : 0x1f80;
}

static void fill_slot(struct thread *thread, const struct trap *trap)
{
    memcpy(thread->registers, trap->at->uc_mcontext.gregs, sizeof thread->registers);
    thread->begins_on = (long)stack_of_slot(slot_of(thread) + 1);
    thread->mask = self->mask;
    thread->rounding = rounding_at(trap->at);
}

static long make_turning(const struct trap *trap, struct request *request)
{
    uint64_t flags = request->arguments.flags, told = request->arguments.child_tid;
    struct thread *thread = take_slot(self->process);
    fill_slot(thread, trap);
    thread->cleared = flags & CLONE_CHILD_CLEARTID ? told : 0;
    long number = make(trap, request,
        (flags | CLONE_CHILD_CLEARTID) & ~(uint64_t)CLONE_CHILD_SETTID, (uint64_t)&thread->is_alive,
        thread);
    if (number < 0) {
        thread->state = FREE;
        return number;
    }
    thread->number = (int)number;
    if (flags & CLONE_CHILD_SETTID)
        *(int *)told = (int)number;
    return number;
}

/* Without turns: what the child does comes from outside. */
static long start_outside(const struct trap *trap, uint64_t flags, const char *why)
{
    tell_outside("a process", why);
    long result = flags & CLONE_VM ? kernel(SYS_fork) : pass_on(trap);
    if (result == 0)
        leave_turns();
    return result;
}

static const char *const many = "there are too many at a time";

/* A slot for a process and one for its thread, which goes on as this one does. */
static struct thread *take_child(void)
{
    int process = take_process(self->process);
    if (process < 0)
        return NULL;
    struct thread *thread = take_slot(process);
    thread->mask = self->mask;
    thread->call = self->call;
    return thread;
}

static void give_child_back(struct thread *thread)
{
    thread->state = FREE;
    free_process(thread->process);
}

/* A child that shares memory until it has become another program, while the thread that made it
 * waits in the kernel: it has the baton, on the stack that it was given, and this thread's memory.
 */
static long make_guest(const struct trap *trap, struct request *request)
{
    struct thread *child = take_child(), *own = self;
    if (!child)
        return start_outside(trap, CLONE_VM, many);
    fill_slot(child, trap);
    process_of(child)->is_guest = true;
    world->running = slot_of(child);
    long result = make(
        trap, request, request->arguments.flags, request->arguments.child_tid, child);
    self = own;
    if (result < 0) {
        world->running = slot_of(own);
        give_child_back(child);
        return result;
    }
    park();
    return result;
}

static void begin_guest(struct thread *thread)
{
    const stack_t none = {.ss_flags = SS_DISABLE};
    self = thread;
    kernel(SYS_sigaltstack, &none, 0);
    self->number = process_of(self)->number = (int)kernel(SYS_getpid);
    catch_calls();
}

/* Begins a thread, on its slot's stack. */
__attribute__((used, noreturn)) void begin_thread(long *registers);
void begin_thread(long *registers)
{
    struct thread *thread = (struct thread *)((char *)registers -
                                              offsetof(struct thread, registers));
    __asm__ volatile("ldmxcsr %0" : : "m"(thread->rounding));
    if (process_of(thread)->is_guest) {
        begin_guest(thread);
    } else {
        self = thread;
        catch_calls();
        park();
    }
    uint64_t mask = thread->mask;
    kernel(SYS_rt_sigprocmask, SIG_SETMASK, &mask, 0, sizeof mask);
    load_registers(thread->registers);
}

static bool has_gone_on(void *argument)
{
    const struct process *child = argument;
    return !child->takes_turns || child->number != child->awaited;
}

/* In a child that is forked: it goes on from the same trap, once it is chosen. */
static void begin_child(struct thread *thread, uint64_t cleared)
{
    self = thread;
    self->cleared = cleared;
    begin_slot(self);
    forget_dates();
    begin_watch();
    catch_calls();
    park();
}

static long fork_turning(const struct trap *trap, uint64_t cleared, bool is_awaited)
{
    struct thread *child = take_child();
    if (!child)
        return start_outside(trap, is_awaited ? CLONE_VM : 0, many);
    struct process *process = process_of(child);
    long result = is_awaited ? kernel(SYS_fork) : pass_on(trap);
    if (result == 0) {
        begin_child(child, cleared);
        return 0;
    }
    if (result < 0) {
        give_child_back(child);
        return result;
    }
    child->number = process->number = (int)result;
    process->awaited = is_awaited ? process->number : 0;
    while (is_awaited && !has_gone_on(process))
        wait_until(has_gone_on, process, false, NEVER);
    return result;
}

long serve_fork(struct trap *trap)
{
    return fork_turning(trap, 0, trap->call == SYS_vfork);
}

long serve_clone(struct trap *trap)
{
    struct request request;
    if (!read_request(trap, &request))
        return -EINVAL;
    uint64_t flags = request.arguments.flags,
             cleared = flags & CLONE_CHILD_CLEARTID ? request.arguments.child_tid : 0;
    if (flags & (CLONE_NEWPID | CLONE_PARENT | CLONE_FILES) && !(flags & CLONE_THREAD))
        return start_outside(
            trap, flags, "it is made with CLONE_NEWPID, CLONE_PARENT or CLONE_FILES");
    if (!(flags & CLONE_VM))
        return fork_turning(trap, cleared, false);
    if (flags & CLONE_VFORK) /* (without a stack the child would return on this one) */
        return request.arguments.stack ? make_guest(trap, &request)
                                       : fork_turning(trap, cleared, true);
    if (!(flags & CLONE_THREAD) || !(flags & CLONE_SETTLS)) {
        tell_unserved(trap,
            "a task that shares memory and has no memory of a thread's own is refused with ENOSYS");
        return -ENOSYS;
    }
    return make_turning(trap, &request);
}
