/* A program may have its signals on a stack of its own, as the runtime of Go, whose other stacks
 * are small; coroutines have stacks that the program made (makecontext(3)); and a thread may have
 * been made with a small one (pthread_attr_setstacksize(3)), or have little of its own left. The
 * layer wants more than these may have: so it runs on one that is mapped for the thread, unless it
 * is called on the stack that the thread was made with, and there is room below. Meanwhile other
 * signals come on another part of that, where the program's own signal stack holds the frame that
 * this call returns to.
 */
#define _GNU_SOURCE
#include "rewriting.h"
#include "run.h"

#include <pthread.h>
#include <stddef.h>
#include <stdint.h>
#include <sys/auxv.h>
#include <sys/mman.h>
#include <sys/resource.h>

/* Of a thread's memory the lowest part is for signals, the next for traps, and the last for
 * bypasses. */
enum { SIGNAL_STACK = 1 << 17, STACK = 1 << 20, WHOLE = SIGNAL_STACK + 2 * STACK };

/* A thread was made with a small stack if it is below this. On a large one a call has this much
 * below it, or runs elsewhere. */
enum { LARGE = 1 << 17, ROOM_BELOW = 1 << 16 };

/* The stack that the thread was made with, once that is known, and the part of it where there is
 * room below, if it is large. */
static __thread struct stack made_with;
static __thread bool is_made_with_known;
__thread struct stack large_stack;

/* Where the program said that the thread's signal stack is. */
static __thread uintptr_t signals_at;

/* Of a thread: its memory, and other of as much, where the frame of a trap may stand; whether a
 * trapped call is on it, where that was made, where its trap's frame stands, and the program's
 * signal stack then; and the memory of the innermost. */
static __thread char *own, *spare;
static __thread bool is_in_use;
static __thread uintptr_t used_from, used_frame;
static __thread stack_t used_before;
static __thread const char *innermost;

/* By which the thread's memory is given back as that ends: a program may have taken all keys, and
 * then it stays. */
static pthread_key_t key;
static bool has_key;
static pthread_once_t once = PTHREAD_ONCE_INIT;

static void unmap(void *memory)
{
    munmap(memory, WHOLE);
}

/* A thread that ends has none; if it calls after this, it is trapped, and has another. */
static void end_thread(void *memory)
{
    if (spare)
        unmap(spare);
    own = spare = NULL;
    bypass_stack = NONE;
    unmap(memory);
}

static void make_key(void)
{
    has_key = pthread_key_create(&key, end_thread) == 0;
}

static void note_own(void)
{
    if (has_key)
        pthread_setspecific(key, own);
}

static char *map(void)
{
    void *memory = mmap(
        NULL, WHOLE, PROT_READ | PROT_WRITE, MAP_PRIVATE | MAP_ANONYMOUS | MAP_NORESERVE, -1, 0);
    return memory == MAP_FAILED ? NULL : memory;
}

static bool is_on_signal_stack(const ucontext_t *at)
{
    return at->uc_stack.ss_size > 0 &&
           (uintptr_t)at - (uintptr_t)at->uc_stack.ss_sp < at->uc_stack.ss_size;
}

static uintptr_t caller_of(const ucontext_t *at)
{
    return (uintptr_t)at->uc_mcontext.gregs[REG_RSP];
}

static void note_made_with(uintptr_t lowest, size_t size)
{
    made_with = (struct stack){lowest, size};
    is_made_with_known = true;
    if (size >= LARGE && !is_on(&made_with, signals_at))
        large_stack = (struct stack){lowest + ROOM_BELOW, size - ROOM_BELOW};
}

/* Where signals come on a part of the stack that the thread was made with, that isn't told from the
 * rest, and counts as small. */
void note_signal_stack(const stack_t *stack)
{
    if (stack->ss_flags & SS_DISABLE)
        return;
    signals_at = (uintptr_t)stack->ss_sp;
    if (is_on(&made_with, signals_at))
        large_stack.size = 0;
}

/* That of the process's first thread grows from the end of what the program was started with, down
 * to its limit. Where there is none, nothing else stands so near. */
__attribute__((constructor)) static void note_first_stack(void)
{
    const uintptr_t page = 4096, far = (uintptr_t)1 << 40,
                    top = (getauxval(AT_EXECFN) + page) / page * page;
    struct rlimit limit;
    if (top > page && getrlimit(RLIMIT_STACK, &limit) == 0) {
        uintptr_t size = limit.rlim_cur < far ? limit.rlim_cur : far;
        note_made_with(top - size, size);
    }
}

static void find_made_with(void)
{
    pthread_attr_t attributes;
    void *lowest = NULL;
    size_t size = 0;
    if (is_made_with_known)
        return;
    if (pthread_getattr_np(pthread_self(), &attributes) == 0) {
        pthread_attr_getstack(&attributes, &lowest, &size);
        pthread_attr_destroy(&attributes);
    }
    note_made_with((uintptr_t)lowest, size);
}

/* Whether the frame of a trap that stands below its call, or that call, is written over by this
 * one's. */
static bool is_written_over(const ucontext_t *at)
{
    enum { LONGEST = 1 << 14 };
    uintptr_t caller = caller_of(at), frame = (uintptr_t)at;
    return caller - frame < LONGEST && used_from - used_frame < LONGEST && frame <= used_from &&
           used_frame <= caller;
}

/* Whether the call that is on the thread's memory was left by a jump: its handlers run on the
 * layer's memory, and this call and that one are made on the stack that the thread was made with;
 * or on another, this one where that one was. */
static bool is_left(const ucontext_t *at)
{
    if (!is_in_use)
        return false;
    find_made_with();
    return (is_on(&made_with, caller_of(at)) && is_on(&made_with, used_from)) ||
           is_written_over(at);
}

/* Takes the thread's other memory: handlers of a call on this one would write over the trap's
 * frame. Returns whether there is any. */
static bool change_memory(void)
{
    char *other = spare ? spare : map();
    if (!other)
        return false;
    if (bypass_stack == (uintptr_t)own + WHOLE)
        bypass_stack = (uintptr_t)other + WHOLE;
    spare = own;
    own = other;
    note_own();
    return true;
}

/* The thread's memory is free again, and its signal stack the program's, unless the program has set
 * another since. Until then that is the layer's, and a trap has its frame there. */
static void leave(ucontext_t *at)
{
    if ((uintptr_t)at - (uintptr_t)own < WHOLE && !change_memory())
        return;
    is_in_use = false;
    if (at->uc_stack.ss_sp == innermost)
        at->uc_stack = used_before;
}

bool wants_own_stack(const ucontext_t *at)
{
    if (is_on_signal_stack(at))
        return true;
    find_made_with();
    return !is_on(&large_stack, caller_of(at));
}

struct task {
    void (*function)(void *);
    void *argument;
    stack_t signals, before;
};

/* Where the library has turns, these set it so, if the thread takes them. */
bool set_signal_stack_in_turns(const stack_t *stack) __attribute__((weak));

static void put_signal_stack(const stack_t *stack)
{
    if (!set_signal_stack_in_turns || !set_signal_stack_in_turns(stack))
        sigaltstack(stack, NULL);
}

static void run(void *argument)
{
    struct task *task = argument;
    bool has_signal_stack = task->before.ss_size > 0;
    if (has_signal_stack)
        put_signal_stack(&task->signals);
    task->function(task->argument);
    if (has_signal_stack)
        put_signal_stack(&task->before);
}

static void call_on(char *top, void (*function)(void *), void *argument)
{
    __asm__ volatile("mov %%rsp, %%rbx\n\t"
                     "mov %[top], %%rsp\n\t"
                     "call *%[function]\n\t"
                     "mov %%rbx, %%rsp"
                     : "+D"(argument)
                     : [top] "r"(top), [function] "r"(function)
                     : "rbx", "rax", "rcx", "rdx", "rsi", "r8", "r9", "r10", "r11", "xmm0", "xmm1",
                     "xmm2", "xmm3", "xmm4", "xmm5", "xmm6", "xmm7", "xmm8", "xmm9", "xmm10",
                     "xmm11", "xmm12", "xmm13", "xmm14", "xmm15", "memory", "cc");
}

static void make_own(void)
{
    pthread_once(&once, make_key);
    if (!own && (own = map()))
        note_own();
}

/* Once, and once more for calls on other stacks than the one that the thread was made with: a
 * bypass that a signal has left by a jump may still be on its stack, and then there is none. */
void allow_bypass(const ucontext_t *at)
{
    static __thread bool is_allowed;
    if (is_allowed && bypass_stack != HERE)
        return;
    find_made_with();
    if (wants_own_stack(at))
        make_own();
    is_allowed = true;
    bypass_stack = !wants_own_stack(at) ? HERE : own ? (uintptr_t)own + WHOLE : NONE;
}

static void note_use(const ucontext_t *at)
{
    is_in_use = true;
    used_from = caller_of(at);
    used_frame = (uintptr_t)at;
    used_before = at->uc_stack;
}

bool call_on_own_stack(ucontext_t *at, void (*function)(void *), void *argument)
{
    make_own();
    if (is_left(at))
        leave(at);
    /* A signal's handler that calls while its thread is in a call has another. */
    bool is_first = own && !is_in_use;
    char *memory = is_first ? own : map();
    if (!memory)
        return false;
    struct task task = {
        function, argument, {.ss_sp = memory, .ss_size = SIGNAL_STACK}, at->uc_stack};
    if (is_first)
        note_use(at);
    const char *outer = innermost;
    const void *before = wulgach_note_caller((const void *)caller_of(at));
    innermost = memory;
    call_on(memory + SIGNAL_STACK + STACK, run, &task);
    innermost = outer;
    wulgach_note_caller(before);
    if (is_first)
        is_in_use = false;
    else
        unmap(memory);
    return true;
}
