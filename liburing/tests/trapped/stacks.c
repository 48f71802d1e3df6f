/* A program that is linked with nothing of ours, and calls where stacks are small, and waits with
 * masks. It is run by uring-run.
 *
 *   stacks masks | small | deep | keys | memory
 *
 * Status 0: all was as it is to be. Else a line says what wasn't.
 */
#define _GNU_SOURCE
#include "coroutines.h"
#include "modes.h"

#include <alloca.h>
#include <fcntl.h>
#include <limits.h>
#include <pthread.h>
#include <signal.h>
#include <sys/auxv.h>
#include <sys/resource.h>
#include <sys/select.h>
#include <time.h>

static const struct ring *called;
static volatile sig_atomic_t calls;

static void call_in_handler(int number)
{
    (void)number;
    WANT(call(SYS_io_uring_enter, called->fd, 0, 0, 0, 0, 0) == 0);
    calls++;
}

static void *call_once(void *none)
{
    WANT(call(SYS_io_uring_enter, called->fd, 0, 0, 0, 0, 0) == 0);
    return none;
}

static void want_call(bool is_interrupted)
{
    WANT(is_interrupted && calls == 1);
    calls = 0;
    WANT(raise(SIGUSR1) == 0 && calls == 0);
}

/* A signal waits that the mask of a wait lets come, and no other: its handler may call. */
static void masks(void)
{
    const struct sigaction action = {.sa_handler = call_in_handler};
    const struct timespec soon = {.tv_sec = 10};
    struct ring ring = set_up(0), other = set_up(0);
    struct pollfd polled[1] = {{.fd = -1}};
    struct epoll_event event;
    sigset_t own, all;
    uint64_t word;
    int instance = epoll_create1(0), ends[2];
    pthread_attr_t attributes;
    pthread_t thread;
    called = &other;
    sigemptyset(&own);
    sigaddset(&own, SIGUSR1);
    WANT(sigaction(SIGUSR1, &action, NULL) == 0 && sigprocmask(SIG_BLOCK, &own, NULL) == 0 &&
         raise(SIGUSR1) == 0);
    sigfillset(&all);
    sigdelset(&all, SIGUSR1);
    memcpy(&word, &all, sizeof word);
    want_call(sigsuspend(&all) < 0);
    want_call(ppoll(polled, 1, &soon, &all) < 0);
    want_call(pselect(0, NULL, NULL, NULL, &soon, &all) < 0);
    want_call(epoll_pwait(instance, &event, 1, 10000, &all) < 0);
    want_call(epoll_pwait2(instance, &event, 1, &soon, &all) < 0);
    WANT(pipe(ends) == 0);
    publish(&ring, (struct io_uring_sqe){
                       .opcode = IORING_OP_POLL_ADD, .fd = ends[0], .poll32_events = POLLIN});
    WANT(enter(&ring, 1, 0, NULL) == 1);
    want_call(enter(&ring, 0, 1, &word) < 0);
    sigfillset(&all);
    WANT(pthread_attr_init(&attributes) == 0 && pthread_attr_setsigmask_np(&attributes, &all) == 0);
    WANT(pthread_create(&thread, &attributes, call_once, NULL) == 0 &&
         pthread_join(thread, NULL) == 0);
}

struct small {
    struct ring ring;
    char *byte;
    int ends[2];
};

/* No function of the program's has room to spare: an open, a read that waits, and as many no-ops as
 * it takes to have the call rewritten. */
static void *call_on_small(void *of)
{
    struct small *small = of;
    struct ring *ring = &small->ring;
    uint32_t *tail = (uint32_t *)(ring->sq + ring->params.sq_off.tail);
    ring->entries[0] = (struct io_uring_sqe){
        .opcode = IORING_OP_OPENAT, .fd = AT_FDCWD, .addr = (uintptr_t) "/dev/null"};
    for (uint32_t i = 0; i < 40; i++) {
        if (i == 1)
            ring->entries[0] = (struct io_uring_sqe){.opcode = IORING_OP_READ,
                .fd = small->ends[0],
                .addr = (uintptr_t)small->byte,
                .len = 1};
        else if (i > 1)
            ring->entries[0] = (struct io_uring_sqe){.opcode = IORING_OP_NOP};
        __atomic_store_n(tail, i + 1, __ATOMIC_RELEASE);
        WANT(call(SYS_io_uring_enter, ring->fd, 1, 1, IORING_ENTER_GETEVENTS, 0, 0) == 1);
        __atomic_store_n(
            (uint32_t *)(ring->sq + ring->params.cq_off.head), i + 1, __ATOMIC_RELEASE);
    }
    return NULL;
}

/* A stack for signals, on which the kernel's part of one has room, and a little more. */
static void *call_beside_signals(void *of)
{
    const size_t least = getauxval(AT_MINSIGSTKSZ) + 512, size = least > 4096 ? least : 4096;
    const stack_t signals = {.ss_sp = make_stack(size), .ss_size = size},
                  none = {.ss_flags = SS_DISABLE};
    WANT(sigaltstack(&signals, NULL) == 0);
    call_on_small(of);
    WANT(sigaltstack(&none, NULL) == 0);
    return NULL;
}

static struct small *of_coroutine;

static void call_in_coroutine(void)
{
    call_on_small(of_coroutine);
}

static void *call_on_coroutine(void *of)
{
    of_coroutine = of;
    run_coroutine(8192, call_in_coroutine);
    return NULL;
}

static void *write_soon(void *of)
{
    const struct small *small = of;
    usleep(50000);
    WANT(write(small->ends[1], "x", 1) == 1);
    return NULL;
}

/* Calls on a small stack: a thread's of this size, or another one, in this thread or in one with a
 * stack as it comes. */
static void want_calls(void *(*function)(void *), bool is_here, size_t size)
{
    static char byte;
    static struct small small;
    pthread_attr_t attributes;
    pthread_t thread, writer;
    byte = '-';
    small = (struct small){.ring = set_up(0), .byte = &byte};
    WANT(pipe(small.ends) == 0 && pthread_attr_init(&attributes) == 0 &&
         (size == 0 || pthread_attr_setstacksize(&attributes, size) == 0));
    WANT(pthread_create(&writer, NULL, write_soon, &small) == 0);
    if (is_here)
        function(&small);
    else
        WANT(pthread_create(&thread, &attributes, function, &small) == 0 &&
             pthread_join(thread, NULL) == 0);
    WANT(pthread_join(writer, NULL) == 0 && byte == 'x');
}

/* A thread may have the smallest stack there is, or signals or coroutines on such ones. */
static void small_stacks(void)
{
    want_calls(call_on_small, false, 16384);
    for (int is_here = 0; is_here < 2; is_here++) {
        want_calls(call_beside_signals, is_here, 0);
        want_calls(call_on_coroutine, is_here, 0);
    }
}

static volatile uintptr_t handled_at;

static void note_place(int number)
{
    (void)number;
    handled_at = (uintptr_t)__builtin_frame_address(0);
}

/* How much of a stack the kernel's part of a signal takes, which may be less than it may take at
 * most. */
static size_t size_of_signal(void)
{
    const struct sigaction action = {.sa_handler = note_place};
    WANT(sigaction(SIGUSR2, &action, NULL) == 0 && raise(SIGUSR2) == 0);
    return (uintptr_t)__builtin_frame_address(0) - handled_at;
}

/* A large stack of which no more is left than that, and a little. */
static void *call_deep(void *of)
{
    const size_t least = size_of_signal() + 1536;
    pthread_attr_t attributes;
    void *lowest;
    size_t size;
    WANT(pthread_getattr_np(pthread_self(), &attributes) == 0 &&
         pthread_attr_getstack(&attributes, &lowest, &size) == 0 &&
         pthread_attr_destroy(&attributes) == 0);
    volatile char *taken = alloca(
        (uintptr_t)__builtin_frame_address(0) - (uintptr_t)lowest - least);
    taken[0] = 1;
    return call_on_small(of);
}

static void deep_stacks(void)
{
    struct rlimit limit;
    want_calls(call_deep, false, 0);
    want_calls(call_deep, false, 1 << 18);
    WANT(getrlimit(RLIMIT_STACK, &limit) == 0);
    if (limit.rlim_cur != RLIM_INFINITY)
        want_calls(call_deep, true, 0);
}

/* A program may have all keys of the C library's: none has anything else after calls. */
static void all_keys(void)
{
    static pthread_key_t keys[PTHREAD_KEYS_MAX];
    size_t count = 0;
    while (count < PTHREAD_KEYS_MAX && pthread_key_create(&keys[count], NULL) == 0)
        count++;
    for (size_t i = 0; i < count; i++)
        WANT(pthread_setspecific(keys[i], &keys[i]) == 0);
    want_calls(call_on_small, false, 16384);
    want_calls(call_on_small, true, 0);
    struct ring ring = set_up(0);
    struct io_uring_rsrc_update row = {.offset = (uint32_t)-1, .data = (uint64_t)ring.fd};
    WANT(call(SYS_io_uring_register, ring.fd, IORING_REGISTER_RING_FDS, (long)&row, 1, 0, 0) == 1);
    for (size_t i = 0; i < count; i++)
        WANT(pthread_getspecific(keys[i]) == &keys[i]);
}

static void limit_memory(rlim_t most)
{
    struct rlimit limit;
    WANT(getrlimit(RLIMIT_AS, &limit) == 0);
    limit.rlim_cur = most;
    WANT(setrlimit(RLIMIT_AS, &limit) == 0);
}

/* There is no memory for a stack of the layer's, and then there is. */
static void *call_without_memory(void *of)
{
    const struct ring *ring = of;
    limit_memory(1 << 20);
    long result = call(SYS_io_uring_enter, ring->fd, 0, 0, 0, 0, 0);
    limit_memory(RLIM_INFINITY);
    WANT(result == -ENOMEM);
    return call_once(NULL);
}

static void no_memory(void)
{
    struct ring ring = set_up(0);
    pthread_attr_t attributes;
    pthread_t thread;
    called = &ring;
    WANT(pthread_attr_init(&attributes) == 0 && pthread_attr_setstacksize(&attributes, 65536) == 0);
    WANT(pthread_create(&thread, &attributes, call_without_memory, &ring) == 0 &&
         pthread_join(thread, NULL) == 0);
}

int main(int argc, char **argv)
{
    static const struct mode modes[] = {{"masks", masks}, {"small", small_stacks},
        {"deep", deep_stacks}, {"keys", all_keys}, {"memory", no_memory}};
    return run_mode(modes, sizeof modes / sizeof *modes, argc, argv);
}
