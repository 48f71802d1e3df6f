/* Tests by direct calls: a signal's handler that leaves a wait by a jump, or calls in it, and how a
 * thread ends after that. All hold under every policy, and on a real ring. A test that hangs ends
 * by an alarm.
 */
#define _GNU_SOURCE
#include "asleep.h"
#include "engines.h"

#include <poll.h>
#include <setjmp.h>
#include <ucontext.h>

/* ---- what is waited for, and whether it is gone ---- */

/* A ring that keeps a pipe's end open, as a registered file, and has a poll outstanding that
 * nothing ends. */
struct waited {
    struct ring ring;
    int quiet[2], kept[2];
};

static void make_waited(struct waited *waited)
{
    check(pipe(waited->quiet) == 0 && pipe(waited->kept) == 0);
    make_ring(&waited->ring, 8, 0, 0);
    check(register_at(waited->ring.fd, IORING_REGISTER_FILES, &waited->kept[1], 1) == 0);
    close(waited->kept[1]);
    put_plain(&waited->ring, IORING_OP_POLL_ADD, 1, waited->quiet[0])->poll32_events = POLLIN;
    check(enter(&waited->ring, 1, 0, 0) == 1);
}

/* Closes it: the other end of its pipe tells once the ring is gone, at the next set-up at the
 * latest. */
static void expect_gone(struct waited *waited)
{
    struct ring other;
    struct pollfd end = {.fd = waited->kept[0], .events = POLLIN};
    char byte;
    close_ring(&waited->ring);
    make_ring(&other, 1, 0, 0);
    check(poll(&end, 1, 5000 * patience()) == 1 && read(waited->kept[0], &byte, 1) == 0);
    close_ring(&other);
    close(waited->kept[0]);
    close(waited->quiet[0]);
    close(waited->quiet[1]);
}

static void expect_good(struct waited *waited)
{
    submit_nop(&waited->ring, 7);
    check(wait_for_one(&waited->ring) == 0);
}

/* ---- signals ---- */

static __thread sigjmp_buf back;
static __thread volatile sig_atomic_t may_jump;

static void jump(int number)
{
    (void)number;
    if (!may_jump)
        return;
    may_jump = 0;
    siglongjmp(back, 1);
}

static void catch (int number, void (*handler)(int), int flags)
{
    struct sigaction action = {.sa_handler = handler, .sa_flags = flags};
    check(sigaction(number, &action, NULL) == 0);
}

__attribute__((noinline)) static void leave_wait(struct ring *ring, int number)
{
    volatile pid_t child;
    if (sigsetjmp(back, 1) == 0) {
        may_jump = 1;
        child = signal_asleep(number);
        check(enter(ring, 0, 1, IORING_ENTER_GETEVENTS) == 0 && may_jump < 0);
    }
    check(has_signalled(child));
}

/* Fills the stack below, where calls stood. */
__attribute__((noinline)) static void fill_stack(struct ring *ring)
{
    volatile char bytes[60000];
    for (size_t i = 0; i < sizeof bytes; i++)
        bytes[i] = 0x41;
    if (ring)
        check(enter(ring, 0, 0, 0) == 0 && bytes[0] == 0x41);
}

/* ---- the tests ---- */

static void test_left(void)
{
    struct waited waited;
    catch (SIGUSR1, jump, 0);
    make_waited(&waited);
    leave_wait(&waited.ring, SIGUSR1);
    fill_stack(NULL);
    expect_good(&waited);
    expect_gone(&waited);
}

/* The next calls stand deeper on the stack. */
static void test_left_for_deeper(void)
{
    struct waited waited;
    catch (SIGUSR1, jump, 0);
    make_waited(&waited);
    leave_wait(&waited.ring, SIGUSR1);
    fill_stack(&waited.ring);
    expect_gone(&waited);
}

/* What a sleep takes is given back by the next call. */
static void test_left_often(void)
{
    struct waited waited;
    catch (SIGUSR1, jump, 0);
    make_waited(&waited);
    leave_wait(&waited.ring, SIGUSR1);
    expect_good(&waited);
    size_t before = count_descriptors();
    for (int i = 0; i < 30; i++)
        leave_wait(&waited.ring, SIGUSR1);
    expect_good(&waited);
    check(count_descriptors() == before);
    expect_gone(&waited);
}

static void *submit_in_thread(void *ring)
{
    for (unsigned i = 0; i < 3; i++)
        submit_nop(ring, i);
    return NULL;
}

/* Another thread wakes those that sleep. */
static void test_left_beside_thread(void)
{
    struct waited waited;
    pthread_t thread;
    int32_t results[3];
    catch (SIGUSR1, jump, 0);
    make_waited(&waited);
    leave_wait(&waited.ring, SIGUSR1);
    fill_stack(NULL);
    check(pthread_create(&thread, NULL, submit_in_thread, &waited.ring) == 0 &&
          pthread_join(thread, NULL) == 0);
    reap_all(&waited.ring, 3, results);
    expect_gone(&waited);
}

static struct waited inner;
static volatile long inner_result;

static void wait_in_handler(int number)
{
    int kept = errno;
    (void)number;
    inner_result = enter_for(&inner.ring, 1, 1000000);
    errno = kept;
}

static void leave_in_handler(int number)
{
    int kept = errno;
    (void)number;
    leave_wait(&inner.ring, SIGUSR2);
    inner_result = -ETIME;
    errno = kept;
}

static void expect_interrupted(struct waited *waited)
{
    inner_result = 0;
    pid_t child = signal_asleep(SIGUSR1);
    check(enter(&waited->ring, 0, 1, IORING_ENTER_GETEVENTS) == -EINTR && inner_result == -ETIME);
    check(has_signalled(child));
}

/* A handler that waits too, and returns; or waits, and leaves that wait by a jump, and returns. The
 * outer wait goes on. */
static void test_wait_in_wait(void)
{
    void (*const handlers[])(int) = {wait_in_handler, leave_in_handler};
    catch (SIGUSR2, jump, 0);
    for (int i = 0; i < 2; i++) {
        struct waited waited;
        make_waited(&waited);
        make_waited(&inner);
        catch (SIGUSR1, handlers[i], 0);
        expect_interrupted(&waited);
        expect_good(&waited);
        expect_good(&inner);
        expect_gone(&inner);
        expect_gone(&waited);
    }
}

/* The same of a handler on a stack of its own, which stands above or below. */
static void test_other_stack(void)
{
    enum { SIZE = 1 << 18 };
    char *memory = mmap(NULL, SIZE, PROT_READ | PROT_WRITE, MAP_PRIVATE | MAP_ANONYMOUS, -1, 0);
    static char low[SIZE];
    char *const places[] = {memory, low};
    check(memory != MAP_FAILED);
    for (int i = 0; i < 2; i++) {
        stack_t stack = {.ss_sp = places[i], .ss_size = SIZE}, before;
        struct waited waited;
        make_waited(&waited);
        make_waited(&inner);
        check(sigaltstack(&stack, &before) == 0);
        catch (SIGUSR1, wait_in_handler, SA_ONSTACK);
        expect_interrupted(&waited);
        catch (SIGUSR1, jump, SA_ONSTACK);
        leave_wait(&waited.ring, SIGUSR1);
        expect_good(&waited);
        check(sigaltstack(&before, NULL) == 0);
        expect_gone(&inner);
        expect_gone(&waited);
    }
    munmap(memory, SIZE);
}

static struct waited *of_own_stack;

static void wait_on_own_stack(void)
{
    enter(&of_own_stack->ring, 0, 1, IORING_ENTER_GETEVENTS);
    check(false);
}

/* The wait stood on a stack of the program's own, which is no memory any more. */
static void test_stack_is_gone(void)
{
    enum { SIZE = 1 << 18 };
    char *memory = mmap(NULL, SIZE, PROT_READ | PROT_WRITE, MAP_PRIVATE | MAP_ANONYMOUS, -1, 0);
    struct waited waited;
    static ucontext_t own, rest;
    check(memory != MAP_FAILED && getcontext(&own) == 0);
    own.uc_stack = (stack_t){.ss_sp = memory, .ss_size = SIZE};
    own.uc_link = &rest;
    makecontext(&own, wait_on_own_stack, 0);
    make_waited(&waited);
    of_own_stack = &waited;
    catch (SIGUSR1, jump, 0);
    volatile pid_t child;
    if (sigsetjmp(back, 1) == 0) {
        may_jump = 1;
        child = signal_asleep(SIGUSR1);
        check(swapcontext(&rest, &own) == 0 && false);
    }
    check(has_signalled(child));
    check(munmap(memory, SIZE) == 0);
    expect_good(&waited);
    expect_gone(&waited);
}

static void end_thread(int number)
{
    (void)number;
    pthread_exit(NULL);
}

static void *leave_and_end(void *ring)
{
    leave_wait(ring, SIGUSR1);
    return NULL;
}

/* The thread ends after the jump, or in the handler, and makes no other call. */
static void test_thread_ends(void)
{
    void (*const handlers[])(int) = {jump, end_thread};
    for (int i = 0; i < 2; i++) {
        struct waited waited;
        pthread_t thread;
        make_waited(&waited);
        catch (SIGUSR1, handlers[i], 0);
        check(pthread_create(&thread, NULL, leave_and_end, &waited.ring) == 0 &&
              pthread_join(thread, NULL) == 0);
        expect_gone(&waited);
    }
}

static void *leave_and_stay(void *ring)
{
    leave_wait(ring, SIGUSR1);
    check(enter(ring, 0, 0, 0) == 0);
    while (true) {
        usleep(1000);
        pthread_testcancel();
    }
    return NULL;
}

/* After its next call such a thread can be cancelled as it could before. */
static void test_cancelled_after(void)
{
    struct waited waited;
    pthread_t thread;
    void *result;
    make_waited(&waited);
    catch (SIGUSR1, jump, 0);
    check(pthread_create(&thread, NULL, leave_and_stay, &waited.ring) == 0);
    check(pthread_cancel(thread) == 0);
    check(pthread_join(thread, &result) == 0);
    check(result == PTHREAD_CANCELED);
    expect_gone(&waited);
}

static void *allow_after(void *ring)
{
    int state, type;
    check(pthread_setcancelstate(PTHREAD_CANCEL_DISABLE, NULL) == 0 &&
          pthread_setcanceltype(PTHREAD_CANCEL_ASYNCHRONOUS, NULL) == 0);
    leave_wait(ring, SIGUSR1);
    check(pthread_setcancelstate(PTHREAD_CANCEL_ENABLE, NULL) == 0 &&
          pthread_setcanceltype(PTHREAD_CANCEL_DEFERRED, NULL) == 0);
    check(enter(ring, 0, 0, 0) == 0);
    check(pthread_setcancelstate(PTHREAD_CANCEL_ENABLE, &state) == 0 &&
          pthread_setcanceltype(PTHREAD_CANCEL_DEFERRED, &type) == 0);
    check(state == PTHREAD_CANCEL_ENABLE && type == PTHREAD_CANCEL_DEFERRED);
    return NULL;
}

/* A thread that allows it after the jump, in its own time alone, has it so after its next call. */
static void test_allowed_after(void)
{
    struct waited waited;
    pthread_t thread;
    make_waited(&waited);
    catch (SIGUSR1, jump, 0);
    check(pthread_create(&thread, NULL, allow_after, &waited.ring) == 0 &&
          pthread_join(thread, NULL) == 0);
    expect_gone(&waited);
}

static volatile pid_t child;

static void fork_and_jump(int number)
{
    child = fork();
    inner_result = -ETIME;
    if (child == 0)
        jump(number);
}

/* A child that is forked in a handler jumps, and has rings of its own; its parent goes on. */
static void test_child_jumps(void)
{
    struct waited waited;
    int status;
    make_waited(&waited);
    catch (SIGUSR1, fork_and_jump, 0);
    may_jump = 1;
    if (sigsetjmp(back, 1) == 0) {
        expect_interrupted(&waited);
    } else {
        struct waited own;
        make_waited(&own);
        expect_good(&own);
        expect_gone(&own);
        _exit(0);
    }
    check(waitpid(child, &status, 0) == child && status == 0);
    may_jump = 0;
    expect_good(&waited);
    expect_gone(&waited);
}

int main(int count, char **words)
{
    static const struct named tests[] = {
        {"left", test_left},
        {"left for deeper", test_left_for_deeper},
        {"left often", test_left_often},
        {"left beside a thread", test_left_beside_thread},
        {"wait in a wait", test_wait_in_wait},
        {"other stack", test_other_stack},
        {"stack is gone", test_stack_is_gone},
        {"thread ends", test_thread_ends},
        {"cancelled after", test_cancelled_after},
        {"allowed after", test_allowed_after},
        {"child jumps", test_child_jumps},
    };
    alarm((unsigned)(PATIENCE * patience()));
    return run_tests(tests, sizeof tests / sizeof *tests, count > 1 ? words[1] : NULL);
}
