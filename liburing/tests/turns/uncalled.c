/* Right programs that submit, and then wait elsewhere than in a call of the ring for what that
 * brings, as the kernel's rings allow. By mode:
 *
 *   pipe     what is written to a pipe is read by read(2)
 *   chain    the same of two writes, one after the other
 *   told     a no-op's end is read from an eventfd
 *   timed    so is that of a timeout
 *   later    so is that of a read of a pipe, into which another thread writes later
 *   ended    the thread that submits ends, and another one reads
 *   spun     one thread submits and reads, and another yields until then
 *   all      all of these
 *
 * Status 0: all was as it is to be.
 */
#define _GNU_SOURCE
#include "../trapped/modes.h"
#include "../trapped/trapped.h"

#include <linux/time_types.h>
#include <pthread.h>
#include <sched.h>
#include <sys/eventfd.h>
#include <time.h>

static struct ring ring;
static int ends[2], told;
static uint32_t tail;

/* Publishes an entry, as one of a few. */
static void push(struct io_uring_sqe entry)
{
    uint32_t slot = tail % ring.params.sq_entries;
    ring.entries[slot] = entry;
    ((uint32_t *)(ring.sq + ring.params.sq_off.array))[slot] = slot;
    __atomic_store_n((uint32_t *)(ring.sq + ring.params.sq_off.tail), ++tail, __ATOMIC_RELEASE);
}

static void push_write(const char *letters, uint8_t flags)
{
    push((struct io_uring_sqe){.opcode = IORING_OP_WRITE,
        .fd = ends[1],
        .addr = (uintptr_t)letters,
        .len = (uint32_t)strlen(letters),
        .off = (uint64_t)-1,
        .flags = flags});
}

/* Submits, and asks for nothing. */
static void submit(unsigned count)
{
    WANT(call(SYS_io_uring_enter, ring.fd, count, 0, 0, 0, 0) == count);
}

static void begin(void)
{
    tail = 0;
    ring = set_up_alone(0);
    WANT(pipe(ends) == 0);
}

static void end(void)
{
    WANT(close(ring.fd) == 0 && close(ends[0]) == 0 && close(ends[1]) == 0);
}

static void hear_ends(void)
{
    told = eventfd(0, 0);
    WANT(told >= 0 &&
         call(SYS_io_uring_register, ring.fd, IORING_REGISTER_EVENTFD, (long)&told, 1, 0, 0) == 0);
}

static void want_end(void)
{
    uint64_t count = 0;
    WANT(read(told, &count, sizeof count) == sizeof count && count == 1 && close(told) == 0);
}

static void want_letters(const char *letters)
{
    char room[8];
    for (; *letters; letters++)
        WANT(read(ends[0], room, 1) == 1 && room[0] == *letters);
}

static void of_pipe(void)
{
    begin();
    push_write("a", 0);
    submit(1);
    want_letters("a");
    end();
}

static void of_chain(void)
{
    begin();
    push_write("b", IOSQE_IO_LINK);
    push_write("c", 0);
    submit(2);
    want_letters("bc");
    end();
}

static void of_told(void)
{
    begin();
    hear_ends();
    push((struct io_uring_sqe){.opcode = IORING_OP_NOP});
    submit(1);
    want_end();
    end();
}

static void of_timed(void)
{
    struct __kernel_timespec time = {0, 5000000};
    begin();
    hear_ends();
    push((struct io_uring_sqe){.opcode = IORING_OP_TIMEOUT, .addr = (uintptr_t)&time, .len = 1});
    submit(1);
    want_end();
    end();
}

static void *write_later(void *unused)
{
    const struct timespec moment = {0, 3000000};
    nanosleep(&moment, NULL);
    WANT(write(ends[1], "d", 1) == 1);
    return unused;
}

static void of_later(void)
{
    char letter = 0;
    pthread_t thread;
    begin();
    hear_ends();
    WANT(pthread_create(&thread, NULL, write_later, NULL) == 0);
    push((struct io_uring_sqe){.opcode = IORING_OP_READ,
        .fd = ends[0],
        .addr = (uintptr_t)&letter,
        .len = 1,
        .off = (uint64_t)-1});
    submit(1);
    want_end();
    WANT(letter == 'd' && pthread_join(thread, NULL) == 0);
    end();
}

static void *submit_alone(void *unused)
{
    push_write("e", 0);
    submit(1);
    return unused;
}

static void of_ended(void)
{
    pthread_t thread;
    begin();
    WANT(pthread_create(&thread, NULL, submit_alone, NULL) == 0 && pthread_join(thread, NULL) == 0);
    want_letters("e");
    end();
}

static int has_read;

static void *yield_till_read(void *unused)
{
    while (!__atomic_load_n(&has_read, __ATOMIC_SEQ_CST))
        sched_yield();
    return unused;
}

static void of_spun(void)
{
    pthread_t thread;
    begin();
    has_read = 0;
    WANT(pthread_create(&thread, NULL, yield_till_read, NULL) == 0);
    push_write("f", 0);
    submit(1);
    want_letters("f");
    __atomic_store_n(&has_read, 1, __ATOMIC_SEQ_CST);
    WANT(pthread_join(thread, NULL) == 0);
    end();
}

static void all(void)
{
    of_pipe();
    of_chain();
    of_told();
    of_timed();
    of_later();
    of_ended();
}

int main(int argc, char **argv)
{
    static const struct mode modes[] = {{"pipe", of_pipe}, {"chain", of_chain}, {"told", of_told},
        {"timed", of_timed}, {"later", of_later}, {"ended", of_ended}, {"spun", of_spun},
        {"all", all}};
    return run_mode(modes, sizeof modes / sizeof *modes, argc, argv);
}
