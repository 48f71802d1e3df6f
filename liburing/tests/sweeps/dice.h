/* Random steps on two rings, by seeds: each seed has a process of its own, and prints a line for
 * each of its steps. */
#ifndef DICE_H
#define DICE_H

#include "sweeps.h"

#include <sys/wait.h>

enum { FILES = 7, PLACES = 8, PLACE = 4096 };

static struct ring ring, second;
static int files[FILES], eventfds[2];
static _Alignas(4096) char memory[PLACES][PLACE];
static uint64_t state, next_number, next_tag;

/* A number below this one. */
static inline uint32_t dice(uint32_t sides)
{
    state = state * 6364136223846793005ull + 1442695040888963407ull;
    return (uint32_t)((state >> 33) % sides);
}

/* Whether one throw of so many is a one. */
static inline bool once_in(uint32_t sides)
{
    return dice(sides) == 0;
}

/* A descriptor, mostly of a file. */
static inline int any_file(void)
{
    switch (dice(10)) {
    case 0:
        return -1;
    case 1:
        return 999;
    case 2:
        return -2;
    case 3:
        return ring.fd;
    default:
        return files[dice(FILES)];
    }
}

/* Prints what a ring has posted, by user data. */
static inline void tell_posted(struct ring *it, const char *name)
{
    struct seen found[64];
    unsigned count = 0;
    for (int i = 0; i < 3; i++) {
        enter(it, 0, 0, IORING_ENTER_GETEVENTS);
        while (count < count_of(found) && count_ready(it) > 0)
            found[count++] = next_of(it);
    }
    printf("%s", count ? name : "");
    tell_sorted(found, count);
}

static inline void tell_step(void)
{
    uint64_t count;
    tell_posted(&ring, ", posts");
    tell_posted(&second, ", the second posts");
    for (int i = 0; i < 2; i++)
        if (read(eventfds[i], &count, sizeof count) == sizeof count)
            printf(", eventfd %d", i);
    printf("\n");
}

static inline struct io_uring_sqe *put_step(uint8_t code)
{
    return put(&ring, code, next_number++, 0);
}

/* Submits what was put, prints what the call says, and waits for what goes by another thread. */
static inline void submit(const char *what)
{
    unsigned before = count_ready(&ring);
    long result = enter(&ring, 1, 0, 0);
    printf("%s %d: %ld", what, (int)next_number - 1, result);
    if (result <= 0)
        __atomic_store_n(sq_word(&ring, ring.params.sq_off.tail),
            *sq_word(&ring, ring.params.sq_off.head), __ATOMIC_RELEASE);
    else if (count_ready(&ring) == before)
        enter_for(&ring, 1, limit());
}

static inline void set_out(uint64_t seed, unsigned flags)
{
    int ends[2];
    state = seed * 0x9e3779b97f4a7c15ull + 12345;
    subject = 0;
    next_number = 1;
    next_tag = 1000;
    check(pipe(ends) == 0);
    files[0] = ends[0];
    files[1] = ends[1];
    files[2] = open("/dev/zero", O_RDWR);
    files[3] = make_file();
    check(write(files[3], "0123456789abcdefghijklmnopqrstuvwxyz", 36) == 36);
    files[4] = open("/dev/null", O_RDWR);
    files[5] = open("/tmp", O_PATH);
    files[6] = eventfd(0, EFD_NONBLOCK);
    for (int i = 0; i < 2; i++)
        eventfds[i] = eventfd(0, EFD_NONBLOCK);
    make_ring(&ring, 32, 0, flags);
    make_ring(&second, 32, 0, 0);
}

/* Makes so many steps of so many seeds, from the one on that the environment says: `make` prints
 * what a step is and what its call says. */
static inline int play(unsigned seeds, unsigned steps, unsigned flags, void (*make)(void))
{
    const char *said = getenv("SWEEP_FIRST");
    unsigned first = said ? (unsigned)atoi(said) : 1;
    signal(SIGPIPE, SIG_IGN);
    for (unsigned seed = first; seed < first + seeds; seed++) {
        fflush(stdout);
        pid_t child = fork();
        if (child == 0) {
            set_out(seed, flags);
            for (unsigned i = 0; i < steps; i++) {
                printf("seed %u, step %u, ", seed, i);
                make();
                tell_step();
            }
            fflush(stdout);
            _exit(0);
        }
        int status;
        check(waitpid(child, &status, 0) == child);
        if (status != 0)
            printf("seed %u: its process ends with %x\n", seed, status);
    }
    return 0;
}

#endif
