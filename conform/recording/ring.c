/* The recorder's ring. */
#define _GNU_SOURCE
#include "ring.h"

#include <dirent.h>
#include <errno.h>
#include <poll.h>
#include <stdio.h>
#include <stdlib.h>
#include <string.h>
#include <sys/mman.h>
#include <sys/syscall.h>
#include <time.h>
#include <unistd.h>

enum { TURN = 3000000 /* nanoseconds */, MOST_TURNS = 5000 };

struct ring ring;
static int files[MOST_FILES];
static unsigned file_count;
static uint64_t awaited[MOST_ITEMS]; /* the names of those that don't skip and weren't seen */
static unsigned awaited_count;

void stop(int status, const char *why)
{
    fprintf(stderr, "record: %s\n", why);
    exit(status);
}

void must(bool is_well, const char *what)
{
    if (!is_well) {
        fprintf(stderr, "record: %s: %s\n", what, strerror(errno));
        exit(1);
    }
}

bool can_open_ring(struct setup asked)
{
    struct io_uring_params parameters = {
        .flags = IORING_SETUP_CQSIZE | (asked.is_stop ? 0 : IORING_SETUP_SUBMIT_ALL) | asked.flags,
        .cq_entries = asked.cq};
    ring.descriptor = (int)syscall(__NR_io_uring_setup, asked.sq, &parameters);
    if (ring.descriptor < 0)
        return false;
    ring.features = parameters.features;
    size_t sq_bytes = parameters.sq_off.array + parameters.sq_entries * sizeof(unsigned);
    size_t cq_bytes = parameters.cq_off.cqes + parameters.cq_entries * sizeof(struct io_uring_cqe);
    char *sq = mmap(NULL, sq_bytes, PROT_READ | PROT_WRITE, MAP_SHARED | MAP_POPULATE,
        ring.descriptor, IORING_OFF_SQ_RING);
    char *cq = mmap(NULL, cq_bytes, PROT_READ | PROT_WRITE, MAP_SHARED | MAP_POPULATE,
        ring.descriptor, IORING_OFF_CQ_RING);
    ring.entries = mmap(NULL, parameters.sq_entries * sizeof(struct io_uring_sqe),
        PROT_READ | PROT_WRITE, MAP_SHARED | MAP_POPULATE, ring.descriptor, IORING_OFF_SQES);
    must(sq != MAP_FAILED && cq != MAP_FAILED && (void *)ring.entries != MAP_FAILED, "mmap");
    ring.sq_head = (unsigned *)(sq + parameters.sq_off.head);
    ring.sq_tail = (unsigned *)(sq + parameters.sq_off.tail);
    ring.sq_array = (unsigned *)(sq + parameters.sq_off.array);
    ring.sq_dropped = (unsigned *)(sq + parameters.sq_off.dropped);
    ring.sq_entries = parameters.sq_entries;
    ring.sq_mask = parameters.sq_entries - 1;
    ring.cq_head = (unsigned *)(cq + parameters.cq_off.head);
    ring.cq_tail = (unsigned *)(cq + parameters.cq_off.tail);
    ring.cq_mask = parameters.cq_entries - 1;
    ring.completions = (struct io_uring_cqe *)(cq + parameters.cq_off.cqes);
    ring.is_head_stored = true;
    file_count = asked.files;
    for (unsigned at = 0; at < file_count; at++) {
        char name[] = "/tmp/conform-XXXXXX";
        files[at] = mkstemp(name);
        must(files[at] >= 0, "mkstemp");
        unlink(name);
    }
    return true;
}

void open_ring(struct setup asked)
{
    if (!can_open_ring(asked))
        stop(NO_RING, strerror(errno));
}

int descriptor_of(const char *word)
{
    int number = atoi(word);
    return number >= 0 && number < (int)file_count ? files[number] : -1;
}

void await(uint64_t user_data)
{
    if (awaited_count == MOST_ITEMS)
        stop(BAD_LINE, "too many items");
    awaited[awaited_count++] = user_data;
}

bool is_any_awaited(void)
{
    return awaited_count > 0;
}

/* Takes a completion's name from those that are awaited. */
static void came(uint64_t user_data)
{
    for (unsigned at = 0; at < awaited_count; at++)
        if (awaited[at] == user_data) {
            awaited[at] = awaited[--awaited_count];
            return;
        }
}

/* Looks at the completion ring, and tells what is new there. */
static void look(void)
{
    unsigned tail = __atomic_load_n(ring.cq_tail, __ATOMIC_ACQUIRE);
    if (tail != ring.seen)
        printf("tail %u\n", tail);
    for (; ring.seen != tail; ring.seen++) {
        struct io_uring_cqe *it = &ring.completions[ring.seen & ring.cq_mask];
        printf("cqe %llu %d\n", (unsigned long long)it->user_data, it->res);
        came(it->user_data);
    }
    if (ring.is_head_stored && *ring.cq_head != ring.seen) {
        __atomic_store_n(ring.cq_head, ring.seen, __ATOMIC_RELEASE);
        printf("head %u\n", ring.seen);
    }
}

unsigned left_staged(void)
{
    return ring.staged - __atomic_load_n(ring.sq_head, __ATOMIC_ACQUIRE);
}

void call(unsigned asked, unsigned flags)
{
    __atomic_store_n(ring.sq_tail, ring.staged, __ATOMIC_RELEASE);
    long returned;
    do
        returned = syscall(__NR_io_uring_enter, ring.descriptor, asked, 0, flags, NULL, 0);
    while (returned < 0 && errno == EINTR);
    if (flags)
        printf("events\n");
    if (asked || !flags)
        printf("call %u %ld %u %u\n", asked, returned < 0 ? -(long)errno : returned,
            __atomic_load_n(ring.sq_head, __ATOMIC_ACQUIRE),
            __atomic_load_n(ring.sq_dropped, __ATOMIC_RELAXED));
    look();
}

bool wait_for(unsigned count)
{
    unsigned until = ring.seen + count;
    while ((int)(until - ring.seen) > 0) {
        /* (what overflowed comes by a call for events) */
        if (!poll(&(struct pollfd){.fd = ring.descriptor, .events = POLLIN}, 1, 500))
            return false;
        unsigned before = ring.seen;
        look();
        if (ring.seen == before)
            call(0, IORING_ENTER_GETEVENTS);
        if (ring.seen == before)
            return false;
    }
    return true;
}

/* Whether a thread of this process but its first one runs, or waits for a disk: the kernel's
 * workers are its threads, and sleep when they have nothing to do. */
static bool has_busy_worker(void)
{
    DIR *tasks = opendir("/proc/self/task");
    bool is_busy = false;
    for (struct dirent *it; tasks && !is_busy && (it = readdir(tasks));) {
        char path[300], text[200];
        if (it->d_name[0] == '.' || atoi(it->d_name) == getpid())
            continue;
        snprintf(path, sizeof path, "/proc/self/task/%s/stat", it->d_name);
        FILE *file = fopen(path, "r");
        char *name_end = file && fgets(text, sizeof text, file) ? strrchr(text, ')') : NULL;
        is_busy = name_end && (name_end[2] == 'R' || name_end[2] == 'D');
        if (file)
            fclose(file);
    }
    if (tasks)
        closedir(tasks);
    return is_busy;
}

/* Waits until the workers have nothing to do, and no longer than some 15 seconds: on a busy machine
 * they may be late. */
static void wait_for_workers(void)
{
    for (int turn = 0; turn < MOST_TURNS && has_busy_worker(); turn++)
        nanosleep(&(struct timespec){.tv_nsec = TURN}, NULL);
}

void wait_for_quiet(void)
{
    for (int quiet = 0; quiet < 3;) {
        unsigned before = ring.seen;
        nanosleep(&(struct timespec){.tv_nsec = TURN}, NULL);
        wait_for_workers();
        call(0, IORING_ENTER_GETEVENTS);
        quiet = ring.seen == before ? quiet + 1 : 0;
    }
}
