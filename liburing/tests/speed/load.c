/* The layer under load, by hand: `make -C liburing out/ours/load`.
 *
 *   load nops BATCH COUNT    no-ops in batches on one ring, and what each took
 *   load reads BATCH COUNT   reads of 4 KB of a file, at depth 64 as fio makes them: what is
 *                            submitted was reaped just before
 *   load chain LENGTH        one chain of no-ops
 *   load rings COUNT         so many rings at once, each used in turn, and freed again
 *   load threads COUNT CALLS so many threads on one ring: each submits and reaps, and all
 *                            completions are counted
 *   load long COUNT          so many requests of several kinds on one ring, and the memory that the
 *                            process had
 */
#define _GNU_SOURCE
#include "../direct/ring.h"

#include <inttypes.h>
#include <pthread.h>
#include <sys/resource.h>
#include <time.h>

static double processor_time(void)
{
    struct rusage used;
    getrusage(RUSAGE_SELF, &used);
    return (double)(used.ru_utime.tv_sec + used.ru_stime.tv_sec) +
           (double)(used.ru_utime.tv_usec + used.ru_stime.tv_usec) / 1e6;
}

static long most_memory(void)
{
    struct rusage used;
    getrusage(RUSAGE_SELF, &used);
    return used.ru_maxrss;
}

/* ---- no-ops and a chain ---- */

static void run_batch(struct ring *ring, unsigned batch, uint8_t flags)
{
    for (unsigned i = 0; i < batch; i++)
        put(ring, IORING_OP_NOP, i, i + 1 < batch ? flags : 0);
    check(enter(ring, batch, batch, IORING_ENTER_GETEVENTS) == (long)batch);
    for (unsigned i = 0; i < batch; i++)
        check(reap(ring).res == 0);
}

static void run_nops(unsigned batch, uint64_t count)
{
    struct ring ring;
    make_ring(&ring, batch, 0, 0);
    run_batch(&ring, batch, 0);
    double start = processor_time();
    for (uint64_t done = 0; done < count; done += batch)
        run_batch(&ring, batch, 0);
    printf("%" PRIu64 " no-ops in batches of %u: %.3f us each\n", count, batch,
        (processor_time() - start) / (double)count * 1e6);
    close_ring(&ring);
}

/* ---- reads ---- */

enum { DEPTH = 64, READ_SIZE = 4096 };

static void submit_reads(struct ring *ring, int file, void *bytes, unsigned batch)
{
    for (unsigned i = 0; i < batch; i++)
        put_transfer(ring, IORING_OP_READ, i, 0, file, bytes, READ_SIZE, 0);
    check(enter(ring, batch, 0, IORING_ENTER_GETEVENTS) == (long)batch);
}

/* A file of one read, that can be asked not to wait, as one in memory can't. */
static int make_read_file(void)
{
    char bytes[READ_SIZE] = {1};
    int file = open(".", O_TMPFILE | O_RDWR, 0600);
    check(file >= 0 && pwrite(file, bytes, sizeof bytes, 0) == sizeof bytes);
    return file;
}

static void run_reads(unsigned batch, uint64_t count)
{
    struct ring ring;
    char bytes[READ_SIZE];
    int file = make_read_file();
    make_ring(&ring, DEPTH, 0, 0);
    for (unsigned i = 0; i < DEPTH; i += batch)
        submit_reads(&ring, file, bytes, batch);
    double start = processor_time();
    for (uint64_t done = 0; done < count; done += batch) {
        for (unsigned i = 0; i < batch; i++)
            check(reap(&ring).res == READ_SIZE);
        submit_reads(&ring, file, bytes, batch);
    }
    printf("%" PRIu64 " reads in batches of %u: %.3f us each\n", count, batch,
        (processor_time() - start) / (double)count * 1e6);
    close_ring(&ring);
    close(file);
}

static void run_chain(unsigned length)
{
    struct ring ring;
    make_ring(&ring, length, 0, 0);
    double start = processor_time();
    run_batch(&ring, length, IOSQE_IO_LINK);
    printf("a chain of %u: %.3f ms\n", length, (processor_time() - start) * 1e3);
    close_ring(&ring);
}

/* ---- many rings ---- */

static void run_rings(unsigned count)
{
    struct ring *rings = calloc(count, sizeof *rings);
    double start = processor_time();
    for (unsigned i = 0; i < count; i++)
        make_ring(&rings[i], 4, 0, 0);
    double made = processor_time();
    for (unsigned round = 0; round < 10; round++)
        for (unsigned i = 0; i < count; i++)
            run_batch(&rings[i], 4, IOSQE_IO_LINK);
    double used = processor_time();
    for (unsigned i = 0; i < count; i++)
        close_ring(&rings[i]);
    struct ring last;
    make_ring(&last, 4, 0, 0);
    run_batch(&last, 4, 0);
    close_ring(&last);
    printf("%u rings: made in %.3f s, 10 calls on each in %.3f s, closed in %.3f s, %ld KB\n",
        count, made - start, used - made, processor_time() - used, most_memory());
    free(rings);
}

/* ---- threads on one ring ---- */

static struct {
    struct ring ring;
    pthread_mutex_t
        lock; /* the application's own: submission and reaping are one thread's at a time */
    uint64_t calls, submitted, reaped;
    uint8_t *seen;
} shared = {.lock = PTHREAD_MUTEX_INITIALIZER};

static void reap_shared(void)
{
    while (count_ready(&shared.ring) > 0) {
        struct completion found = reap(&shared.ring);
        check(found.res == 0 && found.user_data < shared.submitted &&
              shared.seen[found.user_data]++ == 0);
        shared.reaped++;
    }
}

/* Entries are published and completions reaped under the application's lock; waiting is done
 * without it. */
static void *work_on_shared(void *none)
{
    for (uint64_t i = 0; i < shared.calls; i++) {
        pthread_mutex_lock(&shared.lock);
        put(&shared.ring, IORING_OP_NOP, shared.submitted++, 0);
        check(enter(&shared.ring, 1, 0, 0) == 1);
        reap_shared();
        pthread_mutex_unlock(&shared.lock);
        long result = enter_for(&shared.ring, 1, 1000);
        check(result == 0 || result == -ETIME);
        pthread_mutex_lock(&shared.lock);
        reap_shared();
        pthread_mutex_unlock(&shared.lock);
    }
    return none;
}

static void run_threads(unsigned count, uint64_t calls)
{
    pthread_t *threads = calloc(count, sizeof *threads);
    shared.calls = calls;
    shared.seen = calloc(count, calls);
    make_ring(&shared.ring, 8, 0, 0);
    for (unsigned i = 0; i < count; i++)
        check(pthread_create(&threads[i], NULL, work_on_shared, NULL) == 0);
    for (unsigned i = 0; i < count; i++)
        check(pthread_join(threads[i], NULL) == 0);
    while (shared.reaped < shared.submitted) {
        check(enter(&shared.ring, 0, 1, IORING_ENTER_GETEVENTS) == 0);
        reap_shared();
    }
    check(shared.submitted == count * calls);
    printf("%u threads on one ring: %" PRIu64
           " requests, each with one completion, %.3f s of a processor\n",
        count, shared.reaped, processor_time());
    close_ring(&shared.ring);
    free(shared.seen);
    free(threads);
}

/* ---- for long ---- */

/* A chain of a write, an fsync, a read and a no-op, a drain and a cancel of nothing, 6 requests in
 * all. */
static void run_round(struct ring *ring, int file, char *bytes)
{
    int32_t results[6];
    put_transfer(ring, IORING_OP_WRITE, 0, IOSQE_IO_LINK, file, bytes, 16, 0);
    put(ring, IORING_OP_FSYNC, 1, IOSQE_IO_HARDLINK)->fd = file;
    put_transfer(ring, IORING_OP_READ, 2, IOSQE_IO_LINK, file, bytes + 16, 16, 0);
    put(ring, IORING_OP_NOP, 3, 0);
    put(ring, IORING_OP_NOP, 4, IOSQE_IO_DRAIN);
    put(ring, IORING_OP_ASYNC_CANCEL, 5, 0)->addr = 77;
    check(enter(ring, 6, 6, IORING_ENTER_GETEVENTS) == 6);
    reap_all(ring, 6, results);
    check(results[0] == 16 && results[1] == 0 && results[2] == 16 && results[3] == 0 &&
          results[4] == 0 && results[5] == -ENOENT);
    check(memcmp(bytes, bytes + 16, 16) == 0);
}

static void run_long(uint64_t count)
{
    struct ring ring;
    char bytes[32];
    int file = make_file();
    make_ring(&ring, 8, 0, 0);
    long early = 0;
    for (uint64_t done = 0; done < count; done += 6) {
        memset(bytes, (int)(done % 251), 16);
        run_round(&ring, file, bytes);
        if (done < count / 100)
            early = most_memory();
    }
    long last = most_memory();
    printf(
        "%" PRIu64
        " requests: %ld KB after the first hundredth, %ld KB at the end, %.3f s of a processor\n",
        count, early, last, processor_time());
    check(last <= early + 64);
    close_ring(&ring);
    close(file);
}

int main(int argc, char **argv)
{
    uint64_t numbers[2] = {0, 0};
    for (int i = 2; i < argc && i < 4; i++)
        numbers[i - 2] = strtoull(argv[i], NULL, 10);
    test = argc > 1 ? argv[1] : "";
    if (argc == 4 && strcmp(test, "nops") == 0)
        run_nops((unsigned)numbers[0], numbers[1]);
    else if (argc == 4 && strcmp(test, "reads") == 0)
        run_reads((unsigned)numbers[0], numbers[1]);
    else if (argc == 3 && strcmp(test, "chain") == 0)
        run_chain((unsigned)numbers[0]);
    else if (argc == 3 && strcmp(test, "rings") == 0)
        run_rings((unsigned)numbers[0]);
    else if (argc == 4 && strcmp(test, "threads") == 0)
        run_threads((unsigned)numbers[0], numbers[1]);
    else if (argc == 3 && strcmp(test, "long") == 0)
        run_long(numbers[0]);
    else
        return fprintf(stderr,
                   "load: nops BATCH COUNT, reads BATCH COUNT, chain LENGTH, rings COUNT, threads COUNT CALLS, or long COUNT\n"),
               2;
    return 0;
}
