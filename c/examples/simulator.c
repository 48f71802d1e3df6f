/* A simulator to start from: a core of wulgach over storage of its own, a volume that a power
 * failure may tear.
 *
 * On it runs a store with a log. A commit is a write of its record and an fsync, and the store
 * acknowledges it when both completions have come, the write's first. The store submits both at
 * once. In the right store the fsync is linked to the write, so that it is issued when that has
 * ended. In the planted one it isn't: it may be issued while the write runs, and covers nothing of
 * it.
 *
 * The simulator is the dispatcher: it issues and finishes requests in an order that a seed chooses,
 * among those that the core allows. At some point the power fails. Of what may then be left, some
 * images are tried: each acknowledged record must be in all of them. Beside it stands the generous
 * rule, by which a write is safe if it had ended when the fsync ended: it finds nothing.
 *
 *   cc simulator.c $(pkg-config --cflags --libs wulgach) && ./a.out
 */
#include <stdio.h>
#include <stdlib.h>
#include <string.h>

#include "wulgach.h"

enum {
    RECORD = 8,
    COMMITS = 4,
    REQUESTS = 2 * COMMITS,
    LOG = RECORD * COMMITS,
    RUNS = 1000,
    CRASHES = 8,
    CHOICE = 128
};

/* The log on its volume. The number that the volume gave to each request that was issued, 0 if
 * none; and what the generous rule takes for safe. */
struct disk {
    struct wulgach_volume volume;
    uint64_t numbers[REQUESTS];
    bool has_ended[COMMITS], is_synced[COMMITS];
};

/* What all runs of a store found. */
struct findings {
    unsigned acknowledged, cancelled, crashes, lost, lost_generously, first_run, first_crash;
};

static uint64_t rng;

static uint32_t below(uint32_t n)
{
    rng ^= rng << 13;
    rng ^= rng >> 7;
    rng ^= rng << 17;
    return (uint32_t)(rng >> 32) % n;
}

/* None of the calls here is refused unless memory is, so that a refusal ends the program. */
static void must(int32_t result)
{
    if (result != 0) {
        fprintf(stderr, "a call was refused: %d\n", result);
        exit(1);
    }
}

static struct wulgach_answer make(struct wulgach_core *core, const struct wulgach_step *step)
{
    struct wulgach_answer answer;
    must(wulgach_core_step(core, step, &answer));
    return answer;
}

static struct wulgach_answer simple(struct wulgach_core *core, uint32_t kind, uint32_t word)
{
    return make(core, &(struct wulgach_step){.kind = kind, .word = word});
}

/* The store's side: the write of commit i is request 2i and its fsync 2i + 1, by their user data
 * too. */
static void submit(struct wulgach_core *core, bool is_planted)
{
    for (uint32_t i = 0; i < REQUESTS; i++) {
        struct wulgach_step fill = {.kind = WULGACH_FILL, .word = i};
        uint8_t record[RECORD];
        memset(record, 'a' + (int)(i / 2), RECORD);
        if (i % 2 == 0)
            wulgach_write(
                fill.entry, i, is_planted ? 0 : WULGACH_IO_LINK, 0, i / 2 * RECORD, record, RECORD);
        else
            wulgach_fsync(fill.entry, i, 0, 0);
        make(core, &fill);
        simple(core, WULGACH_INDEX, i);
    }
    simple(core, WULGACH_STORE_TAIL, 0);
    simple(core, WULGACH_BEGIN, REQUESTS);
    for (uint32_t i = 0; i < REQUESTS; i++)
        simple(core, WULGACH_TAKE, 0);
    simple(core, WULGACH_END, 0);
}

/* Issues a request, and begins on the volume what runs then. Returns whether that ended it. */
static bool issue(struct wulgach_core *core, struct disk *disk, uint64_t number)
{
    struct wulgach_operation op;
    struct wulgach_answer answer = make(
        core, &(struct wulgach_step){.kind = WULGACH_ISSUE, .number = number});
    if (answer.kind == WULGACH_RUN && wulgach_core_running_op(core, number, &op) == 0) {
        if (op.code == WULGACH_OP_FSYNC)
            must(wulgach_volume_begin_sync(&disk->volume, &disk->numbers[number]));
        else
            must(wulgach_volume_begin_write(
                &disk->volume, op.off, op.bytes, op.len, &disk->numbers[number]));
    }
    return answer.kind == WULGACH_ENDED;
}

/* Ends a running operation on the volume, and returns its result. */
static int32_t carry_out(struct disk *disk, uint64_t number, const struct wulgach_operation *op)
{
    if (op->code == WULGACH_OP_FSYNC) {
        must(wulgach_volume_end_sync(&disk->volume, disk->numbers[number]));
        memcpy(disk->is_synced, disk->has_ended, sizeof disk->is_synced);
        return 0;
    }
    must(wulgach_volume_end_write(&disk->volume, disk->numbers[number]));
    disk->has_ended[number / 2] = true;
    return (int32_t)op->len;
}

/* The dispatcher's side: lets a request go on that the seed chooses. Returns whether one ended. The
 * write of a bad commit fails, and is left running on the volume: any part of it may be found. */
static bool go_on(struct wulgach_core *core, struct disk *disk, uint64_t bad)
{
    uint64_t number = below(REQUESTS);
    struct wulgach_operation op;
    if (wulgach_core_running_op(core, number, &op) != 0)
        return issue(core, disk, number);
    int32_t res = number == 2 * bad ? -5 : carry_out(disk, number, &op);
    struct wulgach_bytes none = {{0}};
    struct wulgach_answer answer;
    must(wulgach_core_finish(core, number, res, &none, &answer));
    return true;
}

/* Reaps all completions, and marks which commits the store has acknowledged. */
static void acknowledge(
    struct wulgach_core *core, bool acknowledged[COMMITS], struct findings *found)
{
    bool is_written[COMMITS] = {false};
    simple(core, WULGACH_LOAD_CQ_TAIL, 0);
    for (struct wulgach_answer a = simple(core, WULGACH_REAP, 0); a.kind == WULGACH_REAPED;
         a = simple(core, WULGACH_REAP, 0)) {
        uint64_t commit = a.number / 2;
        found->cancelled += a.res == -125;
        if (a.number % 2 == 0)
            is_written[commit] = a.res == RECORD;
        else if (a.res == 0 && is_written[commit])
            acknowledged[commit] = true;
    }
    simple(core, WULGACH_STORE_CQ_HEAD, 0);
}

/* Whether the record of a commit is in the log. */
static bool holds(const uint8_t log[LOG], uint64_t len, unsigned commit)
{
    if (len < (commit + 1) * RECORD)
        return false;
    for (unsigned i = 0; i < RECORD; i++)
        if (log[commit * RECORD + i] != 'a' + commit)
            return false;
    return true;
}

/* The power fails: tries some images that may be left, and looks for the acknowledged records in
 * each. */
static void crash(
    struct disk *disk, const bool acknowledged[COMMITS], unsigned run, struct findings *found)
{
    for (unsigned i = 1; i <= CRASHES; i++) {
        uint64_t choice[CHOICE], len;
        uint8_t log[LOG];
        wulgach_volume_choose(run * CRASHES + i, REQUESTS, choice, CHOICE);
        must(wulgach_volume_crash(&disk->volume, choice, CHOICE, log, LOG, &len));
        for (unsigned commit = 0; commit < COMMITS; commit++) {
            if (!acknowledged[commit] || holds(log, len, commit))
                continue;
            if (found->lost++ == 0) {
                found->first_run = run;
                found->first_crash = i;
            }
        }
    }
    for (unsigned commit = 0; commit < COMMITS; commit++) {
        found->acknowledged += acknowledged[commit];
        found->lost_generously += acknowledged[commit] && !disk->is_synced[commit];
    }
    found->crashes += CRASHES;
}

static void play(unsigned run, bool is_planted, struct findings *found)
{
    rng = run * 0x9e3779b97f4a7c15u | 1;
    for (int i = 0; i < 8; i++)
        below(1);
    struct disk disk = {.volume = {0}};
    struct wulgach_core core = {0};
    uint8_t nothing = 0;
    must(wulgach_volume_new(&disk.volume, 1, &nothing, 0));
    must(wulgach_core_new(&core, &(struct wulgach_setup){.sq = REQUESTS}));
    uint64_t bad = below(2 * COMMITS);
    uint32_t most = below(REQUESTS + 1);
    submit(&core, is_planted);
    for (uint32_t ended = 0; ended < most;)
        ended += go_on(&core, &disk, bad);
    bool acknowledged[COMMITS] = {false};
    acknowledge(&core, acknowledged, found);
    crash(&disk, acknowledged, run, found);
    must(wulgach_core_free(&core));
    must(wulgach_volume_free(&disk.volume));
}

static struct findings play_all(const char *name, bool is_planted)
{
    struct findings found = {0};
    for (unsigned run = 1; run <= RUNS; run++)
        play(run, is_planted, &found);
    printf("%s: %d runs, %u commits acknowledged, %u fsyncs cancelled, %u crashes tried\n", name,
        RUNS, found.acknowledged, found.cancelled, found.crashes);
    printf("  the generous rule would lose %u of them\n", found.lost_generously);
    if (found.lost == 0)
        printf("  none was lost in any crash\n");
    else
        printf(
            "  lost, the first time in crash %u of run %u\n", found.first_crash, found.first_run);
    return found;
}

int main(void)
{
    struct findings right = play_all("the right store", false);
    struct findings planted = play_all("the planted store", true);
    return right.lost == 0 && planted.lost > 0 ? 0 : 1;
}
