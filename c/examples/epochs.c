/* A store with a log that recovers, on a crash machine: epoch after epoch, each begins on what a
 * crash left of the one before.
 *
 * The log has a record a byte. An epoch reads how far the log is whole, appends one record, and
 * links an fsync to the write; the store acknowledges the record when the fsync's completion has
 * come. Then the power fails. A record that was acknowledged must be found in each epoch after.
 * With `planted` the fsync isn't linked: it may be issued before its write has ended, and then
 * covers nothing of it.
 *
 *   cc epochs.c $(pkg-config --cflags --libs wulgach) && ./a.out
 */
#include <stdio.h>
#include <stdlib.h>
#include <string.h>

#include "wulgach.h"

enum { EPOCHS = 6, RUNS = 200, CHOICE = 16 };

static void must(int32_t result)
{
    if (result != 0) {
        fprintf(stderr, "a call was refused: %d\n", result);
        exit(1);
    }
}

static struct wulgach_answer make(struct wulgach_crash_machine *machine, struct wulgach_step step)
{
    struct wulgach_answer answer;
    must(wulgach_crash_machine_step(machine, &step, &answer));
    return answer;
}

/* Submits the write of a record and its fsync, as requests 0 and 1 of the epoch. */
static void submit(struct wulgach_crash_machine *machine, uint64_t end, bool is_planted)
{
    struct wulgach_step fills[2] = {
        {.kind = WULGACH_FILL, .word = 0}, {.kind = WULGACH_FILL, .word = 1}};
    uint8_t record = (uint8_t)('a' + end);
    wulgach_write(fills[0].entry, 0, is_planted ? 0 : WULGACH_IO_LINK, 0, end, &record, 1);
    wulgach_fsync(fills[1].entry, 1, 0, 0);
    for (uint32_t slot = 0; slot < 2; slot++) {
        make(machine, fills[slot]);
        make(machine, (struct wulgach_step){.kind = WULGACH_INDEX, .word = slot});
    }
    make(machine, (struct wulgach_step){.kind = WULGACH_STORE_TAIL});
    make(machine, (struct wulgach_step){.kind = WULGACH_BEGIN, .word = 2});
    while (make(machine, (struct wulgach_step){.kind = WULGACH_TAKE}).kind != WULGACH_NO_MORE)
        ;
    make(machine, (struct wulgach_step){.kind = WULGACH_END});
}

/* Issues all that can be issued, and then finishes the requests in their order: so a loose fsync
 * begins while its write runs. */
static void settle(struct wulgach_crash_machine *machine)
{
    struct wulgach_counts counts;
    do {
        struct wulgach_answer next;
        while ((next = make(machine, (struct wulgach_step){.kind = WULGACH_NEXT})).kind ==
               WULGACH_NEXT_IS)
            make(machine, (struct wulgach_step){.kind = WULGACH_ISSUE, .number = next.number});
        for (uint64_t number = 0; number < 2; number++)
            make(machine, (struct wulgach_step){.kind = WULGACH_FINISH, .number = number});
        must(wulgach_crash_machine_counts(machine, &counts));
    } while (counts.outstanding > 0);
}

/* How many records the log has, up to the first that isn't whole. */
static uint64_t recover(struct wulgach_crash_machine *machine)
{
    uint64_t end = 0;
    uint8_t byte;
    while (wulgach_crash_machine_byte(machine, 0, end, &byte) == 0 && byte == 'a' + end)
        end++;
    return end;
}

/* Returns whether each acknowledged record was found in each epoch after. */
static bool play(uint64_t seed, bool is_planted)
{
    struct wulgach_crash_machine machine = {0}, next = {0};
    must(wulgach_crash_machine_new(&machine, &(struct wulgach_setup){.sq = 2, .files = 1}, 1));
    uint64_t acknowledged = 0;
    bool is_kept = true;
    for (unsigned epoch = 0; epoch < EPOCHS; epoch++) {
        uint64_t end = recover(&machine), choice[CHOICE];
        is_kept = is_kept && acknowledged <= end;
        submit(&machine, end, is_planted);
        settle(&machine);
        acknowledged = end + 1;
        wulgach_volume_choose(seed * EPOCHS + epoch, 2, choice, CHOICE);
        must(wulgach_crash_machine_crash(&machine, &next, choice, CHOICE, (uint64_t[]){CHOICE}, 1));
        must(wulgach_crash_machine_free(&machine));
        machine = next;
        next = (struct wulgach_crash_machine){0};
    }
    must(wulgach_crash_machine_free(&machine));
    return is_kept;
}

int main(void)
{
    unsigned right = 0, planted = 0;
    for (uint64_t seed = 1; seed <= RUNS; seed++) {
        right += !play(seed, false);
        planted += !play(seed, true);
    }
    printf("the right store lost a record in %u of %d runs, the planted one in %s\n", right, RUNS,
        planted > 0 ? "some" : "none");
    return right == 0 && planted > 0 ? 0 : 1;
}
