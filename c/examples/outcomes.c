/* Everything that three calls may come to: which orders of a write of data, of a commit record and
 * an fsync may be seen.
 *
 * The fsync drains, so it covers both writes in each order. Loose, the commit record may be there
 * before its data: that is the bug, if a crash comes between. With a link on the first write it
 * never is.
 *
 *   cc outcomes.c $(pkg-config --cflags --libs wulgach) && ./a.out
 */
#include <inttypes.h>
#include <stdio.h>
#include <stdlib.h>

#include "wulgach.h"

static void must(int32_t result)
{
    if (result != 0) {
        fprintf(stderr, "a call was refused: %d\n", result);
        exit(1);
    }
}

/* Prints each outcome: its completions by user data and result, in the order in which they come,
 * and the file that it leaves. */
static void show(struct wulgach_outcomes *outcomes)
{
    struct wulgach_completion seen[3];
    uint64_t count;
    for (uint64_t i = 0; wulgach_outcomes_completions(outcomes, i, seen, 3, &count) == 0; i++) {
        for (uint64_t k = 0; k < count; k++)
            printf("%" PRIu64 " %" PRId32 ", ", seen[k].user_data, seen[k].res);
        struct wulgach_file file;
        must(wulgach_outcomes_state(outcomes, i, 0, &file));
        for (uint32_t at = 0; at < file.len; at++) {
            uint8_t byte;
            must(wulgach_outcomes_byte(outcomes, i, 0, at, &byte));
            printf("%02x", byte);
        }
        printf(", synced %" PRIu64 " of %" PRIu64 "\n", file.synced, file.writes);
    }
}

/* The outcomes of one call with the data at 0, the commit record at 1 and an fsync that drains. */
static void ask(const char *name, uint8_t flags)
{
    struct wulgach_entry entries[3];
    wulgach_write(entries[0].words, 1, flags, 0, 0, (const uint8_t *)"a", 1);
    wulgach_write(entries[1].words, 2, 0, 0, 1, (const uint8_t *)"\xff", 1);
    wulgach_fsync(entries[2].words, 3, WULGACH_IO_DRAIN, 0);
    struct wulgach_outcomes outcomes = {0};
    uint64_t count;
    bool is_all;
    must(wulgach_outcomes_new(&outcomes, &(struct wulgach_setup){.sq = 4, .files = 1}, entries, 3,
        (uint64_t[]){3}, 1, UINT64_MAX, &is_all));
    must(wulgach_outcomes_count(&outcomes, &count, &is_all));
    printf("%s: %s%" PRIu64 "\n", name, is_all ? "" : "at least ", count);
    show(&outcomes);
    must(wulgach_outcomes_free(&outcomes));
}

int main(void)
{
    ask("loose", 0);
    ask("linked", WULGACH_IO_LINK);
    return 0;
}
