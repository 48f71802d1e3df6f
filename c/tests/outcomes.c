/* Everything that calls may come to, beside what the rules say of small ones by hand: each outcome
 * once, in its order, with its files. And what is refused: empty places, set-ups, and memory, which
 * the linker lets this test refuse. */
#define TEST "outcomes"

#include "refusing.h"
#include "wulgach.h"

#include <stdio.h>
#include <stdlib.h>
#include <string.h>

enum { ROOM = 8 };

static const struct wulgach_setup small = {.sq = 8, .files = 2};

/* An entry of a kind: a no-op, a write of one byte, an fsync, a cancel. The last number is the
 * offset of a write or the target of a cancel. */
static struct wulgach_entry entry(
    char kind, uint64_t user_data, uint8_t flags, int32_t fd, uint64_t at)
{
    struct wulgach_entry made;
    uint8_t byte = (uint8_t)('0' + user_data);
    if (kind == 'w')
        wulgach_write(made.words, user_data, flags, fd, at, &byte, 1);
    else if (kind == 's')
        wulgach_fsync(made.words, user_data, flags, fd);
    else if (kind == 'c')
        wulgach_cancel(made.words, user_data, flags, at);
    else
        wulgach_nop(made.words, user_data, flags);
    return made;
}

/* An outcome in words: user data and result of each completion, in order, and the bytes of the
 * first file. */
static void tell(struct wulgach_outcomes *outcomes, uint64_t index, char *text)
{
    struct wulgach_completion seen[ROOM];
    uint64_t count = 99;
    check(wulgach_outcomes_completions(outcomes, index, seen, ROOM, &count) == 0 && count <= ROOM,
        "completions");
    for (uint64_t k = 0; k < count; k++)
        text += sprintf(text, "%d:%d ", (int)seen[k].user_data, (int)seen[k].res);
    struct wulgach_file file;
    check(wulgach_outcomes_state(outcomes, index, 0, &file) == 0, "state");
    for (uint32_t at = 0; at < file.len; at++) {
        uint8_t byte;
        check(wulgach_outcomes_byte(outcomes, index, 0, at, &byte) == 0, "byte");
        text += sprintf(text, "%c", byte == 0 ? '.' : byte);
    }
}

static struct wulgach_outcomes found(
    size_t total, const struct wulgach_entry *entries, size_t calls, const uint64_t *lens)
{
    struct wulgach_outcomes outcomes = {0};
    uint64_t count;
    bool is_all = false;
    check(wulgach_outcomes_new(
              &outcomes, &small, entries, total, lens, calls, UINT64_MAX, &is_all) == 0 &&
              is_all,
        "new");
    is_all = false;
    check(wulgach_outcomes_count(&outcomes, &count, &is_all) == 0 && is_all, "count");
    return outcomes;
}

/* How many of the outcomes are this one, in words. */
static unsigned times_of(struct wulgach_outcomes *outcomes, uint64_t count, const char *wanted)
{
    unsigned times = 0;
    for (uint64_t at = 0; at < count; at++) {
        char text[256] = "";
        tell(outcomes, at, text);
        times += strcmp(text, wanted) == 0;
    }
    return times;
}

/* Calls, each with its outcomes in words, which are those of PROTOCOL.md; the order among them is
 * free. */
static void by_hand(void)
{
    static const struct {
        char kinds[4];
        uint8_t flags[4];
        int32_t fd;
        uint64_t lens[2];
        const char *outcomes[3];
    } cases[] = {
        {"", {0}, 0, {0, 0}, {""}},
        {"nn", {0}, 0, {2, 0}, {"1:0 2:0 ", "2:0 1:0 "}},
        {"nn", {0}, 0, {1, 1}, {"1:0 2:0 ", "2:0 1:0 "}},
        {"nn", {WULGACH_IO_LINK, 0}, 0, {2, 0}, {"1:0 2:0 "}},
        {"nn", {WULGACH_IO_LINK, 0}, 0, {1, 1}, {"1:0 2:0 ", "2:0 1:0 "}},
        {"nn", {0, WULGACH_IO_DRAIN}, 0, {1, 1}, {"1:0 2:0 "}},
        {"nn", {WULGACH_CQE_SKIP_SUCCESS, 0}, 0, {2, 0}, {"2:0 "}},
        {"wws", {0, 0, WULGACH_IO_DRAIN}, 0, {3, 0}, {"1:1 2:1 3:0 12", "2:1 1:1 3:0 12"}},
        {"wws", {WULGACH_IO_LINK, 0, WULGACH_IO_DRAIN}, 0, {2, 1}, {"1:1 2:1 3:0 12"}},
        {"wn", {WULGACH_IO_LINK, 0}, 9, {2, 0}, {"1:-9 2:-125 "}},
        {"wn", {WULGACH_IO_HARDLINK, 0}, 9, {2, 0}, {"1:-9 2:0 "}},
        {"nc", {0}, 0, {2, 0}, {"2:0 1:-125 ", "1:0 2:-2 ", "2:-114 1:0 "}},
    };
    for (size_t i = 0; i < sizeof cases / sizeof *cases; i++) {
        struct wulgach_entry entries[4] = {{{0}}};
        size_t total = strlen(cases[i].kinds);
        for (size_t k = 0; k < total; k++)
            entries[k] = entry(cases[i].kinds[k], k + 1, cases[i].flags[k], cases[i].fd, k);
        struct wulgach_outcomes outcomes = found(
            total, entries, cases[i].lens[1] > 0 ? 2 : 1, cases[i].lens);
        uint64_t count, wanted = 0;
        bool is_all;
        check(wulgach_outcomes_count(&outcomes, &count, &is_all) == 0, "count");
        for (; wanted < 3 && cases[i].outcomes[wanted] != NULL; wanted++) {
            unsigned times = times_of(&outcomes, count, cases[i].outcomes[wanted]);
            if (times != 1)
                fprintf(stderr, "outcomes: case %zu: '%s' comes %u times\n", i,
                    cases[i].outcomes[wanted], times);
            check(times == 1, "each outcome once");
        }
        check(count == wanted, "and nothing else");
        check(wulgach_outcomes_free(&outcomes) == 0, "free");
    }
}

/* Five loose no-ops: each order once. A walk that ends before has a part of them, and says so. */
static void orders(void)
{
    struct wulgach_entry entries[5];
    for (size_t k = 0; k < 5; k++)
        entries[k] = entry('n', k, 0, 0, 0);
    struct wulgach_outcomes outcomes = {0};
    for (uint64_t most = 1;; most *= 8) {
        uint64_t count;
        bool is_all = false, seen[3125] = {false};
        check(wulgach_outcomes_new(
                  &outcomes, &small, entries, 5, (uint64_t[]){5}, 1, most, &is_all) == 0,
            "a walk of so many paths");
        bool same = !is_all;
        check(
            wulgach_outcomes_count(&outcomes, &count, &same) == 0 && same == is_all && count <= 120,
            "at most 120 orders");
        for (uint64_t i = 0; i < count; i++) {
            struct wulgach_completion completions[5] = {{.user_data = 99}};
            uint64_t posted;
            unsigned order = 0, all = 0;
            check(wulgach_outcomes_completions(&outcomes, i, completions, 5, &posted) == 0 &&
                      posted == 5,
                "completions");
            for (size_t k = 0; k < 5; k++) {
                order = 5 * order + (unsigned)completions[k].user_data;
                all |= 1u << completions[k].user_data;
            }
            check(all == 31 && !seen[order], "each order once");
            seen[order] = true;
        }
        check(most > 1 || !is_all, "one path isn't all");
        check(!is_all || count == 120, "all are 120");
        if (is_all)
            break;
        check(most < UINT64_MAX / 8, "a walk ends");
    }
    struct wulgach_completion two[3] = {{0}, {0}, {.user_data = 99}};
    uint64_t posted;
    check(wulgach_outcomes_completions(&outcomes, 119, two, 2, &posted) == 0 && posted == 5 &&
              two[2].user_data == 99,
        "as many as there is room for");
    check(wulgach_outcomes_completions(&outcomes, 120, two, 3, &posted) == -2 &&
              two[2].user_data == 99,
        "past the last");
    struct wulgach_file file = {.len = 99};
    uint8_t byte = 99;
    check(wulgach_outcomes_state(&outcomes, 120, 0, &file) == -2 &&
              wulgach_outcomes_state(&outcomes, 0, 2, &file) == -2 && file.len == 99,
        "no such file");
    check(wulgach_outcomes_byte(&outcomes, 120, 0, 0, &byte) == -2 &&
              wulgach_outcomes_byte(&outcomes, 0, 0, 0, &byte) == -2 && byte == 99,
        "no such byte");
    check(wulgach_outcomes_free(&outcomes) == 0, "free");
}

/* Set-ups whose ring doesn't take each call whole, and empty places. */
static void numbers(void)
{
    struct wulgach_outcomes outcomes = {0};
    struct wulgach_entry entries[3] = {
        entry('n', 1, 0, 0, 0), entry('n', 2, 0, 0, 0), entry('n', 3, 0, 0, 0)};
    static const struct {
        struct wulgach_setup setup;
        uint64_t lens[2];
        int32_t result;
    } cases[] = {
        {{.sq = 2, .files = 1}, {2, 1}, 0},
        {{.sq = 2, .files = 1}, {1, 3}, -22},
        {{.sq = 4, .files = 1, .stops = true}, {2, 1}, -22},
        {{.sq = 4, .files = 1, .linux_rules = true}, {2, 1}, -22},
        {{.sq = 0, .files = 1}, {0, 0}, -22},
        {{.sq = 4, .files = 65}, {0, 0}, -22},
    };
    for (size_t i = 0; i < sizeof cases / sizeof *cases; i++) {
        bool is_all = false;
        check(wulgach_outcomes_new(&outcomes, &cases[i].setup, entries, 3, cases[i].lens, 2,
                  UINT64_MAX, &is_all) == cases[i].result,
            "new");
        check(is_all == (cases[i].result == 0) &&
                  wulgach_outcomes_free(&outcomes) == (cases[i].result == 0 ? 0 : -9),
            "a place after new");
    }
    uint64_t count = 99;
    bool is_all = true;
    struct wulgach_completion completion = {.user_data = 99};
    struct wulgach_file file = {.len = 99};
    uint8_t byte = 99;
    check(wulgach_outcomes_count(&outcomes, &count, &is_all) == -9 &&
              wulgach_outcomes_completions(&outcomes, 0, &completion, 1, &count) == -9,
        "an empty place");
    check(wulgach_outcomes_state(&outcomes, 0, 0, &file) == -9 &&
              wulgach_outcomes_byte(&outcomes, 0, 0, 0, &byte) == -9,
        "an empty place");
    check(count == 99 && is_all && completion.user_data == 99 && file.len == 99 && byte == 99,
        "a refusal writes nothing");
}

/* Each growth refused once: -12, and the place keeps what it had. */
static void refused(void)
{
    struct wulgach_entry entries[2] = {entry('n', 1, 0, 0, 0), entry('w', 2, 0, 0, 0)};
    struct wulgach_outcomes outcomes = found(0, entries, 0, (uint64_t[]){0});
    long refusals = 0;
    for (;; refusals++) {
        uint64_t count;
        bool is_all = false;
        served = refusals;
        int32_t result = wulgach_outcomes_new(
            &outcomes, &small, entries, 2, (uint64_t[]){2}, 1, UINT64_MAX, &is_all);
        bool is_made = served >= 0;
        served = -1;
        check(result == (is_made ? 0 : -12) && is_all == is_made,
            "-12 exactly if memory was refused");
        check(wulgach_outcomes_count(&outcomes, &count, &is_all) == 0 && count == (is_made ? 2 : 1),
            "a place keeps what it had");
        if (is_made)
            break;
        check(refusals < 10000, "memory is refused in vain");
    }
    check(refusals > 10 && wulgach_outcomes_free(&outcomes) == 0, "a walk takes memory");
}

int main(void)
{
    by_hand();
    orders();
    numbers();
    refused();
    printf("outcomes: as they should be\n");
    return 0;
}
