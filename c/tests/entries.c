/* Entries, by their words: what they ask for or which fault they have, first of all with which
 * flags and operations they are served, and which results are successes. Written by hand from
 * docs/PROTOCOL.md. */
#include "wulgach.h"

#include <stdio.h>
#include <stdlib.h>
#include <string.h>

static void check(bool is_right, const char *what, size_t row)
{
    if (!is_right) {
        fprintf(stderr, "entries: %s, row %zu\n", what, row);
        exit(1);
    }
}

static const struct wulgach_setup setup = {.sq = 4, .files = 1};

/* A core that is given this entry alone, and the answer to its issue. */
static uint32_t issue(struct wulgach_core *core, const struct wulgach_entry *entry, int32_t *res)
{
    struct wulgach_taken taken;
    uint32_t kind;
    check(wulgach_core_new(core, &setup) == 0 &&
              wulgach_core_submit_one(core, entry, &taken) == 0 && taken.accepted == 1,
        "a request is taken", 0);
    check(wulgach_core_issue(core, 0, &kind, res) == 0, "an issue", 0);
    return kind;
}

static bool is_same(const struct wulgach_operation *a, const struct wulgach_operation *b)
{
    return a->code == b->code && a->fd == b->fd && a->off == b->off && a->target == b->target &&
           a->len == b->len && a->all == b->all && memcmp(a->bytes, b->bytes, sizeof a->bytes) == 0;
}

/* Entries that are served, and the operations that they ask for; a cancel ends as it is issued. */
static void served(void)
{
    enum { NOTHING = -2 };
    static const struct {
        uint64_t words[16];
        struct wulgach_operation operation;
    } rows[] = {
        {{0}, {.code = WULGACH_OP_NOP}},
        {{16 << 8}, {.code = WULGACH_OP_NOP}},
        {{22, UINT64_MAX - 1, 0, 64}, {.code = WULGACH_OP_READ, .off = UINT64_MAX - 1, .len = 64}},
        {{0xffffffff00000017, 5, 0, 1, 0, 0, 0, 0, 'a'},
            {.code = WULGACH_OP_WRITE, .fd = -1, .off = 5, .len = 1, .bytes = "a"}},
        {{0x8000000100004217, 2, 3, 4, 5, [8] = 0x0102030405060708, [15] = 0xaa00000000000000},
            {.code = WULGACH_OP_WRITE,
                .fd = -2147483647,
                .off = 2,
                .len = 4,
                .bytes = {8, 7, 6, 5, 4, 3, 2, 1, [63] = 0xaa}}},
        {{3, UINT64_MAX}, {.code = WULGACH_OP_FSYNC}},
    };
    static const uint64_t cancels[][16] = {
        {14, 0, 9, (uint64_t)1 << 32}, {14, 0, 9, 0, 1}, {14, 0, 9, (uint64_t)1 << 32, 1}};
    struct wulgach_core core = {0};
    struct wulgach_entry entry;
    struct wulgach_operation operation;
    int32_t res;
    for (size_t i = 0; i < sizeof rows / sizeof *rows; i++) {
        memcpy(entry.words, rows[i].words, sizeof entry.words);
        check(issue(&core, &entry, &res) == WULGACH_RUN, "it runs", i);
        check(wulgach_core_running_op(&core, 0, &operation) == 0 &&
                  is_same(&operation, &rows[i].operation),
            "what it asks for", i);
    }
    for (size_t i = 0; i < sizeof cancels / sizeof *cancels; i++) {
        memcpy(entry.words, cancels[i], sizeof entry.words);
        check(issue(&core, &entry, &res) == WULGACH_ENDED && res == (cancels[i][3] ? 0 : NOTHING),
            "a cancel, of all or of one", i);
    }
    check(wulgach_core_free(&core) == 0, "free", 0);
}

/* Entries that are refused, and their faults: the first in the order of the rules. */
static void refused(void)
{
    static const struct {
        uint64_t words[16];
        uint32_t fault;
    } rows[] = {
        {{99}, WULGACH_FAULT_OPCODE},
        {{99 | 1 << 8}, WULGACH_FAULT_FLAGS},
        {{128 << 8}, WULGACH_FAULT_FLAGS},
        {{32 << 8}, WULGACH_FAULT_FLAGS},
        {{22, UINT64_MAX, 0, 65}, WULGACH_FAULT_LEN},
        {{22, UINT64_MAX, 0, 64}, WULGACH_FAULT_OFF},
        {{23, UINT64_MAX}, WULGACH_FAULT_OFF},
        {{14, 0, 9, (uint64_t)2 << 32}, WULGACH_FAULT_OP_FLAGS},
        {{14, 0, 9, (uint64_t)3 << 32}, WULGACH_FAULT_OP_FLAGS},
        {{3, 0, 0, (uint64_t)1 << 32}, WULGACH_FAULT_OP_FLAGS},
        {{[7] = 0x0100000000000000}, WULGACH_FAULT_RESERVED},
        {{[5] = 1}, WULGACH_FAULT_RESERVED},
        {{0x10000, 0, 0, 65}, WULGACH_FAULT_IOPRIO},
    };
    for (size_t i = 0; i < sizeof rows / sizeof *rows; i++) {
        struct wulgach_core core = {0};
        struct wulgach_entry entry;
        struct wulgach_taken taken;
        struct wulgach_why why;
        memcpy(entry.words, rows[i].words, sizeof entry.words);
        check(wulgach_core_new(&core, &setup) == 0 &&
                  wulgach_core_submit_one(&core, &entry, &taken) == 0 && taken.accepted == 1,
            "a request is taken", i);
        check(wulgach_core_why(&core, 0, &why) == 0 && why.kind == WULGACH_DOOMED &&
                  why.reason == WULGACH_OWN_FAULT && why.fault == rows[i].fault,
            "its fault", i);
        check(wulgach_core_free(&core) == 0, "free", i);
    }
}

/* Of all flag bytes 32 are served, those without 1, 32 and 128; and of all operations 5. What isn't
 * served ends with -22. */
static void flags_and_operations(void)
{
    struct wulgach_core core = {0};
    struct wulgach_entry entry;
    uint32_t flags = 0, operations = 0;
    for (uint32_t byte = 0; byte < 256; byte++) {
        int32_t res = 0;
        wulgach_nop(entry.words, 7, (uint8_t)byte);
        bool runs = issue(&core, &entry, &res) == WULGACH_RUN;
        check(runs == ((byte & (1 | 32 | 128)) == 0) && (runs || res == -22), "flags", byte);
        flags += runs;
        wulgach_entry_of(entry.words, (uint8_t)byte, 7, 0, 0);
        operations += issue(&core, &entry, &res) == WULGACH_RUN || res != -22;
    }
    check(flags == 32, "how many flag bytes are served", flags);
    check(operations == 5, "how many operations are served", operations);
    check(wulgach_core_free(&core) == 0, "free", 0);
}

/* A running request that skips the completion of a success posts one exactly if its result is a
 * failure: a success of a read or a write is all of its bytes, and of anything else 0. (A cancel
 * doesn't run.) */
static void successes(void)
{
    static const struct {
        uint8_t code;
        uint32_t len;
        int32_t res;
        bool is_success;
    } rows[] = {
        {WULGACH_OP_READ, 4, 4, true},
        {WULGACH_OP_READ, 4, 3, false},
        {WULGACH_OP_READ, 4, 0, false},
        {WULGACH_OP_WRITE, 0, 0, true},
        {WULGACH_OP_NOP, 0, 0, true},
        {WULGACH_OP_NOP, 0, 1, false},
    };
    for (size_t i = 0; i < sizeof rows / sizeof *rows; i++) {
        struct wulgach_core core = {0};
        struct wulgach_entry entry;
        struct wulgach_counts counts;
        uint32_t kind;
        int32_t res;
        wulgach_entry_of(entry.words, rows[i].code, 7, WULGACH_CQE_SKIP_SUCCESS, 0);
        entry.words[3] = rows[i].len;
        check(issue(&core, &entry, &res) == WULGACH_RUN, "it runs", i);
        check(wulgach_core_end(&core, 0, rows[i].res, &kind, &res) == 0 && kind == WULGACH_ENDED &&
                  res == rows[i].res,
            "it ends", i);
        check(wulgach_core_counts(&core, &counts) == 0 && counts.posted == !rows[i].is_success,
            "whether it is a success", i);
        check(wulgach_core_free(&core) == 0, "free", i);
    }
}

/* Nor is a fault's -22 a success, of a read that asks for as many bytes as it is, modulo 2^32. */
static void long_read(void)
{
    struct wulgach_core core = {0};
    struct wulgach_entry entry;
    struct wulgach_completion completion;
    int32_t res = 0;
    wulgach_read(entry.words, 7, WULGACH_CQE_SKIP_SUCCESS, 0, 0, 4294967274);
    check(issue(&core, &entry, &res) == WULGACH_ENDED && res == -22, "a long read ends", 0);
    check(wulgach_core_rest(&core, 0, &completion) == 0 && completion.user_data == 7 &&
              completion.res == -22,
        "its completion", 0);
    check(wulgach_core_free(&core) == 0, "free", 0);
}

int main(void)
{
    served();
    refused();
    flags_and_operations();
    successes();
    long_read();
    puts("entries: as called for");
    return 0;
}
