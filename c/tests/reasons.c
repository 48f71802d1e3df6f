/* Why requests stand as they do: each case, each doom and each reason to wait that the manual
 * pages' rules have, and each fault, by its name in the header, of a core and of a machine. And
 * that a function that makes an entry leaves nothing of what the words held before, and that a
 * write has its bytes. */
#include "wulgach.h"

#include <stdio.h>
#include <stdlib.h>
#include <string.h>

static void check(bool is_right, const char *what)
{
    if (!is_right) {
        fprintf(stderr, "reasons: %s\n", what);
        exit(1);
    }
}

static const struct wulgach_setup setup = {.sq = 16, .files = 1};

/* A core and a machine that make the same steps. */
struct both {
    struct wulgach_core core;
    struct wulgach_machine machine;
};

static struct both both_new(void)
{
    struct both both = {{0}, {0}};
    check(wulgach_core_new(&both.core, &setup) == 0 &&
              wulgach_machine_new(&both.machine, &setup) == 0,
        "new");
    return both;
}

static void both_free(struct both *both)
{
    check(wulgach_core_free(&both->core) == 0 && wulgach_machine_free(&both->machine) == 0, "free");
}

/* Both make a step, which has this answer. */
static void make(struct both *both, const struct wulgach_step *step, uint32_t kind)
{
    struct wulgach_answer answer;
    check(
        wulgach_core_step(&both->core, step, &answer) == 0 && answer.kind == kind, "a core's step");
    check(wulgach_machine_step(&both->machine, step, &answer) == 0 && answer.kind == kind,
        "a machine's step");
}

static void make_simple(
    struct both *both, uint32_t kind, uint32_t word, uint64_t number, uint32_t wanted)
{
    struct wulgach_step step = {.kind = kind, .word = word, .number = number};
    make(both, &step, wanted);
}

/* One call with these entries. */
static void submit(struct both *both, uint64_t (*entries)[16], uint32_t count)
{
    for (uint32_t i = 0; i < count; i++) {
        struct wulgach_step fill = {.kind = WULGACH_FILL, .word = i};
        memcpy(fill.entry, entries[i], sizeof fill.entry);
        make(both, &fill, WULGACH_FILLED);
        make_simple(both, WULGACH_INDEX, i, 0, WULGACH_STAGED);
    }
    make_simple(both, WULGACH_STORE_TAIL, 0, 0, WULGACH_TAIL);
    make_simple(both, WULGACH_BEGIN, count, 0, WULGACH_CALL);
    for (uint32_t i = 0; i < count; i++)
        make_simple(both, WULGACH_TAKE, 0, 0, WULGACH_ENTRY);
    make_simple(both, WULGACH_END, 0, 0, WULGACH_TAKEN);
    make_simple(both, WULGACH_LOAD_HEAD, 0, 0, WULGACH_HEAD);
}

static bool is_why(
    const struct wulgach_why *why, uint32_t kind, uint32_t reason, uint32_t fault, uint64_t number)
{
    return why->kind == kind && why->reason == reason && why->fault == fault &&
           why->number == number;
}

/* A request stands so. */
static void stands(struct both *both, uint64_t request, uint32_t kind, uint32_t reason,
    uint32_t fault, uint64_t number, const char *what)
{
    struct wulgach_why why;
    memset(&why, 0xa5, sizeof why);
    check(wulgach_core_why(&both->core, request, &why) == 0 &&
              is_why(&why, kind, reason, fault, number),
        what);
    memset(&why, 0x5a, sizeof why);
    check(wulgach_machine_why(&both->machine, request, &why) == 0 &&
              is_why(&why, kind, reason, fault, number),
        what);
}

/* Each fault of an entry, each in a group of its own. */
static void faults(void)
{
    uint64_t entries[7][16];
    for (uint32_t i = 0; i < 5; i++)
        wulgach_nop(entries[i], i, 0);
    entries[0][0] |= (uint64_t)1 << 8; /* IOSQE_FIXED_FILE */
    wulgach_entry_of(entries[1], 99, 1, 0, 0);
    entries[2][0] |= (uint64_t)1 << 16;
    entries[3][3] = (uint64_t)1 << 32;
    entries[4][7] = 1;
    wulgach_read(entries[5], 5, 0, 0, 0, 65);
    wulgach_read(entries[6], 6, 0, 0, UINT64_MAX, 8);
    struct both both = both_new();
    submit(&both, entries, 7);
    static const uint32_t faults[7] = {WULGACH_FAULT_FLAGS, WULGACH_FAULT_OPCODE,
        WULGACH_FAULT_IOPRIO, WULGACH_FAULT_OP_FLAGS, WULGACH_FAULT_RESERVED, WULGACH_FAULT_LEN,
        WULGACH_FAULT_OFF};
    for (uint32_t i = 0; i < 7; i++)
        stands(&both, i, WULGACH_DOOMED, WULGACH_OWN_FAULT, faults[i], 0, "a fault");
    both_free(&both);
}

/* Requests 0 and 1 are a chain, of which 1 has a fault; 2, 3 and 4 are one; 5 stands alone. */
static void dooms(void)
{
    uint64_t entries[6][16];
    wulgach_nop(entries[0], 0, WULGACH_IO_LINK);
    wulgach_entry_of(entries[1], 99, 1, 0, 0);
    wulgach_read(entries[2], 2, WULGACH_IO_LINK, 0, 0, 8);
    wulgach_nop(entries[3], 3, WULGACH_IO_HARDLINK);
    wulgach_nop(entries[4], 4, 0);
    wulgach_cancel(entries[5], 5, 0, 3);
    struct both both = both_new();
    submit(&both, entries, 6);
    stands(&both, 0, WULGACH_DOOMED, WULGACH_FAULT_OF, 0, 1, "a fault of another");
    stands(&both, 2, WULGACH_MAY_START, 0, 0, 0, "the first of a chain");
    stands(&both, 3, WULGACH_WAITS, WULGACH_SAME_GROUP, 0, 2, "the second of a chain");
    make_simple(&both, WULGACH_ISSUE, 0, 2, WULGACH_RUN);
    stands(&both, 2, WULGACH_RUNS, 0, 0, 0, "a running request");
    make_simple(&both, WULGACH_ISSUE, 0, 5, WULGACH_ENDED);
    stands(&both, 3, WULGACH_DOOMED, WULGACH_CANCELLED, 0, 0, "a cancelled request");
    stands(&both, 5, WULGACH_HAS_ENDED, 0, 0, 0, "an ended request");
    stands(&both, 6, WULGACH_NEVER_ACCEPTED, 0, 0, 0, "no request");

    /* The read of an empty file moves none of its bytes, which breaks its soft link. */
    struct wulgach_answer answer;
    struct wulgach_bytes bytes = {{0}};
    struct wulgach_step finish = {.kind = WULGACH_FINISH, .number = 2};
    check(
        wulgach_core_finish(&both.core, 2, 0, &bytes, &answer) == 0 && answer.kind == WULGACH_ENDED,
        "a core's finish");
    check(wulgach_machine_step(&both.machine, &finish, &answer) == 0 &&
              answer.kind == WULGACH_ENDED && answer.res == 0,
        "a machine's finish");
    stands(&both, 4, WULGACH_DOOMED, WULGACH_FAILURE_OF, 0, 2, "a failure of another");
    both_free(&both);
}

/* Request 1 drains: it waits for 0, and 2 waits for it. */
static void waits(void)
{
    uint64_t entries[3][16];
    wulgach_nop(entries[0], 0, 0);
    wulgach_nop(entries[1], 1, WULGACH_IO_DRAIN);
    wulgach_nop(entries[2], 2, 0);
    struct both both = both_new();
    submit(&both, entries, 3);
    stands(&both, 1, WULGACH_WAITS, WULGACH_OWN_DRAINS, 0, 0, "a request that drains");
    stands(&both, 2, WULGACH_WAITS, WULGACH_IT_DRAINS, 0, 1, "a request after one that drains");
    both_free(&both);
}

/* One of the functions that make entries. */
static void make_entry(uint64_t entry[16], int which)
{
    uint8_t bytes[64];
    memset(bytes, 0x3c, sizeof bytes);
    switch (which) {
    case 0:
        wulgach_entry_of(entry, 99, 0, 0, 0);
        break;
    case 1:
        wulgach_nop(entry, 7, WULGACH_IO_LINK);
        break;
    case 2:
        wulgach_read(entry, 7, 0, 1, 100, 8);
        break;
    case 3:
        wulgach_write(entry, 7, 0, 1, 100, bytes, 64);
        break;
    case 4:
        wulgach_write(entry, 7, 0, 1, 100, bytes, 0);
        break;
    case 5:
        wulgach_fsync(entry, 7, 0, 1);
        break;
    case 6:
        wulgach_cancel(entry, 7, 0, 9);
        break;
    default:
        wulgach_cancel_all(entry, 7, 0, 9);
    }
}

/* An entry that is made over other words, of all ones or of another entry, is the one that is made
 * over zeros. */
static void made_over(void)
{
    for (int which = 0; which < 8; which++) {
        uint64_t clean[16] = {0};
        make_entry(clean, which);
        uint64_t entry[16];
        memset(entry, 0xff, sizeof entry);
        make_entry(entry, which);
        check(memcmp(entry, clean, sizeof entry) == 0, "an entry made over ones");
        for (int before = 0; before < 8; before++) {
            make_entry(entry, before);
            make_entry(entry, which);
            check(memcmp(entry, clean, sizeof entry) == 0, "an entry made over another");
        }
    }
}

/* The bytes of a write stand in its last eight words, eight in each, the first in the lowest byte
 * of the first; after them are zeros. */
static void bytes_of_writes(void)
{
    uint8_t bytes[64];
    for (int i = 0; i < 64; i++)
        bytes[i] = (uint8_t)(i + 1);
    for (uint32_t len = 0; len <= 64; len++) {
        uint64_t entry[16];
        wulgach_write(entry, 7, 0, 1, 100, bytes, len);
        for (uint32_t i = 0; i < 64; i++)
            check((uint8_t)(entry[8 + i / 8] >> i % 8 * 8) == (i < len ? bytes[i] : 0),
                "a byte of a write");
    }
}

int main(void)
{
    faults();
    dooms();
    waits();
    made_over();
    bytes_of_writes();
    printf("reasons: as they should be\n");
    return 0;
}
