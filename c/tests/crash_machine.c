/* A machine whose power may fail: which writes are safe, what a crash leaves of its files by hand
 * from the rules, the epoch that goes on from there, and what is refused: empty places, bad
 * numbers, and memory, which the linker lets this test refuse. */
#define TEST "crash_machine"

#include "refusing.h"
#include "wulgach.h"

#include <stdio.h>
#include <stdlib.h>
#include <string.h>

static const struct wulgach_setup two_files = {.sq = 4, .files = 2};

/* A machine whose first file has these bytes and whose second is empty. */
static struct wulgach_crash_machine made(uint64_t unit, const char *first)
{
    struct wulgach_crash_machine machine = {0};
    check(wulgach_crash_machine_on(&machine, &two_files, unit, (const uint8_t *)first,
              strlen(first), (uint64_t[]){strlen(first)}, 1) == 0,
        "on");
    return machine;
}

static struct wulgach_answer make(
    struct wulgach_crash_machine *machine, uint32_t kind, uint32_t word, uint64_t number)
{
    struct wulgach_answer answer;
    check(wulgach_crash_machine_step(machine,
              &(struct wulgach_step){.kind = kind, .word = word, .number = number}, &answer) == 0,
        "a step");
    return answer;
}

/* Submits these entries, at most four, as one call. */
static void submit(
    struct wulgach_crash_machine *machine, size_t count, struct wulgach_entry *entries)
{
    make(machine, WULGACH_LOAD_HEAD, 0, 0);
    for (uint32_t slot = 0; slot < count; slot++) {
        struct wulgach_step fill = {.kind = WULGACH_FILL, .word = slot};
        struct wulgach_answer answer;
        memcpy(fill.entry, entries[slot].words, sizeof fill.entry);
        check(wulgach_crash_machine_step(machine, &fill, &answer) == 0 &&
                  answer.kind == WULGACH_FILLED,
            "fill");
        make(machine, WULGACH_INDEX, slot, 0);
    }
    make(machine, WULGACH_STORE_TAIL, 0, 0);
    make(machine, WULGACH_BEGIN, (uint32_t)count, 0);
    while (make(machine, WULGACH_TAKE, 0, 0).kind != WULGACH_NO_MORE)
        ;
    check(make(machine, WULGACH_END, 0, 0).word == count, "end");
}

static struct wulgach_entry write_of(int32_t fd, uint64_t off, const char *bytes)
{
    struct wulgach_entry entry;
    wulgach_write(entry.words, 1, 0, fd, off, (const uint8_t *)bytes, (uint32_t)strlen(bytes));
    return entry;
}

static struct wulgach_entry sync_of(int32_t fd)
{
    struct wulgach_entry entry;
    wulgach_fsync(entry.words, 2, 0, fd);
    return entry;
}

static bool is_safe(struct wulgach_crash_machine *machine, int32_t fd, uint64_t number)
{
    bool safe = false;
    check(wulgach_crash_machine_is_safe(machine, fd, number, &safe) == 0, "is_safe");
    return safe;
}

static uint64_t images(struct wulgach_crash_machine *machine, int32_t fd)
{
    uint64_t count = 99;
    check(wulgach_crash_machine_count_images(machine, fd, &count) == 0, "count_images");
    return count;
}

/* Whether a crash by these numbers may leave these bytes of a file, and whether the file has them.
 */
static bool leaves(struct wulgach_crash_machine *machine, int32_t fd, size_t count,
    const uint64_t *choice, const char *wanted)
{
    uint8_t bytes[16];
    uint64_t len = 99;
    check(wulgach_crash_machine_image(machine, fd, choice, count, bytes, sizeof bytes, &len) == 0,
        "image");
    return len == strlen(wanted) && memcmp(bytes, wanted, len) == 0;
}

static bool has(struct wulgach_crash_machine *machine, int32_t fd, const char *wanted)
{
    struct wulgach_file file;
    check(wulgach_crash_machine_state(machine, fd, &file) == 0, "state");
    if (file.len != strlen(wanted))
        return false;
    for (uint32_t at = 0; at < file.len; at++) {
        uint8_t byte;
        check(wulgach_crash_machine_byte(machine, fd, at, &byte) == 0, "byte");
        if (byte != (uint8_t)wanted[at])
            return false;
    }
    return true;
}

/* An fsync that is issued while the write runs makes nothing safe; the next one does. */
static void covered(void)
{
    struct wulgach_crash_machine machine = made(1, "..");
    submit(&machine, 3, (struct wulgach_entry[]){write_of(0, 0, "ab"), sync_of(0), sync_of(0)});
    check(images(&machine, 0) == 1, "nothing runs yet");
    check(make(&machine, WULGACH_ISSUE, 0, 0).kind == WULGACH_RUN &&
              make(&machine, WULGACH_ISSUE, 0, 1).kind == WULGACH_RUN,
        "issue");
    check(images(&machine, 0) == 4 && leaves(&machine, 0, 0, (uint64_t[]){0}, ".."),
        "a running write may be left in part");
    check(make(&machine, WULGACH_FINISH, 0, 0).res == 2 &&
              make(&machine, WULGACH_FINISH, 0, 1).res == 0,
        "finish");
    check(has(&machine, 0, "ab") && !is_safe(&machine, 0, 0) && images(&machine, 0) == 4,
        "an fsync covers what had ended when it was issued");
    check(leaves(&machine, 0, 4, (uint64_t[]){0, 1, 0, 0}, "a."), "a torn write");
    check(make(&machine, WULGACH_ISSUE, 0, 2).kind == WULGACH_RUN &&
              make(&machine, WULGACH_FINISH, 0, 2).res == 0,
        "the second fsync");
    check(is_safe(&machine, 0, 0) && images(&machine, 0) == 1 &&
              leaves(&machine, 0, 1, (uint64_t[]){0}, "ab"),
        "a safe write");
    check(!is_safe(&machine, 0, 1) && !is_safe(&machine, 0, 7) && !is_safe(&machine, 1, 0),
        "what is no write of the file isn't safe");
    uint8_t bytes[8] = {0};
    uint64_t lens[2] = {0}, count = 0, total = 0;
    check(wulgach_crash_machine_images(&machine, 0, bytes, 8, lens, 2, &count, &total) == 0 &&
              count == 1 && total == 2 && lens[0] == 2 && memcmp(bytes, "ab", 2) == 0,
        "the images");
    check(wulgach_crash_machine_free(&machine) == 0, "free");
}

/* Each file is left by a choice of its own; the next epoch begins on what is left, and the machine
 * stays as it is. */
static void goes_on(void)
{
    struct wulgach_crash_machine machine = made(2, "...."), next = made(1, "xx");
    submit(&machine, 2, (struct wulgach_entry[]){write_of(0, 0, "abcd"), write_of(1, 0, "ef")});
    for (uint64_t number = 0; number < 2; number++) {
        make(&machine, WULGACH_ISSUE, 0, number);
        make(&machine, WULGACH_FINISH, 0, number);
    }
    uint8_t bytes[8];
    uint64_t lens[4], count = 0, total = 0;
    check(images(&machine, 0) == 4 && images(&machine, 1) == 3, "how many files may be left");
    check(wulgach_crash_machine_images(&machine, 0, bytes, 8, lens, 3, &count, &total) == -27 &&
              count == 0,
        "more images than there is room for");
    check(wulgach_crash_machine_crash(
              &machine, &next, (uint64_t[]){0, 1, 0, 1, 0, 1}, 6, (uint64_t[]){3, 3}, 2) == 0,
        "crash");
    check(has(&next, 0, "ab..") && has(&next, 1, "ef"), "what was chosen is left");
    check(wulgach_crash_machine_crash(
              &machine, &next, (uint64_t[]){0, 0, 1}, 3, (uint64_t[]){3}, 1) == 0,
        "another crash");
    check(has(&next, 0, "..cd") && has(&next, 1, ""), "a choice that is missing is empty");
    struct wulgach_counts counts;
    struct wulgach_file file;
    struct wulgach_completion completion = {.user_data = 99};
    check(wulgach_crash_machine_counts(&next, &counts) == 0 && counts.accepted == 0 &&
              counts.posted == 0,
        "no request is left");
    check(wulgach_crash_machine_state(&next, 0, &file) == 0 && file.writes == 0 &&
              file.synced == 0 && file.len == 4,
        "nothing is counted");
    check(wulgach_crash_machine_rest(&next, 0, &completion) == -2 && completion.user_data == 99,
        "no completion is left");
    check(has(&machine, 0, "abcd") && wulgach_crash_machine_rest(&machine, 1, &completion) == 0 &&
              completion.res == 2,
        "the old one stays");

    struct wulgach_entry entries[2];
    wulgach_read(entries[0].words, 5, 0, 0, 1, 3);
    wulgach_write(entries[1].words, 6, 0, 0, 3, (const uint8_t *)"z", 1);
    submit(&next, 2, entries);
    uint64_t number = 99;
    check(wulgach_crash_machine_issuable(&next, &number) == 0 && number == 2 &&
              wulgach_crash_machine_nth_issuable(&next, 1, &number) == 0 && number == 1,
        "what can be issued");
    check(wulgach_crash_machine_nth_issuable(&next, 2, &number) == -2 && number == 1,
        "nothing past the last");
    make(&next, WULGACH_ISSUE, 0, 0);
    struct wulgach_operation operation;
    check(wulgach_crash_machine_running_op(&next, 0, &operation) == 0 &&
              operation.code == WULGACH_OP_READ && operation.len == 3,
        "what runs");
    struct wulgach_answer answer = make(&next, WULGACH_FINISH, 0, 0);
    check(answer.res == 3 && memcmp(answer.bytes, ".cd", 3) == 0, "a read of the next epoch");
    make(&next, WULGACH_ISSUE, 0, 1);
    make(&next, WULGACH_FINISH, 0, 1);
    check(images(&next, 0) == 2 && leaves(&next, 0, 1, (uint64_t[]){0}, "..cd") &&
              leaves(&next, 0, 4, (uint64_t[]){0, 0, 1, 0}, "..cz"),
        "what was left is safe");
    check(wulgach_crash_machine_free(&machine) == 0 && wulgach_crash_machine_free(&next) == 0,
        "free");
}

/* A fold leaves what a crash may leave, what reads show, and what runs; a write that is gone isn't
 * known any more, and a choice names the others. */
static void folded(void)
{
    struct wulgach_crash_machine machine = made(1, ".."), next = {0};
    submit(&machine, 4,
        (struct wulgach_entry[]){
            write_of(0, 0, "ab"), sync_of(0), write_of(0, 1, "c"), write_of(0, 2, "d")});
    for (uint64_t number = 0; number < 3; number++) {
        make(&machine, WULGACH_ISSUE, 0, number);
        make(&machine, WULGACH_FINISH, 0, number);
    }
    make(&machine, WULGACH_ISSUE, 0, 3);
    check(is_safe(&machine, 0, 0) && images(&machine, 0) == 6, "before a fold");
    check(wulgach_crash_machine_fold(&machine) == 0 && images(&machine, 0) == 6 &&
              has(&machine, 0, "ac"),
        "a fold changes nothing that can be seen");
    check(!is_safe(&machine, 0, 0), "a write that is gone isn't known");
    check(leaves(&machine, 0, 1, (uint64_t[]){0}, "ab") &&
              leaves(&machine, 0, 7, (uint64_t[]){3, 4, 0, 0, 3, 0, 4}, "acd"),
        "what is left is named");
    check(make(&machine, WULGACH_FINISH, 0, 3).res == 1 && has(&machine, 0, "acd"),
        "what ran then goes on");
    check(wulgach_crash_machine_crash(
              &machine, &next, (uint64_t[]){3, 4, 0, 0, 3, 0, 4}, 7, (uint64_t[]){7}, 1) == 0 &&
              has(&next, 0, "acd"),
        "a crash after a fold");
    check(wulgach_crash_machine_free(&machine) == 0 && wulgach_crash_machine_free(&next) == 0 &&
              wulgach_crash_machine_fold(&next) == -9,
        "free");
}

/* Every call at an empty place returns -9, and writes nothing. */
static void empty_places(void)
{
    struct wulgach_crash_machine machine = {0}, next = {0};
    struct wulgach_answer answer = {.kind = 99};
    struct wulgach_counts counts = {.accepted = 99};
    struct wulgach_completion completion = {.user_data = 99};
    struct wulgach_operation operation = {.code = 99};
    struct wulgach_file file = {.len = 99};
    uint8_t byte = 99;
    uint64_t number = 99, total = 99;
    bool is = true;
    check(wulgach_crash_machine_step(
              &machine, &(struct wulgach_step){.kind = WULGACH_NEXT}, &answer) == -9 &&
              answer.kind == 99,
        "step");
    check(wulgach_crash_machine_is_lost(&machine, &is) == -9 && is, "is_lost");
    check(wulgach_crash_machine_counts(&machine, &counts) == -9 && counts.accepted == 99, "counts");
    check(wulgach_crash_machine_rest(&machine, 0, &completion) == -9 && completion.user_data == 99,
        "rest");
    check(wulgach_crash_machine_running_op(&machine, 0, &operation) == -9 && operation.code == 99,
        "running_op");
    check(wulgach_crash_machine_issuable(&machine, &number) == -9 &&
              wulgach_crash_machine_nth_issuable(&machine, 0, &number) == -9,
        "issuable");
    check(wulgach_crash_machine_state(&machine, 0, &file) == -9 && file.len == 99, "state");
    check(wulgach_crash_machine_byte(&machine, 0, 0, &byte) == -9 && byte == 99, "byte");
    check(wulgach_crash_machine_is_safe(&machine, 0, 0, &is) == -9 && is, "is_safe");
    check(
        wulgach_crash_machine_image(&machine, 0, &total, 1, &byte, 1, &number) == -9 && byte == 99,
        "image");
    check(wulgach_crash_machine_count_images(&machine, 0, &number) == -9, "count_images");
    check(wulgach_crash_machine_images(&machine, 0, &byte, 1, &total, 1, &number, &(uint64_t){0}) ==
              -9,
        "images");
    check(wulgach_crash_machine_crash(&machine, &next, &total, 1, &(uint64_t){1}, 1) == -9 &&
              wulgach_crash_machine_free(&next) == -9,
        "crash");
    check(wulgach_crash_machine_free(&machine) == -9 && number == 99 && total == 99, "free");
}

/* Numbers that are refused, and those at their limits. */
static void numbers(void)
{
    static uint8_t bytes[65537];
    static const struct {
        struct wulgach_setup setup;
        uint64_t unit, len;
        size_t count;
        int32_t result;
    } cases[] = {
        {{.sq = 4, .files = 1}, 1, 65536, 1, 0},
        {{.sq = 4, .files = 1}, UINT64_MAX, 0, 0, 0},
        {{.sq = 4, .files = 1}, 1, 65537, 1, -27},
        {{.sq = 4, .files = 1}, 0, 0, 0, -22},
        {{.sq = 4, .files = 1}, 1, 65537, 2, -22},
        {{.sq = 4, .files = 2}, 1, 1, 2, 0},
        {{.sq = 0, .files = 1}, 1, 0, 0, -22},
        {{.sq = 4, .files = 65}, 1, 0, 0, -22},
    };
    for (size_t i = 0; i < sizeof cases / sizeof *cases; i++) {
        struct wulgach_crash_machine machine = {0};
        check(
            wulgach_crash_machine_on(&machine, &cases[i].setup, cases[i].unit, bytes, sizeof bytes,
                (uint64_t[]){cases[i].len, cases[i].len}, cases[i].count) == cases[i].result,
            "on");
        check(wulgach_crash_machine_free(&machine) == (cases[i].result == 0 ? 0 : -9),
            "a place after on");
    }
    struct wulgach_crash_machine fresh = made(1, ".");
    check(wulgach_crash_machine_new(&fresh, &two_files, 0) == -22 &&
              wulgach_crash_machine_new(&fresh, &(struct wulgach_setup){.sq = 0}, 1) == -22 &&
              has(&fresh, 0, "."),
        "new");
    check(wulgach_crash_machine_new(&fresh, &two_files, 1) == 0 && has(&fresh, 0, "") &&
              has(&fresh, 1, "") && wulgach_crash_machine_free(&fresh) == 0,
        "new");
    struct wulgach_crash_machine machine = made(1, ".");
    struct wulgach_answer answer = {.kind = 99};
    bool is = true;
    uint64_t number = 99, total = 99, len = 99, choice = 1;
    uint8_t byte = 99;
    check(
        wulgach_crash_machine_step(&machine, &(struct wulgach_step){.kind = 15}, &answer) == -22 &&
            answer.kind == 99,
        "no step");
    for (int32_t fd = -1; fd < 3; fd += 3) {
        check(wulgach_crash_machine_is_safe(&machine, fd, 0, &is) == -2 && is, "no such file");
        check(wulgach_crash_machine_count_images(&machine, fd, &number) == -2 &&
                  wulgach_crash_machine_image(&machine, fd, &choice, 1, &byte, 1, &number) == -2,
            "no such file");
        check(
            wulgach_crash_machine_images(&machine, fd, &byte, 1, &len, 1, &number, &total) == -2 &&
                number == 99 && total == 99 && len == 99 && byte == 99,
            "no such file");
    }
    check(wulgach_crash_machine_is_lost(&machine, &is) == 0 && !is &&
              wulgach_crash_machine_free(&machine) == 0,
        "free");
}

/* Memory that is refused for what is kept loses the machine: each growth of an Issue in turn. */
static void lost(uint64_t number)
{
    for (long refusals = 0;; refusals++) {
        struct wulgach_crash_machine machine = made(1, ".."), next = {0};
        submit(&machine, 2, (struct wulgach_entry[]){write_of(0, 0, "ab"), sync_of(0)});
        struct wulgach_answer answer = {.kind = 99};
        struct wulgach_step issue = {.kind = WULGACH_ISSUE, .number = number};
        uint64_t count = 99, len = 99, none = 0;
        uint8_t bytes[4];
        bool is_lost = false;
        served = refusals;
        int32_t result = wulgach_crash_machine_step(&machine, &issue, &answer);
        bool is_made = served >= 0;
        served = -1;
        check(wulgach_crash_machine_is_lost(&machine, &is_lost) == 0 && is_lost == !is_made,
            "a machine is lost exactly if memory was refused");
        check(result == (is_made ? 0 : -12) && (answer.kind == 99) == !is_made,
            "-12 exactly if memory was refused");
        int32_t after = is_made ? 0 : -131;
        check(wulgach_crash_machine_step(
                  &machine, &(struct wulgach_step){.kind = WULGACH_NEXT}, &answer) == after,
            "each step after");
        check(wulgach_crash_machine_step(&machine, &(struct wulgach_step){.kind = 15}, &answer) ==
                  -22,
            "no step");
        check(wulgach_crash_machine_count_images(&machine, 0, &count) == after &&
                  wulgach_crash_machine_image(&machine, 0, &none, 0, bytes, 4, &len) == after,
            "what is left");
        check(wulgach_crash_machine_images(&machine, 0, bytes, 4, &none, 0, &count, &len) ==
                  (is_made ? -27 : -131),
            "the images");
        check(wulgach_crash_machine_is_safe(&machine, 7, 0, &is_lost) == (is_made ? -2 : -131),
            "is_safe");
        check(wulgach_crash_machine_crash(&machine, &next, &none, 0, &none, 0) == after &&
                  wulgach_crash_machine_free(&next) == (is_made ? 0 : -9),
            "crash");
        check(wulgach_crash_machine_free(&machine) == 0, "free");
        if (is_made)
            break;
        check(refusals < 100, "memory is refused in vain");
    }
}

/* The calls that lose nothing: each growth refused once changes nothing. */
static void refused(void)
{
    struct wulgach_crash_machine machine = made(1, ".."), place = made(1, "x");
    submit(&machine, 1, (struct wulgach_entry[]){write_of(0, 0, "ab")});
    make(&machine, WULGACH_ISSUE, 0, 0);
    for (int call = 0; call < 6; call++) {
        long refusals = 0;
        for (;; refusals++) {
            uint8_t bytes[16] = "none";
            uint64_t len = 99, lens[4] = {99}, total = 99;
            int32_t result;
            served = refusals;
            switch (call) {
            case 0:
                result = wulgach_crash_machine_on(
                    &place, &two_files, 1, (const uint8_t *)"y", 1, (uint64_t[]){1}, 1);
                break;
            case 1:
                result = wulgach_crash_machine_crash(
                    &machine, &place, (uint64_t[]){0, 0, 1}, 3, (uint64_t[]){3}, 1);
                break;
            case 2:
                result = wulgach_crash_machine_image(
                    &machine, 0, (uint64_t[]){0, 1}, 2, bytes, 16, &len);
                break;
            case 3:
                result = wulgach_crash_machine_count_images(&machine, 0, &len);
                break;
            case 4:
                result = wulgach_crash_machine_images(
                    &machine, 0, bytes, 16, lens, 4, &len, &total);
                break;
            default:
                result = wulgach_crash_machine_new(&place, &two_files, 1);
            }
            bool is_made = served >= 0;
            served = -1;
            check(result == (is_made ? 0 : -12), "-12 exactly if memory was refused");
            check(is_made ||
                      (memcmp(bytes, "none", 4) == 0 && len == 99 && lens[0] == 99 && total == 99),
                "a refusal writes nothing");
            check(has(&place, 0,
                      call == 0              ? (is_made ? "y" : "x")
                      : call == 1            ? (is_made ? ".b" : "y")
                      : call == 5 && is_made ? ""
                                             : ".b"),
                "a place keeps what it had");
            if (is_made)
                break;
            check(refusals < 1000, "memory is refused in vain");
        }
        check(refusals > 0, "the call takes memory");
    }
    bool is_lost = true;
    check(wulgach_crash_machine_is_lost(&machine, &is_lost) == 0 && !is_lost,
        "a crash loses nothing");
    check(wulgach_crash_machine_free(&machine) == 0 && wulgach_crash_machine_free(&place) == 0,
        "free");
}

int main(void)
{
    covered();
    folded();
    goes_on();
    empty_places();
    numbers();
    lost(0);
    lost(1);
    refused();
    printf("crash_machine: as it should be\n");
    return 0;
}
