/* A volume: what reads show, which writes are safe, and what crashes leave, beside what the rule
 * says of small histories. And what is refused: empty places, bad numbers, and memory, which the
 * linker lets this test refuse. */
#define TEST "volume"

#include "refusing.h"
#include "wulgach.h"

#include <stdio.h>
#include <stdlib.h>
#include <string.h>

static struct wulgach_volume made(uint64_t unit, const char *first)
{
    struct wulgach_volume volume = {0};
    check(wulgach_volume_new(&volume, unit, (const uint8_t *)first, strlen(first)) == 0, "new");
    return volume;
}

static uint64_t written(struct wulgach_volume *volume, uint64_t off, const char *bytes)
{
    uint64_t number = 0;
    check(wulgach_volume_begin_write(volume, off, (const uint8_t *)bytes, strlen(bytes), &number) ==
              0,
        "begin a write");
    return number;
}

static uint64_t synced(struct wulgach_volume *volume)
{
    uint64_t number = 0;
    check(wulgach_volume_begin_sync(volume, &number) == 0, "begin a sync");
    return number;
}

static bool is_safe(struct wulgach_volume *volume, uint64_t number)
{
    bool safe = false;
    check(wulgach_volume_is_safe(volume, number, &safe) == 0, "is_safe");
    return safe;
}

/* Whether a read, or a crash by these numbers, gives these bytes. */
static bool shows(struct wulgach_volume *volume, const char *wanted)
{
    uint8_t bytes[16];
    uint64_t len = 99;
    check(wulgach_volume_contents(volume, bytes, sizeof bytes, &len) == 0, "contents");
    return len == strlen(wanted) && memcmp(bytes, wanted, len) == 0;
}

static bool leaves(
    struct wulgach_volume *volume, size_t count, const uint64_t *choice, const char *wanted)
{
    uint8_t bytes[16];
    uint64_t len = 99;
    check(wulgach_volume_crash(volume, choice, count, bytes, sizeof bytes, &len) == 0, "crash");
    return len == strlen(wanted) && memcmp(bytes, wanted, len) == 0;
}

#define LEAVES(volume, wanted, ...) \
    leaves(volume, sizeof(uint64_t[]){0, __VA_ARGS__} / 8 - 1, (uint64_t[]){0, __VA_ARGS__} + 1, \
        wanted)

/* A write that ended while the sync ran isn't safe; one that had ended when it began is. */
static void covered(void)
{
    struct wulgach_volume volume = made(1, "....");
    uint64_t a = written(&volume, 0, "aa"), b = written(&volume, 2, "bb");
    check(a == 1 && b == 2 && shows(&volume, "...."), "a running write isn't read");
    check(wulgach_volume_end_write(&volume, a) == 0 && shows(&volume, "aa.."),
        "an ended write is read");
    uint64_t s = synced(&volume);
    check(s == 3 && wulgach_volume_end_write(&volume, b) == 0 && !is_safe(&volume, a),
        "a running sync makes nothing safe");
    check(wulgach_volume_end_sync(&volume, s) == 0 && shows(&volume, "aabb"), "a sync");
    check(is_safe(&volume, a) && !is_safe(&volume, b) && !is_safe(&volume, s),
        "which writes are safe");
    check(LEAVES(&volume, "aa..", 0), "the least that a crash leaves");
    check(LEAVES(&volume, "aab.", 0, 0, 0, 2), "a torn write");
    check(LEAVES(&volume, "aabb", 0, 1, 0, 1, 0, 2, 0, 2), "all of it");
    check(wulgach_volume_end_sync(&volume, s) == -2 && wulgach_volume_end_write(&volume, b) == -2,
        "an end comes once");
    check(wulgach_volume_free(&volume) == 0, "free");
}

/* A unit is left whole, in the order that the rule allows, and the length is one for all. */
static void units(void)
{
    struct wulgach_volume volume = made(2, "....");
    uint64_t a = written(&volume, 0, "aaaa");
    check(wulgach_volume_end_write(&volume, a) == 0, "end");
    written(&volume, 1, "bbbbb");
    check(LEAVES(&volume, "....", 0), "nothing need be left");
    check(LEAVES(&volume, "abaa", 0, 1, 2, 0, 1), "units by themselves, a write under a later one");
    check(LEAVES(&volume, "..aa", 0, 2, 0, 1),
        "a write isn't left without one that had ended when it began");
    check(LEAVES(&volume, "aaaa", 0, 2, 1, 0, 1), "a number that may not come next is passed over");
    check(LEAVES(&volume, "..bbbb", 1, 2, 0, 0, 1, 2, 0, 1, 2), "a longer file");
    check(wulgach_volume_free(&volume) == 0, "free");
}

/* Any part of a write that failed may be left, under each that began later; what a short one moved
 * is a write of its own. */
static void failed_writes(void)
{
    struct wulgach_volume volume = made(1, "....");
    uint64_t a = written(&volume, 0, "aaaa");
    check(wulgach_volume_fail_write(&volume, a) == 0 && shows(&volume, "...."),
        "a failed write isn't read");
    check(wulgach_volume_fail_write(&volume, a) == -2 && wulgach_volume_end_write(&volume, a) == -2,
        "a write ends once");
    uint64_t b = written(&volume, 0, "bb"), count = 0;
    check(wulgach_volume_end_write(&volume, b) == 0, "what was moved");
    uint64_t s = synced(&volume);
    check(wulgach_volume_end_sync(&volume, s) == 0 && !is_safe(&volume, a) && is_safe(&volume, b),
        "a failed write is never safe");
    check(wulgach_volume_count_images(&volume, &count) == 0 && count == 4, "each byte for itself");
    check(LEAVES(&volume, "bb..", 0, 2, 0, 2, 0, 0), "the later write alone");
    check(LEAVES(&volume, "bbaa", 0, 1, 2, 0, 1, 2, 0, 1, 0, 1), "under the later write");
    check(LEAVES(&volume, "bb..", 0, 2, 1, 0, 2, 1), "what has failed doesn't come after it");
    check(wulgach_volume_fold(&volume) == 0 && is_safe(&volume, b),
        "what lies over it in part stays");
    uint64_t c = written(&volume, 0, "cccc");
    check(wulgach_volume_end_write(&volume, c) == 0, "all of it written again");
    s = synced(&volume);
    check(wulgach_volume_end_sync(&volume, s) == 0 && wulgach_volume_fold(&volume) == 0 &&
              !is_safe(&volume, c) && LEAVES(&volume, "cccc", 0),
        "a failed write is let go under a safe one");
    check(wulgach_volume_free(&volume) == 0, "free");
}

/* A failed sync gives up what it reached; a sync of a range covers what lies in it whole. */
static void failures_and_ranges(void)
{
    struct wulgach_volume volume = made(1, "........");
    uint64_t a = written(&volume, 0, "aa"), b = written(&volume, 1, "bbb"),
             c = written(&volume, 6, "cc"), s = 0;
    check(wulgach_volume_end_write(&volume, a) == 0 && wulgach_volume_end_write(&volume, b) == 0 &&
              wulgach_volume_end_write(&volume, c) == 0,
        "end");
    check(wulgach_volume_begin_range_sync(&volume, 0, 3, &s) == 0 && s == 4 &&
              wulgach_volume_end_sync(&volume, s) == 0,
        "a sync of a range");
    check(
        is_safe(&volume, a) && !is_safe(&volume, b) && !is_safe(&volume, c), "what a range covers");
    check(wulgach_volume_begin_range_sync(&volume, 3, UINT64_MAX, &s) == 0 &&
              wulgach_volume_fail_sync(&volume, s) == 0,
        "a sync fails");
    check(wulgach_volume_fail_sync(&volume, s) == -2, "a failure comes once");
    s = synced(&volume);
    check(wulgach_volume_end_sync(&volume, s) == 0, "a later sync");
    check(is_safe(&volume, a) && !is_safe(&volume, b) && !is_safe(&volume, c),
        "what failed stays unsafe");
    check(wulgach_volume_free(&volume) == 0, "free");
}

/* How many images there are, and which: each once. */
static void all_images(void)
{
    struct wulgach_volume volume = made(1, "..");
    uint64_t count = 0, total = 0, lens[6] = {0};
    uint8_t bytes[16];
    written(&volume, 0, "ab");
    written(&volume, 1, "cd");
    check(wulgach_volume_count_images(&volume, &count) == 0 && count == 18, "how many images");
    check(wulgach_volume_images(&volume, bytes, sizeof bytes, lens, 6, &count, &total) == -27 &&
              count == 18 && total == 0,
        "more images than there is room for");
    check(wulgach_volume_end_write(&volume, 1) == 0 && wulgach_volume_end_write(&volume, 2) == 0,
        "end");
    uint64_t s = synced(&volume);
    check(wulgach_volume_end_sync(&volume, s) == 0, "sync");
    check(wulgach_volume_images(&volume, bytes, sizeof bytes, lens, 6, &count, &total) == 0 &&
              count == 2 && total == 6 && lens[0] == 3 && lens[1] == 3,
        "the images");
    check((memcmp(bytes, "abdacd", 6) == 0) != (memcmp(bytes, "acdabd", 6) == 0),
        "two writes that ran at once lie in either order");
    uint8_t two[2] = {0};
    check(wulgach_volume_images(&volume, two, 2, lens, 6, &count, &total) == 0 && total == 6 &&
              memcmp(two, bytes, 2) == 0,
        "room for two bytes");
    check(wulgach_volume_free(&volume) == 0, "free");
}

/* What is safe and lies under all others is forgotten, and nothing else changes. */
static void folded(void)
{
    struct wulgach_volume volume = made(1, "....");
    uint64_t a = written(&volume, 0, "aa");
    check(wulgach_volume_end_write(&volume, a) == 0, "end");
    uint64_t b = written(&volume, 1, "bb"), s = synced(&volume), count = 0, none = 0;
    check(wulgach_volume_end_sync(&volume, s) == 0 && is_safe(&volume, a) && !is_safe(&volume, b),
        "a sync");
    check(wulgach_volume_fold(&volume) == 0 && !is_safe(&volume, a) && shows(&volume, "aa.."),
        "fold");
    check(wulgach_volume_count_images(&volume, &count) == 0 && count == 4,
        "as many images as before");
    check(LEAVES(&volume, "aa..", 0) && LEAVES(&volume, "ab..", 0, 0, 2), "what crashes leave");
    check(wulgach_volume_end_write(&volume, b) == 0 && shows(&volume, "abb."),
        "a running write ends");
    s = synced(&volume);
    check(wulgach_volume_end_sync(&volume, s) == 0 && is_safe(&volume, b) &&
              wulgach_volume_fold(&volume) == 0,
        "fold the rest");
    check(wulgach_volume_crash(&volume, &none, 0, &(uint8_t){0}, 0, &count) == 0 && count == 4 &&
              LEAVES(&volume, "abb.", 0),
        "all of it is left");
    check(wulgach_volume_free(&volume) == 0, "free");
}

/* Room for fewer bytes than there are: those are written, and nothing after them. */
static void little_room(void)
{
    struct wulgach_volume volume = made(4096, "first");
    uint8_t bytes[8] = {'.', '.', '.', '.', '.', '.', '.', '.'};
    uint64_t len = 0, none = 0;
    check(wulgach_volume_contents(&volume, bytes, 3, &len) == 0 && len == 5 &&
              memcmp(bytes, "fir.....", 8) == 0,
        "room for three bytes");
    check(wulgach_volume_crash(&volume, &none, 0, bytes, 6, &len) == 0 && len == 5 &&
              memcmp(bytes, "first...", 8) == 0,
        "room for six bytes");
    check(wulgach_volume_free(&volume) == 0, "free");
}

/* The choice of a seed is the same each time, and one of another seed another. */
static void seeds(void)
{
    uint64_t one[64], two[64], zeros = 0;
    wulgach_volume_choose(7, 5, one, 64);
    wulgach_volume_choose(7, 5, two, 64);
    check(memcmp(one, two, sizeof one) == 0, "the same seed");
    wulgach_volume_choose(8, 5, two, 64);
    check(memcmp(one, two, sizeof one) != 0, "another seed");
    for (int i = 0; i < 64; i++) {
        check(one[i] <= 5, "a number above the last");
        zeros += one[i] == 0;
    }
    check(zeros > 0 && zeros < 64, "parts of a choice");
    /* The first numbers of splitmix64 from 0 on, as its authors give them: each up to last, and one
     * that 4 divides is a 0. */
    wulgach_volume_choose(0, UINT64_MAX / 4, one, 5);
    check(one[0] == 1 + UINT64_C(0xe220a8397b1dcdaf) / 4 && one[1] == 0 &&
              one[2] == 1 + UINT64_C(0x06c45d188009454f) / 4 && one[3] == 0 &&
              one[4] == 1 + UINT64_C(0x1b39896a51a8749b) / 4,
        "which numbers a seed gives");
    wulgach_volume_choose(0, 3, one, 5);
    check(one[0] == 2 && one[1] == 0 && one[2] == 2 && one[3] == 0 && one[4] == 2,
        "numbers up to the last");
}

static void empty_places(void)
{
    struct wulgach_volume volume = {0};
    uint64_t number = 99, choice = 1;
    uint8_t byte = 99;
    bool safe = true;
    check(wulgach_volume_begin_write(&volume, 0, &byte, 1, &number) == -9,
        "begin a write in an empty place");
    check(wulgach_volume_begin_sync(&volume, &number) == -9, "begin a sync in an empty place");
    check(wulgach_volume_begin_range_sync(&volume, 0, 1, &number) == -9,
        "begin a sync of a range in an empty place");
    check(
        wulgach_volume_end_write(&volume, 1) == -9 && wulgach_volume_fail_write(&volume, 1) == -9 &&
            wulgach_volume_end_sync(&volume, 1) == -9 && wulgach_volume_fail_sync(&volume, 1) == -9,
        "ends in an empty place");
    check(wulgach_volume_is_safe(&volume, 1, &safe) == -9, "is_safe of an empty place");
    check(wulgach_volume_contents(&volume, &byte, 1, &number) == -9, "contents of an empty place");
    check(wulgach_volume_crash(&volume, &choice, 1, &byte, 1, &number) == -9,
        "crash of an empty place");
    check(wulgach_volume_count_images(&volume, &number) == -9 && wulgach_volume_fold(&volume) == -9,
        "images and folds of an empty place");
    check(
        wulgach_volume_images(&volume, &byte, 1, &number, 1, &choice, &choice) == -9 && choice == 1,
        "the images of an empty place");
    check(wulgach_volume_free(&volume) == -9, "free of an empty place");
    check(number == 99 && byte == 99 && safe, "a refusal writes");
}

/* Numbers out of their ranges. */
static void limits(void)
{
    struct wulgach_volume volume = made(1, "x");
    uint64_t number = 99;
    uint8_t byte = 'y';
    check(wulgach_volume_new(&volume, 0, &byte, 1) == -22 && shows(&volume, "x"),
        "a unit of no byte");
    check(wulgach_volume_begin_write(&volume, UINT64_MAX, &byte, 1, &number) == -27 && number == 99,
        "a write past the last offset");
    check(wulgach_volume_begin_write(&volume, (UINT64_C(1) << 63) - 1, &byte, 1, &number) == -27 &&
              number == 99,
        "a write that ends at 2^63");
    check(wulgach_volume_begin_write(&volume, (UINT64_C(1) << 63) - 2, &byte, 1, &number) == 0 &&
              number == 1,
        "one that ends below");
    check(wulgach_volume_free(&volume) == 0, "free");
}

/* The call of this number, of eight. */
static int32_t take_memory(
    struct wulgach_volume *volume, int call, uint8_t bytes[4], uint64_t *number)
{
    uint64_t total, choice = 1, lens[64];
    switch (call) {
    case 0:
        return wulgach_volume_new(volume, 1, (const uint8_t *)"ab", 2);
    case 1:
        return wulgach_volume_begin_write(volume, 0, (const uint8_t *)"cd", 2, number);
    case 2:
        return wulgach_volume_begin_sync(volume, number);
    case 3:
        return wulgach_volume_contents(volume, bytes, 4, number);
    case 4:
        return wulgach_volume_crash(volume, &choice, 1, bytes, 4, number);
    case 5:
        return wulgach_volume_count_images(volume, number);
    case 6:
        return wulgach_volume_images(volume, bytes, 4, lens, 64, number, &total);
    default:
        return wulgach_volume_begin_range_sync(volume, 0, 1, number);
    }
}

/* Each call that takes memory, with each of its requests refused in turn: -12, and nothing changes.
 */
static void refused_memory(void)
{
    struct wulgach_volume volume = made(1, "ab");
    for (int call = 0; call < 8; call++) {
        long refusals = 0;
        for (;; refusals++) {
            uint64_t number = 99;
            uint8_t bytes[4] = {'.', '.', '.', '.'};
            served = refusals;
            int32_t result = take_memory(&volume, call, bytes, &number);
            bool is_served = served >= 0;
            served = -1;
            check(result == (is_served ? 0 : -12), "-12 exactly if memory was refused");
            if (is_served)
                break;
            check(number == 99 && memcmp(bytes, "....", 4) == 0 && shows(&volume, "ab"),
                "a refusal changes nothing");
        }
        check(call == 2 || call == 7 || refusals > 0, "the call takes memory");
    }
    check(wulgach_volume_end_write(&volume, 1) == 0 && wulgach_volume_end_sync(&volume, 2) == 0 &&
              shows(&volume, "cd"),
        "ends take no memory");
    check(wulgach_volume_free(&volume) == 0 && wulgach_volume_free(&volume) == -9, "a second free");
}

int main(void)
{
    covered();
    units();
    failed_writes();
    failures_and_ranges();
    all_images();
    folded();
    little_room();
    seeds();
    empty_places();
    limits();
    refused_memory();
    printf("volume: as it should be\n");
    return 0;
}
