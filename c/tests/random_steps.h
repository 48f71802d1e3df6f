/* For side_by_side.c: what the answers so far say, random steps, and their lines in the trace
 * language. */
#ifndef RANDOM_STEPS_H
#define RANDOM_STEPS_H

#include "wulgach.h"

#include <inttypes.h>
#include <stdio.h>
#include <stdlib.h>
#include <string.h>

enum { FILE_SIZE = 65536, MAX_FILES = 64 };

enum state { WAITS, RUNS, ENDED };

struct request {
    uint64_t entry[16];
    enum state state;
};

/* What the answers so far say. */
struct model {
    struct request *requests;
    uint64_t accepted, ended, running;
    uint64_t (*taken)[16];
    uint32_t taken_count;
    struct wulgach_completion *posted;
    uint64_t posted_count, reaped;
    uint8_t *bytes;
    struct wulgach_file files[MAX_FILES];
};

static uint64_t rng_state;
static uint64_t steps_seen[15], answers_seen[29];
static uint64_t seed;

static void fail(const char *what)
{
    fprintf(stderr, "side_by_side: seed %" PRIu64 ": %s\n", seed, what);
    exit(1);
}

static void check(bool is_right, const char *what)
{
    if (!is_right)
        fail(what);
}

static uint64_t roll(void)
{
    rng_state ^= rng_state << 13;
    rng_state ^= rng_state >> 7;
    rng_state ^= rng_state << 17;
    return rng_state * 2685821657736338717u;
}

static uint32_t below(uint32_t n)
{
    return (uint32_t)(roll() >> 33) % n;
}

static bool is_one_in(uint32_t n)
{
    return below(n) == 0;
}

static void *room(size_t count, size_t size)
{
    void *at = calloc(count, size);
    if (!at)
        fail("out of memory");
    return at;
}

/* ---- random steps, and their lines ---- */

static void print_flags(FILE *lines, uint8_t flags)
{
    if (flags == 0)
        fputc('-', lines);
    if (flags & WULGACH_IO_DRAIN)
        fputc('D', lines);
    if (flags & WULGACH_IO_LINK)
        fputc('L', lines);
    if (flags & WULGACH_IO_HARDLINK)
        fputc('H', lines);
    if (flags & WULGACH_ASYNC)
        fputc('A', lines);
    if (flags & WULGACH_CQE_SKIP_SUCCESS)
        fputc('S', lines);
}

static uint8_t random_flags(void)
{
    uint8_t flags = 0;
    if (is_one_in(3))
        flags |= WULGACH_IO_LINK;
    if (is_one_in(10))
        flags |= WULGACH_IO_HARDLINK;
    if (is_one_in(12))
        flags |= WULGACH_IO_DRAIN;
    if (is_one_in(10))
        flags |= WULGACH_ASYNC;
    if (is_one_in(8))
        flags |= WULGACH_CQE_SKIP_SUCCESS;
    return flags;
}

static uint64_t random_offset(void)
{
    switch (below(8)) {
    case 0:
        return FILE_SIZE - below(80);
    case 1:
        return UINT64_MAX - below(2);
    default:
        return below(200);
    }
}

/* What an entry is to have, whatever its operation. */
struct drawn {
    uint64_t user_data, off;
    uint8_t flags;
    int32_t fd;
};

/* The beginning of an entry's line. */
static void print_drawn(FILE *lines, const char *operation, const struct drawn *drawn)
{
    fprintf(lines, "%s %" PRIu64 " ", operation, drawn->user_data);
    print_flags(lines, drawn->flags);
}

static void fill_read(FILE *lines, uint64_t *entry, const struct drawn *drawn)
{
    uint32_t len = below(68);
    wulgach_read(entry, drawn->user_data, drawn->flags, drawn->fd, drawn->off, len);
    print_drawn(lines, "read", drawn);
    fprintf(lines, " %" PRId32 " %" PRIu64 " %" PRIu32, drawn->fd, drawn->off, len);
}

static void fill_write(FILE *lines, uint64_t *entry, const struct drawn *drawn)
{
    uint32_t len = below(65);
    uint8_t bytes[64];
    for (int i = 0; i < 64; i++)
        bytes[i] = (uint8_t)roll();
    wulgach_write(entry, drawn->user_data, drawn->flags, drawn->fd, drawn->off, bytes, len);
    print_drawn(lines, "write", drawn);
    fprintf(lines, " %" PRId32 " %" PRIu64 " ", drawn->fd, drawn->off);
    for (uint32_t i = 0; i < len; i++)
        fprintf(lines, "%02x", bytes[i]);
    if (len == 0)
        fputc('-', lines);
}

static void fill_cancel(FILE *lines, uint64_t *entry, const struct drawn *drawn)
{
    uint64_t target = below(8);
    int is_of_all = is_one_in(2);
    (is_of_all ? wulgach_cancel_all : wulgach_cancel)(
        entry, drawn->user_data, drawn->flags, target);
    print_drawn(lines, is_of_all ? "cancelall" : "cancel", drawn);
    fprintf(lines, " %" PRIu64, target);
}

/* Words that may be of no operation. */
static void fill_raw(FILE *lines, uint64_t *entry, const struct drawn *drawn)
{
    wulgach_nop(entry, drawn->user_data, drawn->flags);
    if (is_one_in(2))
        entry[below(16)] = roll();
    else
        for (int i = 0; i < 16; i++)
            entry[i] = roll();
    fputs("raw ", lines);
    for (int i = 0; i < 128; i++)
        fprintf(lines, "%02x", (unsigned)(entry[i / 8] >> i % 8 * 8 & 0xff));
}

static void fill(FILE *lines, struct wulgach_step *step, uint32_t sq, uint32_t files)
{
    struct drawn drawn;
    step->kind = WULGACH_FILL;
    step->word = is_one_in(15) ? (uint32_t)roll() : below(sq + 1);
    drawn.user_data = is_one_in(20) ? roll() : below(8);
    drawn.flags = random_flags();
    drawn.fd = is_one_in(12) ? (int32_t)(uint32_t)roll() : (int32_t)below(files + 1);
    drawn.off = random_offset();
    fprintf(lines, "fill %" PRIu32 " ", step->word);
    switch (below(8)) {
    case 0:
        wulgach_nop(step->entry, drawn.user_data, drawn.flags);
        print_drawn(lines, "nop", &drawn);
        break;
    case 1:
        wulgach_fsync(step->entry, drawn.user_data, drawn.flags, drawn.fd);
        print_drawn(lines, "fsync", &drawn);
        fprintf(lines, " %" PRId32, drawn.fd);
        break;
    case 2:
    case 3:
        fill_read(lines, step->entry, &drawn);
        break;
    case 4:
    case 5:
        fill_write(lines, step->entry, &drawn);
        break;
    case 6:
        fill_cancel(lines, step->entry, &drawn);
        break;
    default:
        fill_raw(lines, step->entry, &drawn);
    }
    fputc('\n', lines);
}

/* A number of a request: mostly one that is outstanding or was just accepted. */
static uint64_t random_number(const struct model *m)
{
    if (m->accepted == 0 || is_one_in(25))
        return is_one_in(2) ? roll() : m->accepted;
    uint64_t back = m->accepted < 12 ? m->accepted : 12;
    return m->accepted - 1 - below((uint32_t)back);
}

static const char *const words[15] = {"", "index", "tail", "head", "begin", "take", "end", "issue",
    "finish", "flush", "cqtail", "reap", "cqhead", "close", "next"};

/* How often each kind comes. */
static const uint8_t weights[15] = {20, 22, 12, 6, 10, 28, 12, 26, 24, 5, 10, 14, 8, 0, 5};

static uint32_t random_kind(void)
{
    if (is_one_in(300))
        return WULGACH_CLOSE;
    uint32_t all = 0;
    for (int i = 0; i < 15; i++)
        all += weights[i];
    uint32_t at = below(all);
    for (uint32_t kind = 0;; kind++) {
        if (at < weights[kind])
            return kind;
        at -= weights[kind];
    }
}

static struct wulgach_step random_step(
    FILE *lines, const struct model *m, const struct wulgach_setup *setup)
{
    struct wulgach_step step = {.kind = random_kind(), .word = (uint32_t)roll(), .number = roll()};
    for (int i = 0; i < 16; i++)
        step.entry[i] = roll();
    switch (step.kind) {
    case WULGACH_FILL:
        fill(lines, &step, setup->sq, setup->files);
        break;
    case WULGACH_INDEX:
        step.word = is_one_in(12) ? (uint32_t)roll() : below(setup->sq);
        fprintf(lines, "index %" PRIu32 "\n", step.word);
        break;
    case WULGACH_BEGIN:
        step.word = is_one_in(10) ? (uint32_t)roll() : below(setup->sq + 2);
        fprintf(lines, "begin %" PRIu32 "\n", step.word);
        break;
    case WULGACH_ISSUE:
    case WULGACH_FINISH:
        step.number = random_number(m);
        fprintf(lines, "%s %" PRIu64 "\n", words[step.kind], step.number);
        break;
    default:
        fprintf(lines, "%s\n", words[step.kind]);
    }
    return step;
}

#endif
