/* The recorder's items. */
#include "items.h"
#include "ring.h"

#include <stdio.h>
#include <stdlib.h>
#include <string.h>
#include <unistd.h>

enum { MOST_HOLDS = 64, DATA = 64 };

struct hold {
    uint64_t user_data;
    int ends[2];
    bool is_released;
};

static struct hold holds[MOST_HOLDS];
static int hold_count;
static char memory[MOST_ITEMS][DATA]; /* of reads and writes, one each */
static unsigned memory_count;

static void release_one(struct hold *it)
{
    if (it->is_released)
        return;
    it->is_released = true;
    must(write(it->ends[1], "x", 1) == 1, "write");
    printf("released %llu\n", (unsigned long long)it->user_data);
}

void release(uint64_t user_data)
{
    for (int at = 0; at < hold_count; at++)
        if (holds[at].user_data == user_data)
            release_one(&holds[at]);
}

void release_all(void)
{
    for (int at = 0; at < hold_count; at++) {
        release_one(&holds[at]);
        wait_for(1);
    }
}

static unsigned char flags_of(const char *word)
{
    unsigned flags = 0;
    for (; *word; word++)
        flags |= *word == 'D'   ? IOSQE_IO_DRAIN
                 : *word == 'L' ? IOSQE_IO_LINK
                 : *word == 'H' ? IOSQE_IO_HARDLINK
                 : *word == 'A' ? IOSQE_ASYNC
                 : *word == 'S' ? IOSQE_CQE_SKIP_SUCCESS
                                : 0;
    return (unsigned char)flags;
}

static void *fresh_memory(void)
{
    if (memory_count == MOST_ITEMS)
        stop(BAD_LINE, "too many reads and writes");
    return memory[memory_count++];
}

static void stage(struct io_uring_sqe *entry, unsigned word)
{
    if (left_staged() == ring.sq_entries)
        stop(BAD_LINE, "more items than the ring has room for");
    if (entry) {
        ring.entries[ring.staged & ring.sq_mask] = *entry;
        if (!(entry->flags & IOSQE_CQE_SKIP_SUCCESS))
            await(entry->user_data);
    }
    ring.sq_array[ring.staged & ring.sq_mask] = entry ? ring.staged & ring.sq_mask : word;
    ring.staged++;
}

/* The operation of this name that is served, or -1. */
static int operation_of(const char *name)
{
    static const struct {
        const char *name;
        int code;
    } served[] = {
        {"nop", IORING_OP_NOP}, {"fsync", IORING_OP_FSYNC}, {"cancel", IORING_OP_ASYNC_CANCEL}};
    for (unsigned at = 0; at < sizeof served / sizeof *served; at++)
        if (!strcmp(served[at].name, name))
            return served[at].code;
    return -1;
}

/* Gives an entry a fault of this kind. Returns whether there is such a kind. */
static bool spoil(struct io_uring_sqe *entry, const char *kind)
{
    if (!strcmp(kind, "flag"))
        entry->flags |= 128;
    else if (!strcmp(kind, "priority"))
        entry->ioprio = 1;
    else if (!strcmp(kind, "operation"))
        entry->rw_flags = (__kernel_rwf_t)(1u << 31);
    else if (!strcmp(kind, "byte"))
        ((unsigned char *)entry)[42] = 1;
    else
        return false;
    return true;
}

/* Stages an operation with a fault, or says that these words are none. */
static bool faulty_item(char **words)
{
    int operation = operation_of(words[2]);
    struct io_uring_sqe it = {.opcode = (unsigned char)operation,
        .user_data = strtoull(words[3], NULL, 10),
        .flags = flags_of(words[4])};
    if (operation < 0 || !spoil(&it, words[1]))
        return false;
    stage(&it, 0);
    return true;
}

/* A read that waits for the byte of a pipe, which a `release` writes. */
static void hold_by(struct io_uring_sqe *it)
{
    if (hold_count == MOST_HOLDS)
        stop(BAD_LINE, "too many holds");
    struct hold *hold = &holds[hold_count++];
    hold->user_data = it->user_data;
    must(!pipe(hold->ends), "pipe");
    it->opcode = IORING_OP_READ;
    it->fd = hold->ends[0];
    it->off = (uint64_t)-1;
    it->len = 1;
    it->addr = (uintptr_t)fresh_memory();
}

static void transfer_by(struct io_uring_sqe *it, unsigned char opcode, char **words)
{
    it->opcode = opcode;
    it->fd = descriptor_of(words[3]);
    it->off = strtoull(words[4], NULL, 10);
    it->addr = (uintptr_t)fresh_memory();
}

/* Whether these words are one of the operations that the kernel serves. */
static bool served_item(struct io_uring_sqe *it, int count, char **words)
{
    if (!strcmp(words[0], "nop") && count == 3) {
        it->opcode = IORING_OP_NOP;
    } else if (!strcmp(words[0], "fsync") && count == 4) {
        it->opcode = IORING_OP_FSYNC;
        it->fd = descriptor_of(words[3]);
    } else if (!strcmp(words[0], "read") && count == 6 && atoi(words[5]) <= DATA) {
        transfer_by(it, IORING_OP_READ, words);
        it->len = (unsigned)atoi(words[5]);
    } else if (!strcmp(words[0], "write") && count == 6 && strlen(words[5]) <= 2 * DATA) {
        transfer_by(it, IORING_OP_WRITE, words);
        it->len = strcmp(words[5], "-") ? (unsigned)strlen(words[5]) / 2 : 0;
        for (unsigned at = 0; at < it->len; at++)
            sscanf(words[5] + 2 * at, "%2hhx", (unsigned char *)(uintptr_t)it->addr + at);
    } else if ((!strcmp(words[0], "cancel") || !strcmp(words[0], "cancelall")) && count == 4) {
        it->opcode = IORING_OP_ASYNC_CANCEL;
        it->addr = strtoull(words[3], NULL, 10);
        it->cancel_flags = words[0][6] ? IORING_ASYNC_CANCEL_ALL : 0;
    } else if (!strcmp(words[0], "hold") && count == 3) {
        hold_by(it);
    } else {
        return false;
    }
    return true;
}

bool item(int count, char **words)
{
    if (count == 5 && !strcmp(words[0], "fault"))
        return faulty_item(words);
    if (count == 2 && !strcmp(words[0], "bad"))
        return stage(NULL, (unsigned)strtoul(words[1], NULL, 10)), true;
    if (count < 3)
        return false;
    bool is_op = !strcmp(words[0], "op") && count == 4;
    struct io_uring_sqe it = {.user_data = strtoull(words[is_op ? 2 : 1], NULL, 10),
        .flags = flags_of(words[is_op ? 3 : 2])};
    if (is_op) {
        it.opcode = (unsigned char)atoi(words[1]);
        if (it.opcode < 100)
            stop(BAD_LINE, "an operation below 100, which the kernel may serve");
    } else if (!served_item(&it, count, words)) {
        return false;
    }
    stage(&it, 0);
    return true;
}
