/* What this machine's kernel refuses a strict layer refuses too: the same is asked of a real ring
 * and of the layer, and the answers are the same. Without WULGACH_STRICT the layer is to serve what
 * it served before.
 *
 *   strict                   status 0, also where the kernel makes no rings: a line says so
 */
#define _GNU_SOURCE
#include <pthread.h>
#include <stdarg.h>
#include <stdbool.h>
#include <stdlib.h>
#include <errno.h>
#include <string.h>
#include <sys/eventfd.h>
#include <sys/mman.h>
#include <sys/syscall.h>
#include <unistd.h>

#include "real.h"
#include "ring.h"

/* ---- what is asked ---- */

enum { MOST_ANSWERS = 4096 };

static int32_t answers[2][MOST_ANSWERS];
static size_t counts[2];

static void told(int32_t answer)
{
    check(counts[is_real] < MOST_ANSWERS);
    answers[is_real][counts[is_real]++] = answer;
}

/* Submits entries, and tells their results by user data from 0 on. One whose success is skipped has
 * none. */
static void submit(struct ring *ring, unsigned count, unsigned completions)
{
    int32_t results[8] = {0};
    check(enter(ring, count, 0, 0) == (long)count);
    reap_all(ring, completions, results);
    for (unsigned i = 0; i < count; i++)
        told(results[i]);
}

/* Drains after, beside and before a success that is skipped. */
static void ask_drains(void)
{
    static const uint8_t rows[][2] = {
        {IOSQE_CQE_SKIP_SUCCESS, IOSQE_IO_DRAIN},
        {IOSQE_IO_DRAIN, IOSQE_CQE_SKIP_SUCCESS},
        {IOSQE_IO_DRAIN, IOSQE_IO_DRAIN},
        {IOSQE_CQE_SKIP_SUCCESS, 0},
        {IOSQE_CQE_SKIP_SUCCESS, IOSQE_IO_DRAIN | IOSQE_CQE_SKIP_SUCCESS},
    };
    for (size_t i = 0; i < sizeof rows / sizeof *rows; i++) {
        struct ring ring;
        int32_t res = 0;
        make_ring(&ring, 8, 0, IORING_SETUP_SUBMIT_ALL);
        for (unsigned j = 0; j < 2; j++)
            put(&ring, IORING_OP_NOP, j, rows[i][j]);
        check(enter(&ring, 2, 0, 0) == 2);
        enter_for(&ring, 2, 200000000);
        for (unsigned left = count_ready(&ring); left > 0; left--) {
            struct completion found = reap(&ring);
            res += (int32_t)(1000 * (found.user_data + 1)) - found.res;
        }
        told(res);
        close_ring(&ring);
    }
}

static void ask_operations(void)
{
    struct ring ring;
    make_ring(&ring, 8, 0, IORING_SETUP_SUBMIT_ALL);
    for (unsigned i = 0; i < 3; i++)
        put(&ring, (uint8_t)(i == 0 ? 200 : i == 1 ? 255 : IORING_OP_NOP), i, 0);
    submit(&ring, 3, 3);
    close_ring(&ring);
}

/* Puts a single entry on a ring, and tells its result, or 0 if it has none. Only a no-op that skips
 * success is silent; a worker of the kernel's may take its time for others. */
static void ask_entry(struct ring *ring, struct io_uring_sqe entry)
{
    *put(ring, 0, 0, 0) = entry;
    check(enter(ring, 1, 0, 0) == 1);
    bool is_silent = entry.opcode == IORING_OP_NOP && entry.flags & IOSQE_CQE_SKIP_SUCCESS;
    enter_for(ring, 1, is_silent ? 1000000 : 100000000);
    int32_t res = 0;
    while (count_ready(ring) > 0)
        res += reap(ring).res;
    told(res);
}

/* Which fault of an entry's operation, flags and fields comes first, and whether a drain is taken
 * after it. */
static void ask_flags(void)
{
    static const uint8_t codes[] = {IORING_OP_NOP, 200, IORING_OP_READ, IORING_OP_FSYNC};
    for (size_t i = 0; i < 4 * sizeof codes; i++) {
        for (unsigned faults = 0; faults < 16; faults++) {
            struct ring ring;
            make_ring(&ring, 8, 0, IORING_SETUP_SUBMIT_ALL);
            if (i & 1)
                ask_entry(&ring, (struct io_uring_sqe){.flags = IOSQE_CQE_SKIP_SUCCESS});
            struct io_uring_sqe entry = {.opcode = codes[i / 4],
                .fd = -1,
                .personality = faults & 8 ? 3 : 0,
                .ioprio = i & 2 ? 0xffff : 0};
            entry.flags = (uint8_t)((faults & 1 ? 128 : 0) |
                                    (faults & 2 ? IOSQE_BUFFER_SELECT : 0) |
                                    (faults & 4 ? IOSQE_CQE_SKIP_SUCCESS : 0) | IOSQE_IO_DRAIN);
            ask_entry(&ring, entry);
            ask_entry(&ring, (struct io_uring_sqe){.flags = IOSQE_IO_DRAIN});
            close_ring(&ring);
        }
    }
}

/* The same of a ring that allows reads alone. */
static void ask_restricted(void)
{
    static const uint8_t flags[] = {
        0, 128, IOSQE_BUFFER_SELECT, IOSQE_CQE_SKIP_SUCCESS | IOSQE_IO_DRAIN};
    struct io_uring_restriction row = {
        .opcode = IORING_RESTRICTION_SQE_OP, .sqe_op = IORING_OP_READ};
    struct ring ring;
    make_ring(&ring, 8, 0, IORING_SETUP_SUBMIT_ALL | IORING_SETUP_R_DISABLED);
    check(register_at(ring.fd, IORING_REGISTER_RESTRICTIONS, &row, 1) == 0 &&
          register_at(ring.fd, IORING_REGISTER_ENABLE_RINGS, NULL, 0) == 0);
    for (size_t i = 0; i < sizeof flags; i++) {
        ask_entry(&ring, (struct io_uring_sqe){.flags = flags[i], .ioprio = 1, .personality = 4});
        ask_entry(&ring, (struct io_uring_sqe){.opcode = 200, .flags = flags[i]});
    }
    close_ring(&ring);
}

/* Buffers that are provided, and updates of a timeout that isn't there. */
static void ask_fields(void)
{
    static const struct {
        int32_t count;
        uint32_t length, flags;
        uint64_t number, address;
    } rows[] = {
        {1, 16, 0, 65535, 0},
        {1, 16, 0, 65536, 0},
        {2, 16, 0, 65535, 0},
        {65536, 1, 0, 0, 0},
        {65537, 1, 0, 0, 0},
        {65536, 1, 0, 1, 0},
        {0, 1, 0, 0, 0},
        {-1, 1, 0, 0, 0},
        {1, 0, 0, 65536, 0},
        {0, 0, 0, 0, 0},
        {1, 16, 0, 65536, UINT64_MAX},
        {1, 16, 0, 65536, 1ull << 63},
        {1, 16, 1, 65536, 0},
        {0, 1, 1, 0, 0},
        {1, 16, 0, 0, 0x7fffffffeff0},
        {1, 16, 0, 0, 0x7fffffffeff1},
        {2, 4097, 0, 0, 0x7fffffffdffe},
    };
    struct ring ring;
    make_ring(&ring, 8, 0, IORING_SETUP_SUBMIT_ALL);
    for (size_t i = 0; i < sizeof rows / sizeof *rows; i++)
        ask_entry(&ring, (struct io_uring_sqe){.opcode = IORING_OP_PROVIDE_BUFFERS,
                             .fd = rows[i].count,
                             .len = rows[i].length,
                             .rw_flags = (int)rows[i].flags,
                             .off = rows[i].number,
                             .addr = rows[i].address,
                             .buf_group = (uint16_t)i});
    struct __kernel_timespec hour = {3600, 0};
    for (uint32_t flags = 0; flags < 64; flags++)
        ask_entry(&ring, (struct io_uring_sqe){.opcode = IORING_OP_TIMEOUT_REMOVE,
                             .addr = 5,
                             .addr2 = (uintptr_t)&hour,
                             .timeout_flags = flags});
    close_ring(&ring);
}

static void ask_set_ups(void)
{
    static const struct {
        uint32_t entries, completions, flags;
    } rows[] = {
        {8, 0, 0},
        {0, 0, 0},
        {8, 4, IORING_SETUP_CQSIZE},
        {8, 0, IORING_SETUP_TASKRUN_FLAG},
        {8, 0, IORING_SETUP_TASKRUN_FLAG | IORING_SETUP_COOP_TASKRUN},
        {8, 0, IORING_SETUP_DEFER_TASKRUN},
        {8, 0, IORING_SETUP_SQ_AFF},
        {8, 0, 1u << 31},
    };
    for (size_t i = 0; i < sizeof rows / sizeof *rows; i++) {
        struct io_uring_params params = {.cq_entries = rows[i].completions, .flags = rows[i].flags};
        long fd = set_up(rows[i].entries, &params);
        told(fd < 0 ? (int32_t)fd : 0);
        if (fd >= 0)
            close((int)fd);
    }
}

static void *call_elsewhere(void *argument)
{
    struct ring *ring = argument;
    put(ring, IORING_OP_NOP, 0, 0);
    told((int32_t)enter(ring, 0, 0, 0));
    told((int32_t)enter(ring, 1, 0, 0));
    told((int32_t)enter(ring, 0, 0, IORING_ENTER_GETEVENTS));
    told((int32_t)register_at(ring->fd, IORING_UNREGISTER_FILES, NULL, 0));
    told((int32_t)register_at(ring->fd, 1000, NULL, 0));
    return NULL;
}

static void ask_other_threads(void)
{
    static const uint32_t flags[] = {
        IORING_SETUP_SINGLE_ISSUER, IORING_SETUP_SINGLE_ISSUER | IORING_SETUP_DEFER_TASKRUN};
    for (size_t i = 0; i < sizeof flags / sizeof *flags; i++) {
        struct ring ring;
        pthread_t other;
        make_ring(&ring, 8, 0, flags[i]);
        check(pthread_create(&other, NULL, call_elsewhere, &ring) == 0);
        pthread_join(other, NULL);
        close_ring(&ring);
    }
}

/* Calls of io_uring_register(2), each on a ring of its own: without an argument, by an address that
 * can't be read, and of what is all zero. */
static void ask_calls(void)
{
    static const uint8_t codes[] = {
        0, 1, 2, 3, 4, 5, 6, 7, 8, 11, 12, 13, 14, 15, 16, 20, 21, 22, 23, 24, 25};
    static const unsigned lengths[] = {0, 1, 2, 16, 17, 32, 33, 256, 257};
    static char zero[4096];
    for (size_t i = 0; i < sizeof codes; i++) {
        struct ring ring;
        make_ring(&ring, 8, 0, 0);
        for (size_t j = 0; j < sizeof lengths / sizeof *lengths; j++) {
            told((int32_t)register_at(ring.fd, codes[i], NULL, lengths[j]));
            told((int32_t)register_at(ring.fd, codes[i], (void *)8, lengths[j]));
            memset(zero, 0, sizeof zero);
            if (codes[i] != IORING_REGISTER_PBUF_RING && codes[i] != IORING_UNREGISTER_PBUF_RING)
                told((int32_t)register_at(ring.fd, codes[i], zero, lengths[j]));
        }
        close_ring(&ring);
    }
}

static void ask_who_calls(void)
{
    static const unsigned codes[] = {IORING_REGISTER_PROBE, 34, 36, 1000};
    struct ring ring;
    int ends[2];
    check(pipe(ends) == 0);
    make_ring(&ring, 8, 0, IORING_SETUP_R_DISABLED);
    for (size_t i = 0; i < sizeof codes / sizeof *codes; i++) {
        told((int32_t)register_at(-1, codes[i], NULL, 0));
        told((int32_t)register_at(-2, codes[i], NULL, 0));
        told((int32_t)register_at(999, codes[i], NULL, 0));
        told((int32_t)register_at(ends[0], codes[i], NULL, 0));
    }
    struct io_uring_restriction row = {
        .opcode = IORING_RESTRICTION_REGISTER_OP, .register_op = IORING_REGISTER_ENABLE_RINGS};
    told((int32_t)register_at(ring.fd, IORING_REGISTER_RESTRICTIONS, &row, 1));
    told((int32_t)register_at(ring.fd, IORING_REGISTER_PROBE, NULL, 0));
    told((int32_t)register_at(ring.fd, IORING_REGISTER_ENABLE_RINGS, &row, 0));
    told((int32_t)register_at(ring.fd, IORING_REGISTER_ENABLE_RINGS, NULL, 0));
    for (size_t i = 0; i < sizeof codes / sizeof *codes; i++)
        told((int32_t)register_at(ring.fd, codes[i], NULL, 0));
    told((int32_t)register_at(ring.fd, IORING_REGISTER_ENABLE_RINGS, &row, 0));
    told((int32_t)register_at(ring.fd, IORING_REGISTER_ENABLE_RINGS, NULL, 0));
    close_pair(ends);
    close_ring(&ring);
}

/* What a structure may say. */
static void ask_contents(void)
{
    struct ring ring;
    char probe[sizeof(struct io_uring_probe) + 256 * sizeof(struct io_uring_probe_op)] = {1};
    make_ring(&ring, 8, 0, 0);
    told((int32_t)register_at(ring.fd, IORING_REGISTER_PROBE, probe, 0));
    memset(probe, 0, sizeof probe);
    probe[sizeof probe - 1] = 1;
    told((int32_t)register_at(ring.fd, IORING_REGISTER_PROBE, probe, 256));
    struct io_uring_rsrc_register tables[] = {{0}, {.nr = 1, .flags = 2}, {.nr = 1, .resv2 = 1},
        {.nr = 1, .flags = 1, .data = 8}, {.nr = 0, .flags = 1}, {.nr = 2, .flags = 1},
        {.nr = 2, .flags = 1}};
    for (size_t i = 0; i < sizeof tables / sizeof *tables; i++) {
        told((int32_t)register_at(ring.fd, IORING_REGISTER_FILES2, &tables[i], sizeof *tables));
        told((int32_t)register_at(ring.fd, IORING_REGISTER_BUFFERS2, &tables[i], sizeof *tables));
    }
    struct io_uring_rsrc_update2 updates[] = {{0}, {.nr = 1, .resv = 1}, {.nr = 1, .resv2 = 1},
        {.nr = 1, .offset = UINT32_MAX}, {.nr = 3}, {.nr = 2}};
    for (size_t i = 0; i < sizeof updates / sizeof *updates; i++) {
        told((int32_t)register_at(
            ring.fd, IORING_REGISTER_FILES_UPDATE2, &updates[i], sizeof *updates));
        told((int32_t)register_at(
            ring.fd, IORING_REGISTER_BUFFERS_UPDATE, &updates[i], sizeof *updates));
    }
    struct io_uring_sync_cancel_reg cancels[] = {{.addr = 5}, {.flags = 64},
        {.flags = IORING_ASYNC_CANCEL_ALL}, {.flags = IORING_ASYNC_CANCEL_ANY},
        {.flags = IORING_ASYNC_CANCEL_FD, .fd = 999}};
    for (size_t i = 0; i < sizeof cancels / sizeof *cancels; i++) {
        cancels[i].timeout.tv_sec = cancels[i].timeout.tv_nsec = -1;
        told((int32_t)register_at(ring.fd, IORING_REGISTER_SYNC_CANCEL, &cancels[i], 1));
    }
    close_ring(&ring);
    make_ring(&ring, 8, 0, 0);
    told(
        (int32_t)register_at(ring.fd, IORING_REGISTER_FILES_UPDATE2, &updates[3], sizeof *updates));
    close_ring(&ring);
}

static void ask_eventfds(void)
{
    struct ring ring;
    int ends[2], none = 999, event = eventfd(0, 0);
    check(event >= 0 && pipe(ends) == 0);
    make_ring(&ring, 8, 0, 0);
    int *numbers[] = {&none, &ends[0], &event, &event, &none, NULL};
    for (size_t i = 0; i < sizeof numbers / sizeof *numbers; i++)
        told((int32_t)register_at(ring.fd,
            i == 3 ? IORING_REGISTER_EVENTFD_ASYNC : IORING_REGISTER_EVENTFD, numbers[i], 1));
    told((int32_t)register_at(ring.fd, IORING_UNREGISTER_EVENTFD, &none, 0));
    told((int32_t)register_at(ring.fd, IORING_UNREGISTER_EVENTFD, NULL, 0));
    told((int32_t)register_at(ring.fd, IORING_UNREGISTER_EVENTFD, NULL, 0));
    close(event);
    close_pair(ends);
    close_ring(&ring);
}

/* Enrols a ring, or dismisses it, and tells which number it has. */
static void enrol(
    struct ring *ring, unsigned code, unsigned offset, uint64_t data, uint32_t reserved)
{
    struct io_uring_rsrc_update row = {.offset = offset, .resv = reserved, .data = data};
    told((int32_t)register_at(ring->fd, code, &row, 1));
    told((int32_t)row.offset);
}

static void ask_numbers(void)
{
    struct ring ring;
    int ends[2];
    check(pipe(ends) == 0);
    make_ring(&ring, 8, 0, 0);
    uint64_t fd = (uint64_t)ring.fd, other = (uint64_t)ends[0];
    const struct {
        unsigned code, offset;
        uint64_t data;
        uint32_t reserved;
    } rows[] = {
        {20, 3, fd, 0},
        {20, 3, fd, 0},
        {20, 3, 999, 0},
        {20, 3, other, 0},
        {20, 16, 999, 0},
        {20, 4, 999, 1},
        {20, UINT32_MAX, fd, 0},
        {20, UINT32_MAX, fd | 1ull << 32, 0},
        {20, UINT32_MAX, 999, 0},
        {20, UINT32_MAX, other, 0},
        {21, 3, 1, 0},
        {21, 3, 0, 1},
        {21, 16, 0, 0},
        {21, UINT32_MAX, 0, 0},
        {21, 0, 0, 0},
        {20, UINT32_MAX, fd, 0},
        {20, UINT32_MAX, fd, 0},
        {20, UINT32_MAX, fd, 0},
        {20, 15, fd, 0},
    };
    for (size_t i = 0; i < sizeof rows / sizeof *rows; i++) {
        enrol(&ring, rows[i].code, rows[i].offset, rows[i].data, rows[i].reserved);
        for (int number = 0; number < 18; number++)
            told((int32_t)(ask(SYS_io_uring_enter, number, 0, 0, IORING_ENTER_REGISTERED_RING, NULL,
                               (size_t)0) < 0
                               ? -errno
                               : 0));
    }
    for (unsigned number = 0; number < 16; number++)
        enrol(&ring, IORING_UNREGISTER_RING_FDS, number, 0, 0);
    close_pair(ends);
    close_ring(&ring);
}

static void ask_all(void)
{
    ask_calls();
    ask_who_calls();
    ask_contents();
    ask_eventfds();
    ask_numbers();
    ask_drains();
    ask_operations();
    ask_flags();
    ask_restricted();
    ask_fields();
    ask_set_ups();
    ask_other_threads();
}

int main(void)
{
    struct io_uring_params params = {0};
    bool is_strict = getenv("WULGACH_STRICT");
    is_real = true;
    long fd = set_up(1, &params);
    if (fd < 0) {
        printf("strict: this kernel makes no rings\n");
        return 0;
    }
    close((int)fd);
    ask_all();
    is_real = false;
    ask_all();
    size_t differing = 0;
    check(counts[0] == counts[1]);
    for (size_t i = 0; i < counts[0]; i++) {
        if (answers[0][i] != answers[1][i] && is_strict)
            printf("answer %zu is %d here, and %d of the kernel\n", i, (int)answers[0][i],
                (int)answers[1][i]);
        differing += answers[0][i] != answers[1][i];
    }
    printf("strict: %zu of %zu answers differ\n", differing, counts[0]);
    return is_strict ? differing > 0 : differing == 0;
}
