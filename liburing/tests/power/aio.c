/* Ways to write a file by io_submit(2), as libaio does. */
#define _GNU_SOURCE
#include "ways.h"

#include <linux/aio_abi.h>
#include <stdint.h>
#include <sys/syscall.h>
#include <sys/uio.h>
#include <unistd.h>

static aio_context_t set_up_requests(void)
{
    aio_context_t context = 0;
    demand(syscall(SYS_io_setup, 8, &context) == 0, "io_setup");
    return context;
}

static void submit(aio_context_t context, struct iocb *entries, long count)
{
    struct iocb *places[2] = {entries, entries + 1};
    demand(syscall(SYS_io_submit, context, count, places) == count, "io_submit");
}

/* The results of so many requests, which are to be these whatever their order. */
static void take(aio_context_t context, long count, long long all)
{
    struct io_event events[2];
    long long sum = 0;
    demand(syscall(SYS_io_getevents, context, count, count, events, NULL) == count, "io_getevents");
    for (long i = 0; i < count; i++)
        sum += events[i].res;
    demand(sum == all, "a request");
}

/* The same, read from the memory that the kernel shares, without a call. */
static void take_from_ring(aio_context_t context, long long result)
{
    volatile unsigned *ring = (unsigned *)(uintptr_t)context;
    const volatile struct io_event *events = (void *)(uintptr_t)(context + ring[7]);
    while (ring[2] == ring[3])
        continue;
    demand(events[ring[2]].res == result, "a request");
    ring[2] = (ring[2] + 1) % ring[1];
}

static struct iocb entry_of(int file, unsigned short what, const void *bytes, size_t length)
{
    return (struct iocb){.aio_lio_opcode = what,
        .aio_fildes = (uint32_t)file,
        .aio_buf = (uintptr_t)bytes,
        .aio_nbytes = length};
}

static struct iocb sync_of(int file, unsigned short what)
{
    return entry_of(file, what, NULL, 0);
}

void by_aio(void)
{
    aio_context_t context = set_up_requests();
    int file = make("data", 0);
    struct iocb entry = entry_of(file, IOCB_CMD_PWRITE, bytes, SIZE),
                sync = sync_of(file, IOCB_CMD_FSYNC);
    submit(context, &entry, 1);
    take(context, 1, SIZE);
    if (is_synced) {
        submit(context, &sync, 1);
        take(context, 1, 0);
    }
}

void by_aio_vectors(void)
{
    aio_context_t context = set_up_requests();
    int file = make("data", 0);
    struct iovec parts[] = {{bytes, 100}, {bytes, SIZE - 100}};
    struct iocb entry = entry_of(file, IOCB_CMD_PWRITEV, parts, 2),
                sync = sync_of(file, IOCB_CMD_FDSYNC);
    submit(context, &entry, 1);
    take(context, 1, SIZE);
    if (is_synced) {
        submit(context, &sync, 1);
        take(context, 1, 0);
    }
}

/* Its results are read without a call, and the same entry is used again. */
void by_aio_ring(void)
{
    aio_context_t context = set_up_requests();
    int file = make("data", 0);
    struct iocb entry;
    for (size_t part = 0; part < 4; part++) {
        entry = entry_of(file, IOCB_CMD_PWRITE, bytes, SIZE / 4);
        entry.aio_offset = (long long)(part * (SIZE / 4));
        submit(context, &entry, 1);
        take_from_ring(context, SIZE / 4);
    }
    sync_file(file);
}

/* What the kernel refuses, after what it takes or alone, is no sync, and none that failed. */
void by_aio_refused(void)
{
    aio_context_t context = set_up_requests();
    int file = make("data", 0);
    struct iocb entries[2] = {
        entry_of(file, IOCB_CMD_PWRITE, bytes, SIZE), sync_of(file, IOCB_CMD_FSYNC)};
    struct iocb *places[2] = {entries, entries + 1};
    entries[1].aio_reserved2 = 1;
    demand(syscall(SYS_io_submit, context, 2, places) == 1, "io_submit");
    take(context, 1, SIZE);
    demand(syscall(SYS_io_submit, context, 1, places + 1) < 0, "a refusal");
    sync_file(file);
}

/* A write, and its sync before anybody has asked whether the write has ended: both have then. */
void run_together(void)
{
    aio_context_t context = set_up_requests();
    int file = make("data", 0);
    sync_folder();
    struct iocb entries[2] = {
        entry_of(file, IOCB_CMD_PWRITE, bytes, SIZE), sync_of(file, IOCB_CMD_FSYNC)};
    submit(context, entries, 1);
    submit(context, entries + 1, 1);
    take(context, 2, SIZE);
}
