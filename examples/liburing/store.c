/* The store. Compiled with -DPLANTED=1 to 4 it has a bug, which examples/liburing/README.md tells
 * of. */
#include "store.h"

#ifndef PLANTED
#define PLANTED 0
#endif

#include <errno.h>
#include <fcntl.h>
#include <stddef.h>
#include <string.h>
#include <unistd.h>

enum { ENTRIES = 16, WRITE_TAG = 0, SYNC_TAG = 1 };

static uint32_t check_of(const struct record *record)
{
    const unsigned char *bytes = (const unsigned char *)record;
    uint32_t sum = 2166136261u;
    for (size_t i = offsetof(struct record, commit); i < sizeof *record; i++)
        sum = (sum ^ bytes[i]) * 16777619u;
    return sum;
}

static void remember(struct store *store, const struct record *record)
{
    memcpy(store->values[record->key], record->value, STORE_VALUE);
    store->has_value[record->key] = 1;
}

/* Reads the log up to the first record that isn't whole, or that an earlier commit left behind. */
static void recover(struct store *store)
{
    struct record record;
    while (
        pread(store->file, &record, sizeof record, (off_t)store->end) == (ssize_t)sizeof record) {
        if (record.check != check_of(&record) || record.key >= STORE_KEYS ||
            record.commit < store->commit)
            return;
        remember(store, &record);
        store->commit = record.commit;
        store->end += sizeof record;
    }
}

int store_open(struct store *store, const char *path)
{
    memset(store, 0, sizeof *store);
    store->file = open(path, O_RDWR | O_CREAT | O_CLOEXEC, 0600);
    if (store->file < 0)
        return -errno;
    recover(store);
    store->commit++;
    return io_uring_queue_init(ENTRIES, &store->ring, 0);
}

void store_close(struct store *store)
{
    io_uring_queue_exit(&store->ring);
    close(store->file);
}

void store_put(struct store *store, uint32_t key, const char value[STORE_VALUE])
{
    struct record *record = &store->batch[store->batch_count++];
    record->commit = store->commit;
    record->key = key;
    memcpy(record->value, value, STORE_VALUE);
    record->check = check_of(record);
}

/* A chain: the writes one after the other, and the fsync after them. A write that succeeds says
 * nothing; one that fails breaks the chain, so that the fsync is cancelled. */
static void prepare_commit(struct store *store)
{
    for (unsigned i = 0; i < store->batch_count; i++) {
        unsigned flags = IOSQE_IO_LINK | IOSQE_CQE_SKIP_SUCCESS;
        if ((PLANTED == 1 && i == store->batch_count - 1) || (PLANTED == 2 && i == 0))
            flags = IOSQE_CQE_SKIP_SUCCESS;
        if (PLANTED == 3 && i == store->batch_count - 1)
            flags = IOSQE_IO_LINK;
        struct io_uring_sqe *entry = io_uring_get_sqe(&store->ring);
        io_uring_prep_write(entry, store->file, &store->batch[i], sizeof store->batch[i],
            store->end + i * sizeof store->batch[i]);
        io_uring_sqe_set_flags(entry, flags);
        entry->user_data = WRITE_TAG;
    }
    struct io_uring_sqe *entry = io_uring_get_sqe(&store->ring);
    if (PLANTED == 4 && store->commit % 2 == 0)
        io_uring_prep_nop(entry);
    else
        io_uring_prep_fsync(entry, store->file, IORING_FSYNC_DATASYNC);
    entry->user_data = SYNC_TAG;
}

/* Waits for the fsync. What else completes has failed, and the fsync with it. */
static int wait_for_sync(struct store *store)
{
    for (;;) {
        struct io_uring_cqe *completion;
        int result = io_uring_wait_cqe(&store->ring, &completion);
        if (result < 0)
            return result;
        int is_sync = completion->user_data == SYNC_TAG || PLANTED == 3;
        result = completion->res;
        io_uring_cqe_seen(&store->ring, completion);
        if (is_sync)
            return result;
    }
}

int store_commit(struct store *store)
{
    prepare_commit(store);
    int result = io_uring_submit(&store->ring);
    if (result >= 0)
        result = wait_for_sync(store);
    if (result == 0) {
        for (unsigned i = 0; i < store->batch_count; i++)
            remember(store, &store->batch[i]);
        store->end += store->batch_count * sizeof *store->batch;
    }
    store->commit++;
    store->batch_count = 0;
    return result;
}

const char *store_get(const struct store *store, uint32_t key)
{
    return store->has_value[key] ? store->values[key] : NULL;
}
