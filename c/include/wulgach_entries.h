/* Wulgach: the operations, and makers of their entries, which aren't part of what is proved.
 * wulgach.h includes it.
 */
#ifndef WULGACH_ENTRIES_H
#define WULGACH_ENTRIES_H

#include "wulgach_types.h"

#ifdef __cplusplus
extern "C" {
#endif

/* The operations, with the numbers of <linux/io_uring.h>. */
enum wulgach_code {
    WULGACH_OP_NOP = 0,
    WULGACH_OP_FSYNC = 3,
    WULGACH_OP_CANCEL = 14,
    WULGACH_OP_READ = 22,
    WULGACH_OP_WRITE = 23
};

/* The one operation flag that is served: a cancel of all. */
enum wulgach_operation_flag { WULGACH_CANCEL_ALL = 1 };

static inline void wulgach_entry_of(
    uint64_t entry[16], uint8_t code, uint64_t user_data, uint8_t flags, int32_t fd)
{
    for (int i = 0; i < 16; i++)
        entry[i] = 0;
    entry[0] = (uint64_t)code | (uint64_t)flags << 8 | (uint64_t)(uint32_t)fd << 32;
    entry[4] = user_data;
}

static inline void wulgach_nop(uint64_t entry[16], uint64_t user_data, uint8_t flags)
{
    wulgach_entry_of(entry, WULGACH_OP_NOP, user_data, flags, 0);
}

/* Reads len bytes from offset off on: at most 64, else the entry is faulty. */
static inline void wulgach_read(
    uint64_t entry[16], uint64_t user_data, uint8_t flags, int32_t fd, uint64_t off, uint32_t len)
{
    wulgach_entry_of(entry, WULGACH_OP_READ, user_data, flags, fd);
    entry[1] = off;
    entry[3] = len;
}

/* Writes the first len of these bytes, at most 64, at offset off. */
static inline void wulgach_write(uint64_t entry[16], uint64_t user_data, uint8_t flags, int32_t fd,
    uint64_t off, const uint8_t *bytes, uint32_t len)
{
    wulgach_entry_of(entry, WULGACH_OP_WRITE, user_data, flags, fd);
    entry[1] = off;
    entry[3] = len;
    for (uint32_t i = 0; i < len && i < 64; i++)
        entry[8 + i / 8] |= (uint64_t)bytes[i] << i % 8 * 8;
}

static inline void wulgach_fsync(uint64_t entry[16], uint64_t user_data, uint8_t flags, int32_t fd)
{
    wulgach_entry_of(entry, WULGACH_OP_FSYNC, user_data, flags, fd);
}

/* Cancels the request of user data target. */
static inline void wulgach_cancel(
    uint64_t entry[16], uint64_t user_data, uint8_t flags, uint64_t target)
{
    wulgach_entry_of(entry, WULGACH_OP_CANCEL, user_data, flags, 0);
    entry[2] = target;
}

/* Cancels all requests of user data target that don't run, and ends with their number: at most 2^31
 * - 1. */
static inline void wulgach_cancel_all(
    uint64_t entry[16], uint64_t user_data, uint8_t flags, uint64_t target)
{
    wulgach_cancel(entry, user_data, flags, target);
    entry[3] = (uint64_t)WULGACH_CANCEL_ALL << 32;
}

#ifdef __cplusplus
}
#endif

#endif
