/* What the library decides of the log of files (log.h), for a ring's requests and for the system
 * calls that `uring-run` traps: these names are seen outside the layer.
 */
#ifndef LOGGING_H
#define LOGGING_H

#include "traces/log.h"
#include "wulgach_logged.h"
#include "wulgach_register.h"
#include "wulgach_waits.h"

#include <stdbool.h>
#include <stdint.h>
#include <sys/types.h>

#define SEEN __attribute__((visibility("default"), externally_visible))

/* Whether what happens to a file of this mode is logged. */
SEEN bool wulgach_is_logged_mode(mode_t mode);

/* Whether a descriptor counts as open, so that it can be synced. */
SEEN bool wulgach_is_open_number(int fd);

/* Puts into the event of a write where it begins, and whether a sync of its range follows it.
 * `offset`: 2^64 - 1 if it has none; `flags`: RWF_... */
SEEN void wulgach_place_write(struct event *event, int fd, uint64_t offset, int flags);

/* Whether a path that begins with the disk's, or doesn't, is on it. `after`: its letter after that.
 */
SEEN bool wulgach_is_path_below(bool begins_with_disk, char after);

/* What an open does: enum wulgach_logged_open. */
SEEN uint32_t wulgach_logged_open(uint64_t flags, bool is_there, mode_t mode);

/* Whether a sync of a descriptor counts as done. */
SEEN bool wulgach_is_synced_number(int fd);

/* The library's own functions under names that are seen; the last two are of a call without memory
 * and of a signal, and not of the log. */
#define LOGGING_CALLS(CALL) \
    CALL(uint32_t, logged_call_of, (uint64_t number), (number)) \
    CALL(bool, bits_of_call, (uint64_t number, struct wulgach_bits * bits), (number, bits)) \
    CALL(bool, is_made, (uint64_t number), (number)) \
    CALL(uint32_t, written_as, (uint64_t length, bool is_on_disk, bool is_output), \
        (length, is_on_disk, is_output)) \
    CALL(bool, may_have_vectors, (uint64_t count), (count)) \
    CALL(uint64_t, length_with, (uint64_t length, uint64_t size), (length, size)) \
    CALL(uint64_t, logged_of_vector, (uint64_t before, uint64_t length, bool is_whole), \
        (before, length, is_whole)) \
    CALL(bool, asked_at, (uint64_t begin, uint64_t length, uint64_t number, uint64_t * at), \
        (begin, length, number, at)) \
    CALL(uint64_t, readable_bytes, (uint64_t begin, uint64_t length, uint64_t count), \
        (begin, length, count)) \
    CALL(uint64_t, path_part, (uint64_t at, uint64_t so_far), (at, so_far)) \
    CALL(uint64_t, parts_alone, (uint64_t count), (count)) \
    CALL(uint64_t, event_size, (uint16_t path, uint16_t second_path, uint32_t bytes), \
        (path, second_path, bytes)) \
    CALL(bool, log_goes_on, (int64_t written, uint64_t size), (written, size)) \
    CALL(bool, takes_events, (uint32_t mode), (mode)) \
    CALL(bool, logs_names, (uint64_t number, bool is_on_disk, bool is_second_on_disk), \
        (number, is_on_disk, is_second_on_disk)) \
    CALL(bool, changed_part, \
        (const uint8_t *before, size_t length_before, const uint8_t *now, size_t length, \
            struct wulgach_file_part *part), \
        (before, length_before, now, length, part)) \
    CALL(bool, is_entry_name, (const uint8_t *part, size_t length), (part, length)) \
    CALL(uint32_t, linked_flags, (uint32_t flags), (flags)) \
    CALL(bool, follows_link, (uint64_t flags, uint32_t count), (flags, count)) \
    CALL(bool, says_how, (uint64_t size), (size)) \
    CALL(int64_t, end_result, (uint64_t number, int64_t res), (number, res)) \
    CALL(bool, tells_file, (uint64_t number, int64_t res), (number, res)) \
    CALL(bool, unwaited, (uint32_t flags, uint32_t * instead), (flags, instead)) \
    CALL(bool, looks_at_map, (uint32_t protection, uint32_t flags, int64_t res), \
        (protection, flags, res)) \
    CALL(bool, stays_open, (bool is_locked, uint64_t others), (is_locked, others)) \
    CALL(bool, whole_pages, (uint64_t length, uint64_t * bytes), (length, bytes)) \
    CALL(uint64_t, next_mapped_page, (int64_t found, uint64_t at, uint64_t room), \
        (found, at, room)) \
    CALL(bool, has_synced_memory, (int64_t res), (res)) \
    CALL(bool, mapped_of, (const uint8_t *line, size_t length, struct wulgach_mapped *mapped), \
        (line, length, mapped)) \
    CALL(bool, synced_part, \
        (const struct wulgach_mapped_memory *mapping, uint64_t begin, uint64_t length, \
            struct wulgach_file_part *part), \
        (mapping, begin, length, part)) \
    CALL(int32_t, missing_fault, (uint32_t what), (what)) \
    CALL(bool, ends_process, (bool is_of_filter, bool is_caught, bool is_ignored), \
        (is_of_filter, is_caught, is_ignored))

#define DECLARE_SEEN(result, name, parameters, arguments) \
    SEEN result wulgach_seen_##name parameters;
LOGGING_CALLS(DECLARE_SEEN)
SEEN void wulgach_seen_words_of_call(
    const struct wulgach_system_call *call, struct wulgach_call_words *words);
SEEN void wulgach_seen_last_part(
    const uint8_t *path, size_t length, struct wulgach_last_part *part);

/* Appends an event's parts. A process whose files may get no longer isn't ended by that. Returns
 * how many bytes were written, or less than 0. */
SEEN long wulgach_append(int fd, const struct iovec *parts, size_t count);

#endif
