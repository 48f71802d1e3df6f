/* Wulgach: which requests and which system calls of a program are logged, so that it is known what
 * a power failure may leave, and what the log has of them, as decisions. The functions are in the
 * library of wulgach.h, and proved as those are. The layer under liburing calls them, and
 * `uring-run` where a run has a log.
 */
#ifndef WULGACH_LOGGED_H
#define WULGACH_LOGGED_H

#include "wulgach_calls.h"

#include <stddef.h>

#ifdef __cplusplus
extern "C" {
#endif

/* ---- what is logged of requests, and of what files they are ---- */

/* Of what kind a file is. */
struct wulgach_synced_kind {
    bool is_regular; /* a regular one */
    bool is_folder;
};

/* Whether an fsync(2) or fdatasync(2) of a descriptor that is this is taken for done, and isn't
 * made, by whoever needn't wait for the disk: of a regular file or a folder that counts as open by
 * its number. Our own rule. */
bool wulgach_counts_as_synced(
    const struct wulgach_openness *openness, const struct wulgach_synced_kind *kind);

/* What is logged of a request. */
enum wulgach_logged { WULGACH_LOGS_NOTHING = 0, WULGACH_LOGS_WRITE = 1, WULGACH_LOGS_SYNC = 2 };

/* Where a write begins. */
enum wulgach_begins {
    WULGACH_BEGINS_AT_OFFSET = 0,
    WULGACH_BEGINS_AT_POSITION = 1, /* the descriptor's */
    WULGACH_BEGINS_AT_END = 2 /* the file's */
};

/* How a write is made, by a request or by a system call. */
struct wulgach_writing {
    bool is_known; /* it is known which flags its open file has: */
    uint32_t status; /* these (fcntl(2), F_GETFL) */
    uint32_t flags; /* its own (pwritev2(2), RWF_..) */
    uint64_t offset; /* or 2^64 - 1 */
};

/* The bytes of a sync that isn't of the whole file. */
struct wulgach_synced_bytes {
    uint64_t begin;
    uint32_t length;
};

/* What an open does to a file and its names. */
enum wulgach_logged_open {
    WULGACH_OPEN_PLAIN = 0, /* nothing */
    WULGACH_OPEN_NAMES = 1, /* it makes a file with a name, */
    WULGACH_OPEN_NAMELESS = 2, /* or one without, */
    WULGACH_OPEN_CUTS = 3 /* or takes the bytes of one that is there */
};

/* Whether what happens to a file is logged that is of this kind: a regular one, or a folder. Our
 * own rule. */
bool wulgach_is_logged_kind(const struct wulgach_synced_kind *kind);

/* What is logged of the request of an entry that is this to the core (enum wulgach_form), has this
 * operation, and is on a stream or isn't: enum wulgach_logged. A write to what keeps its bytes, and
 * FSYNC. What else changes a file is a system call of its own, and one with a fault isn't carried
 * out. Our own rule. */
uint32_t wulgach_logged_of(uint32_t form, uint8_t code, bool is_stream);

/* Where a write begins (enum wulgach_begins): at the end, whatever its offset, with RWF_APPEND, or
 * with O_APPEND without RWF_NOAPPEND; and whether a sync of its bytes follows it, before it ends:
 * with O_DSYNC, O_SYNC, RWF_DSYNC or RWF_SYNC. */
uint32_t wulgach_write_begins(const struct wulgach_writing *writing);
bool wulgach_syncs_itself(const struct wulgach_writing *writing);

/* Writes the bytes that the sync of an entry is of. False, and nothing is written: it is of the
 * whole file, since it has neither an offset nor a length. One with an offset alone is of no byte.
 * io_uring_prep_fsync(3). */
bool wulgach_synced_bytes_of(
    const struct wulgach_submission *entry, struct wulgach_synced_bytes *bytes);

/* Whether a path is of the folder that counts as the disk, or below, by whether it begins with the
 * folder's and the letter after that, or 0. */
bool wulgach_is_on_disk(bool begins_with_folder, uint8_t after);

/* What an open does (enum wulgach_logged_open) that has these flags, whose path names something,
 * also through a symbolic link, or a regular file: O_PATH nothing; O_TMPFILE and O_CREAT make a
 * file, the latter where nothing is; O_TRUNC cuts a regular one, but with O_EXCL. open(2). */
uint32_t wulgach_open_logged(uint64_t flags, bool is_there, bool is_regular);

/* Writes with which flags an msync(2) is made that waits for the disk, by whoever needn't wait:
 * MS_ASYNC in the place of MS_SYNC. False, and nothing is written: it doesn't wait, or is refused,
 * and is made as it stands. */
bool wulgach_unwaited(uint32_t flags, uint32_t *instead);

/* ---- what is logged of system calls ---- */

/* What a system call is logged as. */
enum wulgach_logged_call {
    WULGACH_CALL_NOTHING = 0,
    WULGACH_CALL_WRITE = 1, /* a write of bytes that the program has, */
    WULGACH_CALL_COPY = 2, /* or of such as another descriptor has */
    WULGACH_CALL_SYNC = 3, /* a sync of a file or a folder, */
    WULGACH_CALL_SYNC_ALL = 4, /* or of all files */
    WULGACH_CALL_LENGTH = 5, /* a file gets a length, */
    WULGACH_CALL_SPACE = 6, /* or room */
    WULGACH_CALL_OPEN = 7, /* an open, which may make a file or take its bytes */
    WULGACH_CALL_MAKE_FOLDER = 8,
    WULGACH_CALL_MAKE_LINK = 9, /* a symbolic link is made */
    WULGACH_CALL_LINK = 10, /* a file gets one more name, */
    WULGACH_CALL_RENAME = 11, /* another one, */
    WULGACH_CALL_REMOVE = 12, /* or, as a folder does, one less */
    WULGACH_CALL_MAP = 13, /* a map, through which a file may be written */
    WULGACH_CALL_SYNC_MEMORY = 14, /* a sync of mapped memory */
    WULGACH_CALL_EXIT = 15 /* the process's end, after which nothing is written through memory */
};

/* Some bits of an argument. */
struct wulgach_bits {
    uint32_t argument; /* which, from 0 */
    uint32_t bits;
};

/* What the arguments of a call are that is logged; what it hasn't is 0. */
struct wulgach_call_words {
    bool by_descriptor; /* its file is that of a descriptor, */
    bool by_path; /* or that of a path */
    bool has_vectors; /* what it writes is vectors */
    int32_t fd; /* the descriptor; of a path, that of the folder at which it begins, or -100
                   (AT_FDCWD) */
    int32_t second_fd; /* the same of a second path */
    uint32_t flags;
    uint32_t protection; /* how mapped memory is protected */
    uint64_t path; /* where the path stands in memory, */
    uint64_t second_path; /* and a second one: what a symbolic link holds, the file that is linked,
                             the new name of a renamed one */
    uint64_t offset; /* an offset, or the length that a file gets. Of a write and a copy that have
                        none: 2^64 - 1 */
    uint64_t length; /* how many bytes */
    uint64_t address; /* where stands what it points to besides: its bytes or vectors, the offset of
                         a copy, how a file is opened, or the mapped memory */
    uint64_t count; /* how many vectors, or bytes of how a file is opened */
};

/* What a write is logged as. */
enum wulgach_written {
    WULGACH_WRITTEN_NOT = 0,
    WULGACH_WRITTEN_PRINT = 1, /* what the program says */
    WULGACH_WRITTEN_FILE = 2
};

/* Where the last part of a path begins and ends. */
struct wulgach_last_part {
    uint64_t begin;
    uint64_t end;
};

/* A part of the process's memory that is mapped, and what it is of (proc_pid_maps(5)). */
struct wulgach_mapped_memory {
    bool is_shared; /* others see what is written there */
    bool is_on_disk; /* it is of a file on the run's disk */
    uint64_t file; /* the file's inode, or 0 */
    uint64_t begin; /* the first address, */
    uint64_t end; /* and that after the last */
    uint64_t offset; /* where in the file it begins */
};

/* A part of a file. */
struct wulgach_file_part {
    uint64_t offset;
    uint64_t length;
};

/* Returns what the system call of this number (<asm/unistd_64.h>) is logged as: enum
 * wulgach_logged_call. */
uint32_t wulgach_logged_call_of(uint64_t number);

/* Writes which bits of an argument it has some of, where it is logged only then: O_CREAT, O_TRUNC
 * or O_TMPFILE of open and openat, and MAP_SHARED of mmap. False, and nothing is written: it is
 * logged whatever its arguments, or never. */
bool wulgach_bits_of_call(uint64_t number, struct wulgach_bits *bits);

/* Writes what the arguments of a call are, by its manual page. */
void wulgach_words_of_call(
    const struct wulgach_system_call *call, struct wulgach_call_words *words);

/* Whether the call of this number is made by whoever needn't wait for the disk: all but a sync of
 * files. Our own rule. */
bool wulgach_is_made(uint64_t number);

/* What a write of so many bytes is logged as (enum wulgach_written), whose file is on the run's
 * disk, is the standard output, or neither: one of no bytes as nothing. Our own rule. */
uint32_t wulgach_written_as(uint64_t length, bool is_on_disk, bool is_output);

/* Whether a call may have so many vectors: some, and no more than IOV_MAX, 1,024. writev(2). */
bool wulgach_may_have_vectors(uint64_t count);

/* How many bytes of a vector are logged, after others and what stands in front of an event have so
 * many: as many as one call moves, and none after one that couldn't be read whole. */
uint64_t wulgach_logged_of_vector(uint64_t before, uint64_t length, bool is_whole);

/* Writes where in memory it is asked, as the question of this number from 0, whether so many bytes
 * from here on can be read: at the first, and where each later page of 4,096 bytes begins. False,
 * and nothing is written: nowhere any more. And how many bytes can be read, where at so many of
 * these places, from the first on, they could. */
bool wulgach_asked_at(uint64_t begin, uint64_t length, uint64_t number, uint64_t *at);
uint64_t wulgach_readable_bytes(uint64_t begin, uint64_t length, uint64_t count);

/* How many bytes of a path are read next, which stand here, where so many are read: those of one
 * page, and no more than PATH_MAX, 4,096, in all. 0: it is none, since a path ends before that. */
uint64_t wulgach_path_part(uint64_t at, uint64_t so_far);

/* How many of so many vectors are parts of an event by themselves, which is one call of 1,024 parts
 * with three in front: the others are joined. */
uint64_t wulgach_parts_alone(uint64_t count);

/* How many bytes an event has, with paths and bytes of these lengths. */
uint64_t wulgach_event_size(uint16_t path, uint16_t second_path, uint32_t bytes);

/* Whether a log goes on after an event of this size, of which so many bytes were written, or which
 * came to an error; and whether it takes events, by the mode of its file: one that has ended may
 * not be written by its owner. Our own rule. */
bool wulgach_log_goes_on(int64_t written, uint64_t size);
bool wulgach_takes_events(uint32_t mode);

/* Whether the call of this number is logged, where its name is on the run's disk or isn't, and its
 * second one: of a rename either. Our own rule. */
bool wulgach_logs_names(uint64_t number, bool is_on_disk, bool is_second_on_disk);

/* Writes where the last part of a path stands: up to where only slashes are left, from after the
 * last slash before that. What stands in front is the path of its folder, if anything does.
 * path_resolution(7). */
void wulgach_last_part_of(const uint8_t *path, size_t length, struct wulgach_last_part *part);

/* Whether it is a name in that: it isn't empty, `.` or `..`. path_resolution(7). */
bool wulgach_is_entry_name(const uint8_t *part, size_t length);

/* With which flags it is asked which file a linkat with these gives a name: AT_EMPTY_PATH, or
 * AT_SYMLINK_NOFOLLOW but with AT_SYMLINK_FOLLOW. */
uint32_t wulgach_linked_flags(uint32_t flags);

/* Whether an open with these flags that is to make a file goes on from a symbolic link to what it
 * holds, where it has followed so many: through 40 at most, and not with O_EXCL or O_NOFOLLOW.
 * open(2), path_resolution(7). */
bool wulgach_follows_link(uint64_t flags, uint32_t count);

/* Whether an openat2(2) of so many bytes says how a file is opened: of 24 or more. */
bool wulgach_says_how(uint64_t size);

/* The result that the end of the call of this number says which came to this: of an open that 0
 * which tells of no error. And whether it says which file it has made: an open, a folder's making,
 * a symbolic link's. Our own rule. */
int64_t wulgach_end_result(uint64_t number, int64_t res);
bool wulgach_tells_file(uint64_t number, int64_t res);

/* Whether a map is looked at, which is protected so, has these flags and came to this: one that is
 * writable, of a file. mmap(2). */
bool wulgach_looks_at_map(uint32_t protection, uint32_t flags, int64_t res);

/* Writes how many bytes the whole pages have that so many bytes lie in. False, and nothing is
 * written: more than there are addresses. */
bool wulgach_whole_pages(uint64_t length, uint64_t *bytes);

/* The page of a mapped file that is read next, from this place on, where lseek(2) with SEEK_DATA
 * came to this. `room`, or what is past it: none is. */
uint64_t wulgach_next_mapped_page(int64_t found, uint64_t at, uint64_t room);

/* Writes the part of a page that has changed, which had other bytes before: from the first that
 * differs to the last. False, and nothing is written: none does. */
bool wulgach_changed_part(const uint8_t *before, size_t length_before, const uint8_t *now,
    size_t length, struct wulgach_file_part *part);

/* Whether an msync(2) that came to this has synced its pages: it was done, or met memory that isn't
 * mapped (ENOMEM), and synced all else. */
bool wulgach_has_synced_memory(int64_t res);

/* Writes the part of a file that a sync of memory, from this address on and for so many bytes, is
 * of by what is mapped there: of whole pages, shared with a file of the run's disk. False, and
 * nothing is written: of none. */
bool wulgach_synced_part(const struct wulgach_mapped_memory *mapping, uint64_t begin,
    uint64_t length, struct wulgach_file_part *part);

#ifdef __cplusplus
}
#endif

#endif
