/* The log of what happens to the files of a run, for crashes: WULGACH_LOG names it. Each event is
 * appended by one write, so that the events of all threads and processes have one order. What a
 * program sees in an order stands in the log in that order: the begin of an operation is written
 * before it is done, and its end before the program goes on.
 */
#ifndef LOG_H
#define LOG_H

#include <stdbool.h>
#include <stddef.h>
#include <stdint.h>
#include <sys/uio.h>

/* Up to EVENT_REMOVE these are the numbers of what a system call is logged as: enum
 * wulgach_logged_call. */
enum event_kind {
    EVENT_WRITE = 1, /* of these bytes */
    EVENT_COPY, /* of bytes that its end says */
    EVENT_SYNC, /* of a file or a folder */
    EVENT_SYNC_ALL, /* sync, syncfs */
    EVENT_LENGTH, /* a file's length becomes `offset` */
    EVENT_SPACE, /* fallocate: `flags` is its mode */
    EVENT_CREATE, /* a file of this name; its end says which */
    EVENT_MAKE_FOLDER,
    EVENT_MAKE_LINK, /* a symbolic link to the second path */
    EVENT_LINK, /* a name of the file `second` */
    EVENT_RENAME, /* to the second path; `flags` are those of renameat2 */
    EVENT_REMOVE, /* a name of a file or a folder */
    EVENT_END, /* of the thread's last operation that is open, or of a request's */
    EVENT_CARRY, /* a ring's operation is carried out: what its thread does until its end is part of
                    it */
    EVENT_PRINT, /* bytes on the standard output */
    EVENT_MAPPED /* bytes that were written through memory since it was last compared; none: it is
                    mapped */
};

/* The flag of a write that a sync of its range follows; those of a sync which is of its range
 * alone, and of one that leaves out what no read needs; and that of the end of what was refused,
 * and so never began. */
enum { SYNCS_ITS_RANGE = 1, IS_OF_RANGE = 2, IS_OF_DATA = 4, WAS_REFUSED = 8 };

/* After it stand its path, its second path and its bytes. */
struct event {
    uint32_t size; /* with all that stands after it */
    uint16_t kind, flags;
    uint32_t process, thread;
    uint64_t operation; /* of a ring's or an io_submit's request: which; of a call: 0 */
    uint64_t file; /* its inode; of a name that of its folder */
    uint64_t second; /* that of the second path's folder, or of the file that is linked */
    int64_t offset;
    uint64_t length;
    int64_t result;
    uint16_t path, second_path; /* their lengths */
    uint32_t bytes;
};

/* Whether there is a log. The first call reads the environment. */
bool is_logging(void);

/* Appends an event; `event` needs no size and no lengths. Any of the others may be NULL or none. At
 * most 1,024 runs of bytes. */
void log_event(struct event *event, const char *path, const char *second_path,
    const struct iovec *bytes, size_t count);

/* A copy of a descriptor under one of the last numbers that the program may have, as the layer's
 * own have; negative: there is none. */
int copy_high(int fd);

/* Whether a descriptor is of a file or a folder below the run's disk: then its path, and its inode.
 */
enum { PATH_ROOM = 4096 };
bool is_on_disk(int fd, char path[PATH_ROOM], uint64_t *file);
bool is_path_on_disk(const char *path);

/* Whether a path is the standard output's. */
bool is_output(const char *path);

/* A path's folder and name: "", if it is read through another link or isn't there. */
bool path_of(int fd, char path[PATH_ROOM]);

#endif
