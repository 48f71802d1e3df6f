/* What the programs share whose calls that change files are put into a log: files, a ring, and what
 * stands in the log. They are linked with nothing of ours, and run by uring-run, in a folder that
 * counts as the disk.
 */
#ifndef LOGGED_H
#define LOGGED_H

#include "../../layer/traces/log.h"
#include "modes.h"
#include "trapped.h"

#include <errno.h>
#include <fcntl.h>
#include <stdlib.h>
#include <sys/stat.h>

static inline int make(const char *name)
{
    int file = open(name, O_RDWR | O_CREAT | O_TRUNC, 0600);
    WANT(file >= 0);
    return file;
}

static inline ino_t inode_of(int file)
{
    struct stat about;
    WANT(fstat(file, &about) == 0);
    return about.st_ino;
}

static inline long do_by_ring(const struct ring *ring, struct io_uring_sqe entry)
{
    static uint32_t tail;
    ring->entries[0] = entry;
    __atomic_store_n((uint32_t *)(ring->sq + ring->params.sq_off.tail), ++tail, __ATOMIC_RELEASE);
    WANT(enter(ring, 1, 1, NULL) == 1);
    __atomic_store_n((uint32_t *)(ring->sq + ring->params.cq_off.head), tail, __ATOMIC_RELEASE);
    return ((struct io_uring_cqe *)(ring->cq +
                                    ring->params.cq_off.cqes))[(tail - 1) % ring->params.cq_entries]
        .res;
}

/* The last event of the log that is of this kind, and of an operation of a ring's or a call; how
 * many there are; and where its bytes stand. */
struct found_event {
    struct event event;
    size_t count;
    const char *bytes;
};

static inline struct found_event find_event(uint16_t kind, bool is_of_ring)
{
    static char log[1 << 24];
    struct found_event found = {0};
    struct event event;
    int file = open(getenv("WULGACH_LOG"), O_RDONLY);
    ssize_t length = file < 0 ? -1 : read(file, log, sizeof log);
    WANT(length > 0 && length < (ssize_t)sizeof log && close(file) == 0);
    for (ssize_t at = 0; at < length; at += event.size) {
        memcpy(&event, log + at, sizeof event);
        if (event.kind == kind && (event.operation != 0) == is_of_ring)
            found = (struct found_event){
                event, found.count + 1, log + at + event.size - event.bytes};
    }
    return found;
}

static inline struct event last_event(uint16_t kind, bool is_of_ring)
{
    return find_event(kind, is_of_ring).event;
}

#endif
