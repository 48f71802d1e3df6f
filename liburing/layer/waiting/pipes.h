/* What comes to a pipe, and goes again, between two calls. */
#ifndef PIPES_H
#define PIPES_H

#include <stdbool.h>
#include <stddef.h>
#include <stdint.h>

struct request;
struct ring;

/* What tells of writes to a pipe: one, however many polls that has. */
struct watch {
    int number; /* the kernel's */
    struct request
        *polls; /* those that wait by it, one of them first; NULL: it is to be taken away */
    bool is_written; /* its pipe was written to, of which polls haven't heard yet */
};

/* The pipes that a ring's polls wait for. */
struct pipes {
    int inotify; /* what tells of writes to them, or negative */
    struct watch *watches; /* one for each, by rising number, */
    size_t count, room; /* how many there are, and may be; */
    size_t idle; /* so many have no poll any more */
    int *written; /* the numbers of those that were written to, of which there is room for as many,
                   */
    size_t written_count; /* and how many these are */
    bool has_told; /* a poll was told of a write when they were last watched, since a call was about
                      to sleep */
};

void make_pipes(struct pipes *pipes);
void free_pipes(struct pipes *pipes);

/* Whether a poll waits for what a pipe has to be read. */
bool is_poll_of_pipe(const struct request *request);

/* A request ends: it waits for no pipe any more. */
void leave_pipe(struct ring *ring, struct request *request);

/* A call returns, or sleeps: from now on writes to the pipes that running polls wait for count. If
 * the kernel refuses, they don't. Returns whether one has heard meanwhile of what another thread
 * wrote, so that it may go on. */
bool watch_pipes(struct ring *ring);

/* A call begins, or sleeps no longer: running polls hear of what was written to their pipes, and
 * are told of what is gone. */
void hear_pipes(struct ring *ring);

/* A request's descriptor was looked at, and was ready or not. What was there when a poll heard of a
 * write may have been read since by another thread: that is told too, unless the ring's own
 * requests may have read it. */
void note_look(const struct ring *ring, struct request *request, bool is_ready);

#endif
