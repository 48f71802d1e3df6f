/* The running requests that wait for descriptors. */
#ifndef STREAMS_H
#define STREAMS_H

#include "rings/ring.h"

/* Looks at the descriptor of a request; and of one that has just started, whose socket may be of no
 * use to it, as one that listens to a receive. */
void look_at(const struct ring *ring, struct request *request);
void look_first(const struct ring *ring, struct request *request);

/* Whether a running request wouldn't wait, as of this moment. */
bool is_found_ready(struct ring *ring, struct request *request);

/* Keeps the files of the running requests, as the kernel does, whatever the application closes; and
 * of those that were accepted since that was done last and haven't started; and of those before a
 * request by which a descriptor is to be closed. If descriptors are used up, one that can't be kept
 * is taken as it stands. */
void hold_files(struct ring *ring);
void hold_new_files(struct ring *ring);
void hold_files_before(struct ring *ring, const struct request *closing, int fd);
void hold_file_of(struct request *request);

#endif
