/* What a ring's requests do to files, put into the log: a write and a sync begin where the request
 * starts, and end with it. */
#ifndef LOGGED_H
#define LOGGED_H

#include "rings/ring.h"

/* A request has started; it is carried out now; it was, with this result: of one whose begin is in
 * the log the rest is too. Of what is no write and no sync nothing is logged here: the trap of
 * `uring-run` sees the call that carries it out. */
void log_start(const struct ring *ring, struct request *request);
void log_carrying(const struct ring *ring, const struct request *request);
void log_carried(const struct ring *ring, const struct request *request, int32_t res);

#endif
