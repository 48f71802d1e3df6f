/* Sockets, splices and messages: operations on descriptors that may have to wait. */
#ifndef SOCKETS_H
#define SOCKETS_H

#include "requests/requests.h"

struct ring;

/* The one buffer of an entry becomes a message of a single vector. Returns 0 or -ENOMEM. */
int make_message(struct request *request, const struct wulgach_piece *buffer);

/* Copies a message with its vectors, or the address that a connect or a message goes to. Each
 * returns 0, a fault or -ENOMEM. */
int copy_message(struct request *request, uint64_t from);
int copy_address(struct request *request, uint64_t from, size_t size);

/* Carries the operation out: its result, or WOULD_WAIT. */
int32_t call_socket(struct ring *ring, struct request *request);

/* Makes a call of a request's, and once more of a socket that was shut down for reading, as the
 * library says: what that comes to. */
int32_t call_unless_shut(
    const struct request *request, int32_t (*call)(void *), void *with, bool *is_found_shut);

/* What a socket says of itself (getsockopt(2), SOL_SOCKET), or 0 of what is none. */
int option_of(int fd, int name);

/* Whether a request that isn't ready is asked whether its socket was shut down for writing, of
 * which no poll tells. */
bool asks_broken(const struct request *request);

/* Whether it was, for one of which that is asked. */
bool is_broken(const struct request *request);

/* The call of a message, which is moved on by what was moved. Returns its result. */
int32_t move_message(struct request *request, const struct wulgach_means *means);

#endif
