/* Polls: requests that end, or go on, as a descriptor becomes ready. */
#ifndef POLLS_H
#define POLLS_H

#include "requests/requests.h"

#include <poll.h>

struct ring;

bool is_poll(const struct request *request);

/* A poll has started. Returns 0 or the negative of an error number. */
int start_poll(const struct ring *ring, struct request *request);

/* Whether the descriptor of a read that goes on can be polled: 0, or the fault with which it ends.
 */
int find_polling(struct request *request);

/* Whether its descriptor can be polled, which is a regular file's. */
bool can_be_polled(struct request *request);

/* The descriptor by which its next event is waited for. */
struct pollfd poll_of_poll(const struct request *request);

/* The events that there are: at least one, or WOULD_WAIT. */
int32_t take_events(const struct ring *ring, struct request *request);

/* Whether what a poll has found comes of a ring. Of no other request it does. */
bool comes_of_ring(const struct ring *ring, const struct request *request);

/* It has had an event, and goes on. */
void note_poll_event(const struct ring *ring, struct request *request);

#endif
