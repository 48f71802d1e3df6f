/* Operations: which entries are served, what is copied of them, and how each is carried out. */
#ifndef OPERATIONS_H
#define OPERATIONS_H

#include "choices/injection.h"
#include "requests/requests.h"

#include <poll.h>
#include <stdio.h>

/* The result of an operation that would have to wait. */
enum { WOULD_WAIT = -512 };

/* Copies what the entry points to; `before` is the request before it in its call, or NULL. An entry
 * that points to what can't be read is refused. Returns 0 or -ENOMEM. */
int copy_after(struct request *request, const struct request *before);

/* Copies vectors, and finds how much they hold. Returns their fault, or 0, or -ENOMEM. */
int copy_vectors(struct request *request, const struct wulgach_piece *piece);

/* Finds out what a request is carried out on: its file, its buffer, and whether it may have to
 * wait. */
void assign(struct ring *ring, struct request *request);

/* Of the requests before this number those find out the same whose turn it is, and that haven't. */
void assign_before(struct ring *ring, uint64_t number);

/* Notes that a request, the last one, does so in its turn. */
void assign_in_turn(struct ring *ring, struct request *request);

/* Between these a descriptor is asked but once what it is, as long as no other is: the requests of
 * a submission find theirs one right after the other, and nothing is carried out meanwhile. */
void begin_asking(void);
void end_asking(void);

/* Asks its descriptor what the library wants to know, and so finds out whether it may have to wait
 * for that. Returns its fault, or 0. */
int find_kind(struct request *request);

/* Whether a transfer's descriptor has offsets; and whether a request's isn't to wait, of a splice
 * that which it waits for, and of two pipes either. */
bool has_offsets(const struct request *request);
bool is_not_to_wait(const struct request *request);

/* Whether it doesn't wait whatever its descriptor is: it is asked not to, or for nothing. */
bool is_impatient(const struct request *request);

/* Whether the group of which it takes a provided buffer has one. Notes that it has found one. */
bool finds_buffer(struct ring *ring, struct request *request);

/* Whether what a poll(2) that doesn't wait says of a descriptor counts as ready. */
bool shows_ready(struct pollfd at);

/* Whether its descriptor is ready. */
bool is_polled(const struct request *request);

/* Whether one that may have to wait wouldn't wait now. */
bool is_ready(const struct request *request);

/* Whether it is, where its descriptor was polled and shows that (enum wulgach_glance). */
bool is_glanced_ready(const struct request *request, uint32_t glance);

/* The descriptor to poll and the events to poll it for. */
struct pollfd poll_of(const struct request *request);

/* Whether the operation can have this fault. */
bool can_have(const struct request *request, enum injection fault);

/* Carries the operation out, and returns its result, or WOULD_WAIT. */
int32_t carry_out(struct ring *ring, struct request *request, enum injection fault);

/* How many bytes it has moved that would have to wait for more. */
int32_t moved_so_far(const struct request *request);

/* With what a request ends whose registered buffer has this fault: its descriptor is asked what it
 * is only then. */
int32_t fault_of_buffer(const struct request *request, int32_t why);

/* Whether a result is a success, as links and IOSQE_CQE_SKIP_SUCCESS see it. */
bool is_success(const struct ring *ring, const struct request *request, int32_t res);

/* The name of an operation that is served, else "operation". */
const char *operation_name(uint8_t code);

/* Says what is asked for, in words. */
void print_operation(FILE *out, const struct request *request);

#endif
