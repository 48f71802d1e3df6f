/* The side table: what the application really asked for. The core knows a request by its number and
 * as a token. */
#ifndef REQUESTS_H
#define REQUESTS_H

#include "wulgach_buffers.h"
#include "wulgach_calls.h"
#include "wulgach_form.h"
#include "wulgach_lookout.h"

#include <linux/io_uring.h>
#include <stdbool.h>
#include <stddef.h>
#include <stdint.h>
#include <sys/uio.h>

/* What an entry is to the core, numbered as the library does. */
enum mapping {
    TOKEN = WULGACH_FORM_TOKEN,
    CANCEL = WULGACH_FORM_CANCEL,
    REFUSED = WULGACH_FORM_REFUSED
};

struct request {
    union {
        uint64_t number; /* in the order of acceptance, from 0, */
        struct wulgach_member member; /* and as a member of its chain */
    };
    struct wulgach_course course; /* what has become of it: it has started, was cancelled, was
                                     carried out, has ended */
    struct io_uring_sqe entry; /* as the application wrote it, */
    struct wulgach_link link; /* and what that says of its chain */
    enum mapping mapping; /* what the core was told of it */
    struct wulgach_beside beside; /* and what is told of the one beside it goes by */
    int32_t fault; /* of a refused entry: what it ends with */
    struct wulgach_waiter waiter; /* of one that runs: what is known of whether it waits; as zeros,
                                     until something has happened to it */
    struct wulgach_standing standing; /* whether it may have to wait for a descriptor, and whether
                                         it has found a provided buffer */
    bool is_patient; /* it runs, and stands among those that may have to wait */
    bool is_dormant; /* it runs, and isn't looked at: the ring's epoll instance tells when its
                        descriptor is ready; */
    bool is_enlisted; /* the instance has that, */
    bool is_unlisted; /* or doesn't take it; */
    struct file *duplicate; /* and by which it has it, where another request has given it the
                               descriptor itself; or NULL */
    struct file *file; /* the registered file that it is carried out on, if it is one, */
    struct file *second_file; /* and of a splice: where it reads */
    int fd, second_fd; /* their descriptors, or those that the entry names */
    struct buffer *buffer; /* the registered buffer that it uses, or NULL */
    struct wulgach_needs
        needs; /* what its operation needs, and of which kind it is: as zeros, but of a token */
    bool is_assigned; /* these are known: when it is accepted, or, after a link or beside a drain,
                         when it starts */
    bool is_late; /* when it starts */
    bool is_due; /* these are found in its turn: before one after it starts, or the call sleeps or
                    returns */
    bool is_tried; /* whether it may have to wait isn't known: it is tried first, */
    bool is_tried_at_once; /* and nothing was asked of its descriptor, */
    bool was_tried; /* or it was */
    bool knows_listening; /* as it started, and had to wait, its socket was asked whether it
                             listens, */
    bool is_listening; /* and did */
    bool is_socket; /* its descriptor was asked what it is, and is a socket's */
    bool has_waited; /* its descriptor was looked at since it started, and wasn't ready */
    struct wulgach_ring_poll of_ring; /* of a poll: whether what it finds comes of a ring */
    bool was_repeated; /* of a connect: its call was made once more */
    bool is_tried_first; /* as it started, its descriptor wasn't ready, and it is to be carried out
                            once all the same */
    bool has_called; /* it was carried out, and would have waited, */
    bool has_found_pipe; /* its path names a pipe that it is to open and may have to wait for, by
                            this descriptor for its path alone */
    int found_pipe;
    uint32_t opening; /* what was done last for that (enum wulgach_opening_step), or 0 */
    bool is_opened; /* a named pipe was opened to read, by this descriptor, and waits for who
                       writes; */
    int opened;
    bool closes_on_exec; /* as its open asks */
    uint32_t
        vain; /* so often since its descriptor was last found not to be ready as a sleep began */
    bool is_draining; /* a member of its chain drains, or it does: those after wait until all of
                         them have ended */
    uint64_t wanted; /* of one that takes a provided buffer: how many bytes at most, or 0 */
    uint64_t done; /* the bytes that a transfer of sockets has moved so far, */
    struct wulgach_buffer
        provided; /* into the provided buffer that it took, as much of it as it has */
    uint64_t control; /* how many bytes of control data its message has, or has room for */
    int32_t started; /* what its start found out: an error number that it ends with, or 0 */
    uint32_t flags; /* those of its completion */
    uint64_t token; /* the user data that the core has */
    uint64_t call; /* the number of the call that submitted it */
    uint64_t begun; /* how many had started before it, and itself */
    uint64_t logged_file; /* the file that its begin is logged of, or 0 */
    bool has_fired; /* a linked timeout: the request before it was cancelled by it */
    bool is_message; /* one of the layer's own, which tells of a message or of a tag: no call has
                        submitted it */
    bool is_extra; /* one of the layer's own, whose completion is of the request of this number, or
                      is a message; */
    uint64_t of;
    bool is_at_once; /* and a kernel posts it as it comes */
    bool is_of_pipe; /* a poll for what a pipe has to be read: */
    int watch; /* the number by which writes to that are told, or 0, */
    struct request *watched_before, *watched_after; /* and the polls that stand beside it among
                                                       those of the same number, or NULL */
    int epoll; /* what tells of the events of a poll that goes on; or negative */
    /* What the entry points to, copied when it is submitted: the application may reuse it at once.
     */
    struct iovec *vectors, one; /* (one stands here) */
    uint32_t vector_count;
    uint64_t length; /* the bytes of a transfer's vectors */
    char *path, *second_path;
    void *value; /* of an extended attribute, an address, or a message, */
    const void *address; /* and in that the address that it is sent to, or NULL */
    struct open_how *how;
    struct __kernel_timespec *time;
    struct request *before, *next; /* its neighbours in the directory, if that is kept; or of those
                                      that have ended and are kept the next */
};

/* Requests by rising number. The first are taken out by moving `rows` on. */
struct requests {
    struct request **rows;
    size_t count, room; /* how many there are, and may be from `rows` on */
    struct request **at; /* the memory, */
    size_t whole; /* and how many have room in it */
    struct request *kept; /* ended, and kept to be used again */
};

/* An empty request; NULL if memory was refused. And making sure that one can be made; false if
 * memory was refused. */
struct request *make_request(struct requests *requests);
bool reserve_request(struct requests *requests);

/* Makes sure that this many more can be added; false if memory was refused. */
bool reserve_requests(struct requests *requests, size_t more);

/* Adds a request after all others. Room was reserved. */
void add_request(struct requests *requests, struct request *request);

/* Puts a request where its number belongs, and returns its place. Room was reserved. */
size_t insert_request(struct requests *requests, struct request *request);

/* Takes a request out, and returns the place that it had. */
size_t take_request(struct requests *requests, const struct request *request);

/* The request of a number, or NULL: it isn't there. */
struct request *request_or_none(const struct requests *requests, uint64_t number);

/* The request of a number. There is one. */
struct request *request_of(const struct requests *requests, uint64_t number);

/* Its place among the rows; and how many of these have a lesser number. */
size_t place_of(const struct requests *requests, uint64_t number);
size_t count_before(const struct requests *requests, uint64_t number);

/* Takes the first ones out, and frees nothing. */
void drop_requests(struct requests *requests, size_t count);

/* Notes what has happened to a request. It can have. */
void note_fact(struct request *request, enum wulgach_fact fact, int32_t res);

/* What an entry is to the core, and its fault, or 0, where a strict ring refuses it with an error
 * or not, and restrictions allow it or not. */
enum mapping form_of(
    const struct io_uring_sqe *entry, int32_t refusal, bool is_allowed, int32_t *fault);

/* An entry as the library has it; and one that it changes. */
const struct wulgach_submission *submission_of(const struct io_uring_sqe *entry);
struct wulgach_submission *submission_at(struct io_uring_sqe *entry);

/* Takes a request out, and keeps its memory. Returns whether a file was closed that it had. */
bool end_request(struct requests *requests, struct request *request);

/* Frees a request, or nothing. */
void free_request(struct request *request);
void free_requests(struct requests *requests);

/* Frees the rows, and no request: another table has them. */
void forget_requests(struct requests *requests);

#endif
