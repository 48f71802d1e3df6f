/* Wulgach: what the calls of an operation came to, and what is made of that, as decisions, for
 * whoever keeps a ring as the kernel does. The functions are in the library of wulgach.h, and
 * proved as those are. The layer under liburing calls them.
 */
#ifndef WULGACH_RESULTS_H
#define WULGACH_RESULTS_H

#include "wulgach_calls.h"

#ifdef __cplusplus
extern "C" {
#endif

/* Whether a connect that came to this goes on without its call until its socket is ready: to -115
 * (EINPROGRESS). */
bool wulgach_has_begun(int32_t came_to);

/* Whether what belongs to a message, its sizes and flags, is told after a call of this entry that
 * came to this: it has received one. And what that ends with, where they could be told, or had not
 * to be; or couldn't: -14 (EFAULT), though the message is gone. */
bool wulgach_tells_message(const struct wulgach_submission *entry, int32_t came_to);
int32_t wulgach_told_result(int32_t came_to, bool is_told);

/* What came with a message. */
struct wulgach_received {
    uint64_t control_size; /* how many bytes of control data */
    uint32_t name_size; /* how many bytes its address has, */
    uint32_t flags; /* and its flags: MSG_TRUNC and the like */
    bool has_name; /* the entry's message names a place for the address */
};

/* A field of the entry's message that is told: struct msghdr of x86-64. */
struct wulgach_field {
    uint64_t value;
    uint32_t offset; /* in bytes from the beginning of the message, */
    uint32_t size; /* of which it has so many: the first ones of the value */
};

/* Writes the field of a message that is told next, after so many. False, and nothing is written:
 * all were told. How many bytes its address has comes first, if there is a place for one; then its
 * flags, and how many control data. The first that can't be told is the last: the message couldn't
 * be. */
bool wulgach_next_told(
    const struct wulgach_received *received, uint32_t told, struct wulgach_field *field);

/* What stands in front of a message in the buffer of a receive that goes on: struct
 * io_uring_recvmsg_out. */
struct wulgach_front {
    uint32_t name_size;
    uint32_t control_size;
    uint32_t size; /* how many bytes the message has */
    uint32_t flags;
};

/* Writes what stands in front of a message of so many bytes. */
void wulgach_front_of(
    const struct wulgach_received *received, uint32_t size, struct wulgach_front *front);

/* A vector: struct iovec. */
struct wulgach_vector {
    uint64_t from; /* where its bytes stand, */
    uint64_t size; /* and how many there are */
};

/* What is left after a part of a message. */
struct wulgach_rest {
    struct wulgach_vector vector; /* of a vector, */
    uint64_t moved; /* and of the bytes that were moved, for the vectors after it */
};

/* How many bytes a call of a message has moved that came to this: none, if that is an error. And
 * what is left of a vector, of which and of those after it so many were moved: each in its turn is
 * moved on by what the one before has left, and then the bytes that are left are those after the
 * ones that were moved, in their order. Where those end past all memory, it isn't told where the
 * rest of the vector begins; how much is left of it, and for those after it, is. */
uint64_t wulgach_moved_by(int32_t came_to);
void wulgach_rest_of(
    const struct wulgach_vector *vector, uint64_t moved, struct wulgach_rest *rest);

/* Writes the call by which a socket is asked whether it was shut down for writing, or its peer for
 * reading: a send of no bytes, which doesn't wait and gives no signal. And whether it was, of which
 * that came to this: to -32 (EPIPE). */
void wulgach_breaking_call(int32_t fd, struct wulgach_system_call *call);
bool wulgach_is_broken(int32_t sent);

/* Whether nothing more comes from a descriptor of which a look that doesn't wait came to this, and
 * shows these events: its socket was shut down for reading, or its peer for writing (POLLRDHUP). */
bool wulgach_is_shut(int32_t came, uint16_t events);

/* What is done after a call whose socket may have been shut down for reading. */
enum wulgach_shutting {
    WULGACH_SHUTTING_ENDS = 0, /* the call came to what is written */
    WULGACH_SHUTTING_ASKS =
        1, /* its socket is asked whether it was (wulgach_is_shut): 0 if it wasn't */
    WULGACH_SHUTTING_CALLS_AGAIN = 2, /* it was: the call is made once more */
    WULGACH_SHUTTING_ASKS_WILL =
        3, /* its descriptor is asked whether it isn't to wait (O_NONBLOCK): 0 if it is */
    WULGACH_SHUTTING_ASKS_LOCAL =
        4 /* its socket is asked whether it is a local one (SO_DOMAIN, AF_UNIX): 0 if it isn't */
};

/* Returns what is next after a call of this entry, which was asked not to wait (enum
 * wulgach_shutting), and writes what that came to, if it is known. `last` is 0 after the call
 * itself, which came to `res`; then it is what was done last, which came to that. After -11
 * (EAGAIN) of a read, a receive or an accept that may wait, and doesn't go on, its socket is asked
 * whether it was shut down for reading (shutdown(2)); with MSG_ERRQUEUE only if it is a local one.
 * If it was, the call is made once more, since a datagram may have come just before that; and where
 * it finds nothing again it came to 0, since none comes any more, an accept to -22 (EINVAL), but to
 * -11 where its descriptor isn't to wait, unless it is a RECV. A stream's call comes to 0 by
 * itself. */
uint32_t wulgach_shutting_next(
    const struct wulgach_submission *entry, uint32_t last, int32_t res, int32_t *end);

/* Whether an operation has taken its provided buffer though it came to this, and moved nothing: a
 * transfer has, at the end of its file and as it fails, but a READ_MULTISHOT hasn't; nor has one
 * that fails whose buffer is of a ring, and whose descriptor can be polled. */
bool wulgach_takes_for_nothing(uint8_t code, int32_t came_to, bool is_of_ring, bool can_be_polled);

/* The offset at which a READ_MULTISHOT reads next, after a call that came to this: after the bytes
 * that it read, if it has one. Of another entry its own. */
uint64_t wulgach_offset_after(const struct wulgach_submission *entry, int32_t came_to);

/* Returns what a file ends with that was put into this slot, where its entry asked for that one or,
 * by 2^32 - 1 (IORING_FILE_INDEX_ALLOC), for any: the slot of one that asked for any, else 0. */
int32_t wulgach_placed_result(uint32_t asked, uint32_t slot);

/* What the operation of an entry ends with that has moved so many bytes, and has put so many into
 * its buffer, with what stands in front of them: the second of a RECVMSG that goes on, else the
 * first; 2^31 - 1 of more. */
int32_t wulgach_done_result(const struct wulgach_submission *entry, uint64_t done, uint64_t filled);

/* How many bytes the operation of an entry has moved that would have to wait for more, and whose
 * calls have come to so many: none but of a message, of which 2^31 - 1 of more. */
int32_t wulgach_moved_so_far(const struct wulgach_submission *entry, uint64_t done);

/* How many bytes of control data the next call of a message sends, or has room for, whose entry's
 * are `control`, and which has moved so many bytes: they are sent with its first part alone. */
uint64_t wulgach_control_of(
    const struct wulgach_submission *entry, uint64_t control, uint64_t done);

/* Whether a socket of this type (SO_TYPE) is a stream, of which what is waited for may come in
 * parts. */
bool wulgach_is_stream_type(uint32_t type);

/* A fault that an operation is given, so that a test finds what its application does. */
enum wulgach_given_fault {
    WULGACH_GIVES_EIO = 1, /* in a transfer, an fsync or a fallocate */
    WULGACH_GIVES_ENOSPC = 2, /* in a write or a fallocate */
    WULGACH_GIVES_SHORT = 3 /* in a transfer of more than a byte, which never has to wait */
};

/* Whether the operation of this code can have a fault (enum wulgach_given_fault), which moves so
 * many bytes, and may have to wait for its descriptor or never has to. */
bool wulgach_can_have(uint8_t code, bool is_stream, uint64_t length, uint32_t fault);

/* Where the result of a request comes from that is carried out. */
enum wulgach_source {
    WULGACH_FROM_START = 0, /* what failed of it as it started */
    WULGACH_FROM_ENTRY = 1, /* it is a no-op: wulgach_no_op_result */
    WULGACH_FROM_FAULT = 2, /* the fault that it is given */
    WULGACH_FROM_HALF =
        3, /* its calls, made of half of its bytes, since it is given WULGACH_GIVES_SHORT, */
    WULGACH_FROM_CALLS = 4 /* or of all */
};

/* Returns which (enum wulgach_source): the first of these, where the start of the operation of this
 * code has found this error, or 0, and it is given this fault (enum wulgach_given_fault), or 0. Of
 * a fault that takes the place of its calls it writes the result, -5 (EIO) or -28 (ENOSPC), and
 * else nothing. */
uint32_t wulgach_source_of(uint8_t code, int32_t started, uint32_t fault, int32_t *res);

/* How many bytes a vector of this length has of those that WULGACH_FROM_HALF moves of `all`, where
 * so many stand in the vectors before it: those of the first half, rounded down, that stand there.
 */
uint64_t wulgach_half_in(uint64_t all, uint64_t before, uint64_t length);

/* How many bytes a provided buffer of this length counts as having, once WULGACH_FROM_HALF has cut
 * the part of it that a call goes on in, which moves `all` at most: what is cut isn't used again,
 * so that a next try stays within what was made. */
uint64_t wulgach_left_of_buffer(uint64_t length, uint64_t all, uint64_t part);

/* What is done with the result of a request that was carried out, or that a cancel has found, in
 * this order: a set has the bit 1 << STEP of each. */
enum wulgach_finish_step {
    WULGACH_FINISH_JUDGES = 0, /* whether it is a success is judged (wulgach_has_succeeded), */
    WULGACH_FINISH_NOTIFIES = 1, /* before a completion of its own tells it, and the notice of
                                    wulgach_notice_of takes its place; */
    WULGACH_FINISH_TELLS = 2, /* the core is told of the end; */
    WULGACH_FINISH_ENDS =
        3 /* and that is shown, and makes of others what wulgach_duties_after_end says */
};

/* What is done, of a send without copies (IORING_OP_SEND_ZC, SENDMSG_ZC) or of another, which has
 * no notice. */
uint32_t wulgach_finish_steps(bool is_zero_copy);

/* The number of the signal that is taken back after an operation which ended with this, or 0: 25
 * (SIGXFSZ) of a write, FALLOCATE or SPLICE, with -27 (EFBIG), and 13 (SIGPIPE) of a splice or a
 * tee, or of a write that IOSQE_ASYNC gives to a worker, with -32 (EPIPE). In a kernel a worker of
 * its own has the signal, and the program gets none. Whether that signal, or 0, is taken back,
 * where this is the greatest length that the process may give a file (getrlimit(2), RLIMIT_FSIZE),
 * if that is known: SIGXFSZ may not have come at all if it is 2^64 - 1 (RLIM_INFINITY), and isn't
 * taken where it isn't known; SIGPIPE is taken whatever it is. And whether a signal that was taken
 * is the call's, by its code (si_code), and by whether this process is told as its sender (si_pid):
 * another is to be pending again. */
uint32_t wulgach_signal_after(const struct wulgach_submission *entry, int32_t res);
bool wulgach_is_taken_back(uint32_t signal, bool knows, uint64_t most);
bool wulgach_is_signal_of_call(int32_t code, bool is_own);

#ifdef __cplusplus
}
#endif

#endif
