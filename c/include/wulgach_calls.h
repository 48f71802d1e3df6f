/* Wulgach: by what an operation is carried out, which is a system call with its arguments or what
 * whoever keeps the ring does itself, and what is asked of descriptors meanwhile, as decisions. The
 * functions are in the library of wulgach.h, and proved as those are. The layer under liburing
 * calls them.
 */
#ifndef WULGACH_CALLS_H
#define WULGACH_CALLS_H

#include "wulgach_tries.h"
#include "wulgach_waits.h"

#ifdef __cplusplus
extern "C" {
#endif

/* A system call of Linux on x86-64: its number, and its arguments. One that it hasn't is 0; of one
 * of 32 bits the lower half counts. */
struct wulgach_system_call {
    uint64_t number;
    uint64_t first, second, third, fourth, fifth, sixth;
};

/* What is held for a request when it is carried out: descriptors, and where the copies of what its
 * entry points to stand, or 0. */
struct wulgach_held {
    int32_t fd; /* that it is carried out on */
    int32_t second_fd; /* of a splice: where it reads */
    uint64_t path;
    uint64_t second_path; /* or the name of an attribute */
    uint64_t how; /* a file is opened: struct open_how */
    uint64_t value; /* that is read; an address; or a message, struct msghdr */
    uint64_t offset_in; /* of a splice: of a copy of the offset where it reads, */
    uint64_t offset_out; /* and of that where it writes */
    uint64_t buffer; /* of a send to an address: where its bytes stand that are left, */
    uint64_t length; /* how many they are, */
    uint64_t address; /* and the address */
};

enum wulgach_by {
    WULGACH_BY_NOTHING = 0, /* a no-op, or what isn't served */
    WULGACH_BY_TRANSFER = 1, /* calls one after the other, as wulgach_transfer_next says */
    WULGACH_BY_POLL = 2, /* as wulgach_poll_result says */
    WULGACH_BY_CALL = 3, /* the call, whose result is the operation's; */
    WULGACH_BY_OPENING =
        4, /* one that gives a descriptor, which is put into the slot, named as an entry does; */
    WULGACH_BY_SYNC = 5, /* one that waits until a file is on its disk; */
    WULGACH_BY_CLOSE = 6, /* a close, of what may not be closed; */
    WULGACH_BY_CONNECT = 7, /* a connect, */
    WULGACH_BY_SPLICE = 8, /* or a splice or a tee */
    WULGACH_BY_SEND = 9, /* the message is sent, */
    WULGACH_BY_RECEIVE = 10, /* received, */
    WULGACH_BY_RECEIVE_MESSAGE =
        11, /* or received, and its sizes and flags are told where the entry's message stands */
    WULGACH_BY_SLOT_REMOVAL = 12, /* what the slot has is taken out */
    WULGACH_BY_FILES_PLACING = 13, /* files are put where there is room, */
    WULGACH_BY_FILES_UPDATE = 14, /* or from the slot on */
    WULGACH_BY_TIMEOUT = 15,
    WULGACH_BY_LINKED_TIMEOUT = 16,
    WULGACH_BY_PROVISION = 17, /* buffers are provided, */
    WULGACH_BY_PROVISION_REMOVAL = 18, /* or removed */
    WULGACH_BY_MESSAGE = 19, /* a message to a ring */
    WULGACH_BY_CANCEL = 20, /* a cancel of other requests, */
    WULGACH_BY_POLL_REMOVAL = 21, /* the removal or the update of a poll, */
    WULGACH_BY_TIMEOUT_REMOVAL = 22 /* or of a timeout */
};

/* A list of descriptors, whose files are put into slots. */
struct wulgach_listed {
    uint64_t address; /* where the first stands */
    uint32_t count;
};

struct wulgach_means {
    uint32_t kind; /* enum wulgach_by */
    uint32_t slot; /* counts from 0, but where it is named as an entry does; 0 of the others */
    struct wulgach_listed listed; /* of what puts files into slots; zeros of the others */
    struct wulgach_system_call call; /* zeros of what makes none */
};

/* Writes by what the operation of an entry is carried out, for which this is held. Its fields are
 * the arguments of the call that the manual page says it is like. */
void wulgach_means_of(const struct wulgach_submission *entry, const struct wulgach_held *held,
    struct wulgach_means *means);

/* The vectors of a transfer. */
struct wulgach_vectors {
    int32_t fd; /* that they are moved from or to */
    uint32_t count;
    uint64_t vectors; /* where they stand */
    uint64_t buffer; /* where the bytes of the first go, */
    uint64_t length; /* and how many it has */
};

/* Writes the call of a transfer's entry that is next, where that is a call (enum wulgach_try): at
 * the entry's offset, or at none on a stream that has none; with the entry's flags, and with
 * RWF_NOWAIT if it is asked not to wait. One buffer of which nothing is asked is read by pread64;
 * and a write of no bytes to a socket is a sendto of none, since pwritev2 sends nothing then. */
void wulgach_transfer_call(const struct wulgach_submission *entry,
    const struct wulgach_vectors *vectors, const struct wulgach_transfer *transfer, uint32_t step,
    struct wulgach_system_call *call);

/* By which calls an operation is carried out. */
enum wulgach_calls {
    WULGACH_CALLS_OF_TRANSFER =
        0, /* those of a transfer, one after the other, as wulgach_transfer_next says */
    WULGACH_CALLS_OF_POLL = 1, /* a look at what its descriptor has, as wulgach_poll_result says */
    WULGACH_CALLS_IN_TURN =
        2, /* calls that aren't to wait, and looks at its descriptor, as wulgach_call_next says */
    WULGACH_CALLS_ONCE =
        3 /* one, or what whoever keeps the ring does itself, as wulgach_means_of says */
};

/* Returns which (enum wulgach_calls), of the operation of this code: in turn what goes by sockets,
 * and a splice or a tee. */
uint32_t wulgach_calls_of(uint8_t code);

/* Of how many descriptors of the operation of this code it is asked that they don't wait, by
 * O_NONBLOCK, while its call is made, which has no flag for that: of the one of ACCEPT and CONNECT;
 * of both of SPLICE and TEE, of each as wulgach_asks_end says. The call of no other operation of
 * sockets waits. */
uint32_t wulgach_asked_descriptors(uint8_t code);

/* Writes which flags (F_SETFL) an open file gets that is asked so, where it has these, if they are
 * known: O_NONBLOCK beside them. And once the call is over, where it was asked, and has these by
 * then: the same without. False, and nothing is written: it stays as it is, since it isn't to wait
 * anyway, or its flags aren't known, or it wasn't asked, or is to wait by then. Our own rule. */
bool wulgach_asked_flags(bool is_known, uint32_t flags, uint32_t *asked);
bool wulgach_flags_after(bool was_asked, bool is_known, uint32_t flags, uint32_t *after);

/* What is known of the lock of a byte that no file has (fcntl(2), F_SETLK), by which processes that
 * have one open file keep each other from such calls. */
struct wulgach_locked {
    uint32_t tries; /* how often it was tried, */
    int32_t came_to; /* and what the last try came to: 0, or the negative of an error number */
    bool is_of_application; /* the application has a lock on that byte */
    bool is_of_others; /* another process has one there that means something else, as that of a
                          whole file */
};

/* What is done for it. */
enum wulgach_locking {
    WULGACH_LOCKING_TRIES = 0,
    WULGACH_LOCKING_YIELDS = 1, /* it is tried once others have had a moment, */
    WULGACH_LOCKING_PAUSES = 2, /* or after a pause */
    WULGACH_LOCKING_HOLDS =
        3, /* it is had, or nobody can have it: the call is made, and it is given back */
    WULGACH_LOCKING_GOES_WITHOUT = 4 /* the call is made without */
};

/* The byte that is locked. A lock of more than that one byte means something else, as that of a
 * whole file. Our own rule. */
#define WULGACH_LOCKED_BYTE (INT64_C(1) << 62)

/* What a query of a file's locks told (fcntl(2), F_GETLK, F_OFD_GETLK): of one of those that keep
 * others out, or that there is none. */
struct wulgach_told_lock {
    uint64_t start, length; /* where the lock begins, and how many bytes it has, */
    int32_t kind; /* its kind; F_UNLCK: there is none, */
    int32_t process; /* the process that has it, or -1 where an open file has it, */
    int32_t own; /* and the one that asked */
    bool is_told; /* the query was answered */
};

/* Whether it told of a lock of the process that asked; or of one that another has and that isn't
 * the layer's. */
bool wulgach_is_own_lock(const struct wulgach_told_lock *told);
bool wulgach_is_lock_of_others(const struct wulgach_told_lock *told);

/* Whether the list of all locks is read to know if the process has one (wulgach_is_lock_of): it
 * told of another's, after which there may be its own, or wasn't answered. */
bool wulgach_asks_list_of_locks(const struct wulgach_told_lock *told);

/* Returns what is next (enum wulgach_locking): it is tried 2,000 times at most, the first twenty
 * after the first one without a pause, and had unless a try comes to -11 (EAGAIN) or -13 (EACCES).
 * Where the application has a lock there, or others have, no more is tried. Our own rule. */
uint32_t wulgach_locking_next(const struct wulgach_locked *locked);

/* Whether an end of a splice is asked so: no pipe, and no regular file, which never waits. Our own
 * rule. */
bool wulgach_asks_end(bool is_pipe, bool is_regular);

/* Writes with which flags a descriptor of this access mode (O_ACCMODE), a pipe's end or not, is
 * opened once more, by its name in /proc, for a call that has no flag by which it is asked not to
 * wait: a pipe's end that can only be read, which no lock keeps from others. False, and nothing is
 * written: it is asked itself, by O_NONBLOCK. Our own rule. */
bool wulgach_asks_anew(bool is_pipe, uint32_t access, uint32_t *flags);

#ifdef __cplusplus
}
#endif

#endif
