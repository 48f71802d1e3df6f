/* Wulgach: what becomes of an operation that is carried out, as decisions, for whoever keeps a ring
 * as the kernel does. The functions are in the library of wulgach.h, and proved as those are. The
 * layer under liburing calls them.
 */
#ifndef WULGACH_TRIES_H
#define WULGACH_TRIES_H

#include <stdbool.h>
#include <stdint.h>

#include "wulgach_form.h"

#ifdef __cplusplus
extern "C" {
#endif

/* ---- what becomes of a transfer ---- */

/* A transfer that is carried out. */
struct wulgach_transfer {
    uint64_t length; /* the bytes of its vectors */
    int32_t fault; /* what it ends with, if it failed when it started, else 0 */
    bool is_at_once; /* what it is on its descriptor (enum wulgach_kind), */
    bool is_tried;
    bool is_stream;
    bool is_impatient; /* and if it may have to wait: it doesn't, */
    bool has_offsets; /* and its descriptor has offsets, */
    bool is_socket; /* or is a socket's, */
    bool is_shut; /* which was found to be shut down for reading */
};

enum wulgach_try {
    WULGACH_TRY_ENDS = 0, /* it ends */
    WULGACH_TRY_WAITS = 1, /* it would have to wait */
    WULGACH_TRY_FINDS = 2, /* what it is on its descriptor is found out, as of one that was tried */
    WULGACH_TRY_POLLS = 3, /* its descriptor is polled: 0 if it isn't ready */
    WULGACH_CALL_AT_ONCE = 4, /* the call is made, with RWF_NOWAIT, */
    WULGACH_CALL_TRIED = 5, /* as the entry says, on a file, */
    WULGACH_CALL_PLAIN = 6, /* as the entry says, */
    WULGACH_CALL_NONBLOCKING = 7, /* with RWF_NOWAIT beside the entry's flags, */
    WULGACH_CALL_UNWILLING =
        8 /* or as the entry says, and its descriptor is asked not to wait meanwhile: O_NONBLOCK */
};

/* Returns what is next of a transfer (enum wulgach_try), after what was done last, which came to
 * `res`, and writes what it ends with, if it ends. `last` is 0 at first; after WULGACH_TRY_FINDS
 * the transfer is as was found, and `res` that of the call before. Each call is asked not to wait,
 * by itself or by its descriptor; a transfer ends with what the last call came to, or with its
 * fault; and what a stream gave is told. */
uint32_t wulgach_transfer_next(
    const struct wulgach_transfer *transfer, uint32_t last, int32_t res, int32_t *end);

/* ---- what is remembered of a descriptor's number ---- */

/* What it was when it was last asked. The application may have closed it since: so nothing rests on
 * that but which call is made first. Our own rule. */
enum wulgach_remembered {
    WULGACH_REMEMBERED_NOTHING = 0,
    WULGACH_REMEMBERED_FILE = 1, /* a regular file; */
    WULGACH_REMEMBERED_IN_MEMORY = 2, /* one that can't be asked not to wait, in memory, */
    WULGACH_REMEMBERED_SLOW = 3 /* or elsewhere */
};

/* Returns what is remembered of a number of which this was (enum wulgach_remembered), as it was
 * asked what it is: a file of which more is known stays what it was. */
uint32_t wulgach_remembered_after_status(uint32_t was, bool is_file);

/* Whether the file of a number is asked for its seals (fcntl(2), F_GET_SEALS) after a call that
 * came to this, and was asked not to wait before its descriptor was asked anything
 * (WULGACH_CALL_AT_ONCE), or wasn't: -95 (EOPNOTSUPP) means that it can't be asked so. */
bool wulgach_asks_seals(uint32_t was, bool is_at_once, int32_t res);

/* Returns what is remembered after a call that came to this: nothing after -29 (ESPIPE), since what
 * has no offsets is no file. */
uint32_t wulgach_remembered_after_call(uint32_t was, int32_t res);

/* Whether it was in memory. It is asked for them before it is taken to be there still. */
bool wulgach_was_in_memory(uint32_t was);

/* Returns what is remembered after it was asked for them. */
uint32_t wulgach_remembered_after_seals(uint32_t was, bool has_seals);

/* ---- what becomes of an operation of sockets, of a splice and of a poll ---- */

/* How far an operation has come. */
struct wulgach_call {
    uint64_t length; /* how many bytes a message is asked to move, */
    uint64_t done; /* and has moved so far */
    uint64_t control; /* how many bytes of control data its entry has, or has room for: one that is
                         received with such has one part alone */
    bool is_stream; /* it may have to wait for its descriptor, */
    bool is_impatient; /* or doesn't, whatever that is */
    bool has_begun; /* a connect was begun, */
    bool was_repeated; /* or its call was made once more */
};

enum wulgach_turn {
    WULGACH_TURN_ENDS = 0, /* it ends with what is written, */
    WULGACH_TURN_ENDS_WITH_DONE = 1, /* or with how many bytes it has moved */
    WULGACH_TURN_WAITS = 2, /* it would have to wait */
    WULGACH_TURN_CALLS = 3, /* its call is made, so that it doesn't wait */
    WULGACH_TURN_POLLS = 4, /* its descriptor is polled: 0 if it isn't ready. A message's after a
                               call that would have waited */
    WULGACH_TURN_ASKS_WILL = 5, /* its descriptor is asked whether it isn't to wait (O_NONBLOCK): 0
                                 * if it is; of a splice wulgach_splice_isnt_to_wait tells */
    WULGACH_TURN_ASKS_TYPE = 6, /* its socket is asked whether it is a stream: 0 if it isn't */
    WULGACH_TURN_ASKS_ERROR =
        7 /* its socket is asked for its error, which is what that came to: 0 if it has none */
};

/* Returns what is next of an operation of sockets or of a splice (enum wulgach_turn), after what
 * was done last, which came to `res`, and writes what it ends with, if it ends with an error, or
 * with what its call gave. `last` is 0 at first; after a call, `done` has what that has moved. A
 * connection is accepted only on a socket that was found ready just before, where it might wait; a
 * connect that was begun is made again once its socket is ready and has no error; a call ends with
 * what came last, or with -11 (EAGAIN), or 0 of a connect that is found made; and bytes that were
 * moved are told. A connect that comes to -103 (ECONNABORTED) is made once more: the one call after
 * a call. */
uint32_t wulgach_call_next(const struct wulgach_submission *entry, const struct wulgach_call *call,
    uint32_t last, int32_t res, int32_t *end);

/* Whether an operation counts as begun that has moved so many bytes (`has_begun`): a connect is
 * told 1 as it begins. And whether its call counts as made once more (`was_repeated`), where it did
 * before or didn't, `last` was done last, and `next` is next: it did, or both are calls. */
bool wulgach_counts_as_begun(uint64_t done);
bool wulgach_is_call_repeated(bool was_repeated, uint32_t last, uint32_t next);

/* Which events a poll finds there, where poll(2) or epoll_wait(2), which doesn't wait, came to this
 * and shows these: none of a call that failed, so that the poll waits on. */
uint16_t wulgach_present_of(int32_t came, uint16_t events);

/* Writes what a poll for these events ends with, where `present` are there, 0 for none; `was_told`:
 * something that its pipe had to be read is gone. False, and nothing is written: it waits. */
bool wulgach_poll_result(uint16_t events, uint16_t present, bool was_told, int32_t *res);

/* Whether an epoll instance is asked for the poll of an entry: it goes on, or it is for nothing
 * that a descriptor which can't be polled has. The instance refuses such a descriptor with EPERM.
 */
bool wulgach_asks_instance(const struct wulgach_submission *entry);

/* For what an instance is asked that is to tell of these events of a poll: for their edges
 * (EPOLLET), so that each is told once. */
uint32_t wulgach_instance_events(uint16_t events);

/* How a poll starts. */
struct wulgach_poll_start {
    int32_t fault; /* with what it has failed, or 0 */
    bool goes_on; /* it can have more than one completion, and keeps its instance for that */
};

/* Writes how a poll for these events starts, which can have more than one completion or can't,
 * where asking an instance came to `res`, 0 or an error's negative: it fails with that, but where
 * its descriptor can't be polled (EPERM). Such a one has one completion, and fails if it is for
 * nothing that its descriptor has. */
void wulgach_poll_starts(
    uint16_t events, bool goes_on, int32_t res, struct wulgach_poll_start *start);

/* With what a READ_MULTISHOT fails as it starts, where asking an instance for its descriptor came
 * to `res`; or 0: with that error, but with -77 (EBADFD) where the descriptor can't be polled
 * (EPERM). */
int32_t wulgach_polling_fault(int32_t res);

/* Whether a regular file counts as one that can be polled, where asking an instance for it came to
 * `res`: to 0. Where there is no instance, it doesn't. */
bool wulgach_counts_as_polled(int32_t res);

#ifdef __cplusplus
}
#endif

#endif
