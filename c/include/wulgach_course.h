/* Wulgach: what becomes of a request that was accepted, as decisions, for whoever keeps a ring as
 * the kernel does: when its operation is carried out, what is shown of its end, what of a result is
 * a success to the links after it, and which request a linked timeout limits. The functions are in
 * the library of wulgach.h, and proved as those are. The layer under liburing calls them.
 */
#ifndef WULGACH_COURSE_H
#define WULGACH_COURSE_H

#include "wulgach.h"
#include "wulgach_shown.h"

#ifdef __cplusplus
extern "C" {
#endif

/* ---- the course of a request ---- */

/* What has become of a request so far: a value for each, from its acceptance to its end. The fields
 * may be read. */
struct wulgach_course {
    bool has_started; /* the core let it start */
    bool is_cancelled; /* a cancel has found it */
    bool is_tried; /* its operation is being carried out */
    bool has_result; /* its result is known: */
    bool has_ended;
    int32_t res; /* this, else 0 */
    int32_t
        moved; /* how many bytes its operation has moved so far, which goes on in parts; else 0 */
};

/* What has happened to a request. */
enum wulgach_fact {
    WULGACH_FACT_STARTED = 0, /* the core let it start */
    WULGACH_FACT_DROPPED =
        1, /* the core has ended it without letting it start, and this result is shown of it */
    WULGACH_FACT_CANCELLED = 2, /* a cancel has found it */
    WULGACH_FACT_WAITS = 3, /* its operation would have to wait, and has moved so many bytes so far:
                               0 if nothing was done */
    WULGACH_FACT_WENT_ON =
        4, /* it brought something, which has a completion of its own, and goes on */
    WULGACH_FACT_DONE = 5, /* it is done, with this result */
    WULGACH_FACT_NOTIFIED =
        6, /* the result has a completion of its own, and the request ends with this one */
    WULGACH_FACT_ENDED = 7 /* it has ended with its result */
};

/* What is to be done with a request that goes on. */
enum wulgach_act {
    WULGACH_ACT_NOTHING = 0, /* nothing */
    WULGACH_ACT_CARRY_OUT = 1, /* its operation is to be carried out */
    WULGACH_ACT_END = 2 /* it is to end with this result */
};

/* A request that was accepted just now. */
void wulgach_course_begin(struct wulgach_course *course);

/* Returns what is to be done when the request goes on (enum wulgach_act), and writes its result, if
 * it is to end. An operation is to be carried out only if the core let its request start, which
 * hasn't ended and which no cancel has found, and only once, but where it waited or went on; it
 * then counts as tried, until it is noted what became of it. A request ends with its result; or, if
 * a cancel has found it before, with the bytes that it had moved, or with -125 (ECANCELED) if it
 * had moved none. */
uint32_t wulgach_course_act(struct wulgach_course *course, int32_t *res);

/* Notes what has happened (enum wulgach_fact), with its result, if it has one. False: it can't
 * have, so far; then nothing changes. Nothing happens after an end, and what becomes of an
 * operation only while it is tried. */
bool wulgach_course_note(struct wulgach_course *course, uint32_t fact, int32_t res);

/* The same of a start, of an operation that is done, and of an end. */
bool wulgach_course_start(struct wulgach_course *course);
bool wulgach_course_done(struct wulgach_course *course, int32_t res);
bool wulgach_course_end(struct wulgach_course *course);

/* An entry of the submission ring: see wulgach_form.h. */
struct wulgach_submission;

/* Writes what the second completion of a send without copies shows, which is of this entry, and
 * says that its memory is free: 0, or with IORING_SEND_ZC_REPORT_USAGE that it was copied. False,
 * and nothing is written: it has none, since no completion may be posted before its end. */
bool wulgach_notice_of(const struct wulgach_submission *entry, bool may_post, int32_t *res);

/* What the update of a poll does with it. */
enum wulgach_changing {
    WULGACH_CHANGING_ROUSES = 0, /* it is dormant no more, */
    WULGACH_CHANGING_DELISTS = 1, /* no epoll instance of the ring's has its descriptor, */
    WULGACH_CHANGING_CHANGES = 2, /* and it gets what the update names; */
    WULGACH_CHANGING_UNWATCHES =
        3, /* its own instance, which was asked for its events so far, is watched no more, */
    WULGACH_CHANGING_ASKS = 4, /* it asks for its events, */
    WULGACH_CHANGING_LOOKS = 5 /* and its descriptor is looked at */
};

/* The bit 1 << STEP of each of these steps, which are done by rising bits: the first three, and the
 * others if the poll runs. Then it is begun afresh, so that what is there already is told. */
uint32_t wulgach_course_steps_at_update(const struct wulgach_course *course);

/* Whether a cancel by io_uring_register(2) waits for a request. */
enum wulgach_awaited {
    WULGACH_NOT_AWAITED = 0,
    WULGACH_AWAITED_RUNS = 1, /* it does, and the request runs */
    WULGACH_AWAITED_WAITS = 2, /* it does, and the request hasn't started: it starts first */
    WULGACH_WRONG_TURN = 3 /* it isn't this one's turn */
};

/* How far such a cancel has come with the requests that it may wait for. The fields are the
 * library's. */
struct wulgach_awaiting {
    uint64_t from; /* those with this number and with greater ones weren't looked at */
    bool is_awaited; /* the one that was looked at last is waited for, and hasn't ended */
};

/* Begins a cancel that has looked at none. */
void wulgach_awaiting_begin(struct wulgach_awaiting *awaiting);

/* Looks at the next request that hasn't ended, which has this number and which the core lets start
 * or doesn't, and returns whether the cancel waits for it (enum wulgach_awaited): it waits for each
 * that a cancel has found, if it runs, or the core lets it start. Requests are looked at by rising
 * numbers, and one that is waited for ends before another is: so they end in the order in which
 * they were accepted, which is our own rule. At any other WULGACH_WRONG_TURN is returned, and
 * nothing changes. */
uint32_t wulgach_awaiting_sees(struct wulgach_awaiting *awaiting, uint64_t number,
    const struct wulgach_course *course, bool may_start);

/* The one that was looked at last, and is waited for, has ended. */
void wulgach_awaiting_ends(struct wulgach_awaiting *awaiting);

/* Whether it matters to such a cancel whether the core lets the request start. */
bool wulgach_course_asks_start(const struct wulgach_course *course);

/* ---- what is shown of an end ---- */

/* A completion that was posted and isn't reaped. The rows that a call is given are the caller's
 * memory: the first are those that stand in `posted` of the ring's `wulgach_shown`, the oldest
 * first; so the caller moves on by as many as are reaped. */
struct wulgach_posted {
    uint64_t user_data; /* for the application, */
    int32_t res; /* with the request's own result */
    uint32_t flags;
    uint64_t token; /* the core's user data, */
    int32_t told; /* and its result */
    bool is_message; /* it tells of a message of another ring, or of a tag: no call on this ring has
                        submitted it */
    uint64_t call; /* the number of the call that submitted it, of all on the ring, those of
                      io_uring_register(2) among them, */
    uint64_t ended; /* and of that in which it ended */
};

/* A request has ended, and `core` is the completion that the core has posted of it, if it has
 * posted one. Writes it into its row, with the result of the request's course, whatever `end` has
 * for that, and returns 1; returns 0 if there is none. -22 (EINVAL) exactly if the request hasn't
 * ended, the core's completion isn't its (token and told are the same), or there is no row; then
 * nothing changes. */
int32_t wulgach_shown_end(struct wulgach_shown *shown, struct wulgach_posted *rows, size_t room,
    const struct wulgach_course *course, const struct wulgach_posted *end,
    const struct wulgach_completion *core, bool has_core);

/* How an operation was carried out. */
struct wulgach_carried {
    uint64_t length; /* how many bytes its vectors have */
    uint64_t control; /* how many bytes of control data its message has, or has room for */
    uint32_t message_flags; /* of what was received: the flags of its message */
    bool has_message; /* it has a message, as an operation of sockets */
    bool is_cancelled; /* a cancel has found it */
    bool is_missing; /* it wasn't carried out: something that it needs isn't there */
};

/* Whether a result is a success to the links after the request of an entry that was carried out so,
 * and to WULGACH_CQE_SKIP_SUCCESS: it moved all of its length, if it is to and isn't a RECVMSG with
 * room for control data, and nothing that it has received was cut. By Linux's rules so is a failure
 * of FSYNC, SYNC_FILE_RANGE, FALLOCATE, MADVISE, STATX, RENAMEAT, UNLINKAT, MKDIRAT, SYMLINKAT,
 * LINKAT, SHUTDOWN and those of extended attributes, once it was carried out, but for -88
 * (ENOTSOCK) of a SHUTDOWN. -62 (ETIME) is one of a timeout with IORING_TIMEOUT_ETIME_SUCCESS; and
 * of a linked one any result is, unless a cancel has found it. */
bool wulgach_has_succeeded(const struct wulgach_submission *entry,
    const struct wulgach_carried *carried, bool linux_rules, int32_t res);

/* What a completion of a request tells of. */
enum wulgach_part {
    WULGACH_PART_EVENT = 0, /* something has come, and the request goes on */
    WULGACH_PART_SENT =
        1, /* a send without copies is done: another completion follows, once its memory is free */
    WULGACH_PART_NOTICE = 2, /* its memory is free */
    WULGACH_PART_OWN = 3 /* the request ends, with a result of its operation or without */
};

/* The flags of a completion, where those of a provided buffer that was taken, and of which no other
 * completion has told, are `of_buffer`, or 0: with IORING_CQE_F_MORE where another of the same
 * request follows, and IORING_CQE_F_NOTIF. */
uint32_t wulgach_completion_flags(uint32_t part, uint32_t of_buffer);

/* The flags of a provided buffer of which no completion has told, after one that tells of this: 0
 * after an event and after its own end, by which they are told. So no later completion tells of
 * that buffer. */
uint32_t wulgach_untold_after(uint32_t part, uint32_t of_buffer);

/* What is done after an operation that was carried out: a set of these has the bit 1 << DUTY of
 * each, and they are done by rising bits. */
enum wulgach_tried_duty {
    WULGACH_TRIED_LOOKS_AFRESH = 0, /* those that run are looked at again, */
    WULGACH_TRIED_WAITS = 1, /* it is noted that it waits, and it goes on running, */
    WULGACH_TRIED_ASKS_GOING_ON =
        2 /* or it is asked whether it goes on (wulgach_goes_on), and else it ends */
};

/* That set: others are looked at again after one that can make them ready, whatever it came to; and
 * what would have to wait isn't asked whether it goes on. */
uint32_t wulgach_after_try(bool can_make_ready, bool would_wait);

/* Returns what the end of a send without copies tells of (enum wulgach_part) that has two
 * completions, where the other one was posted before (WULGACH_PART_NOTICE), or is put off since
 * memory was refused for it (WULGACH_PART_SENT): then the other is the notice. So the application
 * sees the notice after what was sent, whatever is put off. */
uint32_t wulgach_end_of_send(bool is_posted);

/* Whether a request, which is a send without copies or isn't, and ends with this result before it
 * is carried out, has a notice after that: its chain has cancelled it. And what the completion of
 * its end tells then (enum wulgach_part), where it is after a link or begins its chain. */
bool wulgach_notifies_unsent(bool is_zero_copy, int32_t res);
uint32_t wulgach_part_unsent(bool is_linked);

/* A request that the core has ended by itself. */
struct wulgach_ended_early {
    int32_t fault; /* the error of its entry, */
    bool is_faulty; /* if that has a fault */
    bool is_cancel;
    bool has_cancelled; /* which has found a request that runs or could start, and that it could
                           cancel */
    bool is_linked_timeout;
    bool has_fired; /* which has cancelled the request before it */
};

/* A cancel that the core has ended. */
struct wulgach_ended_cancel {
    bool is_cancel; /* it is one: of another request nothing is looked for */
    bool has_looked; /* the requests that run were shown to it, */
    bool has_cancelled; /* and it has cancelled one */
    bool has_next; /* it has found, before the core ended it, a request that hasn't started and
                      could */
    bool linux_rules;
};

enum wulgach_sought_after {
    WULGACH_SEEKS_RUNNING = 0, /* the requests that run */
    WULGACH_SEEKS_NEXT = 1, /* the one that could start */
    WULGACH_SEEKS_NO_MORE = 2
};

/* Returns what it looks for next (enum wulgach_sought_after), which ends with this: the requests
 * that run, if the core has found one; then, unless it has cancelled one, the request that could
 * start. By Linux's rules the core finds only what has started, and the kernel starts in the call
 * that takes it what can start. */
uint32_t wulgach_next_sought(const struct wulgach_ended_cancel *cancel, int32_t res);

/* Whether a cancel looks for a request that hasn't started and could before the core ends it: after
 * its end others could start, which it doesn't find. */
bool wulgach_looks_ahead(bool is_cancel, bool linux_rules);

/* What is shown of a request that the core has ended with this result: 0 of a cancel that has
 * cancelled a request, an entry's own error in the place of -22 (EINVAL), of a linked timeout what
 * it ends with after its request; else the same. */
int32_t wulgach_shown_of(const struct wulgach_ended_early *request, int32_t res);

/* ---- chains ---- */

/* What an entry says of its chain. */
struct wulgach_link {
    bool links; /* IOSQE_IO_LINK or IOSQE_IO_HARDLINK */
    bool is_linked_timeout;
};

/* A request as a member of its chain. The fields may be read. */
struct wulgach_member {
    uint64_t number; /* in the order in which requests are accepted */
    uint64_t chain; /* the number of its chain's first member */
    bool is_linked; /* the one before it links it */
    struct wulgach_link entry;
};

/* Writes the request of a call's first entry, which has this number. */
void wulgach_member_first(
    struct wulgach_member *member, uint64_t number, const struct wulgach_link *entry);

/* Writes the request of the entry after that of `before` in its call, which has this number, the
 * next. */
void wulgach_member_next(struct wulgach_member *member, const struct wulgach_member *before,
    uint64_t number, const struct wulgach_link *entry);

/* Whether a request is a linked timeout that limits the request `before`: the one right before it,
 * if that links it. */
bool wulgach_member_limits(
    const struct wulgach_member *timeout, const struct wulgach_member *before);

/* Whether two requests of a call are of one chain. */
bool wulgach_is_one_chain(const struct wulgach_member *one, const struct wulgach_member *other);

/* What becomes of a timeout's time. */
enum wulgach_timing {
    WULGACH_TIMING_STAYS = 0,
    WULGACH_TIMING_BEGINS = 1,
    WULGACH_TIMING_STOPS = 2
};

/* Whether the operation of this code is a timeout (IORING_OP_TIMEOUT); and whether it is one that
 * limits the request before it (IORING_OP_LINK_TIMEOUT). */
bool wulgach_is_timeout(uint8_t code);
bool wulgach_is_linked_timeout(uint8_t code);

/* Whether it is either: then it is asked what becomes of its time by what happens to itself. */
bool wulgach_is_timed(uint8_t code);

/* Returns what becomes of a timeout's time (enum wulgach_timing) when a request starts, when a
 * cancel finds one, and when one has ended. The time of a linked timeout runs while the request
 * runs that it limits. That of another runs from its own start on, unless a cancel has found it
 * before (`is_found`), until it ends or a cancel finds it. */
uint32_t wulgach_timing_after_start(
    const struct wulgach_member *timeout, const struct wulgach_member *request, bool is_found);
uint32_t wulgach_timing_after_finding(
    const struct wulgach_member *timeout, const struct wulgach_member *request);
uint32_t wulgach_timing_after_end(
    const struct wulgach_member *timeout, const struct wulgach_member *request);

#ifdef __cplusplus
}
#endif

#endif
