/* Wulgach: one call of io_uring_enter(2), as decisions, for whoever keeps a ring as the kernel
 * does: what the call does next, when it may sleep and what it returns. The functions are in the
 * library of wulgach.h, and proved as those are. The layer under liburing calls them.
 */
#ifndef WULGACH_ENTER_H
#define WULGACH_ENTER_H

#include <stdbool.h>
#include <stdint.h>

#ifdef __cplusplus
extern "C" {
#endif

/* What goes on while a call of io_uring_enter(2) is made, where more than one thing may. */
enum wulgach_policy {
    WULGACH_IN_ORDER = 0, /* the least request that can go on, until none can */
    WULGACH_LAZY = 1, /* the same, but nothing before the application waits or looks, and no more
                         than it waits for */
    WULGACH_BY_CHOICE =
        2 /* something is chosen each time; where the call may end, that is among the choices */
};

/* What a call of io_uring_enter(2) is asked for. */
struct wulgach_asked {
    uint32_t to_submit;
    uint32_t min_complete;
    uint32_t cq; /* the entries of the completion ring: a call waits for no more */
    uint32_t policy; /* what the program goes by: enum wulgach_policy */
    bool gets; /* IORING_ENTER_GETEVENTS */
    bool may_leave; /* a call may end before all has gone on that can, once there is what it waits
                       for */
    bool has_thread; /* IORING_SETUP_SQPOLL: the ring has a thread that takes entries */
};

enum wulgach_command_kind {
    WULGACH_HEAR =
        0, /* hear what the application has reaped; flag: what has overflowed comes into the ring */
    WULGACH_SUBMIT = 1, /* submit as many entries as were asked for */
    WULGACH_GO_ON = 2, /* go on with one request, and hear; flag: that the call ends may be chosen
                          in its place */
    WULGACH_GO_ON_FULLY = 3, /* go on until nothing can, and hear */
    WULGACH_SLEEP =
        4, /* sleep until something may go on, a signal comes, or the caller's time is over */
    WULGACH_PASS_TIME = 5, /* let the next timeout end, if there is one */
    WULGACH_RETURN = 6 /* return result */
};

/* What a call wants of its caller. */
struct wulgach_command {
    int64_t
        result; /* RETURN: how many entries were submitted, or the negative of an error number */
    uint32_t kind; /* enum wulgach_command_kind */
    bool flag; /* HEAR, GO_ON */
};

enum wulgach_reply_kind {
    WULGACH_HEARD = 0,
    WULGACH_WRONG_HEAD =
        1, /* of hearing and going on: the application has stored a head past the tail */
    WULGACH_WAS_TAKEN = 2, /* so many entries were taken: number */
    WULGACH_NOT_TAKEN = 3, /* none was, with the negative of this error number */
    WULGACH_WENT_ON = 4,
    WULGACH_CHOSEN = 5, /* that the call ends was chosen, where that was offered */
    WULGACH_STUCK = 6, /* nothing can go on without waiting */
    WULGACH_WOKEN = 7, /* of a sleep: something may go on */
    WULGACH_TIMED_OUT = 8, /* the caller's time is over */
    WULGACH_INTERRUPTED = 9, /* a signal came */
    WULGACH_ENDLESS = 10, /* nothing that is awaited can ever come */
    WULGACH_FAILED = 11, /* the sleep failed, with the negative of this error number */
    WULGACH_PASSED = 12,
    WULGACH_LEAST_OVER = 13 /* of a sleep: the time is over after which one completion is enough */
};

/* What became of what a call wanted. What is seen then has a meaning in HEARD, WAS_TAKEN,
 * NOT_TAKEN, WENT_ON, STUCK, TIMED_OUT, INTERRUPTED and LEAST_OVER. */
struct wulgach_reply {
    uint64_t expired; /* seen: how many timeouts of the ring have ended so far, */
    uint32_t kind; /* enum wulgach_reply_kind */
    uint32_t number; /* WAS_TAKEN, NOT_TAKEN, FAILED */
    uint32_t ready; /* how many completions can be reaped, */
    bool is_due; /* and whether the time of another timeout is over, which hasn't ended yet */
    bool has_limit; /* LEAST_OVER: the caller gave a limit too */
};

/* A call. The library keeps nothing of it: it is the caller's memory, and its fields are the
 * library's. */
struct wulgach_enter {
    struct wulgach_asked asked;
    struct wulgach_command wanted;
    int64_t submitted;
    uint64_t expired;
    uint32_t before;
    bool took_all;
    bool is_least_over;
};

/* What is looked at of a call, or done, before it is carried out. Of one that passes: what is done
 * of it, a set of bits, which are done by rising bits. */
enum wulgach_passage {
    WULGACH_CHECKS_NUMBER = 0, /* the number under which the thread has registered the ring */
    WULGACH_CHECKS_DESCRIPTOR = 1, /* the descriptor: whether it is a ring's */
    WULGACH_COUNTS_CALL = 2, /* it counts among the calls on its ring */
    WULGACH_CHECKS_CALLER = 3, /* who calls: whether the ring is enabled, and the thread may */
    WULGACH_CHECKS_ARGUMENT = 4, /* the argument and its count */
    WULGACH_AT_FIRST = 6, /* nothing was done */
    WULGACH_HAS_STRUCTURE =
        8, /* its last argument is taken for a structure of a mask and a time, and no mask alone */
    WULGACH_BEGINS_CALL = 16, /* what any call does as it begins */
    WULGACH_MAKES_CALL = 32, /* it is carried out */
    WULGACH_RETURNS_CALL = 64 /* what any call does as it returns, whatever it came to */
};

/* Returns what comes next of a call of io_uring_enter(2) with these flags (enum wulgach_passage),
 * after `last`, which came to `res`, 0 at first: what is looked at; or the steps of one that
 * passes, the last three, and the first with IORING_ENTER_EXT_ARG; or the error with which it is
 * refused, and then nothing is done besides. -22 of a flag that isn't served comes first:
 * IORING_ENTER_GETEVENTS, _SQ_WAKEUP, _SQ_WAIT, _EXT_ARG and _REGISTERED_RING are. With the last
 * the ring is named by a number, which is looked at before the descriptor for which it stands. A
 * call counts once its ring is found, whoever calls, by which an eventfd is told of what has ended
 * in a later one. */
int32_t wulgach_entering_next(uint32_t flags, uint32_t last, int32_t res);

/* Returns the same of a call of io_uring_register(2), whose descriptor was found a ring's or not:
 * only one on a ring counts. Who calls comes before the argument. */
int32_t wulgach_registering_next(bool has_ring, uint32_t last, int32_t res);

/* The error of a call whose descriptor is no ring's: -9 (EBADF) if it isn't open, else -95
 * (EOPNOTSUPP). */
int32_t wulgach_no_ring_fault(bool is_open);

/* Begins a call of io_uring_enter(2), and writes what it wants first. -22 exactly if there is no
 * such policy; then nothing is written. Whoever keeps a ring does what the call wants, and replies
 * with what became of it, until it is to return.
 *
 * A call hears the application first, and submits once. It waits only if it gets events, for one at
 * least, and all was submitted; then it sleeps only where nothing can go on and there isn't enough,
 * and ends only if there is enough, its sleep has failed, or the application's head is wrong. Once
 * its least time is over one completion is enough, and it ends without one if it has no limit. A
 * lazy one that wakes a thread which takes entries, and gets no events, goes on in order, since the
 * application may look at memory alone after it. */
int32_t wulgach_enter_begin(
    struct wulgach_enter *call, const struct wulgach_asked *asked, struct wulgach_command *command);

/* Takes a reply, and writes what the call wants then. -22 exactly if the reply doesn't answer what
 * it wanted; then nothing is written. */
int32_t wulgach_enter_next(
    struct wulgach_enter *call, const struct wulgach_reply *reply, struct wulgach_command *command);

/* Whether a call that has submitted looks in vain, where so many completions can be reaped: it gets
 * events, waits for none, and there is none. */
bool wulgach_looks_in_vain(bool gets, uint32_t min_complete, uint32_t ready);

/* ---- what it does besides ---- */

/* What is to be done at a moment of a call, in the order in which it is done: a set of these has
 * the bit 1 << DUTY of each, and they are done by rising bits. */
enum wulgach_duty {
    WULGACH_LOOKS_AFRESH = 0, /* all that runs is looked at afresh */
    WULGACH_HEARS_PIPES = 1, /* what was written to pipes is heard */
    WULGACH_PASSES_TIME = 2, /* the timeouts end whose time is over */
    WULGACH_FINDS_FILES = 3, /* those find their files whose turn to do so hasn't come */
    WULGACH_KEEPS_NEW = 4, /* the files of what was accepted are kept open, */
    WULGACH_HOLDS_FILES = 5, /* and those of what runs, which may have found others since */
    WULGACH_WATCHES_PIPES = 6, /* writes to the pipes are watched that polls wait for */
    WULGACH_LETS_LIE =
        7, /* of many that wait for descriptors those become dormant that wait for nothing else */
    WULGACH_SHOWS_ENDS = 8, /* what has ended is shown */
    WULGACH_TELLS_READINESS = 9, /* the ring's descriptor tells whether it is readable */
    WULGACH_HEARS_APPLICATION = 10, /* what the application has reaped is heard */
    WULGACH_SHOWS_FLAGS = 11, /* the word of flags says whether a call may bring something */
    WULGACH_TELLS_EVENTFD = 12 /* the registered eventfd is told of what was shown */
};

/* What a call does as it begins, or has slept: it looks afresh, and hears pipes; and where time is
 * real, time passes as it begins. */
uint32_t wulgach_duties_at_begin(bool is_time_real, bool has_slept);

/* A ring as a call on it falls asleep or returns. */
struct wulgach_resting {
    uint64_t waiting; /* how many of the requests that run wait for descriptors, */
    uint64_t looked_at; /* and how many of these are looked at in passing */
    bool has_due; /* some are to find their files in their turn, which hasn't come */
    bool runs; /* some run */
    bool has_new; /* some are outstanding whose files weren't kept yet, if they have any */
    bool has_watches; /* pipes are watched */
    bool has_ends; /* something has ended which isn't shown */
    bool is_polled; /* the ring's descriptor polls */
};

/* What it does before it is decided whether it sleeps: files are found, what was accepted, and then
 * what runs, keeps them, and where requests run, or pipes are watched, pipes are, unless it is to
 * fail with a fault. */
uint32_t wulgach_duties_before_sleep(const struct wulgach_resting *resting, bool has_fault);

/* What it does where nothing can go on, if the ring has an eventfd: what has ended is shown, of
 * which that is told, since a request may wait for it; but where this was done since the call began
 * or last slept. */
uint32_t wulgach_duties_when_stuck(
    const struct wulgach_resting *resting, bool has_eventfd, bool has_shown);

/* What it does before it is told what became of what it wanted: what has ended is shown where the
 * reply counts completions that are ready (`ready`), whatever stands there still. Where nothing has
 * ended that isn't shown, that is nothing. */
uint32_t wulgach_duties_at_reply(const struct wulgach_reply *reply, bool has_ends);

/* What it does as it falls asleep: where more wait than are looked at in passing, requests become
 * dormant; what has ended is shown, and a descriptor that polls tells of it. */
uint32_t wulgach_duties_at_rest(const struct wulgach_resting *resting);

/* What it does as it returns: files are found; what runs, or was accepted, keeps its files; where
 * some run, or pipes are watched, pipes are; then as above; and the flags are shown at last. The
 * ring is told by values, since each call asks. */
uint32_t wulgach_duties_at_return(uint64_t waiting, uint64_t looked_at, bool has_due, bool runs,
    bool has_new, bool has_watches, bool has_ends, bool is_polled);

/* What the call of io_uring_register(2) of this number does as it begins, and as it returns. One
 * that may post completions, since it ends requests or takes files or buffers out of their table,
 * does what any call does, and hears the application as it begins; another does nothing. */
uint32_t wulgach_duties_at_register_begin(uint32_t code, bool is_time_real);
uint32_t wulgach_duties_at_register_return(uint32_t code, const struct wulgach_resting *resting);

/* What is done before a completion is posted that no operation has just ended with, as an event, a
 * message, a tag or the end of a request that was cancelled: the application is heard. And what is
 * done after those that were posted outside a call: what has ended and isn't shown is, and a
 * descriptor that polls tells of it. */
uint32_t wulgach_duties_before_posting(void);
uint32_t wulgach_duties_after_posting(bool has_ends, bool is_polled);

/* What is done after completions that were stored into ring memory with their tail, of so many of
 * which a registered eventfd is told (wulgach_tells): the flags are shown, and then it is told, if
 * of any. So whoever is woken by it sees the flags. */
uint32_t wulgach_duties_after_storing(uint64_t told);

/* What it does before the operation of this code is carried out: what has ended and isn't shown is,
 * but before a no-op, and the application is heard. */
uint32_t wulgach_duties_before(uint8_t code, bool has_ends);

/* Whether a sleep polls the epoll instance that tells of those that are dormant, of which there are
 * so many: there are any. Then the call waits for descriptors. */
bool wulgach_polls_instance(uint64_t dormant);

/* Whether a sleep polls what tells of writes to pipes, of which so many are watched: there are any.
 */
bool wulgach_polls_writes(uint64_t watched);

/* ---- the thread's signals ---- */

/* Whether signals are blocked as a call begins that gets events (IORING_ENTER_GETEVENTS) and waits
 * for so many: unless the program's handlers are quiet, which is that none calls io_uring or leaves
 * a call, and the call can't sleep. So none sleeps with signals open. Our own rule. */
bool wulgach_blocks_at_begin(bool are_quiet, bool gets, uint32_t min_complete);

/* What is about to be done in a call. */
enum wulgach_doing {
    WULGACH_DOES_LOOK = 0, /* descriptors are looked at, without waiting: poll(2) and select(2) */
    WULGACH_DOES_LOOK_UP = 1, /* a path is looked up: open(2) */
    WULGACH_DOES_ASK_NOT_TO_WAIT =
        2, /* a transfer is made whose descriptor is asked not to wait meanwhile */
    WULGACH_DOES_OPERATION = 3 /* the calls of an operation are made, which is a read or isn't, of a
                                  stream or of a file */
};

/* Whether signals are blocked before it, where they are open: one may end it, come of it, or have a
 * handler find a descriptor otherwise than the program left it. That is so of all but the read of a
 * file. The last two are of an operation; a number past the last kind counts as one. Our own rule.
 */
bool wulgach_blocks_before(uint32_t doing, bool is_read, bool is_stream);

/* Whether a call that came to this, where they were open, is made once more, with signals blocked:
 * one has ended it (-4). */
bool wulgach_is_made_again(bool was_open, int32_t res);

/* Whether the process drops a signal of this number as it comes to a thread that has it open, which
 * is caught, ignored or neither: one that is ignored, or isn't caught and does nothing by itself,
 * as SIGCHLD (signal(7)). One that waits since it is blocked here is taken before the call sleeps,
 * so that it doesn't end it. */
bool wulgach_is_dropped(uint32_t signal, bool is_caught, bool is_ignored);

/* Whether a SIGSYS ends the process, which a filter for system calls has raised (seccomp(2),
 * SECCOMP_RET_TRAP) or hasn't, and which is caught, ignored or neither: one that isn't caught does,
 * unless it is ignored and no filter's. */
bool wulgach_ends_process(bool is_of_filter, bool is_caught, bool is_ignored);

/* ---- its last arguments ---- */

/* The last argument of a call, as far as it was read. */
struct wulgach_argument {
    uint64_t size; /* as the call gives it */
    bool
        is_extended; /* IORING_ENTER_EXT_ARG: a structure of a mask and a time, and no mask alone */
    bool is_readable; /* the structure can be read, */
    bool has_time; /* it gives a time, */
    bool is_time_readable; /* and that can be read */
};

/* The structure as it stands in memory: `struct io_uring_getevents_arg`. */
struct wulgach_extended_form {
    uint64_t sigmask;
    uint32_t sigmask_sz;
    uint32_t min_wait_usec; /* `pad` in older headers */
    uint64_t ts;
};

/* What it gives. */
struct wulgach_given {
    uint64_t mask_at, mask_size; /* where its mask is, and its size; 0: it has none */
    uint64_t time_at; /* where its time is, */
    bool has_time; /* unless it has none */
    uint64_t least; /* its least time in nanoseconds, after which one completion is enough, */
    bool has_least; /* unless it has none */
};

/* Writes that: the mask stands at `sigmask`; the time at `ts`, unless that is 0; and the least time
 * is `min_wait_usec`, unless that is 0. */
void wulgach_argument_gives(
    const struct wulgach_extended_form *extended, struct wulgach_given *given);

/* Whether a call reads its last argument that is asked to submit so many entries, and whose
 * submission came to this: it gets events (IORING_ENTER_GETEVENTS), and all was submitted. */
bool wulgach_reads_argument(bool gets, uint32_t to_submit, int64_t submitted);

/* The fault of a call's last argument, or 0. Of a structure the size is looked at first: -22 unless
 * it is 24; then -14 if it can't be read, and -14 if the time that it gives can't be read. */
int32_t wulgach_last_argument_fault(const struct wulgach_argument *argument);

/* Writes until when a call sleeps at most that has this least time, which isn't over, or none, and
 * this limit: the limit is looked at once the least time is over, also where it is the shorter of
 * them. */
struct wulgach_limit;
void wulgach_sleeps_to(const struct wulgach_limit *least, const struct wulgach_limit *limit,
    struct wulgach_limit *until);

/* The fault of a mask of this size, or 0: -22 unless it is 8, then -14 if it can't be read. It
 * matters where the call is to sleep. */
int32_t wulgach_mask_fault(uint64_t size, bool is_readable);

/* With which mask a call sleeps that gives this one: where calls are trapped SIGSYS isn't in it, by
 * which a handler calls that runs meanwhile. Our own rule. */
uint64_t wulgach_slept_with(uint64_t mask, bool is_trapped);

/* Whether a call that is to sleep reads its mask, after so many sleeps, if it gives one, and its
 * last argument has this fault, or 0: before the first, and not if it has a fault. It sleeps with
 * that mask until it returns. */
bool wulgach_asks_mask(bool has_mask, int32_t argument, uint32_t sleeps);

/* With which fault a call that is to sleep fails, or 0: that of its last argument, else that of its
 * mask, if that was read. */
int32_t wulgach_sleep_fault(int32_t argument, bool has_read, int32_t mask);

/* What a submission comes to that came to this, and after which the argument has this fault, or 0:
 * the fault counts where nothing was submitted. */
int64_t wulgach_submission_with_fault(int64_t submitted, int32_t fault);

#ifdef __cplusplus
}
#endif

#endif
