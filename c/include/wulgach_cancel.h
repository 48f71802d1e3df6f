/* Wulgach: what a cancel finds among the requests that haven't ended, as decisions, for whoever
 * keeps a ring as the kernel does. The functions are in the library of wulgach.h, and proved as
 * those are. The layer under liburing calls them.
 */
#ifndef WULGACH_CANCEL_H
#define WULGACH_CANCEL_H

#include <stdbool.h>
#include <stdint.h>

#include "wulgach_register.h"

#ifdef __cplusplus
extern "C" {
#endif

/* What a cancel looks for. */
struct wulgach_sought {
    uint64_t user_data;
    uint32_t fd; /* a descriptor, or a slot */
    uint8_t code; /* an operation, */
    bool is_of_operation; /* and it looks for requests of that alone, as a removal does */
    bool is_any; /* any request: IORING_ASYNC_CANCEL_ANY */
    bool is_all; /* all that it finds, and not just the first: IORING_ASYNC_CANCEL_ALL */
    bool is_by_fd; /* by what a request is carried out on: IORING_ASYNC_CANCEL_FD */
    bool is_fixed; /* and that is a registered file: IORING_ASYNC_CANCEL_FD_FIXED */
};

/* A request that hasn't ended, as a cancel sees it. */
struct wulgach_outstanding {
    uint64_t user_data;
    uint32_t fd; /* the descriptor that its entry names, or the slot */
    uint8_t code; /* its operation */
    bool is_token; /* it is carried out outside of the core: WULGACH_FORM_TOKEN */
    bool needs_file; /* it is carried out on a file, */
    bool is_registered; /* which its entry names by the slot of a table */
    bool is_assigned; /* on what it is carried out is known, */
    bool is_compared; /* and whether that is the file that is looked for, */
    bool is_same; /* which it is */
    bool is_cancelled; /* a cancel has chosen it before */
    bool runs; /* it has started */
    bool is_stream; /* it may have to wait for its descriptor */
    bool may_start; /* of one that doesn't run: it could start now, and isn't taken after the cancel
                       (wulgach_is_taken_after) */
    bool comes_first; /* a kernel issues it before the cancel (wulgach_is_issued_before), */
    bool goes_on; /* it may have more than one completion, */
    bool is_ready; /* and where it comes first and runs, and doesn't go on: it needn't wait */
};

/* An entry of the submission ring: see wulgach_form.h. */
struct wulgach_submission;

/* Writes what is looked for by the entry of a cancel, or of a removal. If that is a registered
 * file, `fd` is its slot. */
void wulgach_sought_of(const struct wulgach_submission *entry, struct wulgach_sought *sought);

/* Writes what is looked for by a call of io_uring_register(2) that cancels (wulgach_register.h):
 * what the entry of a cancel looks for that has its user data, descriptor and flags. Of its slot
 * the same holds. */
struct wulgach_cancel_form;
void wulgach_sought_by_call(const struct wulgach_cancel_form *form, struct wulgach_sought *sought);

/* Whether user data is looked for. Then a cancel passes over each request that has other, so that
 * it need be shown those alone that have its own. */
bool wulgach_goes_by_user_data(const struct wulgach_sought *sought);

/* In which order requests are looked at: rank by rank, from the first on to WULGACH_LAST_RANK, of a
 * rank the oldest first, or the newest. By Linux's rules, where one is looked for by user data,
 * that is what waits for its descriptor, the newest first, then timeouts with a count, then all
 * others; else all are of one rank, the oldest first. */
#define WULGACH_LAST_RANK 2

uint32_t wulgach_first_rank(const struct wulgach_sought *sought, bool linux_rules);

/* The rank of a request of this operation, for who began with that rank: it may have to wait for
 * its descriptor (is_stream), or counts so many completions (wulgach_timeout_count), which matters
 * of a timeout alone. */
uint32_t wulgach_rank_from(uint32_t first, uint8_t code, bool is_stream, uint64_t count);

/* Whether of the requests of a rank the newest is looked at first. */
bool wulgach_is_newest_first(uint32_t rank);

/* Whether it matters to a cancel if a request is carried out on the file that is looked for: the
 * cancel goes by a descriptor or a slot, and the request is carried out on a file, which is known.
 * If not, is_compared and is_same may be anything. A request fits that is carried out on that file,
 * however both name it; where it can't be told, one that names the same descriptor, or the same
 * slot. */
bool wulgach_asks_file(
    const struct wulgach_sought *sought, const struct wulgach_outstanding *request);

/* Why nothing is looked for, or 0: -9 (EBADF) exactly if it would be looked for by a descriptor
 * that isn't open, or by a slot that has no file. */
int32_t wulgach_seeking_fault(const struct wulgach_sought *sought, bool is_there);

/* Where the file is looked for that a cancel names. */
enum wulgach_sought_file {
    WULGACH_SEEKS_NO_FILE = 0, /* it names none: IORING_ASYNC_CANCEL_FD isn't set */
    WULGACH_SEEKS_SLOT = 1, /* in the slot `fd` of the table of registered files */
    WULGACH_SEEKS_NUMBER = 2 /* by the descriptor `fd` */
};

uint32_t wulgach_file_sought(const struct wulgach_sought *sought);

/* What is done with a request that a cancel has found, in this order. */
enum wulgach_cancelling {
    WULGACH_CANCELLING_ROUSES = 0, /* it is dormant no more, */
    WULGACH_CANCELLING_LOOKS = 1, /* and is looked at again, whatever it was known to wait for; */
    WULGACH_CANCELLING_STOPS =
        2, /* a time stops that runs no more after that (wulgach_timing_after_finding); */
    WULGACH_CANCELLING_MARKS = 3 /* and it is marked: WULGACH_FACT_CANCELLED */
};

/* The bit 1 << STEP of each of these steps, which are done by rising bits: the last two, and the
 * others if the request runs. */
struct wulgach_course;
uint32_t wulgach_course_steps_at_cancel(const struct wulgach_course *course);

/* Whether a request that runs waits for something: for its descriptor, or as a timeout. A cancel
 * ends no other. */
bool wulgach_is_waiting(const struct wulgach_outstanding *request);

/* Whether a kernel takes the entry of the request `number` only after the cancel `cancel`, which is
 * carried out as its own is taken: it was submitted after it, and the cancel is after no link, and
 * doesn't drain. */
bool wulgach_is_taken_after(uint64_t cancel, bool is_linked, bool drains, uint64_t number);

/* Whether a request of this operation finds others, and a kernel carries it out once all of its own
 * submission was issued that can start: it is a cancel or a removal, after a link. */
bool wulgach_comes_late(uint8_t code, bool is_linked);

/* Whether a kernel issues the request `number` before the cancel or the removal `cancel`, of this
 * operation: that is after a link, and the request was submitted after it, in the same submission.
 * Then it is to start first, if it can, and is found only where it runs, and has to wait or goes
 * on. */
bool wulgach_is_issued_before(
    uint8_t code, uint64_t cancel, bool is_linked, bool is_same, uint64_t number);

/* Whether a request is to start before the cancel, if it can: it is issued first, it is a token,
 * and it doesn't run. Another cancel has its own turn. */
bool wulgach_is_due_first(const struct wulgach_outstanding *request);

/* Whether it matters to a cancel if a request has to wait: it was issued first, runs, and doesn't
 * go on. If not, is_ready may be anything. */
bool wulgach_asks_wait(const struct wulgach_outstanding *request);

/* A cancel, as it looks at requests in the order of wulgach_first_rank. It is the caller's memory,
 * and its fields are the library's. */
struct wulgach_cancel_look {
    struct wulgach_sought sought;
    uint32_t count;
};

/* A cancel that hasn't looked at any request. */
void wulgach_cancel_begin(struct wulgach_cancel_look *cancel, const struct wulgach_sought *sought);

/* Whether it matters to the cancel if the next request, which doesn't run, could start now. If not,
 * may_start may be anything. */
bool wulgach_cancel_asks(
    const struct wulgach_cancel_look *cancel, const struct wulgach_outstanding *request);

/* Looks at the next request, and says whether it is cancelled: it fits, it is neither a cancel
 * itself nor a timeout that is linked to a request, none has chosen it before, and it waits for
 * something or could start now, one that was issued first only if it runs, and has to wait or goes
 * on; and the cancel is of all, or has found none before. */
bool wulgach_cancel_sees(
    struct wulgach_cancel_look *cancel, const struct wulgach_outstanding *request);

/* What the cancel ends with, once it has looked at all: how many it has cancelled, or of one 0, or
 * -2 (ENOENT) if there was none. */
int32_t wulgach_cancel_result(const struct wulgach_cancel_look *cancel);

/* ---- a cancel by user data for which the core has found a request that runs ---- */

/* A search among the requests that haven't ended, in the order of wulgach_first_rank. It is the
 * caller's memory, and its fields are the library's. */
struct wulgach_search {
    uint64_t user_data;
    bool has_found;
    bool has_cancelled;
};

/* A search for this user data, which hasn't looked at any. */
void wulgach_search_begin(struct wulgach_search *search, uint64_t user_data);

/* Looks at the next request, and says whether it is to be cancelled: it is the first of this user
 * data that runs, but cancels and timeouts that are linked to a request, and what has ended in a
 * kernel before the cancel, no cancel has chosen it, and it waits for something. */
bool wulgach_search_sees(struct wulgach_search *search, const struct wulgach_outstanding *request);

/* Whether the one that was found is cancelled, by this cancel or another. */
bool wulgach_search_has_cancelled(const struct wulgach_search *search);

/* What the core has found that has ended the cancel so, once all were looked at: -2 (ENOENT) in the
 * place of -114 (EALREADY) if, by Linux's rules, none of them is one that a cancel finds, or all of
 * these have ended in a kernel before the cancel. */
int32_t wulgach_search_found_by_core(
    const struct wulgach_search *search, int32_t res, bool linux_rules);

/* ---- updates ---- */

/* What a removal does with the poll or the timeout that it has found, or hasn't. */
enum wulgach_removal {
    WULGACH_REMOVAL_CANCELS = 0,
    WULGACH_REMOVAL_UPDATES = 1,
    WULGACH_REMOVAL_UPDATES_LINKED =
        2, /* of a timeout that is linked to a request, whether or not one was found */
    WULGACH_REMOVAL_DOES_NOTHING = 3 /* there is none */
};

uint32_t wulgach_poll_removal(const struct wulgach_submission *entry, bool is_found);
uint32_t wulgach_timeout_removal(const struct wulgach_submission *entry, bool is_found);

/* What a removal ends with, or an update, that has found what it names, or hasn't: 0 or -2
 * (ENOENT). */
int32_t wulgach_removal_result(bool is_found);

/* A timeout that runs, as an update of linked timeouts sees it. */
struct wulgach_linked {
    uint64_t user_data;
    bool is_linked; /* it is a linked one */
};

/* An update of a linked timeout, which looks at the timeouts that run, in the order in which they
 * started (wulgach_times_nth). It is the caller's memory, and its fields are the library's. */
struct wulgach_linked_update {
    uint64_t user_data;
    bool has_found;
};

/* An update of the linked timeout with this user data, which hasn't looked at any. */
void wulgach_linked_update_begin(struct wulgach_linked_update *update, uint64_t user_data);

/* Looks at the next one, and says whether it is changed: it is a linked timeout with this user
 * data, and the first that is. */
bool wulgach_linked_update_sees(
    struct wulgach_linked_update *update, const struct wulgach_linked *request);

/* What it ends with, once it has looked at all: 0, or -2 (ENOENT) if it has changed none. */
int32_t wulgach_linked_update_result(const struct wulgach_linked_update *update);

/* Changes a poll's entry as this one updates it: its user data, its events, of which 16 bits count,
 * or both. Whether it goes on stays as it is. */
void wulgach_updated_poll(struct wulgach_submission *poll, const struct wulgach_submission *update);

/* Changes a timeout's entry as this one updates it: whether the new time is absolute is the
 * update's, and its clock stays; it has no count any more, be it one that has started or not. */
void wulgach_updated_timeout(
    struct wulgach_submission *timeout, const struct wulgach_submission *update);

#ifdef __cplusplus
}
#endif

#endif
