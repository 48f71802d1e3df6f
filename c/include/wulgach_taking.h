/* Wulgach: which positions of the submission ring a call takes, what goes on next and what waits
 * for drains, as decisions, for whoever keeps a ring as the kernel does. The functions are in the
 * library of wulgach.h, and proved as those are. The layer under liburing calls them.
 */
#ifndef WULGACH_TAKING_H
#define WULGACH_TAKING_H

#include <stdbool.h>
#include <stdint.h>

#ifdef __cplusplus
extern "C" {
#endif

/* ---- what the thread that takes entries takes ---- */

/* What came of a round, in which the thread of a ring with IORING_SETUP_SQPOLL takes what is
 * published. */
struct wulgach_round {
    uint32_t positions; /* how many it has taken, those among them whose word names no slot */
    bool is_refused; /* memory was refused, and none was taken */
};

/* The rounds of a call. It is the caller's memory, and its fields are the library's. */
struct wulgach_rounds {
    uint32_t to_submit;
    bool has_taken;
};

/* A call that is asked to submit so many entries, without a round so far. */
void wulgach_rounds_begin(struct wulgach_rounds *rounds, uint32_t to_submit);

/* Returns how many positions the next round takes at most: all that is published. */
uint32_t wulgach_round_takes(const struct wulgach_rounds *rounds);

/* A round has come to this. Whether there is one more: exactly if it has taken a position. Else
 * what the submission comes to is written: as many entries as were asked for, or -11 if memory was
 * refused before any position was taken. */
bool wulgach_rounds_go_on(
    struct wulgach_rounds *rounds, const struct wulgach_round *round, int64_t *submitted);

/* ---- which positions of the submission ring a call takes ---- */

/* What a call that submits finds in its ring, and how many entries it is asked for. */
struct wulgach_submitting {
    uint32_t to_submit;
    uint32_t head; /* the submission ring's, */
    uint32_t tail; /* as the application has stored it */
    uint32_t entries; /* a power of two */
    uint32_t given; /* how many positions from the head on an earlier call has given the core, which
                       couldn't take them */
    bool submits_all; /* IORING_SETUP_SUBMIT_ALL */
};

/* What stands at a position. */
struct wulgach_item {
    bool is_entry; /* an entry; else its word names no slot */
    bool is_faulty;
    bool links; /* IOSQE_IO_LINK or IOSQE_IO_HARDLINK */
};

/* A call that takes positions. It is the caller's memory, and its fields are the library's. */
struct wulgach_taking {
    uint32_t next;
    uint32_t mask;
    uint32_t left;
    bool submits_all;
};

/* Begins a call that has taken nothing. Returns how many it takes at most: those that are
 * published, and no more than it is asked for, but all that the core was given before. What comes
 * next, `next`, is the head of the ring after what it has taken. Unless that is 0, the cell is
 * written where the word of its first position stands. */
uint32_t wulgach_taking_begin(
    struct wulgach_taking *taking, const struct wulgach_submitting *asked, uint32_t *cell);

enum wulgach_onward {
    WULGACH_TAKES = 0, /* it takes one more: its cell is written */
    WULGACH_IS_FULL = 1, /* it has taken all that it may */
    WULGACH_ENDS_CALL = 2 /* what it took last has ended it */
};

/* The call has taken a position; nothing has ended it before. Returns how it goes on (enum
 * wulgach_onward): a word that names no slot ends it, and an entry with a fault, unless the ring
 * submits all or the entry links the next. */
uint32_t wulgach_taking_took(
    struct wulgach_taking *taking, const struct wulgach_item *item, uint32_t *cell);

/* The fault of a call that memory was refused after so many positions that it has staged, or 0:
 * then it submits these. Refused for the next position, it is -11 (EAGAIN) if there are none. By
 * the core, which was given them, it is -11: they stay staged, and the next call goes on with them.
 */
int32_t wulgach_refusal_fault(uint32_t staged, bool is_core);

/* What is done once the core has taken what a call has staged. */
enum wulgach_taken_step {
    WULGACH_TAKEN_STORES_DROPPED = 0, /* how many words named no slot is stored, */
    WULGACH_TAKEN_STORES_HEAD = 1, /* and then the head */
    WULGACH_TAKEN_NOTES = 2 /* what was taken is noted, and may go on */
};

/* The bit 1 << STEP of each: they are done by rising bits. */
uint32_t wulgach_taken_steps(void);

/* ---- what goes on next ---- */

/* How many requests run that needn't wait, and how many the core lets start; and whether the call
 * may return instead. */
struct wulgach_ways {
    uint32_t ready;
    uint32_t issuable;
    bool may_return;
};

enum wulgach_way {
    WULGACH_NO_WAY = 0,
    WULGACH_WAY_FINISH = 1, /* one that runs and needn't wait goes on */
    WULGACH_WAY_ISSUE = 2, /* one that the core lets start is issued */
    WULGACH_WAY_RETURN = 3
};

/* How many ways there are, as far as 32 bits say it. */
uint32_t wulgach_ways_count(const struct wulgach_ways *ways);

/* Returns the kind of the way of this number (enum wulgach_way), and writes its place among those
 * of its kind, or 0: those that run stand before those that the core lets start, and that the call
 * returns is the last. Way 0 is what goes on first in order. */
uint32_t wulgach_ways_at(const struct wulgach_ways *ways, uint32_t number, uint32_t *place);

/* Whether a request that can be finished as it starts is finished in the same choice, by what the
 * program goes by, where events are chosen or only ends: unless both are chosen each for itself. By
 * a number that is no policy it is. */
bool wulgach_is_one_choice(uint32_t policy, bool chooses_events);

/* ---- drains, and completions that belong to no end of a request ---- */

/* The members of a chain, as they are seen. It is the caller's memory. */
struct wulgach_chain {
    uint64_t members;
    bool drains; /* one has IOSQE_IO_DRAIN */
};

/* The first member of a chain has these flags, and each next one these. */
void wulgach_chain_first(struct wulgach_chain *chain, uint8_t flags);
void wulgach_chain_sees(struct wulgach_chain *chain, uint8_t flags);

/* How many requests are outstanding that drain. It is the caller's memory. */
struct wulgach_drains {
    uint64_t outstanding;
    bool has_drained; /* one was ever accepted */
};

/* No request was accepted. */
void wulgach_drains_begin(struct wulgach_drains *drains);

/* A chain was accepted. Says whether its members drain: they all do if one has IOSQE_IO_DRAIN. */
bool wulgach_drains_accept(struct wulgach_drains *drains, const struct wulgach_chain *chain);

/* A request has ended, which drains or doesn't. */
void wulgach_drains_end(struct wulgach_drains *drains, bool is_draining);

/* Whether the oldest outstanding request is the next that starts, which hasn't, by its course
 * (wulgach_course.h). Else the core is to be asked which can: by Linux's rules a drain, and what
 * comes after one, waits for a turn of its own. */
struct wulgach_course;
bool wulgach_oldest_starts(
    const struct wulgach_drains *drains, bool linux_rules, const struct wulgach_course *oldest);

/* Whether it may be kept which requests the core lets start: no drain was ever accepted. Then one
 * can start as soon as what links it has ended, and that others start or end makes nothing of it,
 * but as the next function says. */
bool wulgach_keeps_startable(const struct wulgach_drains *drains);

/* Whether the end of a request, which has failed or is a cancel's, may let others start than the
 * next of its chain: by the manual pages' rules what it dooms, but not by Linux's. */
bool wulgach_lets_others_start(bool linux_rules, bool has_failed, bool is_cancel);

/* Whether the core is asked if the next request in order can start now, after the end of one: it
 * hasn't started, and it isn't known that it can. */
bool wulgach_asks_next(bool has_started, bool can_start);

/* Whether a completion that belongs to no end of a request may be posted, where so many positions
 * are staged and not taken: none is, and, but by Linux's rules, nothing that drains is outstanding;
 * and there is memory for it. */
bool wulgach_drains_may_post(
    const struct wulgach_drains *drains, uint64_t staged, bool linux_rules, bool has_memory);

/* ---- requests that find their files in their turn ---- */

/* Those that are to: before one after them starts, or the call sleeps or returns. It is the
 * caller's memory, and its fields are the library's. */
struct wulgach_due {
    uint64_t first, last;
    bool is_any;
};

/* Requests from one number to another, both with them. */
struct wulgach_due_span {
    uint64_t first, last;
};

/* None is. */
void wulgach_due_begin(struct wulgach_due *due);

/* The request of this number finds its files in its turn (WULGACH_FOUND_IN_TURN). */
void wulgach_due_notes(struct wulgach_due *due, uint64_t number);

/* Those with lesser numbers have found theirs. */
void wulgach_due_found_before(struct wulgach_due *due, uint64_t number);

/* Whether any is to: it was noted, and those before a later one haven't found theirs since. */
bool wulgach_due_is_any(const struct wulgach_due *due);

/* Writes between which numbers all stand of those that are to, before this one: others may stand
 * there too, but none of those that have found theirs, unless it or a lesser one was noted since.
 * False: none stands before it, and nothing is written. */
bool wulgach_due_before(
    const struct wulgach_due *due, uint64_t number, struct wulgach_due_span *span);

/* ---- after a completion that was put off ---- */

/* What is to come in a ring. */
enum wulgach_coming {
    WULGACH_SUBMISSION_COMES = 0, /* entries are submitted */
    WULGACH_POSTING_COMES = 1, /* a completion is posted that belongs to no end of a request */
    WULGACH_END_COMES =
        2 /* a request ends that isn't carried out any more, since a cancel has found it */
};

/* Whether it comes. */
enum wulgach_order {
    WULGACH_COMES_NOW = 0,
    WULGACH_POSTS_FIRST = 1, /* the core is given before what was put off */
    WULGACH_WAITS_BEHIND =
        2 /* not while memory is refused: a submission ends as wulgach_refusal_fault says */
};

/* Returns whether this comes now (enum wulgach_coming, enum wulgach_order), where a completion that
 * the core was given, and refused memory for, is put off, or none is; and memory was refused for it
 * again just before, or wasn't. Where none is put off, what comes does so now. Else the core is
 * given that once more; and if memory is refused still, only an end comes. So nothing is submitted
 * or posted until it is posted. Our own rule. */
uint32_t wulgach_order_after(uint32_t what, bool is_put_off, bool is_refused);

#ifdef __cplusplus
}
#endif

#endif
