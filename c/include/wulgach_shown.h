/* Wulgach: which completions the application of a ring is shown, as decisions, for whoever keeps a
 * ring as the kernel does: which are stored into which cells, when the tail is, and what a head
 * says. The functions are in the library of wulgach.h, and proved as those are. The layer under
 * liburing calls them.
 */
#ifndef WULGACH_SHOWN_H
#define WULGACH_SHOWN_H

#include <stdbool.h>
#include <stdint.h>

#ifdef __cplusplus
extern "C" {
#endif

/* Completions that were posted and aren't reaped, as far as is known. They have places, from 0 on,
 * the oldest first. wulgach_shown_end of wulgach_course.h posts. */
struct wulgach_shown {
    uint32_t head; /* the completion ring's */
    uint32_t shown; /* how many stand in their cells */
    uint64_t posted; /* how many there are */
};

/* What is to be stored into ring memory next. */
struct wulgach_store {
    uint32_t place; /* the completion at this place */
    uint32_t
        position; /* into the cell of this position; or, if it is no completion, this is the tail */
    bool is_cell;
};

/* Nothing was posted. */
void wulgach_shown_begin(struct wulgach_shown *shown);

/* Whether a tail shows no more than was posted. */
bool wulgach_shown_takes(const struct wulgach_shown *shown, uint32_t tail);

/* Writes what is to be stored next, where this is the tail that the application is to see. A
 * completion then counts as stored. The tail comes last, once all that it shows stand in their
 * cells, each stored once, in the order in which they were posted. */
void wulgach_shown_store(struct wulgach_shown *shown, uint32_t tail, struct wulgach_store *store);

/* Writes how many completions the application has reaped, by the head that it has stored, and
 * returns 0. -22 (EINVAL) exactly if that is past the tail; then nothing is written. */
int32_t wulgach_shown_heard(const struct wulgach_shown *shown, uint32_t head, uint32_t *count);

/* So many were reaped. Of the rows of wulgach_course.h these are the first. */
void wulgach_shown_reap(struct wulgach_shown *shown, uint32_t count);

/* Whether some were posted that don't stand in the ring. */
bool wulgach_shown_overflows(const struct wulgach_shown *shown);

/* Whether the dispatcher loads the head, now that so many were reaped, in a ring of so many
 * entries: where some have overflowed only if they are asked for and there is room, else if any was
 * reaped. */
bool wulgach_shown_loads_head(
    const struct wulgach_shown *shown, uint32_t count, bool is_asked, uint32_t entries);

/* What a call would bring, as far as it was asked. */
struct wulgach_prospect {
    bool knows_requests;
    bool can_go_on; /* a request can go on without waiting: it can be finished, or can start */
    bool knows_time;
    bool can_pass_time; /* time can pass at once, so that a timeout ends */
    bool is_untold; /* the ring's descriptor can't tell of all that requests wait for, which is
                       known unasked */
};

/* Whether a ring's descriptor is readable, or what is to be asked. */
enum wulgach_readable {
    WULGACH_IS_NOT_READABLE = 0,
    WULGACH_IS_READABLE = 1,
    WULGACH_ASK_REQUESTS = 2, /* whether a request can go on */
    WULGACH_ASK_TIME = 3 /* whether time can pass */
};

/* Returns which (enum wulgach_readable), where this is the head that the application has stored: it
 * is while completions wait, in the ring or outside it (io_uring(7)), or a call would bring
 * something, or may as long as it can't tell of all (our own rule). Nothing is asked twice, nor
 * while completions wait. */
uint32_t wulgach_shown_readable(
    const struct wulgach_shown *shown, uint32_t head, const struct wulgach_prospect *known);

/* How many completions stand in the ring that the application hasn't reaped, by the head that it
 * has stored: none, if that is past the tail. */
uint32_t wulgach_shown_ready(const struct wulgach_shown *shown, uint32_t head);

/* The flags word of the submission ring: IORING_SQ_CQ_OVERFLOW; IORING_SQ_TASKRUN if a call may
 * bring something, since requests are outstanding or the ring's descriptor is readable; and
 * IORING_SQ_NEED_WAKEUP if a thread takes entries, which sleeps. */
uint32_t wulgach_shown_flags(
    const struct wulgach_shown *shown, uint64_t outstanding, bool is_readable, bool has_thread);

/* Whether completions were posted since there were so many as this word of 32 bits says, to which
 * fewer than 2^32 have come since. It says then how many were posted so far. */
bool wulgach_shown_has_posted(const struct wulgach_shown *shown, uint32_t *told);

/* Where it is heard what the application has reaped. */
enum wulgach_occasion {
    WULGACH_HEARS_FOR_CALL = 0, /* a call says so, which doesn't ask for what has overflowed, */
    WULGACH_HEARS_FOR_CALL_THAT_ASKS = 1, /* or does: the flag of WULGACH_HEAR */
    WULGACH_HEARS_BEHIND_STEP = 2, /* something has gone on in a call */
    WULGACH_HEARS_TO_POST = 3 /* a completion may be posted after it: an operation is carried out,
                                 or what no operation ends with is told */
};

/* Whether what has overflowed is asked for there: by a call that asks for it alone. */
bool wulgach_asks_overflow(uint32_t occasion);

/* What is done where something was reaped, or what has overflowed is asked for. */
enum wulgach_heard_step {
    WULGACH_HEARD_SHOWS = 0, /* what has ended is shown, before room moves the tail on */
    WULGACH_HEARD_REAPS = 1, /* the core is told what was reaped */
    WULGACH_HEARD_MOVES = 2 /* what has overflowed is moved, as wulgach_shown_loads_head says */
};

/* The bit 1 << STEP of each, where so many were reaped since it was last heard: they are done by
 * rising bits. */
uint32_t wulgach_heard_steps(uint32_t reaped, bool is_asked);

/* Whether the ring is shown anew after so many completions that have moved into it: else the tail
 * and the flags are as they were shown. */
bool wulgach_shows_again(uint64_t moved);

/* ---- a descriptor that polls ---- */

/* What a ring's descriptor polls for of one descriptor for which requests wait. */
struct wulgach_watched {
    uint32_t events; /* those of all of them */
    bool is_untold; /* it couldn't be told of when it was last added */
    bool is_given_back; /* its number isn't polled for any more */
    uint64_t begun; /* when the last of them began to wait, in a count of the ring that rises */
};

/* What is changed of that. */
enum wulgach_watch {
    WULGACH_WATCH_STAYS = 0,
    WULGACH_WATCH_ADDS = 1,
    WULGACH_WATCH_REMOVES = 2,
    WULGACH_WATCH_RENEWS =
        3 /* other events, or another request waits: the number may be another file's by now */
};

/* Begins a descriptor for which nobody waits. */
void wulgach_watched_begin(struct wulgach_watched *watched);

/* A request waits for these events too, and began to at this count. */
void wulgach_watched_add(struct wulgach_watched *watched, uint32_t events, uint64_t begun);

/* Its addition came to this: 0, or an error number's negative (epoll_ctl(2)). */
void wulgach_watched_enlist(struct wulgach_watched *watched, int32_t res);

/* It is polled for no more, since its number may be given back. */
void wulgach_watched_give_back(struct wulgach_watched *watched);

/* Returns what is changed (enum wulgach_watch) of a descriptor that was polled for so, or wasn't,
 * and is to be so, or isn't. What couldn't be told of is added again, and what was given back
 * polled for afresh. */
uint32_t wulgach_watch_of(const struct wulgach_watched *before, bool was_watched,
    const struct wulgach_watched *after, bool is_watched);

/* Whether a descriptor is added whose renewal came to this: after -2 (ENOENT, epoll_ctl(2)) its
 * number was another file's. */
bool wulgach_watch_adds_after(int32_t res);

/* What an epoll instance makes of a descriptor that it is given, or of several. */
enum wulgach_enlisted {
    WULGACH_INSTANCE_TELLS = 0, /* it tells of it, */
    WULGACH_IS_READY_AT_ONCE = 1, /* needn't, since poll(2) shows it at once, */
    WULGACH_INSTANCE_CANT_TELL = 2 /* or can't: a sleep is by poll(2) then, and a ring's descriptor
                                      stays readable. Our own rule */
};

/* Returns that (enum wulgach_enlisted) of descriptors of which it made this so far, and of one
 * more, whose addition came to this: 0, or an error number's negative (epoll_ctl(2)). It can't tell
 * of all if it can't tell of one. Of none it tells. */
uint32_t wulgach_enlisted_with(uint32_t all, int32_t res);

/* What a ring's descriptor polls for beside what its requests wait for, as a set of bits. */
enum wulgach_besides {
    WULGACH_POLLS_WRITES = 1, /* what tells of writes to pipes */
    WULGACH_POLLS_INSTANCE = 2 /* the epoll instance that tells of those that are dormant */
};

/* Returns that (enum wulgach_besides), where so many pipes are watched, and the ring has an epoll
 * instance for those that are dormant, or none: the one where any are watched, and the other as
 * long as it is there, so that whoever polls the descriptor hears of what a call that sleeps would.
 * Our own rule. */
uint32_t wulgach_polls_besides(uint64_t watched, bool has_instance);

#ifdef __cplusplus
}
#endif

#endif
