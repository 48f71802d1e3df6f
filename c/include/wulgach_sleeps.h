/* Wulgach: when a call sleeps, for what, and what came of it, as decisions, for whoever keeps a
 * ring as the kernel does. The functions are in the library of wulgach.h, and proved as those are.
 * The layer under liburing calls them.
 */
#ifndef WULGACH_SLEEPS_H
#define WULGACH_SLEEPS_H

#include "wulgach_waits.h"

#ifdef __cplusplus
extern "C" {
#endif

/* ---- when a call sleeps, and what came of it ---- */

enum wulgach_beginning {
    WULGACH_SLEEP_FAILS = 0, /* with the fault */
    WULGACH_SLEEP_WAKES = 1, /* it needn't: something may go on */
    WULGACH_SLEEPS = 2,
    WULGACH_LETS_OTHERS_GO = 3, /* rings that were closed let go what they have: it is looked at so
                                   many (wulgach_looked_at_before_sleep) */
    WULGACH_READS_MASK = 4, /* its mask is read */
    WULGACH_DOES_DUTIES = 5, /* what is due before a sleep is done */
    WULGACH_SLEEP_AT_FIRST = 6
};

/* What a sleep came to, where its system call came to this (0 or more, or an error number's
 * negative): that; but -4 (EINTR) in a child that was forked meanwhile, as by a signal's handler,
 * and leaves its parent's ring as it is. Our own rule. */
int32_t wulgach_sleep_came_to(int32_t res, bool is_child);

/* Whether a sleep is by poll(2) whose epoll_pwait2(2) came to this: to -38 (ENOSYS), since the
 * kernel hasn't that call, or to -1 (EPERM), since a filter refuses it. And whether select(2) is
 * asked in the place of a poll(2) that came to this: to -22 (EINVAL), since it was asked of more
 * descriptors than the process may have open. Our own rule. */
bool wulgach_sleeps_by_poll(int32_t came);
bool wulgach_asks_select(int32_t came);

/* In which sets of select(2) a descriptor stands. */
struct wulgach_sets {
    bool is_readable;
    bool is_writable;
    bool is_urgent; /* that of exceptional conditions */
};

/* Writes in which of them one stands that is asked for these events of poll(2). Then returns the
 * events that it shows, which is open or isn't, and stands in these sets after select(2): of a set
 * the likely ones, as POLLIN, or else the others; POLLNVAL of what isn't open. */
void wulgach_select_sets(uint16_t events, struct wulgach_sets *sets);
uint16_t wulgach_told_by_select(uint16_t events, bool is_open, const struct wulgach_sets *found);

/* What is left undone with a ring, as a set of bits. */
enum wulgach_left {
    WULGACH_LEAVES_LOCK = 1, /* its lock isn't taken again after a sleep */
    WULGACH_LEAVES_SLEEP =
        2, /* a sleep isn't taken out of its list, and what wakes that isn't closed */
    WULGACH_LEAVES_DUTIES = 4, /* whatever is due at a moment isn't done (enum wulgach_duty) */
    WULGACH_LEAVES_SIGHT = 8, /* it isn't looked at for what a call is told: nothing can be reaped,
                                 and no timeout is over */
    WULGACH_LEAVES_END = 16, /* as a call is over, nobody is woken, its lock isn't given back, and
                                no message is posted */
    WULGACH_LEAVES_MEMORY = 32 /* its trace and its memory aren't ended */
};

/* Returns what this process leaves undone with a ring that was made by that one (enum
 * wulgach_left): nothing with its own, and all with another's, as a child that was forked while a
 * call slept on its parent's ring, and is back from that sleep. Our own rule. */
uint32_t wulgach_left_of(uint32_t maker, uint32_t process);

/* Returns what comes next of a call that is to sleep (enum wulgach_beginning), after `last`, which
 * has brought what may let something go on, as the end of another ring's files, or what a poll was
 * told; and whose arguments have this fault, or 0, once its mask was read. Where a ring has let go
 * what it had, the call looks again before a fault counts. */
uint32_t wulgach_sleep_next(uint32_t last, bool has_brought, int32_t fault);

/* What is known after a wait. */
struct wulgach_waited {
    int32_t result; /* what the sleep came to: an error number's negative, or how many descriptors
                       have ended it */
    bool is_never; /* there was nothing to wait for, and it didn't sleep */
    bool has_messages; /* another ring has left a message, */
    bool may_post; /* and a completion may be posted that belongs to no end of a request */
    bool is_over; /* the caller's time is over, */
    bool is_least; /* and that is its least time, after which one completion is enough */
};

/* Returns what came of a wait, as the reply to a call that wants to sleep (enum
 * wulgach_reply_kind). */
uint32_t wulgach_reply_of_wait(const struct wulgach_waited *waited);

/* What a sleep does for a request that runs. */
struct wulgach_slept_for {
    uint32_t vain; /* how often it was carried out in vain, as far as that counts from now on */
    bool is_polled; /* its descriptor is polled */
    bool naps; /* the sleep is a nap */
};

/* Writes what a sleep does for a request that was carried out so often in vain, and of whose socket
 * poll(2) doesn't tell that it was shut down for writing
 * (`asks_broken`), or does. It polls the descriptor of each that may have to wait for it, and naps
 * beside that if `asks_broken`. For one it naps alone: it has no descriptor, as the open of a named
 * pipe; or it was carried out twice or more in vain, once right after the other though its
 * descriptor showed ready, and shows ready still. What was in vain counts no more once it doesn't.
 */
void wulgach_sleep_effect(const struct wulgach_standing *standing,
    const struct wulgach_needs *needs, uint32_t vain, bool is_ready, bool asks_broken,
    struct wulgach_slept_for *slept);

/* Whether it matters to that whether its descriptor shows ready. */
bool wulgach_asks_before_nap(const struct wulgach_needs *needs, uint32_t vain);

/* Whether a sleep can be woken by whatever it waits for: it has a descriptor by which another
 * thread wakes it, and naps for no request. */
bool wulgach_can_be_woken(bool has_descriptor, bool naps);

/* What is asked of a descriptor, as poll(2) takes it: struct pollfd. */
struct wulgach_poll_row {
    uint32_t fd; /* its number: one that is negative is past 31 bits here */
    uint16_t events;
    uint16_t found; /* revents */
};

/* Joins what is asked of one descriptor. Returns how many rows there are then: those ask for each
 * event of each descriptor for which any did, and for nothing else, and each is of another
 * descriptor, in the order of their numbers. */
size_t wulgach_join_polled(struct wulgach_poll_row *rows, size_t count);

/* Whether a timeout fires after a wait, if its time is over: not after a sleep that a signal or an
 * error ended. */
bool wulgach_fires_after(const struct wulgach_waited *waited);

/* ---- sleeps that were left ---- */

/* Whether a sleep has this mark still, where its frame can be read and this was found there, or it
 * can't: a stack that is no memory any more was left. Our own rule. */
bool wulgach_has_mark(uint64_t mark, bool is_read, uint64_t found);

/* What a thread that calls sees of a sleep of its own, which a signal's handler may have left by a
 * jump. */
struct wulgach_seen_sleep {
    uint64_t place; /* where the sleep has its mark */
    uint64_t from; /* where its call was made: there too, or on another stack */
    uint64_t here; /* where the thread calls now */
    uint64_t own_lowest,
        own_size; /* the stack that the thread was made with; 0 where that isn't known */
    uint64_t handlers_lowest,
        handlers_size; /* the one that its handlers had as the sleep began, or 0 */
    bool is_marked; /* it has its mark still, as wulgach_has_mark has it */
    bool is_on_handlers; /* the thread runs on its handlers' stack now */
};

/* Whether the sleep was left: its mark is gone; or its thread calls from above it, or from another
 * stack than a sleep that has a stack of its own, where both calls were made on the stack that the
 * thread was made with and this one is on no stack of a handler's. And whether it matters which
 * stacks the thread has: else they may be anything. Our own rule. */
bool wulgach_was_left(const struct wulgach_seen_sleep *seen);
bool wulgach_asks_stacks(const struct wulgach_seen_sleep *seen);

/* Whether a thread can be cancelled outside of its calls that calls once more
 * (pthread_setcancelstate(3)), where it has sleeps that it hasn't left, could be as the outermost
 * call of its sleeps began, and can be now: a call that was left by a jump hasn't allowed it again.
 * And whether it can be at any moment (PTHREAD_CANCEL_ASYNCHRONOUS), which one that was left hasn't
 * forbidden again. Our own rule. */
bool wulgach_is_cancellable(bool has_sleeps, bool could_be, bool can_be);
bool wulgach_is_cancellable_at_once(bool has_sleeps, bool could_be, bool can_be);

#ifdef __cplusplus
}
#endif

#endif
