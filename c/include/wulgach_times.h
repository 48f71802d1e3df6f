/* Wulgach: the time of a ring and its timeouts, as decisions, for whoever keeps a ring as the
 * kernel does: which timeouts run, who ends next and how, until when a call may sleep. The
 * functions are in the library of wulgach.h, and proved as those are. The layer under liburing
 * calls them.
 *
 * Times are in nanoseconds; one past the largest, 2^63 - 1, is the largest. A ring's time begins at
 * 0 and never goes back.
 */
#ifndef WULGACH_TIMES_H
#define WULGACH_TIMES_H

#include <stdbool.h>
#include <stddef.h>
#include <stdint.h>

#ifdef __cplusplus
extern "C" {
#endif

/* A timeout that starts. */
struct wulgach_start {
    uint64_t number; /* of its request, in the order in which requests are submitted */
    uint64_t more; /* how long it runs */
    uint64_t count; /* once so many completions more were posted, it ends; 0: it has no count */
    bool is_linked; /* it limits the request before it */
};

/* A timeout that runs. */
struct wulgach_timeout {
    uint64_t number;
    uint64_t expiry; /* when its time is over */
    uint64_t enough; /* its count is reached once the ring has posted so many completions; 0: it has
                        no count */
    bool is_linked;
};

/* A ring's time. The timeouts that run are the first `count` of the rows that each call is given:
 * they are the caller's memory, the same in each call, or moved with what is in them. */
struct wulgach_times {
    uint64_t time;
    uint64_t slept_until; /* the library's own */
    uint64_t posted; /* how many completions were posted */
    uint64_t
        expired; /* how many timeouts have ended by their time or their count, but linked ones */
    uint64_t count;
};

/* A time until which something lasts at most, if it is set. */
struct wulgach_limit {
    uint64_t at;
    bool is_set;
};

/* By what a call that waits may be woken. */
struct wulgach_wake_sources {
    bool has_streams; /* a request waits for a descriptor */
    bool has_threads; /* another thread may make a call */
    bool is_real; /* time passes by itself */
    bool has_signal; /* a signal waits that comes as soon as the call sleeps; it needn't be asked
                        where a request waits for a descriptor */
};

enum wulgach_wait_kind {
    WULGACH_WAIT_SLEEP = 0, /* sleep until then at most, or until woken */
    WULGACH_WAIT_MOVE = 1, /* don't sleep: move time on to then */
    WULGACH_WAIT_NEVER = 2 /* there is nothing to wait for */
};

/* How a call waits where nothing can go on. */
struct wulgach_wait {
    struct wulgach_limit until;
    uint32_t kind; /* enum wulgach_wait_kind */
};

enum wulgach_woken_kind {
    WULGACH_WOKEN_OVER = 0, /* the time of this timeout is over */
    WULGACH_WOKEN_TIMED_OUT = 1, /* the call's own limit is */
    WULGACH_WOKEN_OTHER = 2 /* neither: something may go on */
};

/* What has come when a call has waited. */
struct wulgach_woken {
    struct wulgach_timeout timeout; /* OVER */
    uint32_t kind; /* enum wulgach_woken_kind */
};

/* The nanoseconds of a time in seconds and nanoseconds, which is their sum: 0 if that is negative.
 */
uint64_t wulgach_time_of(int64_t seconds, int64_t nanoseconds);

/* How much is left until a time of a clock that says `now`: 0 if it is over. */
uint64_t wulgach_time_left(uint64_t time, uint64_t now);

/* The number of the clock, of clock_gettime(2), that says how much is left of the time that the
 * timeout of an entry (wulgach_form.h) gives; -2 (ENOENT): none, its time is how long it runs. */
struct wulgach_submission;
int32_t wulgach_timeout_clock(const struct wulgach_submission *entry);

/* How many completions it counts, of which 32 bits of `off` count; 0: none. */
uint64_t wulgach_timeout_count(const struct wulgach_submission *entry);

/* How long a timeout runs that has this time, whose clock says that it is `now`, if it has one. */
uint64_t wulgach_timeout_lasts(uint64_t time, uint64_t now, bool has_clock);

/* A ring's time begins, and no timeout runs. */
void wulgach_times_begin(struct wulgach_times *times);

/* A timeout starts that counts so many of the completions that were posted last (wulgach_held_for),
 * as if it had started before them. -12 (ENOMEM) exactly if there is no row for it; then nothing
 * changes. Its number is that of none that runs. */
int32_t wulgach_times_start(struct wulgach_times *times, struct wulgach_timeout *rows, size_t room,
    const struct wulgach_start *start, uint64_t held);

/* How many completions were posted of ends of the newest submission's requests. A kernel posts
 * those that end in their submission as that ends, and so after it has issued a timeout of the
 * same. It is the caller's memory, and its fields are the library's. */
struct wulgach_held_back {
    uint64_t first;
    uint64_t count;
};

/* A submission begins, whose first request has this number. */
void wulgach_held_begin(struct wulgach_held_back *held, uint64_t first);

/* A completion that counts (wulgach_times_count_end) was posted of the request of this number: of
 * its end, or at once, as a message is. */
void wulgach_held_posts(struct wulgach_held_back *held, uint64_t number, bool is_at_once);

/* Whether a completion is posted at once that a request of this operation has before its end, or
 * that it brings another ring: but the event of a poll, and that bytes were sent without copies. */
bool wulgach_is_at_once(uint8_t code);

/* How many of those that were posted a timeout of this number counts that starts now: none, if it
 * is issued late, after a link or a drain, and not as its entry is taken, or is of an earlier
 * submission. */
uint64_t wulgach_held_for(const struct wulgach_held_back *held, uint64_t number, bool is_late);

/* The time of the timeout of this number is changed: it is over so much later than now, and has no
 * count any more. */
void wulgach_times_change(struct wulgach_times *times, struct wulgach_timeout *rows, size_t room,
    uint64_t number, uint64_t more);

/* The timeout of this number runs no more: it was cancelled or removed, or the request before it
 * has ended. */
void wulgach_times_stop(
    struct wulgach_times *times, struct wulgach_timeout *rows, size_t room, uint64_t number);

/* The timeout of this number ends: its result is 0 if its count is reached, else -62 (ETIME) if its
 * time is over. -2 (ENOENT) exactly if neither is so of one that runs; then nothing changes. */
int32_t wulgach_times_end(struct wulgach_times *times, struct wulgach_timeout *rows, size_t room,
    uint64_t number, int32_t *res);

/* Whether it runs, and would end now by its count. */
bool wulgach_times_has_counted(const struct wulgach_times *times,
    const struct wulgach_timeout *rows, size_t room, uint64_t number);

/* A request has ended, by this course of wulgach_course.h, and its completion was posted or
 * skipped. It counts as one that was posted, unless it is that of a timeout which its time or its
 * count has ended; one of a timeout that was removed or cancelled counts. Says whether it does. */
struct wulgach_course;
bool wulgach_times_count_end(struct wulgach_times *times, const struct wulgach_course *course,
    bool is_timeout, bool is_posted);

/* A clock says that it is so late, or a call's own limit does. */
void wulgach_times_move_to(struct wulgach_times *times, uint64_t now);

/* A call has slept from then to then, by a real clock. Where time is real it is then so late as
 * that clock says, which said `origin` as the ring's time began; else what was slept passes, and
 * what two calls slept at once counts once. */
void wulgach_times_slept(
    struct wulgach_times *times, bool is_real, uint64_t origin, uint64_t start, uint64_t stop);

/* Time passes until this timeout is over, where nothing else can go on, or where its caller chooses
 * so. */
void wulgach_times_pass(struct wulgach_times *times, const struct wulgach_timeout *timeout);

/* Writes the timeout that ends next, and returns 0, if its time is over; else returns -2 (ENOENT),
 * and writes nothing. The one ends next that is over first, and of equal ones the one that was
 * submitted first. */
int32_t wulgach_times_due(const struct wulgach_times *times, const struct wulgach_timeout *rows,
    size_t room, struct wulgach_timeout *timeout);

/* The same of the one that started first of those whose count is reached. */
int32_t wulgach_times_reached(const struct wulgach_times *times, const struct wulgach_timeout *rows,
    size_t room, struct wulgach_timeout *timeout);

/* The same of the one at this place, from 0, of those that run, in the order in which they started:
 * there is none past the last. */
int32_t wulgach_times_nth(const struct wulgach_times *times, const struct wulgach_timeout *rows,
    size_t room, uint64_t place, struct wulgach_timeout *timeout);

/* The same of the one that is to end where nothing else can go on and nobody waits: where time
 * passes by itself one that is over, else the one that ends next, unless a descriptor is waited
 * for. */
int32_t wulgach_times_passing(const struct wulgach_times *times, const struct wulgach_timeout *rows,
    size_t room, const struct wulgach_wake_sources *sources, struct wulgach_timeout *timeout);

/* Whether another thread of the process may make a call: unless the process is known to have
 * exactly one, whose folder /proc/self/task has three links, two of its own and one by each thread.
 * And whether that matters to a call that waits, while a request waits for a descriptor or none
 * does: where it doesn't, it needn't be asked. */
bool wulgach_may_have_others(bool knows, uint64_t links);
bool wulgach_times_asks_threads(const struct wulgach_times *times, bool has_streams);

/* Whether it matters to such a call, which has a mask to sleep with or none, whether a signal
 * waits. */
bool wulgach_asks_signals(bool has_mask, bool has_streams);

/* Whether one of the signals that wait comes to a call that has this mask, caught or ignored: each
 * is a set of bits, of a signal's number less 1. */
bool wulgach_comes_by_mask(uint64_t waiting, uint64_t mask);

/* Writes how a call waits that has this limit, where nothing can go on. It sleeps while a
 * descriptor is waited for; while another thread may call, if no timeout runs; and where time
 * passes by itself. Else one for which a signal waits sleeps until now, and the signal ends it
 * (io_uring_enter(2), EINTR); or time moves on at once. Neither goes past the limit or the time of
 * a timeout. */
void wulgach_times_wait(const struct wulgach_times *times, const struct wulgach_timeout *rows,
    size_t room, const struct wulgach_wake_sources *sources, const struct wulgach_limit *limit,
    struct wulgach_wait *wait);

/* Writes what has come when it has waited. */
void wulgach_times_woken(const struct wulgach_times *times, const struct wulgach_timeout *rows,
    size_t room, const struct wulgach_limit *limit, struct wulgach_woken *woken);

/* How a timeout ends that is linked to a request which has ended: with -62 (ETIME) if it has
 * cancelled it, else with -125 (ECANCELED). */
int32_t wulgach_timeout_linked_outcome(bool has_cancelled);

/* Writes the number of the request that a linked timeout limits, and returns 0; or returns -2
 * (ENOENT), and writes nothing, if it is none. */
int32_t wulgach_timeout_cancels(const struct wulgach_timeout *timeout, uint64_t *number);

/* Whether a timeout cancels that request, now that its time is over: if that runs, and a cancel can
 * end it. Else it cancels nothing. */
bool wulgach_timeout_fires(const struct wulgach_timeout *timeout, bool runs, bool is_cancellable);

/* Makes of how long a call waits at most until when it waits, from now on: no limit stays none. */
void wulgach_times_deadline(const struct wulgach_times *times, struct wulgach_limit *limit);

/* Writes how long a call sleeps at most that is to sleep until then: all that is left, but no
 * longer than 10 milliseconds if no other thread can wake it. And to when time moves on after such
 * a sleep, where nothing has woken it; no limit: it was a nap, and only what a clock says has
 * passed. To be asked before the sleep. */
void wulgach_times_sleeps_for(const struct wulgach_times *times, const struct wulgach_limit *until,
    bool can_be_woken, struct wulgach_limit *limit, struct wulgach_limit *end);

/* A time in whole seconds and what is left of it: struct timespec. */
struct wulgach_span {
    uint64_t seconds;
    uint64_t nanoseconds; /* fewer than a second has */
};

/* Writes so many nanoseconds as a sleep's system call takes them. */
void wulgach_span_of(uint64_t nanoseconds, struct wulgach_span *span);

/* How a sleep is begun. */
enum wulgach_sleep_call {
    WULGACH_SLEEPS_BY_POLL = 0, /* by poll(2) */
    WULGACH_SLEEPS_BY_INSTANCE = 1, /* by an epoll instance: epoll_pwait2(2) */
    WULGACH_LOOKS_BY_INSTANCE =
        2 /* the same, for no time: a descriptor is ready of which it doesn't tell */
};

/* Returns that (enum wulgach_sleep_call) of a sleep that may last so long, where there is an
 * instance or none, which makes this of all that it is to tell of (enum wulgach_enlisted,
 * wulgach_shown.h); and writes how long it lasts then: for a moment at least, of a nanosecond,
 * since no signal is looked for in no time, unless one is ready. Our own rule. */
uint32_t wulgach_sleep_call_of(bool has_instance, uint32_t all, const struct wulgach_limit *limit,
    struct wulgach_limit *lasts);

/* What a sleep came to that was begun so (enum wulgach_sleep_call), where its system call came to
 * this: an error is one; else 1, if one is ready of which the instance doesn't tell. */
int32_t wulgach_sleep_came(uint32_t call, int32_t came);

/* The sleep is over, and its system call has come to this: time moves on so if that is 0, and else
 * not, since something has ended the sleep before. */
void wulgach_times_wake(struct wulgach_times *times, const struct wulgach_limit *end, int32_t came);

#ifdef __cplusplus
}
#endif

#endif
