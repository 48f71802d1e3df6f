/* Wulgach: which of the requests that run are asked whether they can be finished, and what is known
 * of each, as decisions, for whoever keeps a ring as the kernel does. The functions are in the
 * library of wulgach.h, and proved as those are. The layer under liburing calls them.
 */
#ifndef WULGACH_LOOKOUT_H
#define WULGACH_LOOKOUT_H

#include "wulgach_course.h"
#include "wulgach_waits.h"

#ifdef __cplusplus
extern "C" {
#endif

/* ---- what a ring looks out for ---- */

/* Which of the requests that run are looked at again, whether what was written to pipes may be the
 * ring's own, and whether threads that sleep on it are woken. It is the caller's memory, and its
 * fields are the library's. */
struct wulgach_lookout {
    uint64_t count; /* so many of the first requests that run, by number, are passed over: they are
                       known to wait */
    uint64_t moment; /* how often a descriptor may have become ready, from 1 on */
    uint64_t
        round; /* how often something has happened after which none is passed over, from 1 on */
    uint64_t release; /* how often those that had to wait were let go, from 1 on */
    bool have_to_wait; /* one was carried out and would have waited, and isn't to be carried out
                          again yet */
    bool may_be_own; /* what was written to a pipe since it was last heard may be the ring's own */
    bool has_changed; /* something has changed since the threads that sleep were last woken */
};

/* What the end of a request can change for others. */
struct wulgach_end_of_one {
    bool is_count_reached; /* a count is reached for which a timeout waits */
    bool has_drains; /* requests that drain were outstanding, itself among them */
};

/* Begins a ring to which nothing has happened. */
void wulgach_lookout_begin(struct wulgach_lookout *lookout);

/* The first one that isn't passed over was looked at, and can't be finished. */
void wulgach_lookout_passes(struct wulgach_lookout *lookout);

/* One has started, and stands at this place, from 0; the one at this place runs no more; a cancel
 * has found it. */
void wulgach_lookout_starts(struct wulgach_lookout *lookout, uint64_t place);
void wulgach_lookout_leaves(struct wulgach_lookout *lookout, uint64_t place);
void wulgach_lookout_touches(struct wulgach_lookout *lookout, uint64_t place);

/* An update has changed the one at this place, which was asked again then: it can be finished, or
 * waits. One that waits is passed over as before, and so are those after it. */
void wulgach_lookout_updates(struct wulgach_lookout *lookout, uint64_t place, bool finishes);

/* An operation was carried out that can make a descriptor ready. */
void wulgach_lookout_moves(struct wulgach_lookout *lookout);

/* A call begins, or sleeps no longer; or a request has ended: those that had to wait needn't now.
 * After an end that wasn't told to let others be finished, none can be that couldn't before. */
void wulgach_lookout_opens(struct wulgach_lookout *lookout);
void wulgach_lookout_ends(struct wulgach_lookout *lookout, const struct wulgach_end_of_one *end);

/* What was written to pipes was heard, as a call began or slept no longer. After an operation that
 * was carried out since, what is written may be the ring's own (`may_be_own`), and isn't told. */
void wulgach_lookout_hears(struct wulgach_lookout *lookout);

/* Something else has changed for which a thread may sleep: entries were taken, or completions have
 * come into the ring. */
void wulgach_lookout_changes(struct wulgach_lookout *lookout);

/* Threads that sleep may be woken. Returns whether they are: something has changed since they last
 * were. */
bool wulgach_lookout_wakes(struct wulgach_lookout *lookout);

/* ---- which polls are told of writes ---- */

/* A request that runs, as far as it says whether it is told of a write. */
struct wulgach_pipe_poll {
    uint32_t watch; /* by what number writes to its pipe are told; 0: it has none */
    uint32_t events; /* what a poll waits for, as poll(2) has it */
    bool is_poll;
    bool is_of_pipe; /* its descriptor is a pipe's, which can be read by it */
    bool is_cancelled; /* a cancel has found it */
};

/* Whether a request is to be told of writes to its pipe: it is a poll for what that has to be read.
 */
bool wulgach_awaits_writes(const struct wulgach_pipe_poll *poll);

/* What is done so that writes to pipes are heard. Our own rule: a kernel tells each poll in the
 * moment of a write. */
enum wulgach_hearing {
    WULGACH_HEARING_IS_DONE = 0, /* nothing was done, or is left */
    WULGACH_HEARING_ADDS =
        1, /* each poll that runs and awaits writes gets its watch, and any other loses it */
    WULGACH_HEARING_DROPS = 2, /* the watches are taken away by which no poll waits any more */
    WULGACH_HEARING_TELLS_OF_GONE = 3, /* polls are told of what is gone that was there when they
                                          heard of it (wulgach_waiter_gone) */
    WULGACH_HEARING_SORTS = 4, /* the writes are read that were noted since, and told, or dropped,
                                  as wulgach_lookout_drops_writes says */
    WULGACH_HEARING_READS = 5, /* they are read, and told */
    WULGACH_HEARING_COUNTS = 6 /* they count as heard (wulgach_lookout_hears) */
};

/* Returns what is next (enum wulgach_hearing) after this, where so many pipes are watched by then:
 * as a call begins, or has slept, and as one returns, or is to sleep. Where none is watched nothing
 * is read. */
uint32_t wulgach_hearing_at_begin(uint32_t last, uint64_t watched);
uint32_t wulgach_hearing_at_rest(uint32_t last, uint64_t watched);

/* What is done with one of the polls that have the watch of a pipe which was written to. */
enum wulgach_telling {
    WULGACH_TELLING_PASSES_OVER = 0, /* it isn't told */
    WULGACH_TELLING_ASKS = 1, /* its descriptor is asked whether what was written is there still */
    WULGACH_TELLING_TELLS =
        2 /* it is dormant no more, and hears of the write (wulgach_waiter_hears) */
};

/* Returns which (enum wulgach_telling), where it is known by now whether what was written is there
 * still, or isn't: each that awaits the writes of this number is told, and one of all is asked. */
uint32_t wulgach_telling_of(const struct wulgach_pipe_poll *poll, uint32_t watch, bool is_known);

/* ---- what is known of a request that runs ---- */

/* Whether it has to wait, whether it is known to wait, and whether its descriptor is ready, as of
 * what has happened to it and to its ring: of the latter nothing need be noted here. It is the
 * caller's memory; its fields are the library's, and may be read. */
struct wulgach_waiter {
    uint64_t found_in; /* the round of its ring in which it was found to wait, or 0 */
    uint64_t waited_in; /* how often those that had to wait had been let go when it would have
                           waited, or 0 */
    uint64_t seen_in; /* the moment of its ring in which its descriptor was looked at last, or 0, */
    bool was_ready; /* and it was ready then */
    bool has_heard; /* it has heard of a write to its pipe, and what was written was there then */
    bool is_told; /* it was told of a write, and what was written is gone */
};

/* Begins a request that has started just now: zeros, so that memory of zeros needs no call. Of one
 * that hasn't started nothing is noted. */
void wulgach_waiter_begin(struct wulgach_waiter *waiter);

/* Returns whether a request that runs can be finished, or what is asked next (enum wulgach_look),
 * as far as the moment is known. One that was found to wait isn't asked again until something has
 * happened to it below, or to its ring, that can let it go on. One that would have waited can't be
 * finished until another has ended, a call has begun, or one has slept; one that a cancel has found
 * can; a timeout if its count is reached; another if its completion may be posted, where it goes
 * on, and if its descriptor is ready, where it may have to wait; or if it is to take a provided
 * buffer and has found none. */
uint32_t wulgach_can_finish(struct wulgach_waiter *waiter, const struct wulgach_lookout *lookout,
    const struct wulgach_standing *standing, const struct wulgach_needs *needs,
    const struct wulgach_course *course, const struct wulgach_moment *known);

/* What is to be done as a request starts, in the order in which it is done: a set of these has the
 * bit 1 << STEP of each, and they are done by rising bits. The order is our own rule: a kernel does
 * all of it in the moment in which it begins the request. */
enum wulgach_step_of_start {
    WULGACH_FINDS_EARLIER =
        0, /* those that were accepted before it find their files whose turn to do so hasn't come */
    WULGACH_FINDS_OWN = 1, /* it finds its own files */
    WULGACH_BEGINS_TIME = 2, /* the time of a timeout begins that runs from this start on
                                (wulgach_timing_after_start) */
    WULGACH_LOOKS_UP = 3, /* the path that it opens is looked up, whether that names a pipe
                             (wulgach_standing_after_path) */
    WULGACH_ASKS_EVENTS = 4, /* a poll asks for its events */
    WULGACH_LOOKS = 5, /* its descriptor is looked at */
    WULGACH_SEEKS_BUFFER = 6 /* a provided buffer is looked for */
};

/* As the core has let the request of an entry start, whose files were looked for before or weren't:
 * those before it find theirs, it finds its own, time begins, and its path is looked up, whether it
 * names a pipe: if an open of one waits for its other end, as it does of an entry that is
 * asynchronous (IOSQE_ASYNC), or whose flags may make or cut a file; and if it is opened to read or
 * to write, and not for both. `how`: the flags of its struct open_how, where OPENAT2 has its own,
 * or 0. */
uint32_t wulgach_steps_at_start(
    const struct wulgach_submission *entry, uint64_t how, bool is_sought);

/* Whether the core lets a request start, which stands as it does for this reason (enum
 * wulgach_why_kind of wulgach.h): it may start, or it is doomed, so that its issue ends it. */
bool wulgach_lets_start(uint32_t why);

/* After that, where its files were found without a fault, 0, or with this one: a poll asks for its
 * events, unless it has failed; the descriptor of one that may have to wait is looked at; and so is
 * its group, if it is to take a provided buffer. Another looks for one as it is carried out. */
uint32_t wulgach_steps_after_files(
    const struct wulgach_standing *standing, const struct wulgach_needs *needs, int32_t fault);

/* Whether a request that runs becomes dormant, so that an epoll instance tells of it in the place
 * of a look in each call: its descriptor was found unready, the instance hasn't refused it, and it
 * waits for that descriptor alone. So does one that may have to wait for it and for no second one,
 * is no timeout, takes no provided buffer or has found one, and that no cancel has found: it can't
 * be finished while its descriptor isn't ready, so it needn't be asked meanwhile. Our own rule. */
bool wulgach_lies_down(const struct wulgach_standing *standing, const struct wulgach_needs *needs,
    const struct wulgach_course *course, bool is_unready, bool is_refused);

/* It was carried out, and would have waited. */
void wulgach_waiter_waits(struct wulgach_waiter *waiter, struct wulgach_lookout *lookout);

/* A cancel has found it; an update has changed it, so that it need wait for no other's end. */
void wulgach_waiter_meets_cancel(struct wulgach_waiter *waiter);
void wulgach_waiter_meets_update(struct wulgach_waiter *waiter);

enum wulgach_sighting {
    WULGACH_SIGHTING_UNREADY = 0,
    WULGACH_SIGHTING_READY = 1,
    WULGACH_SIGHTING_UNSEEN = 2 /* it is to be looked at */
};

/* Returns whether the descriptor of a request is ready (enum wulgach_sighting), by when it was
 * looked at last. One that was told of a write is, whatever its descriptor says. */
uint32_t wulgach_waiter_sighting(
    const struct wulgach_waiter *waiter, const struct wulgach_lookout *lookout);

/* Its descriptor was looked at, and was ready or not. Returns whether it is to be found out if its
 * pipe has something: it had heard of a write, and has found nothing. Then wulgach_waiter_misses is
 * called. */
bool wulgach_waiter_sees(
    struct wulgach_waiter *waiter, const struct wulgach_lookout *lookout, bool is_ready);

/* A poll has heard of a write to its pipe, and what was written is there still, or gone. It need
 * wait for no other's end, and is told of what is gone. */
void wulgach_waiter_hears(struct wulgach_waiter *waiter, struct wulgach_lookout *lookout,
    const struct wulgach_pipe_poll *poll, bool is_there);

/* A poll that had heard of a write has found nothing, and its pipe has something all the same, or
 * nothing. Returns whether it was told of any: of this one if it is gone, unless it may be the
 * ring's own requests that have read it. */
bool wulgach_waiter_misses(struct wulgach_waiter *waiter, const struct wulgach_lookout *lookout,
    const struct wulgach_pipe_poll *poll, bool is_there);

/* A poll was carried out, and has taken what there was: its descriptor isn't looked at again in
 * this moment. Returns whether it was told of a write. */
bool wulgach_waiter_takes(struct wulgach_waiter *waiter, const struct wulgach_lookout *lookout);

/* ---- what a look at descriptors says ---- */

enum wulgach_glance {
    WULGACH_GLANCE_UNREADY = 0,
    WULGACH_GLANCE_READY = 1,
    WULGACH_GLANCE_ASKS_ALONE = 2 /* it is to be looked at alone */
};

/* Returns what is found of a request (enum wulgach_glance) by a poll(2) that doesn't wait, of its
 * descriptor or of that and others, which came to this and shows these events of it: an impatient
 * one is ready whatever they are; where many were polled, and that failed, each is looked at alone;
 * else as wulgach_counts_as_ready has it. */
uint32_t wulgach_glance_of(bool is_impatient, bool is_of_many, int32_t came, uint16_t events);

/* The same of one whose descriptor has shown nothing, once more is known of it, as that its socket
 * listens: it isn't looked at again, and is ready if it has become impatient. Our own rule. */
uint32_t wulgach_unshown_glance(bool is_impatient);

/* Whether a request whose socket was found unready, of this family and type (socket(2)), is ready
 * all the same if that was shut down for writing, or its peer for reading: a write or a send by a
 * local socket of streams (AF_UNIX, SOCK_STREAM), of which no poll(2) tells that. It is asked by a
 * send of no bytes, which comes to -32 (EPIPE) then; and who sleeps naps meanwhile. */
bool wulgach_asks_broken(const struct wulgach_submission *entry, uint32_t family, uint32_t kind);

/* Whether a request is found ready: a look has shown it so (WULGACH_GLANCE_READY); or it is to be
 * carried out once whatever its descriptor shows (wulgach_is_tried_first), and wasn't yet; or its
 * socket was shut down so. And whether that is asked for it: else it may be either. Our own rule.
 */
bool wulgach_is_found_ready(bool is_shown, bool is_tried_first, bool was_tried, bool is_broken);
bool wulgach_asks_breaking(bool is_shown, bool is_tried_first, bool was_tried);

/* ---- what an instance tells of those that are dormant ---- */

/* The instance has told that its descriptor is ready, by which it is dormant no more: it counts as
 * seen ready, and threads that sleep are woken. */
void wulgach_waiter_is_told_ready(struct wulgach_waiter *waiter, struct wulgach_lookout *lookout);

/* Whether the instance takes the descriptor of a request that is to be dormant: its file is kept,
 * or it is that of an instance of the request's own. */
bool wulgach_instance_takes(bool keeps_file, bool has_own);

/* For what it is asked that is to tell of these events: for the first of them (EPOLLONESHOT), by
 * which the request is dormant no more. */
uint32_t wulgach_dormant_events(uint16_t events);

/* What becomes of a descriptor that is given to it. */
enum wulgach_enlisting {
    WULGACH_IS_LISTED = 0,
    WULGACH_ADDS_DUPLICATE = 1, /* it has that number already: a duplicate is given to it */
    WULGACH_IS_UNLISTED = 2 /* it never tells of it: whoever waits for it is looked at */
};

/* Returns that (enum wulgach_enlisting) of one whose adding came to this, 0 or an error number's
 * negative, itself or a duplicate. Our own rule. */
uint32_t wulgach_enlisting_after(int32_t came, bool is_duplicate);

enum wulgach_instance_answer {
    WULGACH_INSTANCE_IS_DONE = 0, /* it has told all */
    WULGACH_INSTANCE_ASKS = 1, /* it is asked again */
    WULGACH_INSTANCE_ROUSES =
        2 /* it doesn't tell: all that are dormant are roused, and none becomes so again */
};

/* Returns what an instance's answer makes of who asks it (enum wulgach_instance_answer), which has
 * told of so many, or failed, and tells of so many at most at once. */
uint32_t wulgach_instance_answered(int32_t came, int32_t most);

/* ---- what of a pipe is told ---- */

/* Whether the writes that are heard now are told to no poll: they may be the ring's own. */
bool wulgach_lookout_drops_writes(const struct wulgach_lookout *lookout);

enum wulgach_gone {
    WULGACH_GONE_NO = 0, /* it has heard of nothing, or that is there still */
    WULGACH_GONE_ASKS = 1, /* whether it is there is to be asked */
    WULGACH_GONE_YES = 2
};

/* Returns whether what a poll has heard of is gone (enum wulgach_gone), where it is known whether
 * its pipe has something, or isn't. */
uint32_t wulgach_waiter_gone(const struct wulgach_waiter *waiter, bool knows, bool is_there);

/* ---- what an end makes of others ---- */

/* What is done after the end of a request: a set of these has the bit 1 << DUTY of each, and they
 * are done by rising bits. */
enum wulgach_end_duty {
    WULGACH_END_KEEPS = 0, /* its completion is kept, if it has one, to be shown */
    WULGACH_END_COUNTS = 1, /* it counts for the timeouts that wait for so many completions */
    WULGACH_END_STOPS_TIMEOUT = 2, /* the timeout stops that it was, or that limited it */
    WULGACH_END_LOOKS_AT_COUNTS = 3, /* it is looked which counts are reached */
    WULGACH_END_UNWATCHES =
        4, /* the ring's own descriptor polls no more for its file, and for its epoll instance */
    WULGACH_END_FORGETS = 5, /* nothing tells of its descriptor any more */
    WULGACH_END_LOOKS_BEHIND =
        6, /* those that run are looked at again, if it may let one be finished */
    WULGACH_END_LETS_START = 7, /* those are noted that it lets start */
    WULGACH_END_ENDS_DRAIN = 8, /* one that drains is outstanding no more */
    WULGACH_END_LEAVES = 9, /* it stands in no list any more, and lets its files go */
    WULGACH_END_HAS_ENDS = 10 /* something has ended that isn't shown */
};

/* That set, for a request which keeps a file or none, has an epoll instance or none, may have had
 * to wait for its descriptor, and drains or doesn't. */
uint32_t wulgach_duties_after_end(
    bool has_file, bool has_instance, bool is_stream, bool is_draining);

/* ---- files that are kept ---- */

/* Whether a request keeps its file before a close is carried out: it was accepted before the close,
 * and is on the descriptor that this closes. */
bool wulgach_keeps_before_close(uint64_t number, int32_t fd, uint64_t closing, int32_t closed);

/* Whether a request on this descriptor is given the copy of a file that was made just before it for
 * another, on that one (`copied`), if any was
 * (`has_copy`): by the same number, which is one file's meanwhile; but not if it may have to wait,
 * since an epoll instance tells of who waits by a copy of his own. */
bool wulgach_shares_copy(
    const struct wulgach_standing *standing, int32_t fd, bool has_copy, int32_t copied);

/* Whether others are looked at again after the end of a request, of which so many run: the end has
 * closed a descriptor, and that may have been the last one of a file that the request has kept, if
 * it has kept one. It was a slot's, or the number that the entry names isn't open on the same file:
 * `is_same` matters only if others run, and to a file that isn't a slot's. */
bool wulgach_may_close_last(
    uint64_t others, bool was_closed, bool has_file, bool is_of_slot, bool is_same);

/* Whether it is asked, as a copy of a file's descriptor is to be closed that nobody needs, if the
 * process has locks on the file: of a regular one. Then it is asked of each copy that has stayed so
 * far too. Our own rule. */
bool wulgach_asks_locks(bool is_regular);

/* How many such copies stay open at most. */
enum { WULGACH_MOST_LEFT = 256 };

/* Whether a line of /proc/locks (proc_locks(5)), without its end, is of a lock (fcntl(2)) that this
 * process has on the file of this inode, or waits for, and may have by the time at which the copy
 * is closed. Its device counts for nothing: it isn't always the one that stat(2) tells. Our own
 * rule. */
bool wulgach_is_lock_of(const uint8_t *line, size_t length, uint32_t process, uint64_t inode);

/* Whether such a copy stays open, or one that has stayed so far, beside so many others: the process
 * has locks on the file, which it would lose (fcntl(2)), and fewer than WULGACH_MOST_LEFT others
 * stay. Our own rule. */
bool wulgach_stays_open(bool is_locked, uint64_t others);

/* ---- what others hear ---- */

/* Whether writes to the file of a descriptor are heard, of this mode (inode(7)) and opened with
 * these flags: a pipe that can be read by it. */
bool wulgach_is_heard(uint32_t mode, uint32_t flags);

/* Of which events of such a pipe inotify(7) tells; and for what poll(2) is asked to know whether
 * what was written is there still. */
uint32_t wulgach_heard_events(void);
uint16_t wulgach_left_events(void);

/* Whether a pipe counts as written to after an event of these bits (inotify(7)): events were
 * dropped, or it tells of a write, and names this pipe. */
bool wulgach_counts_as_written(uint32_t mask, bool is_own);

/* Whether an operation may take what polls wait for: it may have to wait for its descriptor until
 * there is something to be read, as a read, a receive or an accept, or room to be written to, as a
 * write, a send or a splice, and is no poll. */
bool wulgach_may_take(const struct wulgach_standing *standing, const struct wulgach_needs *needs);

/* Whether a request that runs has its event before such an operation, if it can: a poll whose
 * descriptor was looked at since it started, and wasn't ready (`has_waited`), and is open on the
 * same file, or on either one of a splice. So both end, as in a kernel, which tells each in the
 * moment in which something comes. Whether the file is the same matters only where it would be
 * first if it is. */
bool wulgach_has_event_first(const struct wulgach_needs *needs, bool has_waited, bool is_same_file);

/* Whether whoever polls a ring's descriptor is told anew: that it is readable now, or isn't any
 * more; or that more was posted while it was, where somebody may wait for an edge. */
bool wulgach_tells_anew(
    bool was_readable, bool is_readable, bool has_posted, bool may_wait_for_edges);

/* Whether a call of epoll_ctl(2) may have somebody wait for edges of a ring's descriptor: it adds
 * or changes (EPOLL_CTL_ADD, EPOLL_CTL_MOD) one that may be an epoll instance's, as a ring's is.
 * Whoever waits for such an instance within another has made that call before. */
bool wulgach_may_begin_to_wait(uint32_t change, bool may_be_instance);

/* Whether a message with so many bytes of control data may hand a descriptor to another process
 * (unix(7)), which waits unheard: it has any. */
bool wulgach_may_hand_on(uint64_t control);

/* Whether somebody may wait for edges of a ring's descriptor: unless who runs the program says that
 * nobody does, or all calls are heard by which one begins to, and none was. */
bool wulgach_may_wait_for_edges(bool is_denied, bool are_heard, bool was_heard);

#ifdef __cplusplus
}
#endif

#endif
