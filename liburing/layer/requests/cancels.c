/* The core knows one cancel, by user data, which fails if it finds its request running. All others
 * are no-ops to it, and so is one on whose success a link or a skipped completion stands. Those are
 * looked for here: a request that runs, or that the core would let start, is marked, and ends with
 * -125 when it is next gone on with. Which are found is the library's decision: as in the kernel,
 * one that waits after a link or a drain isn't.
 */
#define _GNU_SOURCE
#include "requests/cancels.h"
#include "calls/steps.h"
#include "operations/openness.h"
#include "operations/polls.h"
#include "registered/files.h"
#include "requests/ends.h"
#include "requests/progress.h"
#include "requests/timeouts.h"
#include "rings/readiness.h"
#include "rings/ring.h"
#include "waiting/streams.h"
#include "wulgach_cancel.h"

static void do_step_of_cancel(
    struct ring *ring, struct request *request, enum wulgach_cancelling step)
{
    switch (step) {
    case WULGACH_CANCELLING_ROUSES:
        rouse(ring, request);
        return;
    case WULGACH_CANCELLING_LOOKS:
        wulgach_waiter_meets_cancel(&request->waiter);
        wulgach_lookout_touches(&ring->lookout, place_of(&ring->running, request->number));
        return;
    case WULGACH_CANCELLING_STOPS:
        note_found(ring, request);
        return;
    case WULGACH_CANCELLING_MARKS:
        note_fact(request, WULGACH_FACT_CANCELLED, 0);
        return;
    }
    __builtin_unreachable();
}

/* Does with what was found what the library says, by rising bits. */
void cancel_request(struct ring *ring, struct request *request)
{
    for (uint32_t steps = wulgach_course_steps_at_cancel(&request->course); steps;
         steps &= steps - 1)
        do_step_of_cancel(ring, request, (enum wulgach_cancelling)__builtin_ctz(steps));
}

/* A request as a cancel sees it, but for whether it could start now. */
static struct wulgach_outstanding seen_of(const struct request *request)
{
    return (struct wulgach_outstanding){
        .user_data = request->entry.user_data,
        .fd = (uint32_t)request->needs.fd,
        .is_registered = request->needs.is_registered,
        .needs_file = request->needs.needs_file,
        .is_assigned = request->is_assigned,
        .code = request->entry.opcode,
        .is_token = request->mapping == TOKEN,
        .is_cancelled = request->course.is_cancelled,
        .runs = request->course.has_started,
        .is_stream = request->standing.is_stream,
        .goes_on = request->needs.goes_on,
    };
}

bool is_cancellable(const struct request *request)
{
    struct wulgach_outstanding seen = seen_of(request);
    return wulgach_is_waiting(&seen);
}

/* Tells whether a request is carried out on the file of a descriptor, if the kernel says so. */
static void compare(struct wulgach_outstanding *seen, const struct request *request, int on)
{
    int same = are_on_one_file(request->fd, on);
    seen->is_compared = same >= 0;
    seen->is_same = same > 0;
}

static bool is_issued_before(const struct request *seeker, const struct request *request)
{
    return wulgach_is_issued_before(seeker->entry.opcode, seeker->number, seeker->member.is_linked,
        seeker->call == request->call, request->number);
}

bool is_due_before(const struct request *seeker, const struct request *request)
{
    struct wulgach_outstanding seen = seen_of(request);
    seen.comes_first = is_issued_before(seeker, request);
    return wulgach_is_due_first(&seen);
}

/* A request as a seeker sees it, or a call of io_uring_register(2) (NULL). Whether one that is
 * issued before it needn't wait is asked only where it matters. */
static struct wulgach_outstanding seen_by(
    struct ring *ring, const struct request *seeker, struct request *request)
{
    struct wulgach_outstanding seen = seen_of(request);
    seen.comes_first = seeker && is_issued_before(seeker, request);
    if (wulgach_asks_wait(&seen))
        seen.is_ready = can_finish(ring, request);
    return seen;
}

/* Has the cancel of a seeker, or of a call of io_uring_register(2), which comes after all (NULL),
 * look at a request. Whether that is carried out on the file of this descriptor, and whether the
 * core lets it start, is asked only where it matters. */
static bool look_for(struct ring *ring, struct wulgach_cancel_look *cancel,
    const struct request *seeker, struct request *request, int on)
{
    struct wulgach_outstanding seen = seen_by(ring, seeker, request);
    if (wulgach_asks_file(&cancel->sought, &seen))
        compare(&seen, request, on);
    bool is_taken_after = seeker && wulgach_is_taken_after(seeker->number, seeker->member.is_linked,
                                        seeker->is_draining, request->number);
    seen.may_start = wulgach_cancel_asks(cancel, &seen) && !is_taken_after &&
                     can_issue(ring, request->number);
    return wulgach_cancel_sees(cancel, &seen);
}

/* Cancels what is sought, where that is by a file on the one of this descriptor, and returns what
 * the canceller ends with. */
static int32_t cancel_all(
    struct ring *ring, const struct request *canceller, const struct wulgach_sought *sought, int on)
{
    struct wulgach_cancel_look cancel;
    struct seeking seeking;
    wulgach_cancel_begin(&cancel, sought);
    begin_seeking(&seeking, ring, sought);
    for (struct request *request; (request = next_sought(&seeking));)
        if (look_for(ring, &cancel, canceller, request, on))
            cancel_request(ring, request);
    return wulgach_cancel_result(&cancel);
}

bool cancel_running(struct ring *ring, const struct request *cancel, int32_t *found)
{
    uint64_t user_data = wulgach_target_of(submission_of(&cancel->entry));
    struct wulgach_search search;
    struct seeking seeking;
    wulgach_search_begin(&search, user_data);
    begin_seeking_named(&seeking, ring, user_data);
    for (struct request *request; (request = next_sought(&seeking));) {
        struct wulgach_outstanding seen = seen_by(ring, cancel, request);
        if (wulgach_search_sees(&search, &seen))
            cancel_request(ring, request);
    }
    *found = wulgach_search_found_by_core(&search, *found, ring->is_linux);
    return wulgach_search_has_cancelled(&search);
}

int32_t cancel_sought(
    struct ring *ring, const struct request *canceller, const struct wulgach_sought *sought)
{
    uint32_t where = wulgach_file_sought(sought);
    struct file *file = where == WULGACH_SEEKS_SLOT ? use_file(ring, sought->fd) : NULL;
    bool is_there = file ||
                    (where == WULGACH_SEEKS_NUMBER && counts_as_open((int)sought->fd, false));
    int on = file ? file->fd : (int)sought->fd;
    int32_t fault = wulgach_seeking_fault(sought, is_there);
    int32_t res = fault < 0 ? fault : cancel_all(ring, canceller, sought, on);
    release_file(file);
    return res;
}

int32_t cancel_by(struct ring *ring, const struct request *canceller)
{
    struct wulgach_sought sought;
    wulgach_sought_of(submission_of(&canceller->entry), &sought);
    return cancel_sought(ring, canceller, &sought);
}

struct request *find_request(struct ring *ring, const struct request *seeker)
{
    struct wulgach_sought sought;
    struct wulgach_cancel_look cancel;
    wulgach_sought_of(submission_of(&seeker->entry), &sought);
    struct seeking seeking;
    wulgach_cancel_begin(&cancel, &sought);
    begin_seeking(&seeking, ring, &sought);
    for (struct request *request; (request = next_sought(&seeking));)
        if (look_for(ring, &cancel, seeker, request, -1))
            return request;
    return NULL;
}

/* A poll that runs was changed: it is asked again. */
static void look_at_changed(struct ring *ring, struct request *poll)
{
    wulgach_waiter_meets_update(&poll->waiter);
    look_at(ring, poll);
    wulgach_lookout_updates(
        &ring->lookout, place_of(&ring->running, poll->number), can_finish(ring, poll));
}

/* It gets what the update names. */
static void change_entry(struct ring *ring, struct request *poll, const struct io_uring_sqe *change)
{
    struct io_uring_sqe changed = poll->entry;
    wulgach_updated_poll(submission_at(&changed), submission_of(change));
    rename_in_directory(ring, poll, changed.user_data);
    poll->entry = changed;
    wulgach_needs_of(submission_of(&poll->entry), &poll->needs);
}

static void do_step_of_update(struct ring *ring, struct request *poll,
    const struct io_uring_sqe *change, enum wulgach_changing step)
{
    switch (step) {
    case WULGACH_CHANGING_ROUSES:
        rouse(ring, poll);
        return;
    case WULGACH_CHANGING_DELISTS:
        delist(ring, poll);
        return;
    case WULGACH_CHANGING_CHANGES:
        change_entry(ring, poll, change);
        return;
    case WULGACH_CHANGING_UNWATCHES:
        unwatch(ring, poll->epoll);
        return;
    case WULGACH_CHANGING_ASKS:
        poll->started = start_poll(ring, poll);
        return;
    case WULGACH_CHANGING_LOOKS:
        look_at_changed(ring, poll);
        return;
    }
    __builtin_unreachable();
}

/* Does with a poll what the library says that an update does, by rising bits. */
static void change_poll(struct ring *ring, struct request *poll, const struct io_uring_sqe *change)
{
    for (uint32_t steps = wulgach_course_steps_at_update(&poll->course); steps; steps &= steps - 1)
        do_step_of_update(ring, poll, change, (enum wulgach_changing)__builtin_ctz(steps));
}

int32_t remove_poll(struct ring *ring, const struct request *removal)
{
    struct request *poll = find_request(ring, removal);
    uint32_t what = wulgach_poll_removal(submission_of(&removal->entry), poll != NULL);
    if (what == WULGACH_REMOVAL_UPDATES)
        change_poll(ring, poll, &removal->entry);
    else if (what == WULGACH_REMOVAL_CANCELS)
        cancel_request(ring, poll);
    return wulgach_removal_result(poll != NULL);
}

int32_t remove_timeout(struct ring *ring, const struct request *removal)
{
    const struct io_uring_sqe *entry = &removal->entry;
    if (wulgach_timeout_removal(submission_of(entry), false) == WULGACH_REMOVAL_UPDATES_LINKED)
        return change_linked_timeout(ring, removal);
    struct request *timeout = find_request(ring, removal);
    uint32_t what = wulgach_timeout_removal(submission_of(entry), timeout != NULL);
    if (what == WULGACH_REMOVAL_UPDATES)
        change_timeout(ring, timeout, removal);
    else if (what == WULGACH_REMOVAL_CANCELS)
        cancel_request(ring, timeout);
    return wulgach_removal_result(timeout != NULL);
}
