/* The core posts one completion for a request, and knows of no others. So each extra one is a
 * request to it, of the layer's own, submitted, issued and ended at once, whose completion shows
 * the event. So the order in the ring and what overflows are the core's here too. What it is to the
 * core the library says, by Linux's rules or the manual pages', and when one may be posted: until
 * then events and messages are left where they are.
 */
#include "calls/extras.h"
#include "calls/duties.h"
#include "calls/steps.h"
#include "calls/submit.h"
#include "operations/openness.h"
#include "process/fault.h"
#include "requests/ends.h"
#include "rings/descriptors.h"
#include "rings/locking.h"
#include "rings/ring.h"
#include "traces/trace.h"
#include "wulgach_taking.h"
#include "wulgach_times.h"

#include <errno.h>
#include <fcntl.h>
#include <stdlib.h>

/* A request of the layer's own was accepted: ends it with this result, and returns that of the
 * core's. */
static int32_t end_own(struct ring *ring, struct request *request, int32_t res)
{
    int32_t ended;
    uint32_t kind = issue(ring, request->number, &ended);
    if (request->mapping == REFUSED) {
        demand(kind == WULGACH_ENDED, "the core doesn't end an entry with a fault");
        note_fact(request, WULGACH_FACT_DROPPED, res);
        return ended;
    }
    demand(kind == WULGACH_RUN, "the core doesn't start a no-op");
    demand(wulgach_course_start(&request->course), "a request starts twice");
    wulgach_lookout_starts(&ring->lookout, insert_request(&ring->running, request));
    demand(wulgach_course_act(&request->course, &ended) == WULGACH_ACT_CARRY_OUT,
        "a no-op isn't carried out");
    demand(wulgach_course_done(&request->course, res), "an operation is done that wasn't begun");
    ended = wulgach_told_of_end(true);
    finish(ring, request->number, ended);
    demand(wulgach_course_end(&request->course), "a request ends that isn't to end");
    return ended;
}

static void stage_own(struct ring *ring, const struct request *request)
{
    struct wulgach_entry entry;
    write_token(&entry, request, NULL, NULL, ring->is_linux);
    load_head(ring);
    fill_slot(ring, 0, &entry);
    index_word(ring, 0);
    store_tail(ring);
}

/* Has the core take what is staged, and post it. False: memory was refused, and it waits. */
static bool take_own(struct ring *ring, struct request *request, int32_t res)
{
    if (!begin_call(ring, 1))
        return false;
    demand(take_position(ring), "the core drops a no-op");
    end_call(ring);
    ring->own_positions++;
    wulgach_member_first(
        &request->member, ring->accepted++, &(struct wulgach_link){.links = false});
    wulgach_course_begin(&request->course);
    add_request(&ring->requests, request);
    put_into_directory(ring, request);
    trace_note(
        ring, "request %llu: a completion of the layer's own", (unsigned long long)request->number);
    int32_t told = end_own(ring, request, res);
    end_of(ring, request, res, told);
    return true;
}

static void put_off(struct ring *ring, struct request *request, int32_t res)
{
    ring->unposted = request;
    ring->unposted_res = res;
    __atomic_add_fetch(&ring->inbox.count, 1, __ATOMIC_SEQ_CST);
}

/* Gives the core what was put off once more. False: memory is refused still. */
static bool post_unposted(struct ring *ring)
{
    struct request *request = ring->unposted;
    ring->unposted = NULL;
    if (!reserve_all(ring, 1) || !take_own(ring, request, ring->unposted_res)) {
        ring->unposted = request;
        return false;
    }
    __atomic_sub_fetch(&ring->inbox.count, 1, __ATOMIC_SEQ_CST);
    return true;
}

bool comes_now(struct ring *ring, enum wulgach_coming what)
{
    uint32_t order;
    bool is_refused = false;
    while ((order = wulgach_order_after(what, ring->unposted, is_refused)) == WULGACH_POSTS_FIRST)
        is_refused = !post_unposted(ring);
    return order == WULGACH_COMES_NOW;
}

bool can_post_extra(struct ring *ring)
{
    if (!wulgach_drains_may_post(&ring->drains, ring->staged.count, ring->is_linux, true))
        return false;
    bool has_memory = (!ring->unposted || comes_now(ring, WULGACH_POSTING_COMES)) &&
                      reserve_all(ring, 1) && reserve_request(&ring->requests);
    return wulgach_drains_may_post(&ring->drains, ring->staged.count, ring->is_linux, has_memory);
}

bool post_extra(struct ring *ring, const struct origin *of, int32_t res, uint32_t flags)
{
    do_duties_before_posting(ring);
    struct request *request = make_request(&ring->requests);
    demand(request != NULL, "a completion is posted for which nothing was reserved");
    request->entry.user_data = request->token = of->user_data;
    request->mapping = (enum mapping)wulgach_extra_of(ring->is_linux, &request->entry.opcode);
    request->flags = flags;
    request->call = of->call;
    request->is_message = of->is_message;
    request->is_extra = true;
    request->of = of->number;
    request->is_at_once = wulgach_is_at_once(of->code);
    stage_own(ring, request);
    bool is_posted = take_own(ring, request, res);
    if (!is_posted)
        put_off(ring, request, res);
    return is_posted;
}

struct origin origin_of(const struct request *request)
{
    return (struct origin){.user_data = request->entry.user_data,
        .call = request->call,
        .number = request->number,
        .code = request->entry.opcode};
}

void change_unposted(struct ring *ring, int32_t res, uint32_t flags)
{
    ring->unposted_res = res;
    ring->unposted->flags = flags;
}

bool has_messages(struct ring *ring)
{
    return __atomic_load_n(&ring->inbox.count, __ATOMIC_SEQ_CST) > 0;
}

static struct message *take_message(struct inbox *inbox)
{
    pthread_mutex_lock(&inbox->lock);
    struct message *message = inbox->first;
    if (message) {
        inbox->first = message->next;
        if (!inbox->first)
            inbox->last = &inbox->first;
        __atomic_sub_fetch(&inbox->count, 1, __ATOMIC_SEQ_CST);
    }
    pthread_mutex_unlock(&inbox->lock);
    return message;
}

static bool posts_message(struct ring *ring)
{
    bool is_there = has_messages(ring);
    return wulgach_posts_message(is_there, is_there && can_post_extra(ring));
}

/* (mostly there are none, which is found without a call) */
__attribute__((noinline)) static void post_waiting(struct ring *ring)
{
    struct message *message;
    while (posts_message(ring) && (message = take_message(&ring->inbox))) {
        post_extra(ring,
            &(struct origin){
                .user_data = message->user_data, .code = IORING_OP_MSG_RING, .is_message = true},
            message->res, message->flags);
        free(message);
    }
}

void post_messages(struct ring *ring)
{
    if (has_messages(ring))
        post_waiting(ring);
}

struct message *make_message_of(uint64_t user_data, int32_t res)
{
    struct message *message = malloc(sizeof *message);
    if (message)
        *message = (struct message){NULL, user_data, res, 0};
    return message;
}

void put_message(struct inbox *inbox, struct message *message)
{
    pthread_mutex_lock(&inbox->lock);
    *inbox->last = message;
    inbox->last = &message->next;
    __atomic_add_fetch(&inbox->count, 1, __ATOMIC_SEQ_CST);
    pthread_mutex_unlock(&inbox->lock);
}

/* Whether the slot that an entry names has a file. */
static bool has_slot(struct ring *ring, const struct io_uring_sqe *entry)
{
    struct file *file = use_file(ring, (uint32_t)entry->fd);
    bool has = file;
    release_file(file);
    return has;
}

/* The ring that an entry names, held, or NULL; and what the library is told of it. */
static struct ring *find_receiver(
    struct ring *ring, const struct io_uring_sqe *entry, struct wulgach_receiver *to)
{
    *to = (struct wulgach_receiver){0};
    struct ring *target = wulgach_may_be_ring(submission_of(entry)) ? hold_ring(entry->fd) : NULL;
    to->is_open = target ||
                  (wulgach_message_is_by_slot(submission_of(entry)) ? has_slot(ring, entry)
                                                                    : is_open_besides(entry->fd));
    to->is_ring = target;
    to->is_sender = target == ring;
    to->is_disabled = target && target->issuer.is_disabled;
    return target;
}

/* What is sent: what the other ring is told, and the file that is passed to it. */
struct sending {
    struct message *message;
    struct wulgach_passed passed;
    struct file *file;
};

/* Looks for the registered file that is to be passed. */
static int32_t find_passed(
    struct ring *ring, const struct io_uring_sqe *entry, struct sending *sending)
{
    wulgach_passed_of(submission_of(entry), &sending->passed);
    sending->file = use_file(ring, sending->passed.slot);
    return sending->file ? 0 : wulgach_missing_fault(WULGACH_NO_FILE);
}

/* Tells the other ring of what a message has come to, if it is to be told: then the message is its.
 */
static void tell_ring(
    struct ring *target, const struct io_uring_sqe *entry, int32_t res, struct message **message)
{
    struct wulgach_message told;
    if (!wulgach_told_of(submission_of(entry), res, &told))
        return;
    **message = (struct message){NULL, told.user_data, told.res, told.flags};
    put_message(&target->inbox, *message);
    *message = NULL;
}

static int32_t do_step_of_message(struct ring *ring, struct ring *target,
    const struct io_uring_sqe *entry, uint32_t step, int32_t res, struct sending *sending)
{
    switch (step) {
    case WULGACH_HAS_MESSAGE:
        sending->message = make_message_of(0, 0);
        return sending->message ? res : wulgach_missing_fault(WULGACH_NO_MEMORY_OWN);
    case WULGACH_FINDS_FILE:
        return find_passed(ring, entry, sending);
    case WULGACH_PASSES_FILE:
        return pass_file(target, sending->file, sending->passed.to);
    default:
        tell_ring(target, entry, res, &sending->message);
        return res;
    }
}

/* Carries a message out, by rising bits, until a step fails. */
static int32_t send_to(
    struct ring *ring, struct ring *target, const struct io_uring_sqe *entry, uint32_t steps)
{
    struct sending sending = {0};
    int32_t res = 0;
    for (; steps && res >= 0; steps &= steps - 1)
        res = do_step_of_message(ring, target, entry, steps & -steps, res, &sending);
    free(sending.message);
    release_file(sending.file);
    return res;
}

int32_t send_message(struct ring *ring, const struct io_uring_sqe *entry)
{
    struct wulgach_receiver to;
    struct ring *target = find_receiver(ring, entry, &to);
    int32_t result;
    uint32_t steps = wulgach_sending_of(submission_of(entry), &to, &result);
    if (steps != WULGACH_SENDS_NOTHING)
        result = send_to(ring, target, entry, steps);
    uint32_t visit = wulgach_visit_of(&to, result);
    if (visit == WULGACH_POSTS_OWN)
        post_messages(ring);
    else if (visit == WULGACH_VISITS_OTHER)
        visit_ring(target, entry->fd);
    if (target)
        release_ring(target);
    return result;
}

void make_inbox(struct inbox *inbox)
{
    pthread_mutex_init(&inbox->lock, NULL);
    inbox->first = NULL;
    inbox->last = &inbox->first;
    inbox->count = 0;
}

void free_inbox(struct inbox *inbox)
{
    for (struct message *message = inbox->first, *next; message; message = next) {
        next = message->next;
        free(message);
    }
    pthread_mutex_destroy(&inbox->lock);
}
