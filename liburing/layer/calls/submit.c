/* Stages what the application has published, as far as the library says that the call takes it, at
 * the moment when the kernel would read it, and has the core take it in one call. What comes of it
 * where memory is refused the library says: if the core is refused it, what is staged stays so, and
 * waits there, and the next call goes on with it.
 */
#include "calls/submit.h"
#include "calls/extras.h"
#include "calls/steps.h"
#include "calls/whole_calls.h"
#include "choices/account.h"
#include "choices/issuable.h"
#include "choices/outlook.h"
#include "choices/rules.h"
#include "choices/ways.h"
#include "operations/operations.h"
#include "process/fault.h"
#include "registered/strict.h"
#include "requests/timeouts.h"
#include "traces/callers.h"
#include "traces/trace.h"
#include "wulgach_taking.h"

#include <stdlib.h>

/* Reads the entry of a slot. NULL if memory was refused. */
static struct request *read_entry(struct ring *ring, uint32_t slot)
{
    struct request *request = make_request(&ring->requests);
    if (!request)
        return NULL;
    request->entry = *entry_at(&ring->memory, slot);
    request->token = request->entry.user_data;
    request->call = ring->call_number;
    wulgach_link_of(submission_of(&request->entry), &request->link);
    request->mapping = form_of(&request->entry, strict_fault(ring, &request->entry),
        allows_entry(ring, &request->entry), &request->fault);
    const struct request *before = ring->staged.count > 0
                                       ? ring->staged.rows[ring->staged.count - 1]
                                       : NULL;
    if (wulgach_copies_pieces(request->mapping) && copy_after(request, before) < 0) {
        free_request(request);
        return NULL;
    }
    wulgach_beside_of(submission_of(&request->entry), request->mapping,
        before && before->link.links, &request->beside);
    return request;
}

/* Stages the position of an index word. A word that names no slot gives an empty row. */
static bool stage(struct ring *ring, uint32_t word, struct request **row)
{
    *row = NULL;
    if (wulgach_names_slot(word, ring->memory.sq_entries)) {
        *row = read_entry(ring, word);
        if (!*row)
            return false;
        note_entry(ring, *row);
    } else {
        ring->bad_word = word;
    }
    add_request(&ring->staged, *row);
    return true;
}

/* What stands at a position: its request, or none. */
static struct wulgach_item item_of(const struct request *request)
{
    return (struct wulgach_item){
        .is_entry = request,
        .is_faulty = request && request->mapping == REFUSED,
        .links = request && request->link.links,
    };
}

/* Stages the positions that a call takes, `most` at most, the first of which has its word in this
 * cell, but those that are staged already. Returns the fault of a call that memory was refused, or
 * 0: then it submits what is staged. */
static int32_t stage_taken(
    struct ring *ring, struct wulgach_taking *taking, uint32_t most, uint32_t cell)
{
    uint32_t count = 0, onward;
    if (!reserve_all(ring, most))
        return wulgach_refusal_fault(count, false);
    do {
        struct request *row = NULL;
        if (count < ring->staged.count)
            row = ring->staged.rows[count];
        else if (!stage(ring, load_word(&ring->memory.array[cell]), &row))
            return wulgach_refusal_fault(count, false);
        count++;
        struct wulgach_item item = item_of(row);
        onward = wulgach_taking_took(taking, &item, &cell);
        if (onward == WULGACH_ENDS_CALL)
            note_rule(row ? CALL_STOPS : WORD_IS_DROPPED);
    } while (onward == WULGACH_TAKES);
    return 0;
}

/* Gives the request of a position that was taken a number. */
static void accept_one(struct ring *ring, struct request *request, const struct request *before)
{
    if (!request)
        return;
    if (before)
        wulgach_member_next(&request->member, &before->member, ring->accepted++, &request->link);
    else
        wulgach_member_first(&request->member, ring->accepted++, &request->link);
    wulgach_course_begin(&request->course);
    add_request(&ring->requests, request);
    put_into_directory(ring, request);
}

/* Notes which members of a chain drain. */
static void mark_draining(struct ring *ring, size_t first, size_t end)
{
    struct request **rows = ring->requests.rows;
    struct wulgach_chain chain;
    wulgach_chain_first(&chain, rows[first]->entry.flags);
    for (size_t i = first + 1; i < end; i++)
        wulgach_chain_sees(&chain, rows[i]->entry.flags);
    bool is_draining = wulgach_drains_accept(&ring->drains, &chain);
    for (size_t i = first; i < end; i++)
        rows[i]->is_draining = is_draining;
}

/* A request that was accepted just now finds its files at once, if that is said, or in its turn;
 * `after` tells that one before it may change slots. */
static void find_for(struct ring *ring, struct request *request, bool after)
{
    uint32_t found = wulgach_drains_find_file(
        &ring->drains, &request->member, ring->is_linux, after, false, false);
    if (found == WULGACH_ASKS_START)
        found = wulgach_drains_find_file(&ring->drains, &request->member, ring->is_linux, after,
            true, can_issue(ring, request->number));
    request->is_late = found == WULGACH_FOUND_AT_START;
    if (found == WULGACH_FOUND_BY_CALL)
        assign(ring, request);
    else if (found == WULGACH_FOUND_IN_TURN)
        assign_in_turn(ring, request);
}

/* Of the requests from a row on, which are new: which drain, and on what those are carried out that
 * wait for no other. */
static void note_chains(struct ring *ring, size_t first)
{
    struct request **rows = ring->requests.rows;
    struct wulgach_changes changes;
    wulgach_changes_begin(&changes);
    begin_asking();
    for (size_t end; first < ring->requests.count; first = end) {
        for (end = first + 1; end < ring->requests.count &&
                              wulgach_is_one_chain(&rows[end]->member, &rows[first]->member);)
            end++;
        mark_draining(ring, first, end);
        for (size_t i = first; i < end; i++) {
            find_for(ring, rows[i], changes.may_change_slots);
            wulgach_changes_see(&changes, submission_of(&rows[i]->entry));
        }
    }
    end_asking();
}

/* What was taken is traced, and recorded: from now on it may go on. */
static void note_taken(struct ring *ring, uint64_t accepted)
{
    trace_callers(ring);
    for (size_t i = ring->requests.count - accepted; i < ring->requests.count; i++) {
        trace_request(ring, ring->requests.rows[i]);
        record_accepted(ring, ring->requests.rows[i]);
    }
}

static void do_taken_step(struct ring *ring, const struct wulgach_taken *taken, uint32_t step)
{
    switch (step) {
    case WULGACH_TAKEN_STORES_DROPPED:
        store_word(&ring->memory.sq->dropped, taken->dropped);
        return;
    case WULGACH_TAKEN_STORES_HEAD:
        store_word(&ring->memory.sq->head, ring->head);
        return;
    default:
        note_taken(ring, taken->accepted);
    }
}

/* Has the core take what is staged, after which this head stands; it has the first `given` of it
 * already. Returns how many requests it has accepted, or the fault of a call that it refused for
 * want of memory. */
static int take_staged(struct ring *ring, uint32_t given, uint32_t head)
{
    uint32_t count = (uint32_t)ring->staged.count;
    uint64_t accepted = ring->accepted;
    wulgach_held_begin(&ring->held, accepted);
    struct wulgach_taken taken;
    if (!submit_staged(ring, given, &taken))
        return wulgach_refusal_fault(count, true);
    for (uint32_t i = 0; i < count; i++)
        accept_one(ring, ring->staged.rows[i], i > 0 ? ring->staged.rows[i - 1] : NULL);
    drop_requests(&ring->staged, count);
    note_chains(ring, ring->requests.count - (size_t)(ring->accepted - accepted));
    note_issuable(ring, accepted);
    wulgach_lookout_changes(&ring->lookout);
    demand(
        taken.accepted == ring->accepted - accepted, "the core accepts another number of requests");
    note_accepted(ring, accepted);
    demand(taken.head - ring->own_positions == head, "the core stands at another position");
    ring->head = head;
    for (uint32_t steps = wulgach_taken_steps(); steps; steps &= steps - 1)
        do_taken_step(ring, &taken, (uint32_t)__builtin_ctz(steps));
    return (int)taken.accepted;
}

bool reserve_all(struct ring *ring, uint32_t count)
{
    size_t whole = ring->requests.count + count;
    if (!reserve_requests(&ring->staged, count) || !reserve_requests(&ring->requests, count) ||
        !reserve_completions(&ring->completions, whole))
        return false;
    if (!reserve_requests(&ring->running, whole - ring->running.count) ||
        !reserve_timeouts(ring, ring->requests.room) || !reserve_ways(ring, whole))
        return false;
    return true;
}

int submit(struct ring *ring, uint32_t count)
{
    uint32_t given = (uint32_t)ring->staged.count;
    struct wulgach_submitting asked = {
        .to_submit = count,
        .head = ring->head,
        .tail = load_word(&ring->memory.sq->tail),
        .entries = ring->memory.sq_entries,
        .given = given,
        .submits_all = ring->flags & IORING_SETUP_SUBMIT_ALL,
    };
    struct wulgach_taking taking;
    uint32_t cell, most = wulgach_taking_begin(&taking, &asked, &cell);
    if (most == 0)
        return 0;
    if (ring->unposted && !comes_now(ring, WULGACH_SUBMISSION_COMES))
        return wulgach_refusal_fault(0, true);
    int32_t fault = stage_taken(ring, &taking, most, cell);
    return fault < 0 ? fault : take_staged(ring, given, taking.next);
}
