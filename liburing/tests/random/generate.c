/* Makes a random program of a seed. */
#define _GNU_SOURCE
#include "program.h"

#include <linux/io_uring.h>
#include <stdio.h>
#include <string.h>

/* Of a ring that no completion overflows. */
enum { MOST_COMPLETIONS = 512 };

static uint64_t state;

/* A generator of 64 bits whose state is a counter (splitmix64). */
static uint64_t roll(void)
{
    uint64_t z = state += 0x9e3779b97f4a7c15u;
    z = (z ^ z >> 30) * 0xbf58476d1ce4e5b9u;
    z = (z ^ z >> 27) * 0x94d049bb133111ebu;
    return z ^ z >> 31;
}

static uint32_t below(uint32_t count)
{
    return (uint32_t)((roll() >> 32) * count >> 32);
}

static bool one_in(uint32_t count)
{
    return below(count) == 0;
}

/* One of the places of a row of weights. */
static unsigned weighed(const uint8_t *weights, unsigned count)
{
    unsigned sum = 0, at = 0;
    for (unsigned i = 0; i < count; i++)
        sum += weights[i];
    for (unsigned left = below(sum); left >= weights[at]; at++)
        left -= weights[at];
    return at;
}

static uint8_t any_code(bool is_plain)
{
    static const uint8_t codes[] = {IORING_OP_NOP, IORING_OP_READ, IORING_OP_WRITE, IORING_OP_READV,
        IORING_OP_WRITEV, IORING_OP_FSYNC, IORING_OP_TIMEOUT, IORING_OP_ASYNC_CANCEL,
        IORING_OP_CLOSE, IORING_OP_FALLOCATE, IORING_OP_FADVISE, IORING_OP_SYNC_FILE_RANGE,
        IORING_OP_READ_FIXED, IORING_OP_WRITE_FIXED, IORING_OP_RECV, IORING_OP_SEND,
        IORING_OP_POLL_ADD, IORING_OP_POLL_REMOVE, IORING_OP_TIMEOUT_REMOVE, IORING_OP_MSG_RING};
    static const uint8_t weights[] = {14, 18, 18, 12, 12, 6, 9, 8, 2, 4, 1, 1, 10, 10, 7, 7, 6, 2,
        3, 7},
                         plain[] = {
                             16, 20, 22, 14, 14, 8, 0, 3, 0, 0, 0, 0, 10, 10, 0, 0, 0, 0, 0, 0};
    return codes[weighed(is_plain ? plain : weights, sizeof codes)];
}

/* An operation that the ring has no use for becomes another. */
static uint8_t fitting_code(const struct program *program, uint8_t ring, uint8_t code)
{
    const struct ring_options *options = &program->rings[ring];
    if (!options->has_registered && code == IORING_OP_READ_FIXED)
        return IORING_OP_READ;
    if (!options->has_registered && code == IORING_OP_WRITE_FIXED)
        return IORING_OP_WRITE;
    if (!options->has_sockets && code == IORING_OP_RECV && !one_in(8))
        return IORING_OP_READ;
    if (!options->has_sockets && code == IORING_OP_SEND && !one_in(8))
        return IORING_OP_WRITE;
    return code == IORING_OP_MSG_RING && !program->has_messages ? IORING_OP_NOP : code;
}

static bool is_transfer(const struct action *action)
{
    return is_read(action) || is_write(action);
}

static enum object any_object(const struct action *action, bool is_plain, bool has_pipe)
{
    static const uint8_t weights[OBJECTS] = {40, 8, 35, 10, 0, 3, 3},
                         plain[OBJECTS] = {0, 0, 90, 0, 0, 0, 8},
                         waiting[OBJECTS] = {12, 0, 5, 70, 0, 5, 5};
    bool is_waiting = is_of_sockets(action) || action->code == IORING_OP_POLL_ADD;
    enum object object = weighed(is_plain ? plain : is_waiting ? waiting : weights, OBJECTS);
    if (object == PIPE_OUT && !has_pipe)
        return LOG;
    return object == PIPE_OUT && is_write(action) ? PIPE_IN : object;
}

/* What a cell's entry reads or writes is its own, or that of the entry before it, to which it is
 * linked. */
static void choose_place(struct action *action, const struct action *before)
{
    bool is_linked = before && before->flags & (IOSQE_IO_LINK | IOSQE_IO_HARDLINK) &&
                     !(before->flags & IOSQE_CQE_SKIP_SUCCESS) && before->object == CELLS;
    if (is_linked && !one_in(3))
        action->cell = before->cell;
    action->offset = (int32_t)(action->object == CELLS ? below(20)
                               : one_in(6)             ? (uint32_t)-1
                                                       : below(300));
}

static void choose_sizes(struct action *action)
{
    uint32_t left = action->object == CELLS ? CELL - (uint32_t)action->offset : 4 * 40;
    action->vectors = is_vectored(action) ? (uint8_t)below(MOST_VECTORS + 1) : 1;
    for (int i = 0; i < action->vectors; i++) {
        uint32_t size = one_in(12) && !is_of_sockets(action) ? 0 : 1 + below(40);
        action->sizes[i] = (uint8_t)(size < left ? size : left);
        left -= action->sizes[i];
    }
}

static int64_t any_time(void)
{
    static const int64_t units[] = {1, 1000, 1000000, 1000000000, 3600000000000};
    /* Times that lie close to one another tell more of their order. */
    if (one_in(2))
        return (int64_t)(1 + below(9)) * 1000000000;
    return (int64_t)below(4000) * units[below(5)] + (one_in(2) ? 0 : (int64_t)below(1000000000));
}

static uint8_t any_flags(
    const struct action *action, uint16_t index, const struct program *program, bool is_skipping)
{
    bool is_plain = program->is_plain;
    uint8_t flags = 0;
    static const uint8_t links[] = {0, IOSQE_IO_LINK, IOSQE_IO_HARDLINK,
        IOSQE_IO_LINK | IOSQE_IO_HARDLINK},
                         weights[] = {55, 32, 11, 2};
    flags |= links[weighed(weights, 4)];
    if (one_in(14) && !(is_plain && is_skipping))
        flags |= IOSQE_IO_DRAIN;
    if (one_in(20))
        flags |= IOSQE_ASYNC;
    /* What ends unseen is to have no effect that others see. */
    bool is_sync = action->code == IORING_OP_FSYNC &&
                   (action->object == LOG || action->object == CELLS);
    bool is_own = is_transfer(action) && !is_of_sockets(action) && !is_selecting(action) &&
                  action->object == CELLS && action->cell == index;
    bool is_quiet = action->code == IORING_OP_NOP || is_sync || is_own ||
                    (action->code == IORING_OP_TIMEOUT && !action->is_success && !action->tally);
    if (is_plain)
        is_quiet = action->code == IORING_OP_NOP && !flags && is_skipping;
    if (is_quiet && !program->has_scopes && one_in(5))
        flags |= IOSQE_CQE_SKIP_SUCCESS;
    return flags;
}

static enum flaw any_flaw(const struct action *action, bool is_plain)
{
    if (!one_in(16))
        return NO_FLAW;
    enum flaw flaw = (enum flaw)(BAD_CODE + below(6));
    bool has_time = action->code == IORING_OP_TIMEOUT || action->code == IORING_OP_LINK_TIMEOUT,
         has_pointer = (is_vectored(action) && action->vectors > 0) || has_time;
    /* A write of data that can't be read may lengthen its file all the same. */
    bool has_data = action->code == IORING_OP_READ
                        ? action->object <= CELLS && !is_selecting(action)
                        : action->code == IORING_OP_WRITE && action->object == CELLS;
    if ((flaw == BAD_POINTER && !has_pointer) || (flaw == BAD_TIME && !has_time) ||
        (flaw == BAD_DATA && !has_data))
        return BAD_CODE;
    return is_plain && (flaw == BAD_FLAG || flaw == BAD_PRIORITY) ? BAD_CODE : flaw;
}

/* The program so far, as far as the next action asks. */
struct progress {
    const struct action
        *before[MOST_RINGS]; /* the last entry of each ring, if it isn't called since */
    uint16_t published[MOST_RINGS]; /* since the last call */
    bool is_skipping;
};

/* What a fault has ended already may end unseen. */
static uint8_t flags_after_fault(const struct action *action, uint16_t index,
    const struct program *program, const struct progress *progress, const struct action *before)
{
    bool is_after_fault = before && before->flags & (IOSQE_IO_LINK | IOSQE_IO_HARDLINK) &&
                          before->flaw != NO_FLAW && before->flaw != BAD_DATA;
    bool may_skip = !program->has_scopes &&
                    (!program->is_plain || (progress->is_skipping && !program->is_manual));
    bool is_last = action->code == IORING_OP_LINK_TIMEOUT &&
                   !(action->flags & (IOSQE_IO_LINK | IOSQE_IO_HARDLINK));
    return is_last && is_after_fault && may_skip && index % 2 ? IOSQE_CQE_SKIP_SUCCESS : 0;
}

/* What is registered with the ring: its file, a buffer of its own or one that is provided. */
static void choose_registered(struct action *action, uint16_t index, bool is_plain)
{
    bool is_on_file = is_transfer(action) || action->code == IORING_OP_FSYNC ||
                      action->code == IORING_OP_FALLOCATE || action->code == IORING_OP_POLL_ADD;
    action->is_registered = is_on_file && one_in(3);
    if (is_in_registered_memory(action)) {
        action->object = action->object == OTHER_LOG ? LOG : action->object;
        bool is_bad = one_in(12) && (action->object == LOG || action->object == CELLS);
        action->buffer = is_bad ? (uint8_t)(one_in(2) ? !buffer_of(index) : 9) : buffer_of(index);
    }
    bool can_select = action->code == IORING_OP_READ
                          ? action->object == LOG || action->object == CELLS ||
                                action->object == PIPE_OUT
                          : action->code == IORING_OP_RECV && action->object == PIPE_OUT;
    if (can_select && !is_plain && one_in(3)) {
        action->flags = IOSQE_BUFFER_SELECT;
        action->sizes[0] = (uint8_t)(1 + below(40));
    }
}

/* After a link there may be a timeout for the request before it, short where that waits for what is
 * real. */
static uint8_t code_after(const struct action *before, uint8_t code)
{
    bool is_linked = before && before->flags & (IOSQE_IO_LINK | IOSQE_IO_HARDLINK);
    return (is_linked && one_in(5)) || one_in(200) ? IORING_OP_LINK_TIMEOUT : code;
}

static int64_t time_after(const struct action *before, bool is_plain)
{
    if (is_plain)
        return 3600000000000;
    return before && before->object == PIPE_OUT && one_in(2) ? (int64_t)below(1500000) : any_time();
}

/* The last entry of a ring before this action that a removal may find, or none. */
static uint16_t last_removable(
    const struct program *program, const struct action *removal, uint16_t index)
{
    uint8_t code = removal->code == IORING_OP_POLL_REMOVE ? IORING_OP_POLL_ADD : IORING_OP_TIMEOUT;
    while (index-- > 0) {
        const struct action *action = &program->actions[index];
        if (action->kind == PUT && action->ring == removal->ring && action->code == code)
            return index;
    }
    return MOST_ACTIONS;
}

static uint16_t any_target(
    const struct program *program, const struct action *action, uint16_t index)
{
    if (action->code == IORING_OP_MSG_RING)
        return (uint16_t)below(program->ring_count);
    bool is_removal = action->code == IORING_OP_POLL_REMOVE ||
                      action->code == IORING_OP_TIMEOUT_REMOVE;
    if (is_removal && one_in(2))
        return last_removable(program, action, index);
    return (uint16_t)(program->is_plain || index == 0 || one_in(6)
                          ? MOST_ACTIONS
                          : index - 1 - below(index < 12 ? index : 12));
}

/* By flags a cancel looks for others than one request, mostly for those of the pipe. */
static void choose_scope(const struct program *program, struct action *action)
{
    static const uint8_t scopes[] = {0, IORING_ASYNC_CANCEL_ALL, IORING_ASYNC_CANCEL_FD,
        IORING_ASYNC_CANCEL_FD | IORING_ASYNC_CANCEL_ALL, IORING_ASYNC_CANCEL_ANY,
        IORING_ASYNC_CANCEL_ANY | IORING_ASYNC_CANCEL_ALL},
                         weights[] = {4, 3, 6, 6, 3, 2};
    static const uint8_t objects[OBJECTS] = {4, 2, 3, 8, 2, 2, 2};
    action->scope = scopes[weighed(weights, sizeof scopes)];
    action->object = (enum object)weighed(objects, OBJECTS);
    /* (which file a request on the one that is taken out and put in again has isn't known) */
    bool can_be_registered = program->rings[action->ring].has_registered &&
                             action->scope & IORING_ASYNC_CANCEL_FD && action->object != OTHER_LOG;
    action->is_registered = can_be_registered && one_in(3);
}

static void choose_entry(struct program *program, struct action *action, struct progress *progress)
{
    uint16_t index = program->count;
    const struct action *before = progress->before[action->ring];
    const struct ring_options *ring = &program->rings[action->ring];
    bool is_plain = program->is_plain;
    action->kind = PUT;
    action->cell = index;
    action->code = code_after(before, fitting_code(program, action->ring, any_code(is_plain)));
    action->object = any_object(action, is_plain, ring->flags & IORING_SETUP_COOP_TASKRUN);
    if (action->code == IORING_OP_CLOSE)
        action->object = OTHER_LOG;
    if (is_transfer(action)) {
        choose_place(action, before);
        choose_sizes(action);
    }
    if (ring->has_registered)
        choose_registered(action, index, is_plain);
    if (action->code == IORING_OP_FALLOCATE) {
        action->offset = (int32_t)below(300);
        action->sizes[0] = (uint8_t)below(200);
    }
    action->is_impatient = action->object == PIPE_OUT && is_read(action) && one_in(6);
    action->time = action->code == IORING_OP_LINK_TIMEOUT ? time_after(before, is_plain)
                                                          : any_time();
    action->is_success = one_in(3);
    action->target = any_target(program, action, index);
    action->turn = one_in(5) ? (uint16_t)below(16) : 0;
    if (action->code == IORING_OP_TIMEOUT && one_in(3))
        action->tally = (uint8_t)(1 + below(4));
    if (action->code == IORING_OP_ASYNC_CANCEL && program->has_scopes)
        choose_scope(program, action);
    action->flags |= any_flags(action, index, program, progress->is_skipping);
    action->flags |= flags_after_fault(action, index, program, progress, before);
    action->flaw = any_flaw(action, is_plain);
    progress->before[action->ring] = action;
    progress->published[action->ring]++;
}

static void choose_call(struct program *program, struct action *action, struct progress *progress)
{
    static const int64_t times[] = {0, 1, 1500, 999999999, 1000000000, 7200000000001, INT64_MAX};
    action->kind = ENTER;
    action->excess = (int16_t)(one_in(6) ? -(int)below(3) : one_in(12) ? 1 + (int)below(3) : 0);
    action->is_getting = !one_in(3);
    action->min_complete = (uint16_t)(one_in(4) ? 0 : one_in(12) ? 100 : 1 + below(4));
    action->limit = one_in(2) ? -1 : one_in(2) ? any_time() : times[below(7)];
    action->has_mask = one_in(6);
    if (program->is_plain) {
        action->excess = 0;
        action->limit = -1;
        action->has_mask = false;
        action->min_complete = (uint16_t)(one_in(2) ? 0 : 1 + below(2));
    }
    progress->before[action->ring] = NULL;
    progress->published[action->ring] = 0;
}

static void choose_action(struct program *program, struct progress *progress)
{
    static const enum action_kind kinds[] = {
        PUT, ENTER, REAP, PUT_WORD, FEED, END_FEED, FORK, REOPEN, PROVIDE, UPDATE, SILENCE, SIP};
    static const uint8_t weights[] = {60, 22, 12, 1, 4, 1, 1, 1, 3, 2, 2, 3},
                         plain[] = {60, 22, 12, 1, 0, 0, 0, 0, 0, 0, 0, 0};
    struct action *action = &program->actions[program->count];
    *action = (struct action){.ring = (uint8_t)below(program->ring_count),
        .count = (uint16_t)(1 + below(8)),
        .turn = (uint16_t)below(3)};
    enum action_kind kind = kinds[weighed(program->is_plain ? plain : weights, sizeof weights)];
    /* What was written is read again, mostly whole, so that a call finds nothing of it. */
    if (program->count > 0 && action[-1].kind == FEED && one_in(3)) {
        action->ring = action[-1].ring;
        action->count = (uint16_t)(one_in(4) ? action->count : 100);
        kind = SIP;
    }
    if ((kind == FORK || kind == REOPEN) &&
        (program->is_threaded || program->has_messages || !one_in(2)))
        kind = REAP;
    if ((kind == PROVIDE || kind == UPDATE) && !program->rings[action->ring].has_registered)
        kind = REAP;
    /* (a message comes at any time) */
    if (kind == SILENCE && (!program->rings[action->ring].telling || program->has_messages))
        kind = REAP;
    if (kind == PUT && progress->published[action->ring] >= program->rings[action->ring].entries)
        kind = ENTER;
    if (kind == PUT)
        choose_entry(program, action, progress);
    else if (kind == ENTER)
        choose_call(program, action, progress);
    else
        action->kind = kind;
    /* It ends the call, and so a chain. */
    if (kind == PUT_WORD)
        progress->before[action->ring] = NULL;
    program->count++;
}

static void choose_ring(struct program *program, struct ring_options *ring)
{
    static const uint32_t flags[] = {
        IORING_SETUP_SUBMIT_ALL, IORING_SETUP_CLAMP, IORING_SETUP_SINGLE_ISSUER};
    ring->entries = (uint16_t)(one_in(3) ? 1 + below(16) : 1u << below(5));
    if (one_in(2))
        ring->completions = (uint16_t)(2 * ring->entries + below(4) -
                                       (one_in(2) ? ring->entries : 0));
    if (ring->completions && ring->completions < ring->entries)
        ring->completions = 0;
    if (program->has_drains && !program->is_manual)
        ring->completions = MOST_COMPLETIONS;
    ring->flags = (one_in(2) ? flags[0] : 0) | (one_in(8) ? flags[1] : 0) |
                  (one_in(8) ? flags[2] : 0);
    /* In the layer this one changes nothing: here it says that the ring's entries read and write
     * pipes. */
    if (!program->is_plain && one_in(3))
        ring->flags |= IORING_SETUP_COOP_TASKRUN;
    ring->is_polled = one_in(4);
    ring->has_registered = one_in(2);
    ring->has_sockets = !program->is_plain && one_in(3);
    if (!program->is_plain && one_in(3))
        ring->telling = one_in(3) ? OF_LATER : OF_ALL;
}

static void choose_faults(struct program *program)
{
    bool is_seeded = strncmp(program->policy, "seed", 4) == 0;
    if (program->is_plain || one_in(2))
        return;
    /* A message takes a number at its ring, so which number another request has isn't known. */
    if (is_seeded && (one_in(2) || program->has_messages)) {
        program->fault_rate = (uint16_t)(2 + below(9));
        return;
    }
    program->fault_count = program->has_messages ? 0 : (uint8_t)(1 + below(MOST_FAULTS));
    for (int i = 0; i < program->fault_count; i++)
        program->faults[i] = (struct fault){(uint8_t)below(program->ring_count),
            (uint8_t)(i * 8 + below(8)), (uint8_t)(1 + below(3))};
}

void generate(struct program *program, uint64_t seed)
{
    struct progress progress = {0};
    memset(program, 0, sizeof *program);
    state = seed * 0x2545f4914f6cdd1du + 1;
    program->seed = seed;
    program->is_manual = seed % 3 == 0;
    program->has_drains = seed % 2 == 0;
    program->is_plain = one_in(5);
    if (one_in(3))
        strcpy(program->policy, one_in(2) ? "lazy" : "order");
    else
        snprintf(program->policy, sizeof program->policy, "seed:%u", below(1000000));
    program->is_ends = one_in(3);
    program->ring_count = (uint8_t)(one_in(3) ? 1 + below(MOST_RINGS) : 1);
    program->is_threaded = !program->is_plain && program->ring_count > 1 && one_in(2);
    program->has_messages = !program->is_plain && !program->is_threaded && one_in(4);
    program->has_scopes = !program->is_plain && one_in(3);
    progress.is_skipping = one_in(2);
    for (int i = 0; i < program->ring_count; i++)
        choose_ring(program, &program->rings[i]);
    choose_faults(program);
    uint32_t count = 5 + below(one_in(4) ? MOST_ACTIONS - 5 : 45);
    while (program->count < count)
        choose_action(program, &progress);
    if (!program->is_plain && strncmp(program->policy, "seed", 4) == 0 && one_in(4))
        program->timeout_rate = (uint16_t)(2 + below(15));
}
