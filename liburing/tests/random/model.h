/* What a ring of the layer may do, by the layer's own rules: a model of one ring and of what its
 * requests read and write, written apart from the layer. It is told what the application does and
 * sees, and ends the process with a message if that can't be. The rules are those of
 * docs/PROTOCOL.md and docs/LIBURING.md.
 *
 * A completion tells that a request has ended, and in which order. A success that posts none tells
 * nothing: such a request is taken for ended as soon as what is seen calls for it, and what it did
 * is looked at then.
 */
#ifndef MODEL_H
#define MODEL_H

#include "program.h"

#include <stddef.h>

enum { GUARD = 8, MOST_BYTES = 1 << 15, BLANK = 0xee };

/* The memory of an entry's vectors, with bytes around each that nobody may touch. */
struct vectors {
    uint8_t at[MOST_VECTORS][GUARD + CELL + GUARD];
};

/* What the requests of a ring read and write, as it should be. */
struct things {
    uint8_t log[MOST_BYTES];
    uint32_t log_length, position;
    uint8_t cells[MOST_ACTIONS * CELL];
    uint8_t piped[MOST_BYTES]; /* all that was ever written to the pipe */
    uint32_t written, read;
    bool is_fed_out; /* its end for writing is closed */
    bool is_closed; /* OTHER_LOG */
    struct vectors data[MOST_ACTIONS];
    uint8_t provided[PROVIDED][PROVIDED_SIZE];
};

struct request {
    const struct action *action;
    uint16_t index; /* the action's */
    uint16_t group;
    bool is_ended, is_doomed;
    bool is_cancelled; /* a cancel found it running, or its timeout did */
    bool may_be_found_again; /* by another cancel */
    bool may_be_cancelled; /* a cancel may have found it, or another in its place */
    bool is_faulty;
    bool is_refused; /* a drain in a ring that has skipped success */
    bool is_silent; /* doomed, and posts nothing: by Linux's rules */
    bool is_loose; /* its file was found when it was accepted */
    bool was_open; /* OTHER_LOG was then */
    int32_t failure; /* with which it ends however it is carried out, or 0 */
    bool has_fired, may_have_fired; /* of a linked timeout: in a call that shows nothing of it */
    bool may_have_found; /* a provided buffer, since it could start */
    int64_t since; /* the virtual time at which it could start; negative: not yet */
    uint32_t call; /* which call accepted it */
    bool may_be_fed,
        was_fed; /* of a poll: its pipe was written to while it may have run, or ran for certain; */
    bool may_be_told,
        is_told; /* the application read that again, and it may be told all the same, or is */
    bool may_have_begun,
        has_begun; /* of a timeout that counts completions: it may run, or does for certain, */
    uint32_t tally_least, tally_most; /* from so many completions on, at least and at most */
};

/* A call, and what the application sees after it. */
struct call {
    uint32_t to_submit, min_complete;
    bool is_getting;
    int64_t limit, deadline; /* the deadline: in virtual time, or negative */
    int64_t began; /* in virtual time */
    long result;
    uint32_t accepted; /* by the model */
    uint32_t ready; /* completions that can be reaped */
    uint32_t tail_before, tail;
    uint32_t flags, dropped, head, overflow;
    bool is_fired; /* a timeout ended in it */
    bool is_blocking; /* it left signals blocked */
    bool is_polled, is_readable; /* the descriptor polls, and is readable */
};

struct model {
    const struct program *program;
    unsigned ring;
    unsigned layer_index; /* its number among the rings that the process made */
    bool is_kernel;
    uint32_t sq_entries, cq_entries;
    struct request requests[MOST_ACTIONS];
    uint32_t count;
    bool has_drain[MOST_ACTIONS], has_fault[MOST_ACTIONS]; /* of groups */
    bool is_linux; /* Linux's rules: */
    bool is_deferred[MOST_ACTIONS]; /* groups that are held back, and whether one drains as those
                                       after see it, */
    bool drains[MOST_ACTIONS];
    bool is_draining, owes_drain, has_skipped; /* and how the ring stands */
    uint32_t group_count;
    int32_t published[MOST_ACTIONS]; /* an action for each position, or negative: its word names no
                                        slot */
    uint32_t published_count, taken, dropped;
    int64_t now, slack; /* virtual time, and how much later it may be */
    uint32_t tally; /* how many completions were seen that count for timeouts */
    uint32_t call_number;
    uint32_t told_least,
        told_most; /* of how many completions an eventfd is to be told, since it was last read */
    bool has_file; /* OTHER_LOG is registered */
    uint8_t queue[PROVIDED]; /* the buffers that are provided, the next first */
    uint32_t queue_length, queue_flags; /* and the flags of a completion that took one */
    struct model
        *others[MOST_RINGS]; /* the models of all rings, which send messages to one another */
    struct message *messages; /* by the sender's action */
    bool is_late; /* what is seen next may have ended before this call */
    bool is_at_rest; /* after the last call all ran that could */
    bool has_overflowed; /* completions that aren't seen yet are outside of the ring */
    struct call *call;
    struct things *things;
    const struct vectors *data; /* the application's */
    const uint8_t *provided; /* the application's too, one buffer after the other */
};

enum { LINKS = IOSQE_IO_LINK | IOSQE_IO_HARDLINK };

/* A message from one ring to another. */
struct message {
    bool is_sent, is_seen;
    bool is_due; /* the other ring has it, and shows it */
};

enum { MESSAGE = 0x4000000 }; /* in the user data of one */

/* ---- acceptance.c ---- */

/* Takes at most this many positions, as a call does. */
void take(struct model *model, uint32_t to_submit);

/* ---- requests.c ---- */

/* Ends the process: what is seen can't be. */
_Noreturn void wrong(const struct model *model, const char *format, ...)
    __attribute__((format(printf, 2, 3)));

/* The next completion of the ring, in order. */
void see(struct model *model, uint64_t user_data, int32_t res, uint32_t flags);

/* Nothing can go on but timeouts and what waits for a pipe. */
void expect_stuck(struct model *model, const char *what);

/* How many requests are to post completions still. */
uint32_t count_awaited(const struct model *model);

/* Whether a read of the pipe is outstanding; or one that may have been started. And whether a
 * request takes what comes out of the pipe, or waits for it. */
bool has_pipe_reads(const struct model *model, bool is_started);
bool is_pipe_read(const struct model *model, const struct request *request);

/* Whether a timeout runs, or one that is linked to a request that runs. */
bool has_timeouts(const struct model *model);
bool has_linked_timeouts(const struct model *model);

/* When a timeout, or a linked one, ends that runs; negative: it doesn't run. */
int64_t end_of_timeout(const struct request *timeout);

/* Whether a request waits for its pipe, or may wait for it; whether it is on what may have to wait,
 * and whether it waits for no other request. */
bool is_blocked(const struct model *model, const struct request *request);
bool may_be_blocked(const struct model *model, const struct request *request);
bool is_stream(const struct model *model, const struct request *request);
bool can_start(const struct model *model, const struct request *request);

/* Requests that can start now, since something was accepted or has ended. */
void note_starts(struct model *model);

static inline uint64_t user_data_of(unsigned index)
{
    return (index + 1) * 0x0000000700000001u;
}

/* It isn't doomed, nor found by a cancel. */
bool is_timeout(const struct request *request);

/* A request must have ended by now, or all that one waits for: so they succeeded unseen. */
void force(struct model *model, struct request *request, const char *why);
void force_before(struct model *model, const struct request *request);

/* The application has written to the pipe, or read of it; and a call begins, in which polls that
 * ran are told of what was written, though it was read again. What the ring's own requests read
 * isn't told. */
void note_feed(struct model *model);
void note_sip(struct model *model);
void note_heard(struct model *model);

/* ---- tallies.c: timeouts that end once so many completions were posted ---- */

/* Whether a timeout may have counted enough, or has for certain. */
bool may_have_counted(const struct model *model, const struct request *timeout);
bool has_counted(const struct model *model, const struct request *timeout);

/* Timeouts begin to count that may, since something has ended or was accepted; those before one
 * that is seen in order have begun, and all that can start where nothing can go on. */
void note_tallies(struct model *model);
void note_begun_before(struct model *model, const struct request *seen);
void note_all_begun(struct model *model);

/* A completion is seen, which counts or doesn't, and which an eventfd is told of. */
void count_message(struct model *model);
void count_end(struct model *model, const struct request *request, bool is_by_itself);

/* Which is told of so often. */
void judge_told(struct model *model, uint64_t told, bool is_silenced);

/* ---- linux.c: what Linux's rules make of drains and of ends ---- */

/* An entry's operation and its flags are known: whatever other fault it has, its drain and its skip
 * count. */
bool counts(const struct action *action);

/* An entry was accepted, the first of its group or not; and its group was. */
void note_flags(struct model *model, struct request *request, bool is_first);
void note_group(struct model *model, uint16_t group);

/* Deferred groups go on that may. */
void let_deferred_go_on(struct model *model);

/* Doom the members of a group with a fault, or those after one that failed. */
void doom_group(struct model *model, uint16_t group);
void doom_after(struct model *model, const struct request *failed);

/* Whether the failure of a request is told to the core after a hard link: a linked timeout ends its
 * chain after it. */
bool is_before_last_timeout(const struct model *model, const struct request *request);

/* A timeout that is linked to it may have cancelled it, unseen. */
bool may_have_been_cancelled(const struct model *model, const struct request *request);

/* The policy is one that goes by the order of submission. */
/* Whether a request may end before some that were submitted before it, though the policy is in
 * order. */
bool may_be_early(const struct model *model, const struct request *request);
bool is_in_order(const struct model *model);

/* Whether a request can end without waiting. */
bool can_end(const struct model *model, const struct request *request);

/* ---- acts.c ---- */

/* A cancel, a removal or a message has ended with this result. */
void cancel(struct model *model, const struct request *cancel, int32_t res);
void cancel_by_flags(struct model *model, const struct request *cancel, int32_t res);
void remove_one(struct model *model, const struct request *removal, int32_t res);
void send_one(struct model *model, const struct request *request, int32_t res);

/* Whether one that drains, or a member of its chain, is outstanding, so that messages wait: by
 * Linux's rules none does; and whether a message is to be seen. */
bool has_drains(const struct model *model);
bool has_due_messages(const struct model *model);

/* The ring to which a message goes. */
struct model *receiver_of(const struct model *model, const struct request *request);

/* A message is shown. */
void see_message(struct model *model, unsigned index, int32_t res);

/* ---- results.c ---- */

/* The request ends with this result, which is judged, and does what it does. Returns whether it is
 * a success. */
bool carry_out(struct model *model, const struct request *request, int32_t res);

/* What a request that posts nothing has ended with: a success, or a failure of the program's list
 * that Linux doesn't mark. */
int32_t unseen_result(const struct model *model, const struct request *request);

/* The descriptor of what an action is about isn't open, or no file is registered by its number. */
bool is_no_file(const struct model *model, const struct action *action);

/* Byte `at` of what an action writes, and of what the application feeds. */
uint8_t written_byte(unsigned index, uint32_t at);
uint8_t fed_byte(uint32_t at);

/* ---- calls.c ---- */

/* What a call returned and shows. */
void judge_call(struct model *model);

/* A sum of times; one past the largest is the largest. */
int64_t add_times(int64_t one, int64_t other);

/* Whether time may pass before anything else goes on. Nobody sees when one has begun to run that
 * waits meanwhile, so whose time is over first isn't judged then. */
bool passes_by_choice(const struct model *model);

/* Moves virtual time on to a timeout's end. */
void fire(struct model *model, const struct request *timeout);

#endif
