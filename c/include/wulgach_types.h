/* Wulgach: the places, steps, answers, entries, completions and files of cores and machines.
 * wulgach.h includes it, and says what is proved.
 */
#ifndef WULGACH_TYPES_H
#define WULGACH_TYPES_H

#include <stdbool.h>
#include <stddef.h>
#include <stdint.h>

#ifdef __cplusplus
extern "C" {
#endif

/* A place for each. All zero: empty. The fields belong to the library. */
struct wulgach_core {
    void *at;
    bool is_full;
};

struct wulgach_machine {
    void *at;
    bool is_full;
};

struct wulgach_volume {
    void *at;
    bool is_full;
};

struct wulgach_crash_machine {
    void *at;
    bool is_full;
};

struct wulgach_outcomes {
    void *at;
    bool is_full;
};

/* The sizes of a pair of rings. */
struct wulgach_setup {
    uint32_t sq; /* entries of the submission ring: 1 to 4,096, rounded up to a power of two */
    uint32_t cq; /* entries of the completion ring, if has_cq: 1 to 8,192, rounded up, not below the
                    other ring's */
    uint32_t files; /* files of a machine: 1 to 64. A core has none, and its set-up may hold any
                       number here */
    uint32_t start; /* the index word at which both rings begin: any 32 bits */
    bool
        has_cq; /* whether cq is asked for; else the completion ring is twice the submission ring */
    bool stops; /* whether a submission call ends after an entry with a fault, also one with a link
                   flag, or where Linux's rules end it, and leaves the rest to later calls; else it
                   goes on */
    bool linux_rules; /* whether requests are kept by Linux's rules, as 6.18 was seen to, where they
                         differ from the manual pages'; else by the manual pages' */
};

/* The fields of a set-up that can be out of their ranges. */
enum wulgach_setup_field {
    WULGACH_SETUP_SQ = 1,
    WULGACH_SETUP_CQ =
        2, /* too few or too many, or fewer after rounding than entries of the submission ring */
    WULGACH_SETUP_FILES = 3 /* of a machine alone */
};

/* The kinds of steps, and which fields of struct wulgach_step each uses. */
enum wulgach_step_kind {
    WULGACH_FILL = 0, /* the application writes entry to slot word */
    WULGACH_INDEX =
        1, /* the application stages word: the slot of its next position, or any other word */
    WULGACH_STORE_TAIL = 2, /* the application publishes what is staged */
    WULGACH_LOAD_HEAD = 3, /* the application loads the submission ring's head */
    WULGACH_BEGIN = 4, /* the dispatcher opens a call of at most word positions */
    WULGACH_TAKE = 5, /* the dispatcher copies the call's next position */
    WULGACH_END = 6, /* the dispatcher closes the call, and accepts its entries */
    WULGACH_ISSUE = 7, /* the dispatcher issues request number */
    WULGACH_FINISH = 8, /* the dispatcher finishes running request number. For a machine only: a
                           core is told by wulgach_core_finish */
    WULGACH_FLUSH = 9, /* the dispatcher loads the completion ring's head, and moves overflowed
                          completions into the ring */
    WULGACH_LOAD_CQ_TAIL = 10, /* the application loads the completion ring's tail */
    WULGACH_REAP = 11, /* the application copies the next completion */
    WULGACH_STORE_CQ_HEAD = 12, /* the application stores the completion ring's head */
    WULGACH_CLOSE = 13, /* the dispatcher closes the ring: no call is opened from then on */
    WULGACH_NEXT = 14 /* the dispatcher asks for the least request that can be issued */
};

/* A step. A field that a kind doesn't use may hold anything. */
struct wulgach_step {
    uint32_t kind; /* enum wulgach_step_kind */
    uint32_t word; /* FILL: the slot. INDEX: the word. BEGIN: the count. Any 32 bits */
    uint64_t
        number; /* ISSUE, FINISH: the request, by its number in the order of acceptance, from 0 */
    uint64_t entry[16]; /* FILL: the entry, 128 bytes, byte 0 in the low byte of word 0 */
};

/* The kinds of answers, to which steps they come, and which fields of struct wulgach_answer each
 * uses. A refusal changes nothing. */
enum wulgach_answer_kind {
    WULGACH_FILLED = 0, /* FILL: the slot holds the entry */
    WULGACH_NO_SLOT = 1, /* FILL: the slot isn't below the submission ring's size */
    WULGACH_BUSY = 2, /* FILL: a published position that isn't known to be taken names the slot */
    WULGACH_STAGED = 3, /* INDEX: the word is staged */
    WULGACH_FULL = 4, /* INDEX: the ring is full, as far as the application knows */
    WULGACH_TAIL = 5, /* STORE_TAIL, LOAD_CQ_TAIL: word is the tail */
    WULGACH_HEAD = 6, /* LOAD_HEAD, STORE_CQ_HEAD: word is the head */
    WULGACH_CALL = 7, /* BEGIN: a call of word positions is open, 0 to 4,096 */
    WULGACH_CLOSED = 8, /* BEGIN: the ring is closed */
    WULGACH_IN_CALL = 9, /* BEGIN, CLOSE: a call is open */
    WULGACH_SPENT = 10, /* BEGIN: the numbers of requests are used up, after 2^63 - 1 of them */
    WULGACH_AGAIN = 11, /* BEGIN: memory was refused, and nothing is consumed */
    WULGACH_ENTRY = 12, /* TAKE: entry is a copy of the entry */
    WULGACH_DROPPED = 13, /* TAKE: the position's word names no slot, and is dropped */
    WULGACH_NO_MORE = 14, /* TAKE: every position of the call is taken */
    WULGACH_NO_CALL = 15, /* TAKE, END: no call is open */
    WULGACH_TAKEN =
        16, /* END: word entries were accepted; dropped words so far, modulo 2^32; the head */
    WULGACH_NOT_ALL = 17, /* END: positions of the call are left */
    WULGACH_RUN = 18, /* ISSUE: the request runs. wulgach_core_running_op says what to do */
    WULGACH_ENDED = 19, /* ISSUE, FINISH: the request ended with res and bytes */
    WULGACH_NOT_READY = 20, /* ISSUE: the request waits for earlier ones */
    WULGACH_RUNNING = 21, /* ISSUE: the request runs already */
    WULGACH_UNKNOWN = 22, /* ISSUE: no such request is outstanding */
    WULGACH_NOT_RUNNING = 23, /* FINISH: the request isn't running */
    WULGACH_MOVED = 24, /* FLUSH: number completions moved into the ring, 0 to 8,192 */
    WULGACH_REAPED = 25, /* REAP: the completion of user data number, with res and bytes */
    WULGACH_NOTHING = 26, /* REAP: no completion is shown. NEXT: no request can be issued */
    WULGACH_SHUT = 27, /* CLOSE: the ring is closed */
    WULGACH_NEXT_IS = 28 /* NEXT: request number can be issued */
};

/* An answer. A field that a kind doesn't use is 0. */
struct wulgach_answer {
    uint32_t kind; /* enum wulgach_answer_kind */
    uint32_t word; /* TAIL, HEAD, CALL; TAKEN: how many entries were accepted */
    uint32_t dropped; /* TAKEN */
    uint32_t head; /* TAKEN */
    uint64_t number; /* MOVED, NEXT_IS; REAPED: the user data */
    uint64_t entry[16]; /* ENTRY */
    int32_t res; /* ENDED, REAPED */
    uint8_t bytes[64]; /* ENDED, REAPED */
};

/* An entry: 128 bytes, byte 0 in the low byte of word 0. */
struct wulgach_entry {
    uint64_t words[16];
};

/* The bytes that an outcome carries: what a read gave, and zeros after it; zeros for all else. */
struct wulgach_bytes {
    uint8_t bytes[64];
};

/* How far a core or a machine has come. Each is at most 2^63 - 1. */
struct wulgach_counts {
    uint64_t accepted; /* the requests accepted: their numbers are 0 to accepted - 1 */
    uint64_t outstanding; /* those of them that haven't ended */
    uint64_t running; /* those of them that run */
    uint64_t posted; /* the completions posted */
    uint64_t reaped; /* the completions reaped */
};

/* A completion. */
struct wulgach_completion {
    uint64_t user_data; /* of its entry */
    int32_t res; /* 0 or more, or the negative of an error number */
    uint8_t bytes[64];
};

/* What a running request asks for. A field that an operation hasn't is 0. */
struct wulgach_operation {
    uint32_t code; /* enum wulgach_code, of wulgach_entries.h */
    int32_t fd; /* the descriptor of its file, whether there is such a file or not */
    uint64_t off; /* the offset in bytes, below 2^64 - 1 */
    uint64_t target; /* of a cancel: the user data (a cancel never runs: it ends as it is issued) */
    uint32_t len; /* how many bytes, 0 to 64 */
    uint32_t all; /* of a cancel: 1 if it is one of all, else 0 */
    uint8_t bytes[64]; /* the data */
};

/* Which case of why a request stands as it does: exactly one. */
enum wulgach_why_kind {
    WULGACH_NEVER_ACCEPTED = 1, /* no request of this number was accepted */
    WULGACH_HAS_ENDED = 2, /* it has ended */
    WULGACH_RUNS = 3, /* it was started, and hasn't ended */
    WULGACH_DOOMED = 4, /* it is to end without being started: reason is an enum wulgach_doom */
    WULGACH_WAITS = 5, /* it waits for request number, the least that keeps it from starting: reason
                          is an enum wulgach_since */
    WULGACH_MAY_START = 6 /* it may start */
};

/* What dooms a request: the first of these that does, but that a refused drain goes before all. */
enum wulgach_doom {
    WULGACH_OWN_FAULT = 1, /* its own entry has a fault: fault is an enum wulgach_fault */
    WULGACH_FAULT_OF = 2, /* request number, the least member of its group with a fault */
    WULGACH_FAILURE_OF = 3, /* request number, the least earlier member of its group that has a soft
                               link and failed */
    WULGACH_CANCELLED = 4, /* a cancel chose it */
    WULGACH_REFUSED_DRAIN =
        5 /* it asks to drain in a ring that has used skipped success, which Linux's rules refuse */
};

/* Why a request waits for an earlier one: the first of these that holds. */
enum wulgach_since {
    WULGACH_SAME_GROUP = 1, /* both are members of one group */
    WULGACH_IT_DRAINS = 2, /* the earlier one's group drains */
    WULGACH_OWN_DRAINS = 3, /* the later one's group drains */
    WULGACH_DEFERRED = 4 /* the later one's group is deferred, by Linux's rules: until all that
                            isn't deferred has ended */
};

/* The fault of an entry: the first of these that it has. */
enum wulgach_fault {
    WULGACH_FAULT_FLAGS = 1, /* a flag that isn't served */
    WULGACH_FAULT_OPCODE = 2, /* an operation that isn't served */
    WULGACH_FAULT_IOPRIO = 3, /* a priority */
    WULGACH_FAULT_OP_FLAGS = 4, /* operation flags that aren't served */
    WULGACH_FAULT_RESERVED = 5, /* a byte from 40 to 63 that isn't zero */
    WULGACH_FAULT_LEN = 6, /* a length above 64 */
    WULGACH_FAULT_OFF = 7 /* the offset of the file position */
};

/* Why a request stands as it does. A field that has no meaning there is 0. */
struct wulgach_why {
    uint64_t number; /* WAITS, FAULT_OF, FAILURE_OF: the request that is named */
    uint32_t kind; /* enum wulgach_why_kind */
    uint32_t reason; /* DOOMED, WAITS */
    uint32_t fault; /* OWN_FAULT */
};

/* How a file of a machine stands. */
struct wulgach_file {
    uint64_t writes; /* how many writes succeeded, modulo 2^64 */
    uint64_t synced; /* what writes was at the last fsync; 0 if there was none */
    uint32_t len; /* its length in bytes: at most 65,536 */
};

/* Flags of an entry, with the numbers of <linux/io_uring.h>. */
enum wulgach_flag {
    WULGACH_IO_DRAIN = 2,
    WULGACH_IO_LINK = 4,
    WULGACH_IO_HARDLINK = 8,
    WULGACH_ASYNC = 16,
    WULGACH_CQE_SKIP_SUCCESS = 64
};

#ifdef __cplusplus
}
#endif

#endif
