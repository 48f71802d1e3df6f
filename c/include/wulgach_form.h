/* Wulgach: what an entry of the submission ring is to the core and which fault it has, what is
 * copied of it, which requests go on, and what a message to another ring does, as decisions, for
 * whoever keeps a ring as the kernel does. The functions are in the library of wulgach.h, and
 * proved as those are. The layer under liburing calls them.
 */
#ifndef WULGACH_FORM_H
#define WULGACH_FORM_H

#include "wulgach_course.h"

#ifdef __cplusplus
extern "C" {
#endif

/* An entry: `struct io_uring_sqe` of <linux/io_uring.h>, each field under the name of its first
 * use. */
struct wulgach_submission {
    uint8_t opcode;
    uint8_t flags;
    uint16_t ioprio;
    int32_t fd;
    uint64_t off;
    uint64_t addr;
    uint32_t len;
    uint32_t op_flags;
    uint64_t user_data;
    uint16_t buf_index;
    uint16_t personality;
    uint32_t file_index;
    uint64_t addr3;
    uint64_t pad;
};

/* Buffers that an entry provides (IORING_OP_PROVIDE_BUFFERS): `addr`, `off`, `len` and `fd` of it.
 */
struct wulgach_provided {
    uint64_t address; /* where the first begins */
    uint64_t first; /* its number */
    uint32_t length; /* the bytes of each */
    uint32_t count;
};

/* A registered file that a message passes (IORING_MSG_SEND_FD): `addr3` and `file_index` of its
 * entry. */
struct wulgach_passed {
    uint32_t slot; /* that it has in the sender's table, */
    uint32_t to; /* and that it gets in the other's, plus 1, or any */
};

/* Where a splice reads and writes (IORING_OP_SPLICE), of which its call is given copies: `addr`, in
 * whose place `splice_off_in` stands, and `off`. */
struct wulgach_offsets {
    uint64_t from, to;
};

/* What the fields of an entry mean: these; how many buffers it removes at most
 * (IORING_OP_REMOVE_BUFFERS), `fd`; and the user data of the request that a cancel, a removal or an
 * update is aimed at, `addr`. */
void wulgach_provided_of(const struct wulgach_submission *entry, struct wulgach_provided *provided);
void wulgach_passed_of(const struct wulgach_submission *entry, struct wulgach_passed *passed);
void wulgach_offsets_of(const struct wulgach_submission *entry, struct wulgach_offsets *offsets);
uint32_t wulgach_removed_of(const struct wulgach_submission *entry);
uint64_t wulgach_target_of(const struct wulgach_submission *entry);

/* What an entry is to the core. */
enum wulgach_form {
    WULGACH_FORM_TOKEN = 0, /* a request that is carried out outside of it */
    WULGACH_FORM_CANCEL =
        1, /* a cancel of its own: by user data, with no flags, no link and no skipped success */
    WULGACH_FORM_REFUSED = 2 /* it has a fault, and ends with that */
};

/* Returns what an entry is to the core (enum wulgach_form), and writes its fault, or 0. The first
 * of these counts:
 *
 *   `refusal`          with which a strict ring refuses it, if that is negative
 *   -22 (EINVAL)       a flag that there isn't, or an operation that isn't served
 *   -95 (EOPNOTSUPP)   it asks for a provided buffer, which its operation can't have
 *   -13 (EACCES)       restrictions don't allow it
 *   -22                a personality, or a field that must be 0
 *   -9 (EBADF)         IOSQE_FIXED_FILE on an operation of a path, or on a close
 *   -22                flags that the operation doesn't know, or what else its fields may not be
 *   -7, -22, -75, -14  buffers that it provides
 *   -14 (EFAULT)       the buffer of a READ, a WRITE, a SEND or a RECV ends where no program has
 *                      memory
 *
 * What the entry points to isn't looked at. */
uint32_t wulgach_form_of(
    const struct wulgach_submission *entry, int32_t refusal, bool is_allowed, int32_t *fault);

/* Whether what an entry points to is copied that is this (enum wulgach_form): of one with a fault
 * nothing is, so it ends with that. */
bool wulgach_copies_pieces(uint32_t form);

/* Whether what copying what an entry points to came to is a fault of the entry's own, with which it
 * is refused: an error, but -12 (ENOMEM). Then memory was refused to whoever copies it, and the
 * call ends before the entry: our own rule. */
bool wulgach_is_own_fault(int32_t fault);

/* Returns what an entry is that was this before (enum wulgach_form), once what it points to is
 * copied with this fault, or 0: one with a fault is refused, and another stays what it was. */
uint32_t wulgach_form_copied(uint32_t was, int32_t fault);

/* Writes what an entry says of its chain: IOSQE_IO_LINK or IO_HARDLINK links the next, and
 * IORING_OP_LINK_TIMEOUT limits the one before. */
void wulgach_link_of(const struct wulgach_submission *entry, struct wulgach_link *link);

/* What a probe says of the operation of this code: IO_URING_OP_SUPPORTED of one that is served,
 * else 0. */
uint16_t wulgach_probed_flags(uint8_t code);

/* A poll, as far as it says whether what it finds comes of a ring. It is the caller's memory, and
 * its fields are the library's. */
struct wulgach_ring_poll {
    uint64_t told_before;
    bool is_of_ring;
    bool has_waited;
};

/* It begins, as one that goes on or doesn't, on a ring's descriptor or another's; its descriptor
 * was looked at; it has had an event, and goes on. `told`: how often its ring has told its eventfd
 * by now. */
void wulgach_ring_poll_begin(
    struct wulgach_ring_poll *poll, bool goes_on, bool is_ring, uint64_t told);
void wulgach_ring_poll_looks(struct wulgach_ring_poll *poll, bool is_ready);
void wulgach_ring_poll_has_event(struct wulgach_ring_poll *poll, uint64_t told);

/* Whether its ring has told its eventfd since the poll began, or since its last event: then it is
 * asked whether it polls that. */
bool wulgach_ring_poll_asks_eventfd(const struct wulgach_ring_poll *poll, uint64_t told);

/* Whether what a poll finds comes of a ring: it goes on, and has waited for a ring's descriptor; or
 * its own ring has told its eventfd since then, and it polls that. */
bool wulgach_comes_of_ring(const struct wulgach_ring_poll *poll, uint64_t told, bool is_eventfd);

/* Whether the request of an entry, which has started as one that goes on or hasn't (wulgach_needs,
 * and after a poll's start wulgach_poll_start), and has moved so many bytes (`done`), goes on after
 * this result, which then has a completion of its own; else it ends with it: it isn't one that goes
 * on, or it ends with an error, with nothing more to come, since its completion finds the ring of
 * so many entries full, or since what a poll has found comes of a ring (`is_of_ring`). */
bool wulgach_goes_on(const struct wulgach_shown *shown, bool started,
    const struct wulgach_submission *entry, uint64_t done, bool is_of_ring, int32_t res,
    uint32_t entries);

/* Whether an eventfd is told of a completion, where it is registered for all, or only for what ends
 * after the call that submitted it: in another call on the ring. A message comes after them all. */
bool wulgach_tells(const struct wulgach_posted *posted, bool is_async_alone);

/* ---- what an entry points to ---- */

enum wulgach_what {
    WULGACH_BUFFER = 0, /* one that the entry itself names: nothing is copied */
    WULGACH_VECTORS = 1,
    WULGACH_PATH = 2,
    WULGACH_SECOND_PATH = 3, /* or the name of an attribute */
    WULGACH_HOW = 4, /* of an open: struct open_how, of 24 bytes */
    WULGACH_TIME = 5,
    WULGACH_VALUE = 6, /* bytes that the operation reads */
    WULGACH_MESSAGE = 7, /* and after it its vectors */
    WULGACH_ADDRESS = 8, /* of a socket */
    WULGACH_HOW_REST = 9 /* of an open: what is newer in that structure, which has so many bytes in
                            all. It is looked at after these 24 bytes, and not copied */
};

/* A piece of the application's memory. */
struct wulgach_piece {
    uint32_t what; /* enum wulgach_what */
    uint64_t from;
    uint64_t size; /* in bytes; of a path and of a name, which end by themselves, how many are read
                      at most */
};

/* What was copied of an entry. */
struct wulgach_copied {
    uint32_t count; /* pieces, */
    int32_t fault; /* and the fault of the last, or 0: -14 (EFAULT) if it can't be read, or one of
                      those below */
    uint32_t vectors; /* how many these hold */
    struct wulgach_link before; /* the entry before it in its call, */
    bool has_before; /* if there is one */
};

/* Writes the piece that is copied next of an entry when it is submitted, and returns 1. Else
 * nothing more is copied, and it returns the fault of the entry, or 0. That is the first of those
 * of its pieces, in their order, where one that is too long (an address, a value) isn't copied; -22
 * (EINVAL) if it takes a provided buffer and hasn't one vector; and -22 of a linked timeout, but
 * after an entry that links it and is none itself. Of an OPENAT2, after its structure and before
 * its path, come -22 of a registered buffer and -9 (EBADF) of a slot. */
int32_t wulgach_next_piece(const struct wulgach_submission *entry,
    const struct wulgach_copied *copied, struct wulgach_piece *piece);

/* Writes the one buffer of a READ, a WRITE, a READ_FIXED or a WRITE_FIXED, `addr` and `len`, and
 * returns true: whatever stands before the entry, that is the piece that is told first, and then,
 * where it has no fault, nothing more, and 0. False, and nothing is written: it is another entry.
 */
bool wulgach_one_buffer(const struct wulgach_submission *entry, struct wulgach_piece *buffer);

/* How many bytes of a provided buffer the request of an entry takes at most, which asks for so
 * many: these; or 0, if it takes none. */
uint64_t wulgach_wanted_of(const struct wulgach_submission *entry, uint64_t length);

/* The fault of a path that was read, or of an attribute's name, which is of so many letters and has
 * its end, or not, in what was read of it; or 0. Of a path without an end -36 (ENAMETOOLONG), and
 * of an empty one -2 (ENOENT), but of the first path of a STATX or a LINKAT with AT_EMPTY_PATH. Of
 * a name without an end, of none or of more than 255 letters -34 (ERANGE). `is_second`: it is
 * WULGACH_SECOND_PATH. */
int32_t wulgach_name_fault(
    const struct wulgach_submission *entry, bool is_second, uint64_t length, bool has_end);

/* The fault of a time, -22 if it is negative, or 0. */
int32_t wulgach_time_fault(int64_t seconds, int64_t nanoseconds);

/* The header of a message, as it was copied: `struct msghdr`, with what counts of it. */
struct wulgach_header {
    uint64_t name; /* where the address stands, or 0 */
    uint64_t vectors; /* where the vectors stand, */
    uint64_t vector_count; /* and how many there are */
    uint64_t control_size; /* of control data, in bytes */
    uint32_t name_size; /* of the address, in bytes: 31 bits, else it is negative */
};

/* Writes the piece that is copied next of an entry's message (WULGACH_ADDRESS or WULGACH_VECTORS),
 * after so many of which the last has this fault, or 0, and returns 1. Else nothing more is copied,
 * and it returns the fault of the message, or 0. These come in this order: -22 (EINVAL) of an
 * address whose length is negative; that of the address, which only a message that is sent has
 * copied; -90 (EMSGSIZE) of more than 1,024 vectors; -22 of more than one where it takes a provided
 * buffer; that of the vectors; and -75 (EOVERFLOW) of a RECVMSG that goes on, if what stands in
 * front of the bytes has no length of 31 bits. */
int32_t wulgach_next_message_piece(const struct wulgach_submission *entry,
    const struct wulgach_header *header, uint32_t copied, int32_t fault,
    struct wulgach_piece *piece);

/* Whether the address that the operation of this code names is copied by itself, as of
 * IORING_OP_CONNECT and BIND; else it stands in the message that is sent. */
bool wulgach_is_address_alone(uint8_t code);

/* How many vectors the message of an entry has that has so many: none count as an empty one, where
 * it takes a provided buffer. */
uint64_t wulgach_message_vectors(const struct wulgach_submission *entry, uint64_t vectors);

/* The fault of vectors with one more, after others that have the fault `before`, or 0: -22 if the
 * length of one is negative, else -14 (EFAULT) if no program can have one. Of a lone one no more is
 * looked at than a transfer moves; of an entry that takes a provided buffer nothing is. */
int32_t wulgach_vector_fault(const struct wulgach_submission *entry, int32_t before, uint64_t from,
    uint64_t size, bool is_lone);

/* How many bytes a transfer moves at most of buffers with so many bytes and one more: 0x7ffff000
 * and no more. */
uint64_t wulgach_length_with(uint64_t length, uint64_t size);

/* The fault of how a file is opened, -7 (E2BIG) if what is newer isn't all 0; and of an entry after
 * its first path: -22 of an open that goes to a slot and has O_CLOEXEC, be it by its entry's flags
 * or by those of its structure (`how`). Each is 0 if there is none. */
int32_t wulgach_how_fault(bool is_rest_zero);

/* How many bytes are read next of a text, or of the rest of a structure, of which so many are left
 * at most, and whose next byte is at this address; 0 once it is over. */
uint64_t wulgach_text_part(uint64_t at, uint64_t left, bool is_over);
int32_t wulgach_open_fault(const struct wulgach_submission *entry, uint64_t how);

/* Where the parts of a message stand in a buffer, of a RECVMSG that goes on, in bytes from its
 * beginning. */
struct wulgach_layout {
    uint64_t name; /* the address, */
    uint64_t control; /* the control data, */
    uint64_t bytes; /* and the bytes of the message, */
    uint64_t room; /* of which so many have room; */
    bool has_name; /* the call is to tell its sender, */
    bool has_control; /* and its control data: where there is room for them */
};

/* Writes where they stand in a buffer of this size, after 16 bytes, with room for so many of an
 * address and of control data; and returns true. False: what stands in front of the bytes has no
 * room itself. */
bool wulgach_layout_of(
    uint32_t name, uint64_t control, uint64_t size, struct wulgach_layout *layout);

/* How much of the buffer has something after a message of so many bytes: 2^64 - 1 at most. */
uint64_t wulgach_layout_filled(const struct wulgach_layout *layout, uint32_t came);

/* What a no-op ends with that has found the file and the buffer that it looks for: the number that
 * it is to inject, or 0. */
int32_t wulgach_no_op_result(const struct wulgach_submission *entry);

/* ---- what a ring refuses that goes by a kernel ---- */

struct wulgach_strict {
    bool has_skipped; /* an entry had IOSQE_CQE_SKIP_SUCCESS, and wasn't refused for that */
};

/* Returns with which flags the set-up of a strict ring, which has these, asks the kernel: all but
 * IORING_SETUP_ATTACH_WQ, since what it names is no ring of the kernel's. Our own rule. */
uint32_t wulgach_strict_flags_asked(uint32_t flags);

/* Begins a ring that has seen no entry. */
void wulgach_strict_begin(struct wulgach_strict *strict);

/* Returns the error with which it refuses the next entry, or 0. A strict ring goes by this
 * machine's kernel, which serves the operation and knows IOSQE_CQE_SKIP_SUCCESS or not; another
 * that goes by Linux's rules by one that serves all; and one by the manual pages' rules by none,
 * and refuses nothing so. Else that is -22 (EINVAL) of an operation, or of IOSQE_CQE_SKIP_SUCCESS,
 * that the kernel hasn't, and the fault that any ring finds first, of an operation and of flags;
 * else -95 (EOPNOTSUPP) of a drain once an entry without such a fault has skipped its success, for
 * good. */
int32_t wulgach_strict_refusal(struct wulgach_strict *strict,
    const struct wulgach_submission *entry, bool is_strict, bool linux_rules, bool is_served,
    bool knows_skip);

/* ---- messages between rings ---- */

/* The ring that a message goes to, as its sender finds it. */
struct wulgach_receiver {
    bool is_open; /* the entry names an open file, */
    bool is_ring; /* which is a ring, */
    bool is_sender; /* the sender's own, */
    bool is_disabled; /* or one that was set up disabled, and isn't enabled */
};

/* What is done for a message: a set of bits, which are done by rising bits until a step fails, with
 * whose fault it ends. */
enum wulgach_sending {
    WULGACH_SENDS_NOTHING = 0, /* it ends with an error */
    WULGACH_HAS_MESSAGE = 1, /* there is memory for what the other ring is told: else -12 */
    WULGACH_FINDS_FILE = 2, /* a registered file is looked for in the sender's own slot: else -9 */
    WULGACH_PASSES_FILE = 4, /* it is passed to the other ring's table: the message ends with what
                                comes of that, else with 0 */
    WULGACH_TELLS_RING = 8 /* the other ring is told, if it is to be (wulgach_told_of) */
};

/* A completion that is posted to another ring. */
struct wulgach_message {
    uint64_t user_data;
    int32_t res;
    uint32_t flags;
};

/* Whether the entry of a message names its ring by a slot, with IOSQE_FIXED_FILE, or by a
 * descriptor. */
bool wulgach_message_is_by_slot(const struct wulgach_submission *entry);

/* Whether the file that the entry of a message names may be a ring's: one that IOSQE_FIXED_FILE
 * names never is, since a ring's can't be registered (io_uring_register(2), IORING_REGISTER_FILES).
 */
bool wulgach_may_be_ring(const struct wulgach_submission *entry);

/* Returns what is done for a message to this ring (enum wulgach_sending), and writes its error, or
 * 0: with data all but a file's step, with a file all, so that none is passed of which the other
 * ring can't be told. The first of these errors counts: -9 (EBADF) to what isn't open; -77 (EBADFD)
 * to what is no ring; -22 (EINVAL) of data with what belongs to files (`addr3`,
 * IORING_MSG_RING_CQE_SKIP, and without IORING_MSG_RING_FLAGS_PASS `file_index`), of a file with a
 * length or to the sender itself, and of what is neither; -77 to a ring that is disabled. Of `addr`
 * and `addr3` 32 bits count. */
uint32_t wulgach_sending_of(
    const struct wulgach_submission *entry, const struct wulgach_receiver *to, int32_t *fault);

/* Writes what the other ring is told where a message does what it does with this result (a file's
 * is its slot, 0, or an error): its data, or that result. False: nothing, of what has failed or has
 * IORING_MSG_RING_CQE_SKIP. */
bool wulgach_told_of(
    const struct wulgach_submission *entry, int32_t res, struct wulgach_message *message);

/* Whether a message that a ring was sent is posted now, where there is one and a completion may be
 * posted, or may not: by whoever is in a call on the ring, before anything goes on there; and by
 * who has left such a call or has sent a message, as long as there are others and nobody is in one.
 * Our own rule. */
bool wulgach_posts_message(bool is_there, bool may_post);

/* Whether a ring that another thread may have sent messages to is visited by who can have its lock,
 * and once more after each visit: messages are there, and the last visit has left none (as before
 * the first), or one that could be posted as it ended. Our own rule. */
bool wulgach_visits_again(bool is_there, bool was_left, bool could_post);

/* What the sender of a message does after it. */
enum wulgach_visit {
    WULGACH_VISITS_NOBODY = 0,
    WULGACH_POSTS_OWN = 1, /* it posts what its own ring was sent */
    WULGACH_VISITS_OTHER = 2 /* it posts what the other ring was sent, if nobody is in a call on
                                that; else who is does */
};

/* Returns what the sender of a message to this ring does after one that has come to this result
 * (enum wulgach_visit): of one that failed nothing. */
uint32_t wulgach_visit_of(const struct wulgach_receiver *to, int32_t res);

/* Whether an index word names a slot of a table of so many entries: the one of that number. Else it
 * is dropped. */
bool wulgach_names_slot(uint32_t word, uint32_t entries);

/* What the core is given of an entry. */
struct wulgach_core_entry {
    uint64_t user_data;
    uint64_t target; /* of a cancel: the user data that it looks for, else 0 */
    uint32_t len; /* 0, or 65, which it refuses */
    uint8_t code; /* a no-op or a cancel; of an entry with a fault 255, which it doesn't serve, if
                     that is an unknown operation or a flag, else a read of that length */
    uint8_t flags; /* those that it is told, whatever fault the entry has */
};

/* An entry of a call, as far as what the core is told of the one beside it goes by it; all 0: there
 * is none. */
struct wulgach_beside {
    bool is_there;
    bool begins; /* it is the first of its chain */
    bool is_refused; /* it has a fault, */
    bool is_past; /* which isn't of its operation or its flags, if it has one */
    uint8_t opcode;
    uint8_t flags;
};

/* Writes that of an entry that is this to the core (enum wulgach_form), and which the one before it
 * links or doesn't. */
void wulgach_beside_of(const struct wulgach_submission *entry, uint32_t form, bool is_linked,
    struct wulgach_beside *beside);

/* Writes what the core is given of an entry between these of its call. By Linux's rules a linked
 * timeout that ends its chain posts as its own flags say: so a soft link before one is told as a
 * hard one; and if the one before it is the chain's first entry, and has a fault, that is told to
 * ask for skipped success as the timeout does, and the timeout if either does, so that drains after
 * it are refused. By the manual pages' all is as without them. */
void wulgach_core_entry_between(const struct wulgach_submission *entry, uint32_t form,
    const struct wulgach_beside *before, const struct wulgach_beside *next, bool linux_rules,
    struct wulgach_core_entry *made);

/* Writes the words of what the core is given, as calls of wulgach.h take them: each field stands
 * where that of struct io_uring_sqe does, `target` as its address, and all others are 0. */
struct wulgach_entry;
void wulgach_core_words(const struct wulgach_core_entry *made, struct wulgach_entry *entry);

/* Returns what an entry is to the core (enum wulgach_form) whose end a completion is that belongs
 * to no end of a request, as an event or a message, and writes its operation: by Linux's rules an
 * unknown one, which is refused, and waits for no drain; else a no-op. */
uint32_t wulgach_extra_of(bool linux_rules, uint8_t *code);

/* What the core is told of the end of a request that it let start: 0 of a success, as an extra one
 * is that it lets start, and -9 of any failure: which it was matters to none of its rules. */
int32_t wulgach_told_of_end(bool is_success);

#ifdef __cplusplus
}
#endif

#endif
