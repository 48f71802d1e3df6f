/* Wulgach: what carrying an operation out needs, and whether it has to wait, as decisions, for
 * whoever keeps a ring as the kernel does. The functions are in the library of wulgach.h, and
 * proved as those are. The layer under liburing calls them.
 */
#ifndef WULGACH_WAITS_H
#define WULGACH_WAITS_H

#include "wulgach_enter.h"
#include "wulgach_form.h"
#include "wulgach_taking.h"

#ifdef __cplusplus
extern "C" {
#endif

/* ---- what an operation needs ---- */

/* What the operation of an entry needs, of one that is a token, and of which kind it is. */
struct wulgach_needs {
    bool needs_file; /* an open file, */
    bool is_registered; /* which the entry names by the slot of a table: IOSQE_FIXED_FILE */
    bool needs_second; /* a second one, that a splice or a tee reads from, */
    bool is_second_registered; /* by the slot of a table: SPLICE_F_FD_IN_FIXED */
    bool uses_buffer; /* a registered buffer */
    bool selects; /* a provided buffer, when it is carried out: IOSQE_BUFFER_SELECT */
    bool goes_on; /* it can have more than one completion: a poll, an accept or a receive */
    bool is_timeout; /* it ends when its count is reached, or its time is over */
    bool can_make_ready; /* carrying it out can make a descriptor ready, or unready */
    bool is_read; /* it reads into vectors, */
    bool is_write; /* or writes them */
    bool is_poll; /* it looks for events of its file */
    bool is_of_sockets; /* it sends, receives, accepts or connects */
    bool is_receive; /* it receives a message, */
    bool fills_buffer; /* and puts what belongs to that into its buffer, in front of the bytes */
    bool is_zero_copy; /* it has a second completion, that its memory may be used again */
    uint32_t events; /* for which its file is polled, as poll(2) has them, with POLLERR, POLLHUP,
                        POLLNVAL and POLLRDHUP of a poll; or 0 */
    int32_t fd; /* the descriptor of its file, or the slot, */
    int32_t second_fd; /* and of the second one */
    uint16_t buffer; /* the slot of its registered buffer */
    uint32_t sought; /* what is looked for before it is carried out: the bit 1 << NEED of each (enum
                        wulgach_need) */
};

/* What is looked for before an operation is carried out, by rising bits: the first that isn't there
 * ends its request, and no other is looked for. */
enum wulgach_need {
    WULGACH_NEEDS_FILE = 0, /* the file that it is carried out on */
    WULGACH_NEEDS_SECOND = 1, /* the one that it reads from */
    WULGACH_NEEDS_OPEN = 2, /* that these are open */
    WULGACH_NEEDS_BUFFER = 3, /* its registered buffer, which has its bytes */
    WULGACH_NEEDS_POLLING = 4, /* that the first can be polled */
    WULGACH_NEEDS_KIND = 5 /* what its descriptor is, and so whether it may have to wait for that */
};

/* Writes what the operation of an entry needs, and of which kind it is. */
void wulgach_needs_of(const struct wulgach_submission *entry, struct wulgach_needs *needs);

/* Writes what the request of an entry needs that is this to the core (enum wulgach_form): nothing,
 * all zeros, but of a token. */
void wulgach_needs_as(
    const struct wulgach_submission *entry, uint32_t form, struct wulgach_needs *needs);

/* When the files and the buffer of a request are found. */
enum wulgach_found {
    WULGACH_FOUND_AT_START = 0, /* when it starts */
    WULGACH_FOUND_BY_CALL = 1, /* by the call that has taken it */
    WULGACH_FOUND_IN_TURN = 2, /* by that call, as it starts, or before one after it does, or the
                                  call sleeps or returns */
    WULGACH_ASKS_START = 3 /* by the call, if the core lets it start: that is asked */
};

/* Returns when those of a request are found that a call has taken just now (enum wulgach_found), as
 * far as it is known whether the core lets it start. The call finds them if nothing links it, and
 * no drain was ever accepted; or nothing that drains is outstanding, itself among that, unless the
 * ring goes by Linux's rules, and the core lets it start. Those of another may be what those before
 * it open. After one of its call that may change slots it finds them in its turn. */
uint32_t wulgach_drains_find_file(const struct wulgach_drains *drains,
    const struct wulgach_member *request, bool linux_rules, bool after_change, bool knows_start,
    bool may_start);

/* The entries of a call, one after the other, as far as they were seen. */
struct wulgach_changes {
    bool may_change_slots; /* the operation of one may change what the slots of its ring's table of
                              files hold */
};

/* Begins with none; and sees the next one. */
void wulgach_changes_begin(struct wulgach_changes *changes);
void wulgach_changes_see(struct wulgach_changes *changes, const struct wulgach_submission *entry);

/* What an operation, or a call, looks for. */
enum wulgach_missing {
    WULGACH_NO_FILE = 0, /* a descriptor isn't open, or a slot has no file: -9 (EBADF) */
    WULGACH_NO_BUFFER = 1, /* a registered buffer isn't there: -14 (EFAULT) */
    WULGACH_NO_MEMORY = 2, /* memory of the application's can't be read, or written: -14 */
    WULGACH_NO_MEMORY_OWN = 3, /* there is no memory for what is kept of a ring: -12 (ENOMEM) */
    WULGACH_NO_PATH_END = 4, /* a path doesn't end in 4,096 bytes: -36 (ENAMETOOLONG) */
    WULGACH_NO_ROOM = 5, /* a buffer has no room for what stands in front of a message: -14 */
    WULGACH_NO_PROVIDED = 6, /* a group has no buffer: -105 (ENOBUFS) */
    WULGACH_NO_REQUEST = 7 /* there is no request that an update or a removal names: -2 (ENOENT) */
};

/* What it ends with that this isn't found (enum wulgach_missing). */
int32_t wulgach_missing_fault(uint32_t what);

/* The fault of looking for a file by its slot, which has one or hasn't, or by its number, or 0: a
 * negative number has no file, -9 (EBADF). Whether another one counts as open is asked elsewhere
 * (wulgach_counts_as_open). */
int32_t wulgach_found_fault(bool is_of_slot, bool has_file, int32_t fd);

/* How memory of the application's is copied, so that what can't be read or written is a fault, and
 * not the end of the program. */
enum wulgach_copying {
    WULGACH_COPIES_BY_PROCESS =
        0, /* by process_vm_readv(2) or process_vm_writev(2), of the own process */
    WULGACH_COPIES_BY_PIPE = 1, /* a part at a time is written to a pipe and read from it */
    WULGACH_COPIES_PLAINLY = 2, /* as it comes */
    WULGACH_COPYING_IS_DONE = 3,
    WULGACH_COPYING_FAILS = 4, /* it has the fault of WULGACH_NO_MEMORY */
    WULGACH_COPYING_BEGINS = 5
};

/* Returns how a copy of so many bytes goes on (enum wulgach_copying) after this, which copied so
 * many, or came to this error: BEGINS at first. A part of the bytes, or -14 (EFAULT), ends it;
 * after any other error the next way is tried. Our own rule. */
uint32_t wulgach_copying_next(uint32_t last, int64_t copied, uint64_t size);

/* ---- what counts as open ---- */

/* How a descriptor is open. */
struct wulgach_openness {
    bool is_open; /* there is such a descriptor, */
    bool is_path; /* and it is open for its path alone: O_PATH */
};

/* Whether a descriptor counts as open that is this. One that an entry or a call names by its number
 * does, unless it is open for its path alone: what is done with its file, a cancel, a message, a
 * ring, an eventfd and what is to be registered find none then. What a slot holds counts. */
bool wulgach_counts_as_open(const struct wulgach_openness *openness, bool is_of_slot);

/* Whether the request of an entry, which had failed as it started or hadn't, has ended with this
 * result because something that it needs wasn't there, where its descriptor is this: it had failed,
 * or it is carried out on a file, has ended with -9 (EBADF), and that doesn't count as open. And
 * whether it matters to that how its descriptor is open. */
bool wulgach_is_missing(const struct wulgach_submission *entry, bool has_failed, int32_t res,
    const struct wulgach_openness *openness);
bool wulgach_asks_openness(const struct wulgach_submission *entry, int32_t res);

/* ---- whether it may have to wait for its descriptor ---- */

/* What a descriptor is. */
struct wulgach_nature {
    bool is_open; /* there is such a descriptor */
    bool is_file; /* a regular file that can't be polled */
    bool is_device; /* a character device, or a regular file that can be polled, as a queue of
                       messages or /proc/kmsg: it may have to wait */
    bool is_socket;
    bool has_offsets; /* it can be read or written at an offset */
    bool can_read; /* it is open for reading, */
    bool can_write; /* for writing */
    bool is_counter; /* it gives and takes 8 bytes at once: an eventfd, or a timerfd */
    bool tells_signals; /* it gives 128 bytes for each signal: a signalfd */
    bool has_type; /* it has a type of file, as a pipe and a socket too have one */
};

/* What is known of a descriptor: what was asked is so, and the rest counts for nothing. */
struct wulgach_known {
    bool status; /* it was asked what it is: the first four and the last three, */
    bool offsets; /* whether it has offsets, */
    bool access; /* for what it is open */
    struct wulgach_nature nature;
};

/* What else says whether a transfer may be tried before its descriptor is asked. */
struct wulgach_trial {
    uint64_t length; /* the bytes of its vectors */
    bool was_tried;
    bool was_file; /* its descriptor's number was that of a file that could be asked not to wait,
                      when that was last asked, */
    bool was_in_memory; /* or of one in memory, which can't be asked so */
    bool has_no_devices; /* the user says that no device whose reads wait is read */
    bool is_asked_before; /* a choice rests on whether it may have to wait */
};

/* What is asked of a descriptor next, or what a request is on it. */
enum wulgach_kind {
    WULGACH_KIND_NEVER = 0, /* it never has to wait */
    WULGACH_KIND_AT_ONCE =
        1, /* a read that is made at once, asked not to wait: nothing was asked */
    WULGACH_KIND_TRIED =
        2, /* a transfer that is made at its offset before more is asked: on a file; or a read of
            * what was one in memory, where no device is read: nothing was asked, since what has no
            * offsets ends it at once, with -29 (ESPIPE) */
    WULGACH_KIND_STREAM = 3, /* it may have to wait */
    WULGACH_KIND_WRONG = 4, /* its descriptor isn't open for it, and would never get ready: it fails
                               with -9 (EBADF) */
    WULGACH_ASK_STATUS = 5,
    WULGACH_ASK_OFFSETS = 6,
    WULGACH_ASK_ACCESS = 7
};

/* Whether a descriptor of which fstat(2) says this, its mode and how many blocks it has, is asked
 * whether it can be polled (wulgach_counts_as_polled): a regular file that has none, which what
 * lies on a disk has. */
bool wulgach_asks_polling(uint32_t mode, uint64_t blocks);

/* Writes what is known of a descriptor once it was asked for its status: by its mode, if it is
 * open, and whether it can be polled, if it was asked for that; or, of a file in memory, unasked.
 */
void wulgach_note_status(struct wulgach_nature *nature, bool is_in_memory, bool is_open,
    bool can_be_polled, uint32_t mode);

/* Returns what is asked next of the descriptor of an entry's request, or what the request is on it
 * (enum wulgach_kind). Nothing is asked twice, and nothing that doesn't matter. A poll and a splice
 * may have to wait whatever their descriptors are, an operation of sockets on a socket, and a
 * transfer on a device or on what has no offsets; others never do. */
uint32_t wulgach_find_kind(const struct wulgach_submission *entry,
    const struct wulgach_trial *trial, const struct wulgach_known *known);

/* With what the request of an entry ends that finds no buffer, provided or registered, where its
 * descriptor is this: -9 (EBADF) if that isn't open, -88 (ENOTSOCK) of an operation of sockets if
 * it is no socket; else -105 (ENOBUFS) of a provided buffer and -14 (EFAULT) of a registered one.
 */
int32_t wulgach_no_buffer_fault(
    const struct wulgach_submission *entry, const struct wulgach_nature *nature);

/* With what the request of an entry ends that had this fault as it started, where its group has a
 * buffer, or that doesn't matter, or its descriptor is this: with the fault, but one that finds no
 * provided buffer ends as wulgach_no_buffer_fault says, whatever that is, as -9 of a descriptor
 * that is open in the wrong direction. And whether it matters. */
int32_t wulgach_ends_at_start(const struct wulgach_submission *entry, int32_t fault,
    bool has_buffer, const struct wulgach_nature *nature);
bool wulgach_fault_asks_buffer(const struct wulgach_submission *entry, int32_t fault);

/* Whether what ends with such a fault, as it started or later, has had a provided buffer, where its
 * group has one, and so may have taken it (wulgach_takes_for_nothing): it hasn't where its
 * descriptor isn't open. */
bool wulgach_has_had_buffer(const struct wulgach_submission *entry, int32_t fault, bool has_buffer,
    const struct wulgach_nature *nature);

/* Whether a descriptor with this name in /proc is an eventfd, whether it counts: an eventfd, or a
 * timerfd, and whether it tells of signals: a signalfd. The name has `length` bytes. */
bool wulgach_is_eventfd_name(const uint8_t *name, size_t length);
bool wulgach_is_counter_name(const uint8_t *name, size_t length);
bool wulgach_is_signals_name(const uint8_t *name, size_t length);

/* Whether the descriptor of the transfer of an entry, of so many bytes, is asked for that name,
 * where it is this but for what that says: a read of fewer than 128 bytes, but of 8, which what
 * counts gives, and a write of fewer than 8, but of none, if it has no type of file. */
bool wulgach_asks_name(
    const struct wulgach_submission *entry, uint64_t length, const struct wulgach_nature *nature);

/* With what the request of an entry ends whose buffer has this fault (`why`), where its descriptor
 * is this: -9 and -88 as above, else with that. */
int32_t wulgach_buffer_fault(
    const struct wulgach_submission *entry, const struct wulgach_nature *nature, int32_t why);

/* For which directions a descriptor is open. */
struct wulgach_directions {
    bool can_read, can_write;
};

/* Writes for which one is open that has these flags (fcntl(2), F_GETFL): by O_ACCMODE, and for none
 * with O_PATH. */
void wulgach_directions_of(uint32_t flags, struct wulgach_directions *directions);

/* With what the operation of an entry, of so many bytes, fails as it starts, where its descriptor
 * is this; or 0. First -9 (EBADF) where that is of the wrong kind (WULGACH_KIND_WRONG). Then -11
 * (EAGAIN) of a message that asks for a poll first (IORING_RECVSEND_POLL_FIRST), and isn't to wait
 * (MSG_DONTWAIT). Then, of a transfer, -9 of what isn't open, at an offset of 2^63 or more; -95
 * (EOPNOTSUPP) and -22 (EINVAL) of flags that what has no offsets, and is no device, doesn't take;
 * -22 of fewer than 8 bytes of what counts, but of a write of none, and of fewer than 128 of a
 * signalfd; and of what has no offsets, though one counts for nothing there, at another than 2^64 -
 * 1: -22 of one from which the bytes would go past the last that 63 bits have, and -29 (ESPIPE) of
 * a socket's but 0. */
int32_t wulgach_start_fault(const struct wulgach_submission *entry, bool is_wrong, uint64_t length,
    const struct wulgach_nature *nature);

/* ---- whether it can be finished ---- */

/* Whether a descriptor counts as ready of which a poll(2) that doesn't wait came to this, and shows
 * these events: if it shows one, or if the poll failed, since then the operation's own call tells
 * why, or would wait. */
bool wulgach_counts_as_ready(int32_t came, uint16_t events);

/* How a request stands that runs. */
struct wulgach_standing {
    bool is_stream; /* it may have to wait for its descriptor */
    bool has_found_buffer; /* of one that takes a provided buffer: it has found one in its group
                              since it started, or is to be polled first
                              (wulgach_waits_after_search) */
};

/* What is so at a moment, as far as it was asked. */
struct wulgach_moment {
    bool knows_count, has_counted; /* of a timeout: its count is reached */
    bool knows_posting, may_post; /* a completion may be posted before its end */
    bool knows_buffer, has_buffer; /* there is a buffer in the group of which it takes one */
    bool knows_readiness,
        is_ready; /* its descriptor was found ready, or it doesn't wait for that */
};

/* Whether it can be finished, or what is asked next: wulgach_can_finish of wulgach_lookout.h says
 * which. */
enum wulgach_look {
    WULGACH_LOOK_WAITS = 0,
    WULGACH_LOOK_FINISHES = 1,
    WULGACH_ASK_COUNT = 2,
    WULGACH_ASK_POSTING = 3,
    WULGACH_ASK_BUFFER = 4,
    WULGACH_ASK_READINESS = 5
};

/* Whether a call that sleeps polls the descriptor of a request that runs: it may have to wait for
 * that. Another is finished or not whatever its descriptor is. */
bool wulgach_polls(const struct wulgach_standing *standing);

/* Whether a request is to be given a descriptor of its own, from the end of a call on or before a
 * close, since the application may close its: it may have to wait; or its file was looked for
 * (`is_sought`), with no fault (0), and is named by a number and not by a slot. Who has a file that
 * is kept for it (`has_file`) needs no other. Our own rule: a kernel's request has its file from
 * the moment in which it finds that. */
bool wulgach_keeps_open(const struct wulgach_standing *standing, const struct wulgach_needs *needs,
    bool is_sought, int32_t fault, bool has_file);

/* Whether the same is so of its second descriptor, where a splice reads, for which a file is kept
 * already, or isn't. */
bool wulgach_keeps_second_open(const struct wulgach_standing *standing,
    const struct wulgach_needs *needs, bool is_sought, int32_t fault, bool has_file);

/* For what a splice or a tee is polled. */
struct wulgach_splice_poll {
    bool is_of_source; /* what it reads from is polled, else what it writes to, */
    uint16_t events; /* for these, as poll(2) has them */
};

/* Writes for what a splice or a tee is polled: for what it reads from, and once that was found
 * ready for what it writes to. */
void wulgach_splice_polls(bool is_source_ready, struct wulgach_splice_poll *asked);

/* The ends of a splice or a tee that would have to wait for one of them. */
struct wulgach_splice_ends {
    uint32_t domain, kind; /* of the socket for which it waits, as SO_DOMAIN and SO_TYPE have them;
                              0 if that is none */
    bool waits_to_read; /* it waits for what it reads from, else for what it writes to: */
    bool is_pipe, other_is_pipe; /* that is a pipe, and the other end is one; */
    bool is_unwilling,
        other_is_unwilling; /* that isn't to wait, and the other end isn't: O_NONBLOCK */
};

/* Whether a splice or a tee that would have to wait isn't to, and ends with -11 (EAGAIN): by
 * O_NONBLOCK of what it waits for; and, if that is a pipe, or a local stream from which it reads,
 * also by SPLICE_F_NONBLOCK, or by O_NONBLOCK of the other end if that is a pipe. */
bool wulgach_splice_isnt_to_wait(
    const struct wulgach_submission *entry, const struct wulgach_splice_ends *ends);

/* What a splice comes to whose call came to this, and which reads from and writes to what is open
 * for these directions: -9 (EBADF), where they aren't open for that, in the place of -29 (ESPIPE)
 * of a pipe's offset. And whether that matters. */
int32_t wulgach_splice_result(
    int32_t came_to, const struct wulgach_directions *from, const struct wulgach_directions *to);
bool wulgach_splice_asks_directions(int32_t came_to);

/* How far a request has come. */
struct wulgach_patience {
    uint64_t length; /* the bytes of its vectors */
    bool has_failed; /* when it started */
    bool has_begun; /* of a connect or a splice, or of a receive of urgent data: it was begun */
    bool knows_listening; /* its socket was asked whether it listens, */
    bool is_listening; /* and does */
    bool is_socket; /* its descriptor is a socket's */
};

/* Whether a request doesn't wait, whatever its descriptor has: it has failed, or is asked not to
 * wait, or for nothing, but by a write of no bytes to a socket, which may send an empty datagram; a
 * connect, a splice and a receive of urgent data until they are begun, which finds their faults;
 * what opens a path; what would send or receive by a socket that listens; and what would accept by
 * one that doesn't. */
bool wulgach_is_impatient(
    const struct wulgach_submission *entry, const struct wulgach_patience *patience);

/* Whether the socket of a request is asked as it starts whether it listens, where its descriptor
 * was found ready then, or wasn't: of what would have to wait, but of polls and splices. Our own
 * rule. */
bool wulgach_asks_listening(const struct wulgach_needs *needs, bool is_ready);

/* Whether a request that wasn't found ready as it starts is carried out once all the same, and
 * waits only then: one that writes or sends, since there may be some room where poll(2) finds too
 * little, as in a pipe's last page or a local socket's buffer; and one that reads or receives, if
 * its socket counts as ready with so many bytes (SO_RCVLOWAT, 0 of what is none), which are more
 * than one. None that asks to be polled first (IORING_RECVSEND_POLL_FIRST). */
bool wulgach_is_tried_first(const struct wulgach_submission *entry, uint32_t least);

/* Whether what takes a provided buffer waits from now on for its descriptor, whatever its group
 * has, where a look at that found a buffer or none: one that has found one does, and one that asks
 * to be polled first (IORING_RECVSEND_POLL_FIRST), which takes its buffer only then. */
bool wulgach_waits_after_search(const struct wulgach_submission *entry, bool is_found);

#ifdef __cplusplus
}
#endif

#endif
