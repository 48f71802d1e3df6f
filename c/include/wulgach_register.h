/* Wulgach: what calls of io_uring_register(2) read and refuse, which memory they take, a ring's
 * eventfd, which thread may call, and rings by number, as decisions, for whoever keeps a ring as
 * the kernel does. The functions are in the library of wulgach.h, and proved as those are. The
 * layer under liburing calls them.
 */
#ifndef WULGACH_REGISTER_H
#define WULGACH_REGISTER_H

#include "wulgach.h"

#ifdef __cplusplus
extern "C" {
#endif

/* ---- memory that is registered ---- */

/* Memory that is to be registered as a buffer, or as a ring of buffers, and what is known of it. */
struct wulgach_memory {
    uint64_t from; /* its address, */
    uint64_t size; /* and its bytes */
    uint64_t page; /* the bytes of a page */
    bool is_asked; /* its pages could be asked for, to be written, */
    bool is_there; /* and are there */
    bool is_listed; /* it is known with which files it is shared, */
    bool is_written_back; /* and one of them is written back */
};

/* The fault of registering it, or 0: -75 (EOVERFLOW) if its last page has no end, -14 (EFAULT) if a
 * page isn't there or can't be written, or is shared with a file that the kernel writes back. What
 * isn't known is no fault. */
int32_t wulgach_pinning_fault(const struct wulgach_memory *memory);

/* Whether one of so many bytes from an address on stands between a start and an end, as of memory
 * that is shared with a file. */
bool wulgach_has_byte_of(uint64_t from, uint64_t size, uint64_t start, uint64_t end);

/* What a line of /proc/PID/maps (proc_pid_maps(5)) says of the memory that it is of. */
struct wulgach_mapped {
    uint64_t start, end; /* the address where it starts, and the one after it */
    uint64_t offset; /* where in its file it begins */
    uint64_t inode; /* that file's inode, 0 without one */
    uint64_t path; /* where in the line the path of its file begins, or the line's length; */
    uint32_t major; /* the major number of that file's device, 0 without one */
    bool is_shared; /* other processes see what is written; */
    bool is_asked; /* then, if it is a path from the root on, its file system is asked about by
                      statfs(2) */
};

/* Writes what such a line says, without its end. False: it isn't one, since an address or an offset
 * isn't a hexadecimal number of 64 bits, or that of its device none of 32, or its inode no decimal
 * one of 64; and nothing is written. */
bool wulgach_mapped_of(const uint8_t *line, size_t length, struct wulgach_mapped *mapped);

/* Whether this memory is shared with a file that the kernel writes back: if the file's device has a
 * major number, or else if its file system keeps files elsewhere than in memory. `kind` is
 * statfs's, if that is known. */
bool wulgach_is_of_a_file(const struct wulgach_mapped *mapped, bool knows, uint64_t kind);

/* Whether it is known with which files memory is shared (struct wulgach_memory), by that list: it
 * was read to its end, and so many of its lines say what they are of, which are one at least. One
 * that doesn't is passed over. Our own rule. */
bool wulgach_is_listed(bool is_whole, uint64_t lines);

/* ---- calls of io_uring_register(2) ---- */

/* Who calls on what. */
struct wulgach_caller {
    int32_t fd; /* the descriptor that is called on */
    bool is_open, is_ring; /* whether it is open, and a ring's; then */
    bool is_another; /* whether another thread alone may call on it, */
    bool is_allowed; /* and whether its restrictions allow the call */
};

/* The fault of who makes the call of this number on what, or 0: -22 (EINVAL) of 36 and more, and of
 * the descriptor -1; -9 (EBADF) if it isn't open, -95 (EOPNOTSUPP) of what is no ring, -17 (EEXIST)
 * of another thread, -13 (EACCES) of a call that isn't allowed, and -22 of one that isn't served.
 */
int32_t wulgach_calling_fault(uint32_t code, const struct wulgach_caller *caller);

/* The fault of the call's argument and its count, before anything is read, or 0: -14 (EFAULT) of
 * files and buffers without a list; else -22, if an argument is missing, or there is one and none
 * belongs there, or the count isn't one that the call may have. -22 too of a call that isn't
 * served. */
int32_t wulgach_argument_fault(uint32_t code, bool has_argument, uint32_t count);

/* What the call has read, as far as it has it. */
struct wulgach_content {
    uint32_t nr; /* how many it is of */
    uint32_t flags;
    bool has_reserved; /* a reserved field isn't 0; of a probe any byte */
    bool has_data; /* it names a list */
};

/* The structures that calls read, as they stand in memory; those of <linux/io_uring.h> are the
 * same. */
struct wulgach_table_form { /* `struct io_uring_rsrc_register` */
    uint32_t nr, flags;
    uint64_t resv2, data, tags;
};

struct wulgach_update_form { /* `struct io_uring_rsrc_update2` */
    uint32_t offset, resv;
    uint64_t data, tags;
    uint32_t nr, resv2;
};

struct wulgach_files_form { /* `struct io_uring_files_update` */
    uint32_t offset, resv;
    uint64_t fds;
};

struct wulgach_cancel_form { /* `struct io_uring_sync_cancel_reg` */
    uint64_t addr;
    int32_t fd;
    uint32_t flags;
    int64_t seconds, nanoseconds;
    uint64_t pad, second_pad, third_pad,
        fourth_pad; /* the lowest byte of the first is an operation's code, and isn't reserved */
};

struct wulgach_ring_form { /* `struct io_uring_buf_reg` */
    uint64_t ring_addr;
    uint32_t ring_entries;
    uint16_t bgid, pad;
    uint64_t resv, second_resv, third_resv;
};

struct wulgach_range_form { /* `struct io_uring_file_index_range` */
    uint32_t off, len;
    uint64_t resv;
};

struct wulgach_parameters_form { /* the first 40 bytes of `struct io_uring_params` */
    uint32_t sq_entries, cq_entries, flags, sq_thread_cpu, sq_thread_idle, features, wq_fd;
    uint32_t resv, second_resv, third_resv;
};

/* Writes what is judged of such a structure: of an update of files alone the call gives the count.
 * All `resv` and `pad` are reserved, and of a probe all bytes, of `struct io_uring_probe` and of
 * its rows. */
void wulgach_content_of_table(
    const struct wulgach_table_form *form, struct wulgach_content *content);
void wulgach_content_of_update(
    const struct wulgach_update_form *form, struct wulgach_content *content);
void wulgach_content_of_files(
    const struct wulgach_files_form *form, uint32_t count, struct wulgach_content *content);
void wulgach_content_of_cancel(
    const struct wulgach_cancel_form *form, struct wulgach_content *content);
void wulgach_content_of_probe(const uint8_t *bytes, size_t count, struct wulgach_content *content);

/* Whether a reserved field of such a one isn't 0. Of a ring that goes, and isn't registered, the
 * lower half of the first `resv` counts for nothing. */
bool wulgach_ring_has_reserved(const struct wulgach_ring_form *form, bool goes);
bool wulgach_parameters_have_reserved(const struct wulgach_parameters_form *form);

/* The fault of that, or 0: -14 if it couldn't be read, -22 of none, of a reserved field, of a flag
 * that isn't served, of a sparse table with a list, and of a cancel by a descriptor and any. */
int32_t wulgach_content_fault(uint32_t code, bool is_read, const struct wulgach_content *content);

/* The lists of a call: one that isn't there stands at 0. */
struct wulgach_lists {
    uint64_t rows, tags; /* where the descriptors or vectors stand, and where the tags */
    uint32_t count; /* how many rows each has */
    uint32_t from; /* the slot of the first */
};

/* Writes those of a call without a structure, whose argument is its list, without tags, and whose
 * first row is of slot 0; of a table that is registered, `data` and `tags`, from slot 0 on; of an
 * update, from `offset` on; and of one of files alone, `fds` without tags, of so many. */
void wulgach_lists_of_call(uint64_t at, uint32_t count, struct wulgach_lists *lists);
void wulgach_lists_of_table(const struct wulgach_table_form *form, struct wulgach_lists *lists);
void wulgach_lists_of_update(const struct wulgach_update_form *form, struct wulgach_lists *lists);
void wulgach_lists_of_files(
    const struct wulgach_files_form *form, uint32_t count, struct wulgach_lists *lists);

/* A row of lists. */
struct wulgach_list_row {
    uint64_t at, tag_at; /* where its descriptor or vector stands, and where its tag */
    uint32_t slot; /* its slot: they go one after the other, from the first on */
};

/* Writes the row after so many others: a descriptor takes 4 bytes, a tag 8; else it is a vector
 * (`struct iovec`), or the row of a ring
 * (`struct io_uring_rsrc_update`), of 16. */
void wulgach_row_of(const struct wulgach_lists *lists, uint32_t index, bool is_of_descriptors,
    struct wulgach_list_row *row);

/* What a probe tells in front of its rows. */
struct wulgach_probe {
    uint8_t last; /* the last operation that there is */
    uint8_t rows; /* how many rows are looked at, and told: at most one for each operation that
                     there is */
};

/* Writes that, if so many rows are asked for. What each says wulgach_probed_flags (wulgach_form.h)
 * tells. */
void wulgach_probe_of(uint32_t count, struct wulgach_probe *probe);

/* ---- the thread that may call ---- */

/* The one thread that may call on a ring, if there is one, and whether the ring is disabled. The
 * fields may be read. */
struct wulgach_issuer {
    uint32_t flags;
    bool is_disabled, wants_one, has_one;
    uint32_t thread;
};

/* A thread sets a ring up, with these flags (IORING_SETUP_..). It alone may call then with
 * DEFER_TASKRUN, and with SINGLE_ISSUER where the layer is strict; of a ring that is made disabled
 * the first that enables it. */
void wulgach_issuer_begin(
    struct wulgach_issuer *issuer, uint32_t thread, uint32_t flags, bool is_strict);
void wulgach_issuer_enable(struct wulgach_issuer *issuer, uint32_t thread);

/* Whether a thread is another one, whose calls of io_uring_register(2) are refused. And the fault
 * of a thread's call of io_uring_enter(2), or 0: -77 (EBADFD) while the ring is disabled; -17 of
 * another one if it submits, unless the ring has a thread of its own (SQPOLL), and with
 * DEFER_TASKRUN if it asks for completions (GETEVENTS). */
bool wulgach_issuer_is_another(const struct wulgach_issuer *issuer, uint32_t thread);
int32_t wulgach_entering_fault(
    const struct wulgach_issuer *issuer, uint32_t thread, uint32_t to_submit, bool gets);

/* ---- an eventfd ---- */

/* Whether a ring has an eventfd, and whether it is told of what ends asynchronously alone. The
 * fields may be read. */
struct wulgach_eventfd {
    bool is_registered, is_async;
};

void wulgach_eventfd_begin(struct wulgach_eventfd *eventfd);

/* The fault of registering one, or 0: -16 (EBUSY) if there is one, -14 if its number couldn't be
 * read, -9 if it isn't open, -22 if it is none. Each of the three is false after one that is. And
 * that is done. */
int32_t wulgach_eventfd_registering_fault(
    const struct wulgach_eventfd *eventfd, bool is_read, bool is_open, bool is_eventfd);
void wulgach_eventfd_register(struct wulgach_eventfd *eventfd, bool is_async);

/* Whether the one that the call of this number registers is told of what ends asynchronously alone:
 * IORING_REGISTER_EVENTFD_ASYNC's is. */
bool wulgach_tells_async_alone(uint32_t code);

/* The fault of unregistering it, or 0: -6 (ENXIO) if there is none; and that is done. */
int32_t wulgach_eventfd_unregistering_fault(const struct wulgach_eventfd *eventfd);
void wulgach_eventfd_unregister(struct wulgach_eventfd *eventfd);

/* Whether it is told of a completion of which wulgach_tells says that it is to be, where the
 * completion ring's flags are these; and whether a call may leave what can go on without waiting:
 * not where there is one, nor on a ring with a thread of its own. */
bool wulgach_eventfd_tells(const struct wulgach_eventfd *eventfd, uint32_t cq_flags);
bool wulgach_eventfd_may_leave(const struct wulgach_eventfd *eventfd, bool has_thread);

/* What is added to it for so many completions of which wulgach_tells says that it is to be told,
 * and that were shown together: 1, if it is told, and its counter takes that at once (`has_room`);
 * else nothing. */
uint64_t wulgach_eventfd_added(
    const struct wulgach_eventfd *eventfd, uint32_t cq_flags, uint64_t told, bool has_room);

/* ---- rings by number ---- */

/* What a thread's 16 rows hold are words of the caller's: 0 in a free one. `count` is how many
 * words there are, 16 at least. */
void wulgach_enrolled_begin(uint64_t *words, size_t count);

/* What is done by a row of a list that gives a ring a number. */
enum wulgach_enrolling {
    WULGACH_ENROLLING_READS = 0, /* it is read, */
    WULGACH_ENROLLING_JUDGES = 1, /* it is looked at, and at the descriptor that it names, */
    WULGACH_ENROLLING_PLACES = 2, /* a number is looked for that is free, */
    WULGACH_ENROLLING_FILLS = 3, /* the ring gets it, */
    WULGACH_ENROLLING_TELLS = 4, /* and it is told in the row */
    WULGACH_ENROLLING_FAILS = 5, /* it fails with what the last came to, */
    WULGACH_ENROLLING_EMPTIES = 6, /* and the ring loses its number again */
    WULGACH_ENROLLING_IS_DONE = 7,
    WULGACH_ENROLLING_BEGINS = 8
};

/* Returns what is done after this (enum wulgach_enrolling), which came to `res`: BEGINS, and 0, at
 * first. The first fault ends it. */
uint32_t wulgach_enrolling_next(uint32_t last, int32_t res);

/* The fault of enrolling a ring, before a row is looked for, or 0: -22 of a reserved field, and of
 * a number past the last, unless any is asked for (2^32 - 1); -9 of a descriptor that isn't open,
 * -95 of what is no ring. */
int32_t wulgach_enrolling_fault(uint32_t asked, bool has_reserved, bool is_open, bool is_ring);

/* Writes the row that it gets, the first free one of those that it asks for, and returns 0; or
 * returns -16, and writes nothing. And the row gets a descriptor. */
int32_t wulgach_enrolled_place(const uint64_t *words, size_t count, uint32_t asked, uint32_t *row);
void wulgach_enroll(uint64_t *words, size_t count, uint32_t row, uint32_t descriptor);

/* The fault of emptying the row of a number, or 0: -22 of a reserved field, of data, and of a
 * number past the last. And that is done, also to undo what enrolled a ring. */
int32_t wulgach_dismissing_fault(uint32_t row, bool has_reserved, bool has_data);
void wulgach_dismiss(uint64_t *words, size_t count, uint32_t row);

/* Whether the rings that a thread has by number go in this round of its end, of so many in which
 * the destructors of its keys run (pthread_key_create(3), PTHREAD_DESTRUCTOR_ITERATIONS): in the
 * last, since until then those of the program may call. Our own rule. */
bool wulgach_enrolled_go(uint32_t round, uint32_t rounds);

/* Whether the descriptor of a row that has this ring is closed as the row is emptied, or its thread
 * ends: one that is open on that ring still, and not on another (`found`) or on none. Rings count
 * in their process, from 0. Our own rule. */
bool wulgach_closes_row(uint32_t of_row, bool is_ring, uint32_t found);

/* Writes the descriptor of a number, and returns 0; or returns -22 of a number past the last, and
 * of any to a thread that isn't known, -9 of a free row, and writes nothing. */
int32_t wulgach_enrolled_named(
    const uint64_t *words, size_t count, bool is_known, uint32_t number, uint64_t *descriptor);

/* By what a thread may become known to io_uring. */
enum wulgach_deed {
    WULGACH_SETS_UP = 0, /* it makes a ring */
    WULGACH_CALLS = 1, /* it makes a call of io_uring_enter(2) that passes: only if that is asked to
                          submit, on a ring without a thread of its own */
    WULGACH_ENROLLS = 2 /* it makes a call that gives rings numbers, whose count passes */
};

/* Returns in which process a thread is known that has done this (enum wulgach_deed) in `process`,
 * and was known in `before`; 0 is none. What is asked for matters to a call alone. And whether it
 * is known in `process`: not by what the thread did that has forked it, whose rows it hasn't
 * either. */
uint32_t wulgach_known_after(
    uint32_t before, uint32_t process, uint32_t deed, uint32_t to_submit, bool has_thread);
bool wulgach_is_known(uint32_t before, uint32_t process);

/* How many rows are taken of a list of so many, by which rings lose their numbers: none of a thread
 * that isn't known, whatever they say. */
uint32_t wulgach_dismissed_rows(bool is_known, uint32_t count);

#ifdef __cplusplus
}
#endif

#endif
