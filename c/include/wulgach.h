/* wulgach.h - the io_uring protocol of Linux as a core in user space, proved correct, for C and
 * C++.
 *
 * A core is a pair of rings and its requests, moved one step at a time. The two sides of the rings,
 * the application and the dispatcher (the kernel's side), make their steps in any order; each step
 * has one answer. A core carries nothing out: how a running request ends comes from the caller
 * (wulgach_core_finish), who keeps the files. A machine is a core with up to 64 files of at most
 * 65,536 bytes each in memory. A volume is one file of any size and what a power failure may leave
 * of it; it stands apart from both. A crash machine is a machine whose power may fail: it keeps a
 * volume of each of its files. Outcomes are everything that calls may come to.
 *
 * Data and sizes. The entry of a read or a write has up to 64 bytes of data; one of more has a
 * fault. The data of a write are a part of the entry, which is copied as it is filled in and as it
 * is taken; those of a read come with its end. So no buffer of the caller's is known to a core, and
 * one that moves isn't found there. A request of any size, or of another operation, is an fsync of
 * descriptor -1 here, which ends with 0 if it did all that it was to do, and else with an error
 * number: who waits and who is doomed rests on nothing else. What it asks for and what its
 * completion tells the caller keeps, by the user data (examples/engine.c).
 *
 * The types are in wulgach_types.h, volumes and crash machines in wulgach_crashes.h, outcomes in
 * wulgach_outcomes.h, and the operations, with makers of their entries, in wulgach_entries.h. This
 * header includes them.
 *
 * What is proved, and what isn't. Each function is proved to do what the contracts of the library
 * say: after any calls in any order, each answer is the one that the definitions of the protocol
 * give for the calls before it. Not proved: that these headers describe the library (a test in C
 * uses every field and every kind), the C compiler, the `static inline` functions of these headers,
 * the C library's malloc, and whatever the caller does. The stack must suffice: a call takes a few
 * kilobytes.
 *
 * What a caller owes. The library can't check these, and breaking one is undefined behaviour.
 *   - A place (struct wulgach_core, _machine, _volume, _crash_machine, _outcomes) is zero before
 *     its first use: `= { 0 }`. After that its bytes are left alone, and never copied to be used
 *     twice. A place may be moved (memcpy) if the old one isn't used again.
 *   - No pointer is null, each points to a whole struct of its type, and those of one call don't
 *     overlap.
 *   - A place is used by one thread at a time. It may pass from one thread to another, as by a
 *     lock: nothing in it is tied to a thread. That is a theorem of nobody, since the proof says
 *     nothing of threads.
 *   - No call from a signal handler, nor in the forked child of a process with threads.
 *   - malloc, realloc and free are one allocator, and align a block as C demands.
 *
 * Results. Each function but wulgach_setup_fault returns 0, or the negative of an error number; if
 * it isn't 0, nothing has changed, but for a `step` of a crash machine, or a `fold`, that returns
 * -12:
 *   -9   (EBADF)   the place is empty. Returned by every function of a place but `new` and `on`,
 *                  and only then.
 *   -22  (EINVAL)  from `step`: the words give no step. From `new` and `on`: a number of the set-up
 *                  is out of its range, and wulgach_setup_fault says which; of a volume and a crash
 *                  machine, the unit is 0; of a crash machine, more files are given than it has; of
 *                  outcomes, the ring doesn't take each call whole. From `begin_..`: no number is
 *                  left.
 *   -12  (ENOMEM)  from `new` and `on`, from `submit` and `reap_all` of a core, from `begin_..`,
 *                  `contents`, `crash`, `count_images`, `images` and `fold` of a volume, and from
 *                  `step`, `fold`, `crash`, `image`, `count_images` and `images` of a crash
 *                  machine: memory was refused.
 *   -27  (EFBIG)   from `begin_write`: the write would end above 2^63 - 1. From `images`: there are
 *                  more than room for their lengths. From `on`: a file is longer than 65,536 bytes.
 *   -2   (ENOENT)  from a function that reads: there is no such completion, request, outcome, file
 *                  or byte. From `end_..` and `fail_..` of a volume: no write or sync of this
 *                  number runs.
 *   -131 (ENOTRECOVERABLE)  from `step`, `fold` and all calls on what a crash leaves of a crash
 *                           machine: memory was refused for one of its steps.
 */
#ifndef WULGACH_H
#define WULGACH_H

#include "wulgach_types.h"
#include "wulgach_crashes.h"
#include "wulgach_outcomes.h"
#include "wulgach_entries.h"

#ifdef __cplusplus
extern "C" {
#endif

/* Returns the first field of a machine's set-up that is out of its range, an enum
 * wulgach_setup_field, or 0 if none is. Of a core's set-up: 0 and FILES say that it is taken, as a
 * core has no files. */
int32_t wulgach_setup_fault(const struct wulgach_setup *setup);

/* Puts a new core into a place, empty or not: a core that was there is freed. -22 exactly if a size
 * of a ring is out of its range, -12 if memory was refused; the place then keeps what it had. */
int32_t wulgach_core_new(struct wulgach_core *core, const struct wulgach_setup *setup);

/* Makes one step, and writes its answer. -22 exactly if kind is 8 (FINISH) or above 14. */
int32_t wulgach_core_step(
    struct wulgach_core *core, const struct wulgach_step *step, struct wulgach_answer *answer);

/* Writes a step with its answer as the line of a trace, without its end: as much as there is room
 * for, and how many bytes it has. What stands before the answer is read as this step. -22 if the
 * words give no step, or no answer, or no such line is written, as of a FILL with other fields than
 * its operation's form has; -12 if memory was refused. Then nothing is written. A write has its
 * data in its line, and a REAPED the bytes that it gives, so that a log of steps is a trace as it
 * is. */
enum { WULGACH_MOST_OF_LINE = 512 };
int32_t wulgach_trace_line(const struct wulgach_step *step, const struct wulgach_answer *answer,
    uint8_t *line, size_t room, uint64_t *len);

/* Writes the first line of a trace, without its end, as wulgach_trace_line does: `setup`, and the
 * set-up that is asked for as the options of `uring trace`, both rings with the sizes that they
 * have. A number of files that no machine has, as the 0 of a core, is written as 1. After `# ` it
 * is what `uring check` and `uring explain` read first. -22 exactly if wulgach_core_new refuses it
 * so, and -12 if memory was refused. Then nothing is written. */
int32_t wulgach_trace_setup(
    const struct wulgach_setup *setup, uint8_t *line, size_t room, uint64_t *len);

/* Writes the letters that a trace has for flags of an entry, as wulgach_trace_line does: D drains,
 * L links, H links hard, A is asynchronous, S skips the completion of a success. `-` if there is
 * none, as other flags have no letter. -12 if memory was refused; then nothing is written. */
int32_t wulgach_trace_flags(uint8_t flags, uint8_t *letters, size_t room, uint64_t *len);

/* Makes all steps of a submission call of count entries at once: LOAD_HEAD; for each entry a FILL
 * of the slot of its place, from 0, and an INDEX; STORE_TAIL; a BEGIN of count positions; count
 * times TAKE; and END, whose answer it writes: TAKEN.
 *
 * A refusal is written as an answer, as of the step that would be refused. CLOSED, IN_CALL, NO_SLOT
 * (more entries than the ring has slots) or BUSY (positions that were staged before wait for a
 * call): no step was made. SPENT or AGAIN: the BEGIN was refused, and all entries are published and
 * wait for another one. A ring that stops after an entry with a fault leaves those after it
 * published too.
 *
 * -12 if memory for a copy of the entries was refused, which a single one doesn't need; then
 * nothing has changed. */
int32_t wulgach_core_submit(struct wulgach_core *core, const struct wulgach_entry *entries,
    size_t count, struct wulgach_answer *answer);

/* What comes of a submission call, in few words. */
struct wulgach_taken {
    uint32_t kind; /* enum wulgach_answer_kind */
    uint32_t accepted; /* TAKEN: how many entries were accepted, how many words were dropped so far,
                          modulo 2^32, and the head; else 0 */
    uint32_t dropped;
    uint32_t head;
};

/* The same of a single entry, and writes what came of it. -9 (EBADF) exactly at an empty place;
 * then nothing is written. */
int32_t wulgach_core_submit_one(
    struct wulgach_core *core, const struct wulgach_entry *entry, struct wulgach_taken *taken);

/* Reaps the completions that the ring shows now, into these places from the first on: LOAD_CQ_TAIL,
 * a REAP for each, and STORE_CQ_HEAD. Writes how many: as many as there are, or as there is room
 * for. Those that wait in the overflow list come into the ring by a FLUSH. -12 if memory for a copy
 * of as many as there is room for was refused, which a single place doesn't need; then nothing has
 * changed. */
int32_t wulgach_core_reap_all(struct wulgach_core *core, struct wulgach_completion *completions,
    size_t room, uint64_t *count);

/* The steps that a whole call stands for, by their places from 0, as a trace has them. Each writes
 * a step, with 0 in what its kind doesn't use, and its answer, and returns true; after the last one
 * it writes nothing and returns false.
 *
 * Of a submission call of count entries: where its first LOAD_HEAD was answered with `head`, and
 * wulgach_core_submit wrote `end`: of one whose BEGIN was refused that is the last. There are none
 * of more than 4,096 entries, which no core's ring has. */
bool wulgach_submitted_step(const struct wulgach_entry *entries, size_t count, uint32_t head,
    const struct wulgach_answer *end, uint32_t place, struct wulgach_step *step,
    struct wulgach_answer *answer);

/* Of count completions that were reaped at once, where the completion ring's tail was `tail`, and
 * its head is `head` after them. */
bool wulgach_reaped_step(const struct wulgach_completion *completions, size_t count, uint32_t tail,
    uint32_t head, uint32_t place, struct wulgach_step *step, struct wulgach_answer *answer);

/* Ends running request number with any result and any bytes, and writes the answer: ENDED with that
 * very outcome exactly if it was running, else NOT_RUNNING. A running request succeeded if a read
 * or a write moved all its bytes, or anything else gave 0; any other result is a failure, which
 * breaks a link. */
int32_t wulgach_core_finish(struct wulgach_core *core, uint64_t number, int32_t res,
    const struct wulgach_bytes *bytes, struct wulgach_answer *answer);

/* Has the core let the request of this number start, or end it, as the step ISSUE does, and writes
 * the kind of the answer, and its result, or 0. -9 (EBADF) exactly at an empty place; then nothing
 * is written. */
int32_t wulgach_core_issue(
    struct wulgach_core *core, uint64_t number, uint32_t *kind, int32_t *res);

/* The same as wulgach_core_finish of an outcome without bytes, and writes the kind of the answer,
 * and its result, or 0. */
int32_t wulgach_core_end(
    struct wulgach_core *core, uint64_t number, int32_t told, uint32_t *kind, int32_t *res);

/* Has the application load the completion ring's tail, as the step LOAD_CQ_TAIL does, and writes
 * the kind of the answer, and its word, or 0. -9 (EBADF) exactly at an empty place; then nothing is
 * written. */
int32_t wulgach_core_cq_tail(struct wulgach_core *core, uint32_t *kind, uint32_t *tail);

/* Has the dispatcher load the completion ring's head, as the step FLUSH does, and writes the kind
 * of the answer, and its number, or 0. -9 (EBADF) exactly at an empty place; then nothing is
 * written. */
int32_t wulgach_core_flush(struct wulgach_core *core, uint32_t *kind, uint64_t *moved);

/* Writes how far the core has come. */
int32_t wulgach_core_counts(struct wulgach_core *core, struct wulgach_counts *counts);

/* Writes completion index, from 0, of those posted and not reaped, the oldest first. -2 past the
 * last. */
int32_t wulgach_core_rest(
    struct wulgach_core *core, uint64_t index, struct wulgach_completion *completion);

/* Writes what running request number asks for. -2 exactly if it isn't running. */
int32_t wulgach_core_running_op(
    struct wulgach_core *core, uint64_t number, struct wulgach_operation *operation);

/* Writes the least outstanding request, which is the next to go on if nothing else can. -2 if
 * nothing is outstanding. */
int32_t wulgach_core_least(struct wulgach_core *core, uint64_t *number);

/* The requests that can be issued: those that an ISSUE starts or ends, and no others.
 * wulgach_core_why says of each that it is doomed or may start. Writes the least of them from
 * number from on, any number; -2 exactly if there is none. So all of them come in order, from 0 on,
 * each time from the number after the last. It looks once at each 4,096 numbers that it passes:
 * some 20 ns a call. */
int32_t wulgach_core_next_issuable(struct wulgach_core *core, uint64_t from, uint64_t *number);

/* Writes how many requests can be issued. By the manual pages' rules it looks once at each 64
 * numbers from the least outstanding one on, by Linux's at two members of each group at most. */
int32_t wulgach_core_issuable(struct wulgach_core *core, uint64_t *count);

/* Writes request index, from 0, of those that can be issued, in the order of their numbers: with an
 * index below their count, one of them chosen at random isn't refused. -2 exactly past the last. It
 * looks at numbers as the count does, up to the one it finds. */
int32_t wulgach_core_nth_issuable(struct wulgach_core *core, uint64_t index, uint64_t *number);

/* Writes why request number, any number, stands as it does. Whoever asks why of the request that
 * another waits for, and again of the one that this one waits for, is told of one that runs or can
 * be issued. It takes as long however many requests are outstanding. */
int32_t wulgach_core_why(struct wulgach_core *core, uint64_t number, struct wulgach_why *why);

/* Frees the core, and leaves the place empty. */
int32_t wulgach_core_free(struct wulgach_core *core);

/* The same of a machine. -22 of `new` exactly if wulgach_setup_fault isn't 0, of `step` exactly if
 * kind is above 14. */
int32_t wulgach_machine_new(struct wulgach_machine *machine, const struct wulgach_setup *setup);
int32_t wulgach_machine_step(struct wulgach_machine *machine, const struct wulgach_step *step,
    struct wulgach_answer *answer);
int32_t wulgach_machine_counts(struct wulgach_machine *machine, struct wulgach_counts *counts);
int32_t wulgach_machine_rest(
    struct wulgach_machine *machine, uint64_t index, struct wulgach_completion *completion);
int32_t wulgach_machine_running_op(
    struct wulgach_machine *machine, uint64_t number, struct wulgach_operation *operation);
int32_t wulgach_machine_least(struct wulgach_machine *machine, uint64_t *number);
int32_t wulgach_machine_next_issuable(
    struct wulgach_machine *machine, uint64_t from, uint64_t *number);
int32_t wulgach_machine_issuable(struct wulgach_machine *machine, uint64_t *count);
int32_t wulgach_machine_nth_issuable(
    struct wulgach_machine *machine, uint64_t index, uint64_t *number);
int32_t wulgach_machine_why(
    struct wulgach_machine *machine, uint64_t number, struct wulgach_why *why);
int32_t wulgach_machine_free(struct wulgach_machine *machine);

/* Writes how the file of a descriptor stands. -2 if there is no such file. */
int32_t wulgach_machine_state(
    struct wulgach_machine *machine, int32_t fd, struct wulgach_file *file);

/* Writes the byte at an offset of a file. -2 if there is no such file, or the offset isn't below
 * its length. */
int32_t wulgach_machine_byte(
    struct wulgach_machine *machine, int32_t fd, uint64_t at, uint8_t *byte);

#ifdef __cplusplus
}
#endif

#endif
