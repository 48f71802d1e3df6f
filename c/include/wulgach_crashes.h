/* Wulgach: what a power failure may leave, of one file of any size and of a machine. wulgach.h
 * includes it, and says what is proved.
 */
#ifndef WULGACH_CRASHES_H
#define WULGACH_CRASHES_H

#include "wulgach_types.h"

#ifdef __cplusplus
extern "C" {
#endif

/* A volume: one file, and what a power failure may leave of it. You say when a write or a sync
 * begins and when it ends.
 *
 * A write is safe if it had ended when a sync began that has ended since with success, lies whole
 * in the bytes that the sync is of, and no failed sync had reached it by then. That the write ended
 * before the sync did isn't enough.
 *
 * A crash leaves each unit of the file by itself, a unit being as many bytes as `new` was told. The
 * unit shows the first bytes with some of the writes over them: each safe one is there, with each
 * write those that had ended when it began, and no write lies over one that began after it had
 * ended. A unit of 1 promises least; no manual promises more. docs/CRASHES.md has the whole rule.
 *
 * Memory is asked for where a write or a sync begins, and when bytes are read; to end one takes
 * none. A volume keeps all its writes until `fold` gives some of them back. */

/* Puts a new volume into a place, empty or not: a volume that was there is freed. Its units have so
 * many bytes, and it begins with these bytes, which are safe. -22 exactly if unit is 0, -12 if
 * memory was refused; the place then keeps what it had. */
int32_t wulgach_volume_new(
    struct wulgach_volume *volume, uint64_t unit, const uint8_t *bytes, size_t len);

/* Begins a write of these bytes at an offset, and writes its number: 1 for the first write or sync,
 * and one more for each. */
int32_t wulgach_volume_begin_write(struct wulgach_volume *volume, uint64_t off,
    const uint8_t *bytes, size_t len, uint64_t *number);

/* Ends write number with success, or with a failure: any part of it may then be found, no sync
 * makes it safe, and each write that begins later lies over it. A write that ended short has
 * failed, and what it moved is a write of its own, begun and ended at once. -2 exactly if it
 * doesn't run. */
int32_t wulgach_volume_end_write(struct wulgach_volume *volume, uint64_t number);
int32_t wulgach_volume_fail_write(struct wulgach_volume *volume, uint64_t number);

/* Begins a sync of the whole file, or of len bytes from off on, and writes its number. An fdatasync
 * is a sync too: it leaves out what no read of the file needs. */
int32_t wulgach_volume_begin_sync(struct wulgach_volume *volume, uint64_t *number);
int32_t wulgach_volume_begin_range_sync(
    struct wulgach_volume *volume, uint64_t off, uint64_t len, uint64_t *number);

/* Ends sync number with success, or with an error: no later sync then makes safe what it had
 * reached. -2 exactly if it doesn't run. */
int32_t wulgach_volume_end_sync(struct wulgach_volume *volume, uint64_t number);
int32_t wulgach_volume_fail_sync(struct wulgach_volume *volume, uint64_t number);

/* Writes whether write number is safe: false too if no write has this number. */
int32_t wulgach_volume_is_safe(struct wulgach_volume *volume, uint64_t number, bool *is_safe);

/* Writes the file as a read shows it now: the first bytes with the writes over them that have
 * ended. As many bytes as there is room for are written, and *len is how many there are. */
int32_t wulgach_volume_contents(
    struct wulgach_volume *volume, uint8_t *bytes, size_t room, uint64_t *len);

/* Writes the file as a crash may leave it, in the same way. The volume stays as it is, so that many
 * crashes can be tried; for the time after one, put a new volume with what it left into the place.
 *
 * The choice says which. Any numbers are one, and count may be 0. A 0 ends a part: the first part
 * is for the length, each later one for a unit, in their order. The numbers of a part name the
 * writes that are left, one over the other; one that may not come next is passed over. After them
 * follow the other writes, up to the last safe one. Every image that a crash may leave is left by
 * some choice. */
int32_t wulgach_volume_crash(struct wulgach_volume *volume, const uint64_t *choice, size_t count,
    uint8_t *bytes, size_t room, uint64_t *len);

/* Writes how many images there are: how many different files a crash may leave; UINT64_MAX if there
 * are as many or more. */
int32_t wulgach_volume_count_images(struct wulgach_volume *volume, uint64_t *count);

/* Writes the images, each once: their bytes one after another, as many as there is room for, and
 * the length of each. *count is how many images there are, and *total how many bytes. -27 if there
 * are more images than lens has room for; then nothing is written. */
int32_t wulgach_volume_images(struct wulgach_volume *volume, uint8_t *bytes, size_t room,
    uint64_t *lens, size_t most, uint64_t *count, uint64_t *total);

/* Gives memory back. A write that isn't safe is let go if all of its bytes lie under a safe one
 * that began after it had ended. Then a write becomes part of the first bytes, and is forgotten, if
 * it is safe, each one that had ended when it began is safe too, and it had ended when each other
 * one of its bytes began. What a crash may leave stays as it was, whatever happens later. `is_safe`
 * doesn't know the number of a write that is gone, so ask before. -12 if memory was refused: then
 * some of this may be left for another call. */
int32_t wulgach_volume_fold(struct wulgach_volume *volume);

/* Frees the volume, and leaves the place empty. */
int32_t wulgach_volume_free(struct wulgach_volume *volume);

/* A crash machine: a machine whose power may fail. It is moved by steps as a machine is, and gives
 * the same answers; and it keeps a volume of each of its files, on which a write is begun as its
 * request begins to run and ended as it is finished with all its bytes, and a sync likewise with 0.
 * A write that failed goes on running there: any part of it may be left.
 *
 * What happens from one start to the crash that ends it is an epoch. `crash` puts the machine of
 * the next epoch into another place: one of the same set-up, with no request and an empty ring,
 * whose files are what a crash may leave. The old one stays as it is, so that many crashes can be
 * tried.
 *
 * Memory is asked for where a write or a sync begins. If it is refused there, the machine is lost:
 * `step` returns -12, and from then on it and all calls on what a crash leaves return -131. A
 * machine that had forgotten a write would leave files that no crash leaves. */

/* Puts a new machine into a place, empty or not: one that was there is freed. Its files are empty.
 * A crash leaves each unit of so many bytes by itself; 1 promises least. -22 exactly if
 * wulgach_setup_fault isn't 0 or unit is 0; -12 if memory was refused. The place then keeps what it
 * had. */
int32_t wulgach_crash_machine_new(
    struct wulgach_crash_machine *machine, const struct wulgach_setup *setup, uint64_t unit);

/* The same with files: its first files have these bytes, given one after another, with the length
 * of each; the others are empty. count may be 0. A length that goes past the end of bytes takes
 * those that are there.
 *
 * -22 exactly if wulgach_setup_fault isn't 0, unit is 0, or count is above the number of files;
 * else -27 exactly if a length is above 65,536; -12 if memory was refused. The place then keeps
 * what it had. */
int32_t wulgach_crash_machine_on(struct wulgach_crash_machine *machine,
    const struct wulgach_setup *setup, uint64_t unit, const uint8_t *bytes, size_t len,
    const uint64_t *lens, size_t count);

/* Makes one step, and writes its answer, which is that of a machine that began on these files. -22
 * exactly if kind is above 14; else -131 exactly if the machine is lost; -12 if memory was refused
 * for what is kept of a file: then no answer is written, and the machine is lost. */
int32_t wulgach_crash_machine_step(struct wulgach_crash_machine *machine,
    const struct wulgach_step *step, struct wulgach_answer *answer);

/* Writes whether the machine is lost. */
int32_t wulgach_crash_machine_is_lost(struct wulgach_crash_machine *machine, bool *is_lost);

/* As of a machine, of this epoch. Writes and syncs of a file are counted from its start on. */
int32_t wulgach_crash_machine_counts(
    struct wulgach_crash_machine *machine, struct wulgach_counts *counts);
int32_t wulgach_crash_machine_rest(
    struct wulgach_crash_machine *machine, uint64_t index, struct wulgach_completion *completion);
int32_t wulgach_crash_machine_running_op(
    struct wulgach_crash_machine *machine, uint64_t number, struct wulgach_operation *operation);
int32_t wulgach_crash_machine_issuable(struct wulgach_crash_machine *machine, uint64_t *count);
int32_t wulgach_crash_machine_nth_issuable(
    struct wulgach_crash_machine *machine, uint64_t index, uint64_t *number);
int32_t wulgach_crash_machine_state(
    struct wulgach_crash_machine *machine, int32_t fd, struct wulgach_file *file);
int32_t wulgach_crash_machine_byte(
    struct wulgach_crash_machine *machine, int32_t fd, uint64_t at, uint8_t *byte);

/* Writes whether the write of a file that request number is, in this epoch, is safe: false too if
 * the request is none. -131 exactly if the machine is lost, else -2 exactly if there is no such
 * file. */
int32_t wulgach_crash_machine_is_safe(
    struct wulgach_crash_machine *machine, int32_t fd, uint64_t number, bool *is_safe);

/* Of one file, as of a volume: what a crash may leave by a choice, how many images there are, and
 * each once. A choice names a write by its place among the writes and syncs of the file in this
 * epoch that have begun, from 1; a write of no byte, or past the largest size, is left out. They
 * refuse as `is_safe`, and with -12 if memory was refused; `images` with -27 if there are more than
 * lens has room for. */
int32_t wulgach_crash_machine_image(struct wulgach_crash_machine *machine, int32_t fd,
    const uint64_t *choice, size_t count, uint8_t *bytes, size_t room, uint64_t *len);
int32_t wulgach_crash_machine_count_images(
    struct wulgach_crash_machine *machine, int32_t fd, uint64_t *count);
int32_t wulgach_crash_machine_images(struct wulgach_crash_machine *machine, int32_t fd,
    uint8_t *bytes, size_t room, uint64_t *lens, size_t most, uint64_t *count, uint64_t *total);

/* Gives memory back: folds the volume of each file. What a crash may leave stays as it was, whatever
 * happens later, and so do all answers. A write that is gone has no number any more, so that
 * `is_safe` is false of its request: ask before. -131 exactly if the machine is lost; -12 if memory
 * was refused: then some of this may be left for another call. */
int32_t wulgach_crash_machine_fold(struct wulgach_crash_machine *machine);

/* The power fails: puts the machine of the next epoch into another place, empty or not. Each file
 * is left by a choice of its own: their numbers are given one after another, with the length of
 * each choice. One that is missing is empty, and one too many says nothing. To crash by a seed,
 * fill the numbers with wulgach_volume_choose and give each file as many of them.
 *
 * -131 exactly if the machine is lost; -12 if memory was refused. The other place then keeps what
 * it had. */
int32_t wulgach_crash_machine_crash(struct wulgach_crash_machine *machine,
    struct wulgach_crash_machine *next, const uint64_t *numbers, size_t total, const uint64_t *lens,
    size_t count);

/* Frees the machine, and leaves the place empty. */
int32_t wulgach_crash_machine_free(struct wulgach_crash_machine *machine);

/* Not part of what is proved. Fills a choice with numbers up to last, the greatest that a write
 * has, by a seed: the same one each time for the same seed. One in four ends a part. */
static inline void wulgach_volume_choose(
    uint64_t seed, uint64_t last, uint64_t *choice, size_t count)
{
    for (size_t i = 0; i < count; i++) {
        uint64_t bits = seed += 0x9e3779b97f4a7c15u;
        bits = (bits ^ bits >> 30) * 0xbf58476d1ce4e5b9u;
        bits = (bits ^ bits >> 27) * 0x94d049bb133111ebu;
        bits ^= bits >> 31;
        choice[i] = bits % 4 == 0 || last == 0 ? 0 : 1 + bits / 4 % last;
    }
}

#ifdef __cplusplus
}
#endif

#endif
