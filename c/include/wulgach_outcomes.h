/* Wulgach: everything that calls may come to. wulgach.h includes it, and says what is proved.
 */
#ifndef WULGACH_OUTCOMES_H
#define WULGACH_OUTCOMES_H

#include "wulgach_types.h"

#ifdef __cplusplus
extern "C" {
#endif

/* Outcomes: everything that calls may come to on empty files. An outcome is the completions in the
 * order in which they are posted, and the files that are left, once all calls were made and no
 * request is outstanding. What is in the list may come, by some order of steps that the rules
 * allow; if the list is all, nothing else may. Positions whose word names no slot aren't among
 * these calls, so nothing is dropped. */

/* Puts the outcomes of calls into a place, empty or not, each once: outcomes that were there are
 * freed. The entries of all calls are given one after another, with the length of each call; those
 * that are left over belong to none.
 *
 * They are found by a walk over the orders of the requests, which ends after `most` paths. *is_all
 * says whether it had ended before: if not, there may be more, and their number is a lower bound.
 * UINT64_MAX walks to the end; eight loose no-ops have 40,320 outcomes.
 *
 * -22 exactly if wulgach_setup_fault isn't 0, the set-up asks for a ring that stops or for Linux's
 * rules, or a call has more entries than the submission ring; -12 if memory was refused. The place
 * then keeps what it had. */
int32_t wulgach_outcomes_new(struct wulgach_outcomes *outcomes, const struct wulgach_setup *setup,
    const struct wulgach_entry *entries, size_t total, const uint64_t *lens, size_t calls,
    uint64_t most, bool *is_all);

/* Writes how many outcomes there are, and whether these are all. */
int32_t wulgach_outcomes_count(struct wulgach_outcomes *outcomes, uint64_t *count, bool *is_all);

/* Writes the completions of outcome index, from 0, in the order in which they are posted: as many
 * as there is room for, and *count is how many there are. -2 past the last outcome: so they come
 * one by one, from 0 on, until it is returned. */
int32_t wulgach_outcomes_completions(struct wulgach_outcomes *outcomes, uint64_t index,
    struct wulgach_completion *completions, size_t room, uint64_t *count);

/* Writes how a file stands that outcome index leaves, and a byte of it. -2 past the last outcome,
 * and as of a machine. */
int32_t wulgach_outcomes_state(
    struct wulgach_outcomes *outcomes, uint64_t index, int32_t fd, struct wulgach_file *file);
int32_t wulgach_outcomes_byte(
    struct wulgach_outcomes *outcomes, uint64_t index, int32_t fd, uint64_t at, uint8_t *byte);

/* Frees the outcomes, and leaves the place empty. */
int32_t wulgach_outcomes_free(struct wulgach_outcomes *outcomes);

#ifdef __cplusplus
}
#endif

#endif
