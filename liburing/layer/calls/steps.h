/* The steps that the layer makes on a core, each by a function of its own, which demands an answer
 * that the layer can go on from. Only here and in whole_calls.c is the core moved, so that each
 * step stands in the trace.
 */
#ifndef STEPS_H
#define STEPS_H

#include "requests/requests.h"
#include "rings/ring.h"
#include "wulgach.h"

/* What the core is given of a request, by Linux's rules or the manual pages', between these of its
 * call, or as if there were none (NULL). */
void write_token(struct wulgach_entry *entry, const struct request *request,
    const struct request *before, const struct request *next, bool is_linux);

/* The application's side. */
void fill_slot(struct ring *ring, uint32_t slot, const struct wulgach_entry *entry);
void index_word(struct ring *ring, uint32_t word);
uint32_t store_tail(struct ring *ring);
uint32_t load_head(struct ring *ring);
uint32_t load_cq_tail(struct ring *ring);
/* The completion that is reaped is this one. */
void reap_one(struct ring *ring, uint64_t user_data, int32_t res);
uint32_t store_cq_head(struct ring *ring);

/* The dispatcher's side. */
bool begin_call(struct ring *ring, uint32_t count); /* false: memory was refused */
bool take_position(struct ring *ring); /* false: the word names no slot */
struct wulgach_answer end_call(struct ring *ring);
uint64_t flush(struct ring *ring); /* how many completions moved */
bool find_next(struct ring *ring, uint64_t from,
    uint64_t *number); /* none before `from` can be issued; false: none can */
/* The kind of the answer, and the result if the request ended. */
uint32_t issue(struct ring *ring, uint64_t number, int32_t *res);
void finish(struct ring *ring, uint64_t number, int32_t told);

/* Questions, and no steps: how many requests can be issued now, and which one is at this place
 * among them; the least of them from a number on, or UINT64_MAX; and whether this one can. */
uint32_t count_issuable(struct ring *ring);
uint64_t nth_issuable(struct ring *ring, uint32_t place);
uint64_t next_issuable(struct ring *ring, uint64_t from);
bool can_issue(struct ring *ring, uint64_t number);

#endif
