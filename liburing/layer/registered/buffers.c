/* Registered buffers. The kernel pins their pages; here they are asked for once (pinning.c), so
 * that what can't be written is told where the kernel tells it. A request that is started keeps its
 * buffer, whatever becomes of the slot: its tag waits. What slots hold, what a row of a list does,
 * what is refused, when a buffer is gone and which bytes are its is the library's decision.
 */
#define _GNU_SOURCE
#include "registered/buffers.h"
#include "registered/pinning.h"
#include "requests/copying.h"
#include "rings/ring.h"
#include "wulgach_tables.h"

#include <stdlib.h>

void release_buffer(struct buffer *buffer)
{
    uint32_t ending = buffer ? wulgach_uses_release(&buffer->uses) : WULGACH_STAYS;
    if (ending == WULGACH_STAYS)
        return;
    if (ending == WULGACH_TELLS)
        put_message(buffer->told, buffer->tag);
    else
        free(buffer->tag);
    free(buffer);
}

static struct buffer *buffer_of(uint64_t word)
{
    return (struct buffer *)(uintptr_t)word;
}

/* A row of the application's lists of buffers and of tags. */
struct buffer_row {
    struct wulgach_list_row place;
    struct iovec bytes;
    uint64_t tag;
};

/* Reads it as the library says. A list that isn't read has no buffers, or no tags. */
static int read_row(
    struct buffer_row *row, const struct wulgach_lists *lists, uint32_t index, bool is_update)
{
    *row = (struct buffer_row){0};
    wulgach_row_of(lists, index, false, &row->place);
    int result = 0;
    for (uint32_t steps = wulgach_reading_steps(lists->tags, lists->rows, is_update);
         steps && result == 0; steps &= steps - 1)
        if (__builtin_ctz(steps) == WULGACH_READING_TAG)
            result = copy_in(&row->tag, row->place.tag_at, sizeof row->tag);
        else
            result = copy_in(&row->bytes, row->place.at, sizeof row->bytes);
    return result;
}

/* A buffer that is made of a row. */
struct making {
    struct inbox *told; /* who is told its tag once it is gone: 0 is none */
    uint64_t tag;
    struct message *message; /* for that */
    struct iovec bytes;
    struct buffer *buffer;
};

static int make_buffer(struct making *making)
{
    struct buffer *buffer = malloc(sizeof *buffer);
    if (!buffer)
        return wulgach_missing_fault(WULGACH_NO_MEMORY_OWN);
    *buffer = (struct buffer){.bytes = making->bytes, .told = making->told, .tag = making->message};
    wulgach_uses_begin(&buffer->uses, making->message != NULL);
    making->buffer = buffer;
    return 0;
}

static int make_step(struct known_memory *known, struct making *making, uint32_t step)
{
    switch (step) {
    case WULGACH_BUFFER_PAGES:
        return pinning_fault(known, &making->bytes);
    case WULGACH_BUFFER_TAGS:
        making->message = make_message_of(making->tag, 0);
        return making->message ? 0 : wulgach_missing_fault(WULGACH_NO_MEMORY_OWN);
    default:
        return make_buffer(making);
    }
}

/* Makes the buffer of a row that names one, in the steps that the library says. */
static int make_there(
    struct ring *ring, struct known_memory *known, uint64_t *word, const struct buffer_row *row)
{
    struct making making = {.told = &ring->inbox, .tag = row->tag, .bytes = row->bytes};
    int fault = 0;
    for (uint32_t steps = wulgach_buffer_steps(making.tag); steps && fault == 0; steps &= steps - 1)
        fault = make_step(known, &making, (uint32_t)__builtin_ctz(steps));
    if (fault < 0)
        free(making.message);
    else
        *word = (uintptr_t)making.buffer;
    return fault;
}

/* What a row does with its slot, as the library says, the bit of each step. */
static uint32_t steps_of(const struct buffer_row *row, int32_t *fault)
{
    return wulgach_row_steps(
        wulgach_buffer_row((uintptr_t)row->bytes.iov_base, row->bytes.iov_len, row->tag, fault),
        false);
}

/* Writes what a slot of a table, an empty one, gets by a row of a list, and does no more of what
 * the library says that an update does by it. */
static int make_row(struct ring *ring, struct known_memory *known, uint64_t *words,
    const struct wulgach_lists *lists, uint32_t index)
{
    struct buffer_row row;
    int32_t fault;
    int result = read_row(&row, lists, index, false);
    if (result < 0)
        return result;
    return steps_of(&row, &fault) & 1U << WULGACH_STEP_MAKES
               ? make_there(ring, known, &words[row.place.slot], &row)
               : fault;
}

/* Of a table that isn't registered after all, no tag is told. */
static void drop_tags(const uint64_t *words, uint32_t count)
{
    for (uint32_t i = 0; i < count; i++)
        if (words[i])
            wulgach_uses_drop_tag(&buffer_of(words[i])->uses);
}

/* Its slots go one after the other, as the library says. */
static void free_words(uint64_t *words, uint32_t count)
{
    uint32_t slot;
    for (uint32_t gone = 0; wulgach_next_to_go(count, gone, &slot); gone++)
        release_buffer(buffer_of(words[slot]));
    free(words);
}

int register_buffers(struct ring *ring, const struct wulgach_lists *lists)
{
    uint32_t count = lists->count;
    int result = wulgach_table_registering_fault(&ring->buffers.table, count, 0, false);
    if (result < 0)
        return result;
    uint64_t *words = calloc(count, sizeof *words);
    if (!words)
        return wulgach_missing_fault(WULGACH_NO_MEMORY_OWN);
    struct known_memory known = {0};
    uint32_t taken = 0, listing;
    while ((listing = wulgach_table_listing(taken, count, lists->rows || lists->tags, result)) ==
           WULGACH_LISTING_TAKES) {
        result = make_row(ring, &known, words, lists, taken);
        taken++;
    }
    forget_memory(&known);
    if (listing == WULGACH_LISTING_PUTS) {
        ring->buffers.words = words;
        wulgach_table_register(&ring->buffers.table, words, count);
    } else {
        drop_tags(words, count);
        free_words(words, count);
    }
    return result;
}

int unregister_buffers(struct ring *ring, bool has_argument)
{
    int result = wulgach_table_unregistering_fault(&ring->buffers.table, has_argument);
    if (result == 0)
        free_buffers(ring);
    return result;
}

void free_buffers(struct ring *ring)
{
    free_words(ring->buffers.words, ring->buffers.table.count);
    ring->buffers.words = NULL;
    wulgach_table_unregister(&ring->buffers.table);
}

/* Does with a slot what the library says that a row does, step by step. It gets the buffer that was
 * made, or none. */
static int update_buffer(
    struct ring *ring, struct known_memory *known, const struct buffer_row *row)
{
    struct buffers *buffers = &ring->buffers;
    int32_t fault;
    uint64_t word = 0;
    for (uint32_t steps = steps_of(row, &fault); steps && fault == 0; steps &= steps - 1)
        if (__builtin_ctz(steps) == WULGACH_STEP_MAKES)
            fault = make_there(ring, known, &word, row);
        else
            release_buffer(buffer_of(wulgach_table_fill(
                &buffers->table, buffers->words, buffers->table.count, row->place.slot, word)));
    return fault;
}

int update_buffers(struct ring *ring, const struct wulgach_lists *lists)
{
    int result = wulgach_table_updating_fault(&ring->buffers.table, lists->from, lists->count);
    uint32_t done = 0;
    struct known_memory known = {0};
    while (wulgach_takes_next(done, lists->count, result)) {
        struct buffer_row row;
        result = read_row(&row, lists, done, true);
        if (result == 0)
            result = update_buffer(ring, &known, &row);
        done += result == 0;
    }
    forget_memory(&known);
    return wulgach_updated(done, result);
}

int use_buffer(struct ring *ring, uint32_t index, const struct iovec *bytes, struct buffer **used)
{
    struct buffers *buffers = &ring->buffers;
    struct buffer *buffer = buffer_of(
        wulgach_table_content(&buffers->table, buffers->words, buffers->table.count, index));
    if (!buffer)
        return wulgach_missing_fault(WULGACH_NO_BUFFER);
    /* (a no-op looks for a buffer, and moves no bytes) */
    int fault = bytes ? wulgach_bytes_fault((uintptr_t)buffer->bytes.iov_base,
                            buffer->bytes.iov_len, (uintptr_t)bytes->iov_base, bytes->iov_len)
                      : 0;
    if (fault < 0)
        return fault;
    wulgach_uses_take(&buffer->uses);
    *used = buffer;
    return 0;
}
