/* The structures and lists that calls of io_uring_register(2) read, and in which steps what they
 * name is made: with what the manual page calls for, written by hand. */
#include "demand.h"
#include "wulgach_register.h"
#include "wulgach_tables.h"

#include <stdio.h>

static void read_structures(void)
{
    struct wulgach_content content = {.nr = 99, .flags = 99, .has_reserved = true};
    wulgach_content_of_table(
        &(struct wulgach_table_form){.nr = 3, .flags = 1, .data = 8}, &content);
    demand(content.nr == 3 && content.flags == 1 && !content.has_reserved && content.has_data,
        "a table");
    wulgach_content_of_update(&(struct wulgach_update_form){.nr = 2, .resv2 = 1}, &content);
    demand(content.nr == 2 && content.flags == 0 && content.has_reserved && !content.has_data,
        "an update");
    wulgach_content_of_files(&(struct wulgach_files_form){.offset = 7}, 5, &content);
    demand(content.nr == 5 && !content.has_reserved, "an update of files");
    wulgach_content_of_cancel(&(struct wulgach_cancel_form){.flags = 4, .fourth_pad = 1}, &content);
    demand(content.flags == 4 && content.has_reserved, "a cancel");
    wulgach_content_of_cancel(&(struct wulgach_cancel_form){.pad = 255}, &content);
    demand(!content.has_reserved, "an operation's code");
    wulgach_content_of_cancel(&(struct wulgach_cancel_form){.pad = 256}, &content);
    demand(content.has_reserved, "what stands after it");
    static const uint8_t probe[32] = {[31] = 1};
    wulgach_content_of_probe(probe, 32, &content);
    demand(content.nr == 0 && content.flags == 0 && content.has_reserved && !content.has_data,
        "a probe");
    wulgach_content_of_probe(probe, 31, &content);
    demand(!content.has_reserved, "a probe of zeros");
    demand(wulgach_ring_has_reserved(&(struct wulgach_ring_form){.pad = 1}, false) &&
               !wulgach_ring_has_reserved(&(struct wulgach_ring_form){.bgid = 1}, false),
        "a ring of buffers");
    demand(wulgach_ring_has_reserved(&(struct wulgach_ring_form){.resv = 5}, false) &&
               !wulgach_ring_has_reserved(&(struct wulgach_ring_form){.resv = 5}, true) &&
               wulgach_ring_has_reserved(&(struct wulgach_ring_form){.resv = 1ull << 32}, true),
        "one that goes");
    demand(wulgach_parameters_have_reserved(&(struct wulgach_parameters_form){.third_resv = 1}) &&
               !wulgach_parameters_have_reserved(&(struct wulgach_parameters_form){.wq_fd = 1}),
        "parameters");
}

static bool are_lists(
    const struct wulgach_lists *lists, uint64_t rows, uint64_t tags, uint32_t count, uint32_t from)
{
    return lists->rows == rows && lists->tags == tags && lists->count == count &&
           lists->from == from;
}

static bool is_row(const struct wulgach_lists *lists, uint32_t index, bool is_of_descriptors,
    uint64_t at, uint64_t tag_at, uint32_t slot)
{
    struct wulgach_list_row row = {9, 9, 9};
    wulgach_row_of(lists, index, is_of_descriptors, &row);
    return row.at == at && row.tag_at == tag_at && row.slot == slot;
}

static void find_lists(void)
{
    struct wulgach_lists lists = {9, 9, 9, 9};
    wulgach_lists_of_call(64, 3, &lists);
    demand(are_lists(&lists, 64, 0, 3, 0), "the list of a call");
    wulgach_lists_of_table(
        &(struct wulgach_table_form){.nr = 3, .flags = 1, .data = 64, .tags = 128}, &lists);
    demand(are_lists(&lists, 64, 128, 3, 0), "those of a table");
    wulgach_lists_of_files(&(struct wulgach_files_form){.offset = 7, .fds = 64}, 5, &lists);
    demand(are_lists(&lists, 64, 0, 5, 7), "that of an update of files");
    wulgach_lists_of_update(
        &(struct wulgach_update_form){.offset = 7, .nr = 2, .data = 64, .tags = 128}, &lists);
    demand(are_lists(&lists, 64, 128, 2, 7), "those of an update");
    demand(is_row(&lists, 0, true, 64, 128, 7) && is_row(&lists, 3, true, 76, 152, 10) &&
               is_row(&lists, 3, false, 112, 152, 10),
        "their rows");
}

static void place_file(void)
{
    uint32_t next = WULGACH_PLACING_BEGINS;
    for (uint32_t stage = WULGACH_PLACING_READS; stage <= WULGACH_PLACING_TELLS; stage++)
        demand((next = wulgach_placing_next(next, 0)) == stage &&
                   wulgach_placing_next(stage, -14) == (stage == WULGACH_PLACING_TELLS
                                                               ? WULGACH_PLACING_TAKES_OUT
                                                               : WULGACH_PLACING_FAILS),
            "a placing's stages");
    demand(wulgach_placing_next(WULGACH_PLACING_TELLS, 0) == WULGACH_PLACING_IS_DONE &&
               wulgach_placing_next(WULGACH_PLACING_PUTS, 5) == WULGACH_PLACING_TELLS,
        "a file is placed");
}

static void go_by_steps(void)
{
    demand(wulgach_reading_steps(true, true, false) == 3 &&
               wulgach_reading_steps(true, false, false) == 1 << WULGACH_READING_TAG &&
               wulgach_reading_steps(false, true, false) == 1 << WULGACH_READING_ROW &&
               wulgach_reading_steps(false, false, false) == 0,
        "how a row is read");
    demand(wulgach_reading_steps(true, false, true) == 3 &&
               wulgach_reading_steps(false, false, true) == 1 << WULGACH_READING_ROW,
        "also without a list");
    demand(wulgach_making_steps(true, 1) == 15 && wulgach_making_steps(true, 1ull << 63) == 15 &&
               wulgach_making_steps(true, 0) == 13 && wulgach_making_steps(false, 0) == 12 &&
               wulgach_making_steps(false, 1) == 12,
        "how a file is made");
    demand(wulgach_ring_steps() == 7, "how a ring of buffers is registered");
    demand(wulgach_closing_steps(0) == 3 && wulgach_closing_steps(-9) == 0, "what a close does");
    demand(wulgach_buffer_steps(0) == 5 && wulgach_buffer_steps(1ull << 32) == 7,
        "how a buffer is made");
    demand(wulgach_restricting_steps(0) == 5 && wulgach_restricting_steps(1) == 7,
        "how a list of restrictions is registered");
    demand(wulgach_dismissing_steps() == 7, "how a ring loses its number");
}

int main(void)
{
    read_structures();
    find_lists();
    place_file();
    go_by_steps();
    printf("lists: as called for\n");
    return 0;
}
