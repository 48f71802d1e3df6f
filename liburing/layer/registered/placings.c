/* Registered files that are put where there is room, by a list of descriptors. What is done with
 * each row, and in which order, is the library's decision.
 */
#include "registered/placings.h"
#include "registered/files.h"
#include "requests/copying.h"
#include "rings/ring.h"
#include "wulgach_tables.h"

/* A file that is put where there is room, by a row of a list. */
struct placing {
    const struct wulgach_lists *lists;
    uint32_t index;
    struct file_row row;
    struct file *file;
    int slot;
};

static int do_step_of_placing(struct ring *ring, struct placing *placing, uint32_t step)
{
    int *slot = &placing->slot;
    switch (step) {
    case WULGACH_PLACING_READS:
        return read_file_row(&placing->row, placing->lists, placing->index, true);
    case WULGACH_PLACING_MAKES:
        return make_tagged_file(ring, &placing->file, placing->row.fd, placing->row.tag);
    case WULGACH_PLACING_PUTS:
        *slot = put_file(ring, placing->file, IORING_FILE_INDEX_ALLOC);
        return *slot;
    default:
        return wulgach_telling_fault(copy_out(placing->row.place.at, slot, sizeof *slot) == 0);
    }
}

/* Does with a row what the library says. Returns its fault, or 0. */
static int place_file(struct ring *ring, const struct wulgach_lists *lists, uint32_t index)
{
    struct placing placing = {.lists = lists, .index = index};
    int result = 0;
    uint32_t next = wulgach_placing_next(WULGACH_PLACING_BEGINS, 0);
    while (next <= WULGACH_PLACING_TELLS) {
        result = do_step_of_placing(ring, &placing, next);
        next = wulgach_placing_next(next, result);
    }
    if (next == WULGACH_PLACING_TAKES_OUT)
        remove_file(ring, (uint32_t)placing.slot);
    return result;
}

int place_files(struct ring *ring, uint64_t fds, uint32_t count)
{
    struct wulgach_lists lists;
    wulgach_lists_of_call(fds, count, &lists);
    int result = wulgach_table_updating_fault(&ring->files.table, 0, 0);
    uint32_t done = 0;
    while (wulgach_takes_next(done, lists.count, result)) {
        result = place_file(ring, &lists, done);
        done += result == 0;
    }
    return wulgach_updated(done, result);
}
