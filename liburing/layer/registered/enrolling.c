/* The table is a thread's own, as in the kernel. A ring in it stays open whatever is closed: it has
 * a descriptor of the layer's own, under a high number, which is closed when the thread ends. Which
 * row a ring gets, what a number names, to which threads, and what is refused is the library's
 * decision.
 */
#define _GNU_SOURCE
#include "registered/enrolling.h"
#include "operations/openness.h"
#include "process/numbers.h"
#include "process/process.h"
#include "requests/copying.h"
#include "rings/descriptors.h"
#include "wulgach_register.h"
#include "wulgach_tables.h"

#include <fcntl.h>
#include <limits.h>
#include <linux/io_uring.h>
#include <pthread.h>
#include <stdbool.h>
#include <stdlib.h>

enum { MOST = 16 };

/* The library's words of a thread that has rows, and the process in which it is known to io_uring,
 * and has them. */
static __thread uint64_t *table;
static __thread uint32_t known_in;
static __thread uint32_t ring_of[MOST]; /* which ring each row has, by its number in the process */
static pthread_key_t key;
static bool has_key; /* a program may have taken all: then the rows of a thread stay when it ends */
static pthread_once_t once = PTHREAD_ONCE_INIT;

static bool is_known(void)
{
    return wulgach_is_known(known_in, this_image());
}

static const uint64_t *own_rows(void)
{
    static const uint64_t none[MOST];
    return table ? table : none;
}

/* (a signal's handler may call meanwhile) */
static void free_table(void)
{
    uint64_t *rows = table;
    table = NULL;
    free(rows);
}

/* A program that has closed the number itself may have it for a file of its own, or another ring.
 */
static void close_row(uint32_t row, int fd)
{
    uint32_t found = 0;
    bool is_found = find_index(fd, &found);
    forget_kept(fd);
    if (wulgach_closes_row(ring_of[row], is_found, found))
        close_descriptor(fd);
}

static void close_rows(void)
{
    uint64_t fd;
    for (uint32_t i = 0; i < MOST; i++)
        if (wulgach_enrolled_named(own_rows(), MOST, is_known(), i, &fd) == 0)
            close_row(i, (int)fd);
}

static void note_rows(void *rows)
{
    if (has_key)
        pthread_setspecific(key, rows);
}

/* A destructor that sets its key again runs in the next round too. */
static void end_thread(void *rows)
{
    static __thread uint32_t round;
    sigset_t signals;
    if (!wulgach_enrolled_go(++round, PTHREAD_DESTRUCTOR_ITERATIONS)) {
        note_rows(rows);
        return;
    }
    block_signals(&signals);
    close_rows();
    free_table();
    allow_signals(&signals);
}

static void make_key(void)
{
    has_key = pthread_key_create(&key, end_thread) == 0;
}

/* A child has none of its parent's rows. The copies of their descriptors were closed as it was
 * forked; one that was made by a system call of the program's own keeps them open. */
static void leave_parents_table(void)
{
    if (!table || is_known())
        return;
    free_table();
    note_rows(NULL);
}

void note_deed(enum wulgach_deed deed, uint32_t to_submit, bool has_thread)
{
    leave_parents_table();
    known_in = wulgach_known_after(known_in, this_image(), deed, to_submit, has_thread);
}

static int make_table(void)
{
    pthread_once(&once, make_key);
    if (!table) {
        table = calloc(MOST, sizeof *table);
        if (table)
            wulgach_enrolled_begin(table, MOST);
        note_rows(table);
    }
    return table ? 0 : wulgach_missing_fault(WULGACH_NO_MEMORY_OWN);
}

/* Puts a ring into the row that it gets. */
static int enroll(int fd, uint32_t row)
{
    int copy = kept_copy_of(fd);
    if (copy < 0)
        return copy;
    find_index(copy, &ring_of[row]);
    wulgach_enroll(table, MOST, row, (uint32_t)copy);
    return 0;
}

static void dismiss(uint32_t row)
{
    uint64_t fd;
    if (wulgach_enrolled_named(own_rows(), MOST, is_known(), row, &fd) < 0)
        return;
    close_row(row, (int)fd);
    wulgach_dismiss(table, MOST, row);
}

/* A row of a list, at an address, and the row of the thread's that it gets. */
struct enrolling {
    struct io_uring_rsrc_update asked;
    uint64_t at;
    uint32_t row;
};

static int judge(const struct io_uring_rsrc_update *asked)
{
    int fd = (int)asked->data;
    bool is_found = is_ring(fd);
    return wulgach_enrolling_fault(
        asked->offset, asked->resv, is_found || is_open_besides(fd), is_found);
}

static int do_next(struct enrolling *enrolling, uint32_t next)
{
    struct io_uring_rsrc_update *asked = &enrolling->asked;
    switch (next) {
    case WULGACH_ENROLLING_READS:
        return copy_in(asked, enrolling->at, sizeof *asked);
    case WULGACH_ENROLLING_JUDGES:
        return judge(asked);
    case WULGACH_ENROLLING_PLACES:
        return wulgach_enrolled_place(table, MOST, asked->offset, &enrolling->row);
    case WULGACH_ENROLLING_FILLS:
        return enroll((int)asked->data, enrolling->row);
    default:
        asked->offset = enrolling->row;
        return copy_out(enrolling->at, asked, sizeof *asked);
    }
}

static int enroll_row(uint64_t at)
{
    struct enrolling enrolling = {.at = at};
    int result = 0;
    uint32_t next = wulgach_enrolling_next(WULGACH_ENROLLING_BEGINS, 0);
    while (next <= WULGACH_ENROLLING_TELLS) {
        result = do_next(&enrolling, next);
        next = wulgach_enrolling_next(next, result);
    }
    if (next == WULGACH_ENROLLING_EMPTIES)
        dismiss(enrolling.row);
    return result;
}

static int do_step_of_dismissal(struct io_uring_rsrc_update *asked, uint64_t at, uint32_t step)
{
    switch (step) {
    case WULGACH_DISMISSING_READS:
        return copy_in(asked, at, sizeof *asked);
    case WULGACH_DISMISSING_JUDGES:
        return wulgach_dismissing_fault(asked->offset, asked->resv, asked->data);
    default:
        dismiss(asked->offset);
        return 0;
    }
}

static int dismiss_row(uint64_t at)
{
    struct io_uring_rsrc_update asked;
    int result = 0;
    for (uint32_t steps = wulgach_dismissing_steps(); steps && result == 0; steps &= steps - 1)
        result = do_step_of_dismissal(&asked, at, (uint32_t)__builtin_ctz(steps));
    return result;
}

/* Takes as many rows as the library says. */
static int for_each_row(int (*change)(uint64_t at), uint64_t list, uint32_t count)
{
    struct wulgach_lists lists;
    wulgach_lists_of_call(list, count, &lists);
    int result = 0;
    uint32_t done = 0;
    while (wulgach_takes_next(done, lists.count, result)) {
        struct wulgach_list_row row;
        wulgach_row_of(&lists, done, false, &row);
        result = change(row.at);
        done += result == 0;
    }
    return wulgach_updated(done, result);
}

int enroll_rings(uint64_t list, uint32_t count)
{
    note_deed(WULGACH_ENROLLS, 0, false);
    int result = make_table();
    return result < 0 ? result : for_each_row(enroll_row, list, count);
}

int dismiss_rings(uint64_t list, uint32_t count)
{
    return for_each_row(dismiss_row, list, wulgach_dismissed_rows(is_known(), count));
}

int enrolled_fd(uint32_t number)
{
    uint64_t fd;
    leave_parents_table();
    int result = wulgach_enrolled_named(own_rows(), MOST, is_known(), number, &fd);
    return result < 0 ? result : (int)fd;
}
