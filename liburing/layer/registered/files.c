/* A registered file stays open however the application closes its descriptor, so the layer has one
 * of its own, under a high number. A request that is started keeps its file, whatever becomes of
 * the slot. What slots hold, which one a file gets, what a row of a list does, what is refused and
 * when a file is gone is the library's decision.
 *
 * Another ring's thread may put a file here: so the table is looked at and changed under a lock of
 * its own, which isn't held while any other but an inbox's is taken. The file that it takes the
 * place of may be a request's too, which gives it back without that lock: so the library is given
 * the count as it stands, and what it makes of it is put in its place by an exchange that fails if
 * another thread was faster.
 */
#define _GNU_SOURCE
#include "registered/files.h"
#include "operations/openness.h"
#include "process/numbers.h"
#include "requests/copying.h"
#include "rings/descriptors.h"
#include "rings/ring.h"
#include "wulgach_results.h"
#include "wulgach_tables.h"

#include <fcntl.h>
#include <stdlib.h>
#include <sys/stat.h>
#include <unistd.h>

enum { NO_FILE = -1 };

void make_files(struct files *files)
{
    pthread_mutex_init(&files->lock, NULL);
    wulgach_table_begin(&files->table);
}

static struct file *file_of(uint64_t word)
{
    return (struct file *)(uintptr_t)word;
}

/* Puts the count of these uses in the place of what it was, unless that has changed: then says no,
 * and what it is. */
static bool exchange(struct file *file, uint32_t *count, const struct wulgach_uses *uses)
{
    return __atomic_compare_exchange_n(
        &file->uses.count, count, uses->count, false, __ATOMIC_ACQ_REL, __ATOMIC_ACQUIRE);
}

static void take_file(struct file *file)
{
    uint32_t count = __atomic_load_n(&file->uses.count, __ATOMIC_ACQUIRE);
    struct wulgach_uses uses;
    do {
        uses = (struct wulgach_uses){count, file->uses.has_tag};
        wulgach_uses_take(&uses);
    } while (!exchange(file, &count, &uses));
}

bool release_file(struct file *file)
{
    if (!file)
        return false;
    uint32_t count = __atomic_load_n(&file->uses.count, __ATOMIC_ACQUIRE), ending;
    struct wulgach_uses uses;
    do {
        uses = (struct wulgach_uses){count, file->uses.has_tag};
        ending = wulgach_uses_release(&uses);
    } while (!exchange(file, &count, &uses));
    if (ending == WULGACH_STAYS)
        return false;
    close_kept(file->fd, file->is_regular);
    if (ending == WULGACH_TELLS)
        put_message(file->told, file->tag);
    else
        free(file->tag);
    free(file);
    return true;
}

bool is_file_of(const struct file *file, int fd)
{
    return is_same_file(file->fd, fd);
}

struct file *use_file(struct ring *ring, uint32_t index)
{
    struct files *files = &ring->files;
    pthread_mutex_lock(&files->lock);
    struct file *file = file_of(
        wulgach_table_content(&files->table, files->words, files->table.count, index));
    if (file)
        take_file(file);
    pthread_mutex_unlock(&files->lock);
    return file;
}

static bool is_regular(int fd)
{
    struct stat status;
    return fstat(fd, &status) == 0 && S_ISREG(status.st_mode);
}

/* A file that is made of a descriptor, which stays the application's. */
struct making {
    int fd;
    struct inbox *told; /* who is told its tag once it is gone: 0 is none */
    uint64_t tag;
    struct message *message; /* for that */
    struct file *file;
};

static int copy_file(struct making *making)
{
    int copy = kept_copy_of(making->fd);
    if (copy < 0)
        return copy;
    making->file = malloc(sizeof *making->file);
    if (!making->file) {
        close_kept(copy, is_regular(copy));
        return wulgach_missing_fault(WULGACH_NO_MEMORY_OWN);
    }
    *making->file = (struct file){
        .fd = copy, .is_regular = is_regular(copy), .told = making->told, .tag = making->message};
    wulgach_uses_begin(&making->file->uses, making->message != NULL);
    return 0;
}

static int make_step(struct making *making, uint32_t step)
{
    switch (step) {
    case WULGACH_MAKING_FINDS:
        return counts_as_open(making->fd, false) ? 0 : wulgach_missing_fault(WULGACH_NO_FILE);
    case WULGACH_MAKING_TAGS:
        making->message = make_message_of(making->tag, 0);
        return making->message ? 0 : wulgach_missing_fault(WULGACH_NO_MEMORY_OWN);
    case WULGACH_MAKING_JUDGES:
        return wulgach_holding_fault(making->fd, is_ring(making->fd));
    default:
        return copy_file(making);
    }
}

/* Makes a file step by step, as the library says. */
static int make_by_steps(struct file **made, struct making making, bool is_registered)
{
    int fault = 0;
    for (uint32_t steps = wulgach_making_steps(is_registered, making.tag); steps && fault == 0;
         steps &= steps - 1)
        fault = make_step(&making, (uint32_t)__builtin_ctz(steps));
    if (fault < 0)
        free(making.message);
    else
        *made = making.file;
    return fault;
}

static int make_file_of(struct file **made, int fd)
{
    return make_by_steps(made, (struct making){.fd = fd}, false);
}

int make_tagged_file(struct ring *ring, struct file **made, int fd, uint64_t tag)
{
    return make_by_steps(made, (struct making){.fd = fd, .told = &ring->inbox, .tag = tag}, true);
}

struct file *hold_file(int fd)
{
    struct file *file;
    return make_file_of(&file, fd) < 0 ? NULL : file;
}

struct file *share_file(struct file *file)
{
    take_file(file);
    return file;
}

/* Its slots go one after the other, as the library says. */
static void free_words(uint64_t *words, uint32_t count)
{
    uint32_t slot;
    for (uint32_t gone = 0; wulgach_next_to_go(count, gone, &slot); gone++)
        release_file(file_of(words[slot]));
    free(words);
}

/* Of a table that isn't put after all, no tag is told. */
static void drop_words(uint64_t *words, uint32_t count)
{
    for (uint32_t i = 0; i < count; i++)
        if (words[i])
            wulgach_uses_drop_tag(&file_of(words[i])->uses);
    free_words(words, count);
}

/* Puts another table, or none, in the place of one. */
static void put_table(struct files *files, uint64_t *words, uint32_t count)
{
    pthread_mutex_lock(&files->lock);
    uint64_t *before = files->words;
    uint32_t before_count = files->table.count;
    files->words = words;
    if (words)
        wulgach_table_register(&files->table, words, count);
    else
        wulgach_table_unregister(&files->table);
    pthread_mutex_unlock(&files->lock);
    free_words(before, before_count);
}

/* Puts a file, or none, in the place of one. */
static void put_slot(struct files *files, uint32_t slot, struct file *file)
{
    pthread_mutex_lock(&files->lock);
    uint64_t before = wulgach_table_fill(
        &files->table, files->words, files->table.count, slot, (uintptr_t)file);
    pthread_mutex_unlock(&files->lock);
    release_file(file_of(before));
}

int read_file_row(
    struct file_row *row, const struct wulgach_lists *lists, uint32_t index, bool is_update)
{
    *row = (struct file_row){.fd = NO_FILE};
    wulgach_row_of(lists, index, true, &row->place);
    int result = 0;
    for (uint32_t steps = wulgach_reading_steps(lists->tags, lists->rows, is_update);
         steps && result == 0; steps &= steps - 1)
        if (__builtin_ctz(steps) == WULGACH_READING_TAG)
            result = copy_in(&row->tag, row->place.tag_at, sizeof row->tag);
        else
            result = copy_in(&row->fd, row->place.at, sizeof row->fd);
    return result;
}

/* Makes the file of a row, if the row has one, and puts it into its slot of a table. */
static int make_row(
    struct ring *ring, uint64_t *words, const struct wulgach_lists *lists, uint32_t index)
{
    struct file_row row;
    int32_t fault;
    struct file *file = NULL;
    int result = read_file_row(&row, lists, index, false);
    if (result < 0)
        return result;
    if (wulgach_file_row(row.fd, row.tag, false, &fault) == WULGACH_ROW_FILLS)
        fault = make_tagged_file(ring, &file, row.fd, row.tag);
    words[row.place.slot] = (uintptr_t)file;
    return fault;
}

int register_files(struct ring *ring, const struct wulgach_lists *lists)
{
    uint32_t count = lists->count;
    int result = wulgach_table_registering_fault(
        &ring->files.table, count, limit_of_numbers(), true);
    if (result < 0)
        return result;
    uint64_t *words = calloc(count, sizeof *words);
    if (!words)
        return wulgach_missing_fault(WULGACH_NO_MEMORY_OWN);
    uint32_t taken = 0, listing;
    while ((listing = wulgach_table_listing(taken, count, lists->rows || lists->tags, result)) ==
           WULGACH_LISTING_TAKES) {
        result = make_row(ring, words, lists, taken);
        taken++;
    }
    if (listing == WULGACH_LISTING_PUTS)
        put_table(&ring->files, words, count);
    else
        drop_words(words, count);
    return result;
}

int unregister_files(struct ring *ring, bool has_argument)
{
    int result = wulgach_table_unregistering_fault(&ring->files.table, has_argument);
    if (result == 0)
        put_table(&ring->files, NULL, 0);
    return result;
}

/* Does with a slot what the library says that a row does, step by step. It gets the file that was
 * made, or none. */
static int update_file(struct ring *ring, const struct file_row *row)
{
    int fd = row->fd;
    uint64_t tag = row->tag;
    int32_t fault;
    struct file *file = NULL;
    uint32_t steps = wulgach_row_steps(wulgach_file_row(fd, tag, true, &fault), true);
    for (; steps && fault == 0; steps &= steps - 1)
        if (__builtin_ctz(steps) == WULGACH_STEP_MAKES)
            fault = make_tagged_file(ring, &file, fd, tag);
        else
            put_slot(&ring->files, row->place.slot, file);
    return fault;
}

int update_files(struct ring *ring, const struct wulgach_lists *lists)
{
    int result = wulgach_table_updating_fault(&ring->files.table, lists->from, lists->count);
    uint32_t done = 0;
    while (wulgach_takes_next(done, lists->count, result)) {
        struct file_row row;
        result = read_file_row(&row, lists, done, true);
        if (result == 0)
            result = update_file(ring, &row);
        done += result == 0;
    }
    return wulgach_updated(done, result);
}

int register_range(struct ring *ring, uint64_t range)
{
    struct io_uring_file_index_range asked;
    struct files *files = &ring->files;
    int result = copy_in(&asked, range, sizeof asked);
    if (result < 0)
        return result;
    pthread_mutex_lock(&files->lock);
    result = wulgach_table_give_out(&files->table, (const void *)&asked);
    pthread_mutex_unlock(&files->lock);
    return result;
}

int put_file(struct ring *ring, struct file *file, uint32_t file_index)
{
    struct files *files = &ring->files;
    struct file *before = file;
    uint32_t slot = 0;
    pthread_mutex_lock(&files->lock);
    int result = wulgach_table_place(
        &files->table, files->words, files->table.count, file_index, &slot);
    if (result == 0)
        before = file_of(wulgach_table_fill(
            &files->table, files->words, files->table.count, slot, (uintptr_t)file));
    pthread_mutex_unlock(&files->lock);
    release_file(before);
    return result < 0 ? result : wulgach_placed_result(file_index, slot);
}

int pass_file(struct ring *target, const struct file *file, uint32_t file_index)
{
    struct file *copy;
    int result = make_file_of(&copy, file->fd);
    return result < 0 ? result : put_file(target, copy, file_index);
}

int install_file(struct ring *ring, int fd, uint32_t file_index)
{
    struct file *file;
    int result = make_file_of(&file, fd);
    close_kept(fd, is_regular(fd));
    return result < 0 ? result : put_file(ring, file, file_index);
}

int remove_file(struct ring *ring, uint32_t slot)
{
    struct files *files = &ring->files;
    uint64_t before = 0;
    pthread_mutex_lock(&files->lock);
    int result = wulgach_table_closing_fault(&files->table, files->words, files->table.count, slot);
    if (result == 0)
        before = wulgach_table_fill(&files->table, files->words, files->table.count, slot, 0);
    pthread_mutex_unlock(&files->lock);
    release_file(file_of(before));
    return result;
}

void free_files(struct ring *ring)
{
    put_table(&ring->files, NULL, 0);
    pthread_mutex_destroy(&ring->files.lock);
}
