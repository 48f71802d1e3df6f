/* Registered files: a table of descriptors of the layer's own, by index. */
#ifndef FILES_H
#define FILES_H

#include "wulgach_buffers.h"
#include "wulgach_register.h"
#include "wulgach_tables.h"

#include <pthread.h>
#include <stdbool.h>
#include <stdint.h>

struct inbox;
struct message;

/* A registered file. It is closed once no slot and no request has it. */
struct file {
    int fd;
    bool is_regular; /* the process may have locks on it */
    struct wulgach_uses uses; /* when that is, is the library's decision; each change of the count
                                 is one exchange */
    struct inbox *told; /* who is told its tag then, */
    struct message *tag; /* or NULL: it has none */
};

struct files {
    pthread_mutex_t lock; /* another ring may send a file here */
    struct wulgach_table table; /* which slot holds what is the library's: */
    uint64_t *words; /* of each slot the address of its file, or 0 */
};

struct ring;

void make_files(struct files *files);
void free_files(struct ring *ring);

/* The calls of io_uring_register(2), with the lists that the library says. Each returns 0 or the
 * number of files updated, or the negative of an error number. */
int register_files(struct ring *ring, const struct wulgach_lists *lists);
int unregister_files(struct ring *ring, bool has_argument);
int update_files(struct ring *ring, const struct wulgach_lists *lists);
int register_range(struct ring *ring, uint64_t range);

/* Takes a descriptor over as a registered file: slot + 1, or IORING_FILE_INDEX_ALLOC. Returns 0, or
 * the slot if any was asked for, or the negative of an error number: then the descriptor is closed.
 */
int install_file(struct ring *ring, int fd, uint32_t file_index);
int remove_file(struct ring *ring, uint32_t slot);

/* Puts a file of another ring into this one's table, likewise, also from another thread. The file
 * stays the other's too. */
int pass_file(struct ring *target, const struct file *file, uint32_t file_index);

/* A row of the application's lists of descriptors and of tags. */
struct file_row {
    struct wulgach_list_row place;
    int fd;
    uint64_t tag;
};

/* Reads it as the library says. A list that isn't read has no files, or no tags. */
int read_file_row(
    struct file_row *row, const struct wulgach_lists *lists, uint32_t index, bool is_update);

/* Makes the file of a descriptor that the application names by its number, with a tag or 0. Returns
 * 0, or its fault. */
int make_tagged_file(struct ring *ring, struct file **made, int fd, uint64_t tag);

/* Puts a file into a slot, as install_file does a descriptor. If it can't be put, it is released.
 */
int put_file(struct ring *ring, struct file *file, uint32_t file_index);

/* The file of an index, one use more; NULL if there is none. */
struct file *use_file(struct ring *ring, uint32_t index);

/* A file of a descriptor that stays the application's; NULL if there is none to be had. And one use
 * more of it. */
struct file *hold_file(int fd);
struct file *share_file(struct file *file);

/* One use less. Nothing, of NULL. Returns whether it was the last, and the file's descriptor is
 * closed. */
bool release_file(struct file *file);

/* Whether a request's file is that of a descriptor of the application's too, which keeps it open.
 * False where the kernel doesn't say. */
bool is_file_of(const struct file *file, int fd);

#endif
