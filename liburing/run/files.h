/* The calls that change files, trapped where the run has a log (layer/traces/log.h): each is put
 * into it and carried out. Which call is logged as what, and what its arguments are, the library
 * says. */
#ifndef FILES_H
#define FILES_H

#include "wulgach_logged.h"

#include <stdbool.h>
#include <stddef.h>
#include <stdint.h>
#include <sys/types.h>

/* Traps them. False: the kernel refuses the filter. */
bool trap_files(void);

/* Whether a call is one of files; and serving a trapped one with these words: false if it isn't.
 * Its result is the kernel's. */
bool is_file_call(long number);
bool serve_file_call(long call, const long words[6], long *result);

/* A trapped call: its number, its words, and what the library says of them. */
struct file_call {
    long number;
    const long *words;
    uint32_t kind; /* enum wulgach_logged_call */
    struct wulgach_call_words is;
};

/* Carries it out as it stands. */
long carry(const struct file_call *call);

/* Those of io_submit(2) and its like (aio.c). */
bool is_aio_call(long number);
long serve_aio_call(long number, const long words[6]);

/* Puts the ends into the log of what the program has been told of by now (aio.c). */
void log_taken(void);

/* Whether a sync that is made now is to fail: it is counted by that. */
bool fails_now(void);

/* Calls of names (names.c), of bytes from another file (copies.c) and of mapped memory (maps.c). */
long call_on_name(const struct file_call *call);
long call_rename(const struct file_call *call);
long call_link(const struct file_call *call);
long call_open(const struct file_call *call);
long call_copy(const struct file_call *call);
long call_map(const struct file_call *call);
long call_msync(const struct file_call *call);

/* Reads the program's memory, which may be where nothing is; false if it can't be read. Where
 * nobody may ask it is read as it comes. The process is named by the thread that calls: its first
 * one may have ended. */
bool read_memory(const void *from, void *to, size_t size);

/* A descriptor of our own that reads a file, and stays open; negative if there is none. */
int reader_of(uint64_t file, int fd);

/* Puts into the log what has changed of the files that are mapped. */
void compare_maps(void);

/* An event of a thread's operation is its end. */
long end_operation(long result);

#endif
