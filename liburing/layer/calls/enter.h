/* The three calls after the system calls io_uring_setup(2), io_uring_enter(2) and
 * io_uring_register(2). Each returns what the system call does, or the negative of an error number.
 * A ring's descriptor is memory, which mmap maps, or polls and is mapped by map_file.
 */
#ifndef ENTER_H
#define ENTER_H

#include <signal.h>
#include <stdbool.h>
#include <stddef.h>
#include <stdint.h>

struct io_uring_params;

int setup(uint32_t entries, struct io_uring_params *params, bool is_polled);
/* `signals`: NULL, or all signals are blocked already, and these are what the thread has blocked
 * else. `is_open`: they are NULL, and signals are left open as the call begins
 * (leaves_signals_open). (the entries that it takes may be more than an int holds, where the ring
 * has a thread) */
int64_t enter(int fd, uint32_t to_submit, uint32_t min_complete, uint32_t flags,
    const void *argument, size_t size, const sigset_t *signals, bool is_open);
int register_at(int fd, uint32_t code, void *argument, uint32_t count);

/* Maps a part of a ring whose descriptor polls; any other file as mmap does. */
void *map_file(void *at, size_t size, int protection, int flags, int fd, int64_t offset);

#endif
