/* Calls that have no flag by which they could be asked not to wait: their descriptors are asked in
 * its place, by O_NONBLOCK, for the moment of the call. Which calls are made so is the library's
 * decision.
 */
#ifndef UNWILLING_H
#define UNWILLING_H

#include "wulgach_calls.h"

#include <stdbool.h>

/* Keeps other threads from such calls, around a fork. */
void lock_unwilling(void);
void unlock_unwilling(void);

/* Asks whose lock is on so many bytes of a file from a start on, 0: on all from there, by F_GETLK
 * or F_OFD_GETLK. */
struct wulgach_told_lock ask_lock(int fd, int query, int64_t start, int64_t length);

/* Makes a call whose descriptors are these, either of which may be -1. Returns its result, or the
 * negative of an error number. */
int32_t make_unwilling_call(const struct wulgach_system_call *call, int fd, int second_fd);

/* The same of a call that moves bytes, whose descriptor is its first argument. */
int32_t make_unwilling_transfer(const struct wulgach_system_call *call, int fd);

/* Whether a descriptor is a pipe's end. */
bool is_pipe(int fd);

/* Whether a descriptor isn't to wait, by the application's word. */
bool is_unwilling(int fd);

#endif
