/* Transfers that are tried before their descriptors are asked whether they may have to wait: the
 * facts on which that rests. In order nothing but a transfer's own result depends on the answer. */
#ifndef TRYING_H
#define TRYING_H

#include <stdbool.h>
#include <stdint.h>

/* Reads what the user says of devices; and whether no device is read whose reads wait. */
void read_devices(void);
bool has_no_devices(void);

/* Notes whether a descriptor was found to be a file, as the kernel said just now. */
void note_kind(int fd, bool is_file);

/* Notes what a call by this number came to, which was asked not to wait before anything was asked
 * of its descriptor, or wasn't. */
void note_call(int fd, bool is_at_once, int32_t res);

/* Whether what has this number is a file in memory, if it was one when that was last asked. To be
 * told is quicker than what else a file is asked. */
bool is_in_memory(int fd);

/* Whether what had this number was a file that could be asked not to wait, when that was last
 * asked. */
bool was_file(int fd);

/* Or one in memory, which can't be asked so. */
bool was_in_memory(int fd);

/* Whether a choice rests on which requests may have to wait: then each is asked before it is
 * carried out. */
bool is_asked_before(void);

#endif
