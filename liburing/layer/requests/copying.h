/* Copying what the application points to. An address that can't be read or written is an error, as
 * it is in the kernel, and not the end of the program.
 */
#ifndef COPYING_H
#define COPYING_H

#include <stdbool.h>
#include <stddef.h>
#include <stdint.h>

/* Copies from the application, and to it. Each returns 0, or its fault. */
int copy_in(void *to, uint64_t from, size_t size);
int copy_out(uint64_t to, const void *from, size_t size);

/* What was read of a text: with its end, or without, in memory of its own. */
struct text {
    char *letters;
    uint64_t length;
    bool has_end;
};

/* Copies a text of so many bytes at most, its end with them. Returns 0, its fault or -ENOMEM. */
int copy_text(struct text *text, uint64_t from, size_t most);

#endif
