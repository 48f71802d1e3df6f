/* What the kernel says of a descriptor. */
#ifndef OPENNESS_H
#define OPENNESS_H

#include "wulgach_waits.h"

#include <stdbool.h>
#include <stddef.h>

/* How a descriptor is open. */
struct wulgach_openness openness_of(int fd);

/* Whether it counts as open, by its number or as what a slot holds. */
bool counts_as_open(int fd, bool is_of_slot);

/* The same of a number under which no ring was found: the layer's own, which other threads make and
 * close meanwhile, don't count. */
bool is_open_besides(int fd);

/* Writes the name in /proc of what it is open on, which isn't ended, and returns how long that is;
 * 0: it has none. */
enum { MOST_OF_NAME = 64 };
size_t name_of_descriptor(int fd, char name[MOST_OF_NAME]);

/* Whether two descriptors are open on one file: 1 or 0, or negative: the kernel doesn't say. */
int are_on_one_file(int one, int other);

/* Whether they are taken to be so. */
bool is_same_file(int one, int other);

#endif
