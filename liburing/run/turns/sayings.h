/* What the kernel says of files and of processes, without what differs from run to run. */
#ifndef TURNS_SAYINGS_H
#define TURNS_SAYINGS_H

#include "turns.h"

#include <sys/stat.h>

/* A descriptor of a file with what is said in the place of this path, or NO_SAYING. */
enum { NO_SAYING = -10000 };
long open_saying(const char *path);

/* The number of a file, as it was met; and whether it is a pipe or the like of which the run has
 * made both ends. */
uint64_t number_of_file(uint64_t device, uint64_t file);
void note_inside(int fd);
bool is_noted_inside(const struct stat *about);

serving serve_stat, serve_fstatat, serve_statx, serve_entries;

#endif
