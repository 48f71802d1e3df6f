/* The state of a run's folder. */
#ifndef FOLDERS_H
#define FOLDERS_H

#include <stdbool.h>

/* Removes all that is in a folder. False if something stays. */
bool empty_folder(const char *path);

/* Copies files, folders and symbolic links, with their modes and times, into a folder that is
 * there. False if something isn't copied, as a file that has a second name. */
bool copy_folder(const char *from, const char *to);

#endif
