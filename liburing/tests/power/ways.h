/* What the ways and the cases of `ways` share: bytes, and files that are made, written and synced.
 */
#ifndef WAYS_H
#define WAYS_H

#include <stdbool.h>
#include <stddef.h>
#include <sys/types.h>

enum { SIZE = 8192, SECTOR = 512 };

/* What is written, and whether it is synced before it is called safe. */
extern char bytes[SIZE];
extern bool is_synced;

/* Ends the program, and says why, unless it is so. */
void demand(bool is_so, const char *what);

int make(const char *name, int flags);
void sync_folder(void);
void sync_file(int file);
void put(int file, const char *from, size_t size, off_t offset);

/* The file's memory, shared, of a length to which it's brought, with what is written. */
char *write_memory(int file);

/* Each way to write `data`, up to one without a name. */
extern const struct way {
    const char *name;
    void (*write)(void);
} ways[];

/* Ways and a case of io_submit(2). */
void by_aio(void);
void by_aio_vectors(void);
void by_aio_ring(void);
void by_aio_refused(void);
void run_together(void);

#endif
