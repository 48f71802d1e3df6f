/* A small log-structured store over liburing: keys and values, appended to one file.
 *
 * Records are put into a batch, and a commit appends the batch. What a commit has acknowledged is
 * found again when the log is opened the next time.
 */
#ifndef STORE_H
#define STORE_H

#include <liburing.h>
#include <stdint.h>

enum { STORE_KEYS = 64, STORE_VALUE = 100, STORE_BATCH = 8 };

/* A record as it stands in the log. */
struct record {
    uint32_t check; /* of all that follows */
    uint32_t commit; /* the commit that wrote it: never falls from record to record */
    uint32_t key;
    char value[STORE_VALUE];
};

struct store {
    struct io_uring ring;
    int file;
    uint32_t commit; /* the number of the next commit */
    uint64_t end; /* the log's length in bytes */
    struct record batch[STORE_BATCH];
    unsigned batch_count;
    int has_value[STORE_KEYS]; /* the index: the newest value of each key */
    char values[STORE_KEYS][STORE_VALUE];
};

/* Opens a log, and makes it if there is none. 0, or the negative of an error number. */
int store_open(struct store *store, const char *path);
void store_close(struct store *store);

/* Puts a value into the batch: up to STORE_BATCH of them. */
void store_put(struct store *store, uint32_t key, const char value[STORE_VALUE]);

/* Appends the batch. 0: its records are safe. Else the negative of an error number: they may be
 * found later or not. */
int store_commit(struct store *store);

/* The value of a key, or NULL. */
const char *store_get(const struct store *store, uint32_t key);

#endif
