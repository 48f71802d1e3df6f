/* A test of the store for power failures, by `liburing/explore crash`:
 *
 *   power run [COMMITS [RECORDS]]   commits to `log` in the folder where it runs, and prints each
 *                                   commit that is acknowledged
 *   power check                     reads what was printed, and opens the log that a crash has
 *                                   left. Status 1: an acknowledged value is lost
 */
#include "store.h"

#include <fcntl.h>
#include <stdio.h>
#include <stdlib.h>
#include <string.h>
#include <unistd.h>

static void value_of(char value[STORE_VALUE], unsigned key)
{
    memset(value, 'a' + (int)(key % 26), STORE_VALUE);
    value[0] = (char)key;
}

/* The log's name is in its folder, and that is to be safe before the first commit is. */
static int make_log(void)
{
    int log = open("log", O_RDWR | O_CREAT | O_CLOEXEC, 0600),
        folder = open(".", O_RDONLY | O_DIRECTORY | O_CLOEXEC);
    if (log < 0 || folder < 0)
        return -1;
#if PLANTED != 5
    if (fsync(folder) < 0)
        return -1;
#endif
    close(folder);
    return close(log);
}

static int run(unsigned commits, unsigned records)
{
    static struct store store;
    if (make_log() < 0 || store_open(&store, "log") < 0)
        return 2;
    for (unsigned commit = 0; commit < commits; commit++) {
        for (unsigned i = 0; i < records; i++) {
            char value[STORE_VALUE];
            value_of(value, commit * records + i);
            store_put(&store, commit * records + i, value);
        }
        if (store_commit(&store) != 0)
            continue;
        for (unsigned i = 0; i < records; i++)
            printf("%u\n", commit * records + i);
        fflush(stdout);
    }
    return 0;
}

/* How many of the keys that were acknowledged aren't in the log. */
static int check(void)
{
    static struct store store;
    unsigned key;
    int lost = 0;
    if (store_open(&store, "log") < 0)
        return 2;
    while (scanf("%u", &key) == 1) {
        char value[STORE_VALUE];
        value_of(value, key);
        const char *found = store_get(&store, key);
        if (!found || memcmp(found, value, STORE_VALUE) != 0) {
            printf("key %u was acknowledged, and is lost\n", key);
            lost++;
        }
    }
    store_close(&store);
    return lost ? 1 : 0;
}

int main(int argc, char **argv)
{
    unsigned commits = argc > 2 ? (unsigned)atoi(argv[2]) : 4,
             records = argc > 3 ? (unsigned)atoi(argv[3]) : 3;
    if (argc == 2 && strcmp(argv[1], "check") == 0)
        return check();
    if (argc < 2 || argc > 4 || strcmp(argv[1], "run") != 0 || commits < 1 || records < 1 ||
        records > STORE_BATCH || commits > STORE_KEYS / records) {
        fprintf(stderr,
            "power run [COMMITS [RECORDS]] | power check: 1 to %d records, and as many commits as the store has keys for\n",
            STORE_BATCH);
        return 2;
    }
    return run(commits, records);
}
