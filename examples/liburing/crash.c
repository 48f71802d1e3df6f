/* A crash test of the store: a process commits some batches and dies right after the last one, with
 * whatever of its ring is still on the way. Then the log is opened again: what was acknowledged has
 * to be there.
 *
 *   crash [COMMITS [RECORDS]]      4 commits of 3 records each, if they aren't given. Status 1: an
 *                                  acknowledged value is lost.
 */
#include "store.h"

#include <stdio.h>
#include <stdlib.h>
#include <string.h>
#include <sys/wait.h>
#include <unistd.h>

static unsigned records = 3; /* of a commit */

static void value_of(char value[STORE_VALUE], unsigned key)
{
    memset(value, 'a' + (int)(key % 26), STORE_VALUE);
    value[0] = (char)key;
}

/* Commits batches, tells each that is acknowledged, and dies. */
static void work(const char *path, unsigned commits, int told)
{
    static struct store store;
    if (store_open(&store, path) < 0)
        _exit(2);
    for (unsigned commit = 0; commit < commits; commit++) {
        for (unsigned i = 0; i < records; i++) {
            char value[STORE_VALUE];
            value_of(value, commit * records + i);
            store_put(&store, commit * records + i, value);
        }
        if (store_commit(&store) == 0 && write(told, &commit, sizeof commit) != sizeof commit)
            _exit(2);
    }
    _exit(0);
}

/* How many values of an acknowledged commit aren't in the log. */
static unsigned count_lost(const struct store *store, unsigned commit)
{
    unsigned lost = 0;
    for (unsigned key = commit * records; key < (commit + 1) * records; key++) {
        char value[STORE_VALUE];
        value_of(value, key);
        const char *found = store_get(store, key);
        if (!found || memcmp(found, value, STORE_VALUE) != 0) {
            printf("commit %u was acknowledged, and its key %u is lost\n", commit, key);
            lost++;
        }
    }
    return lost;
}

/* Opens the log again, and looks for what was acknowledged. */
static unsigned verify(const char *path, int told)
{
    static struct store store;
    unsigned commit, lost = 0;
    if (store_open(&store, path) < 0)
        exit(2);
    while (read(told, &commit, sizeof commit) == sizeof commit)
        lost += count_lost(&store, commit);
    store_close(&store);
    return lost;
}

/* A number from 1 to `most`, or 0 if the word isn't one. */
static unsigned number_of(const char *word, unsigned most)
{
    char *end;
    unsigned long number = strtoul(word, &end, 10);
    return *word >= '0' && *word <= '9' && *end == '\0' && number <= most ? (unsigned)number : 0;
}

int main(int argc, char **argv)
{
    if (argc > 2)
        records = number_of(argv[2], STORE_BATCH);
    unsigned most = records ? STORE_KEYS / records : 0,
             commits = argc > 1 ? number_of(argv[1], most) : 4;
    if (argc > 3 || commits == 0) {
        fprintf(stderr, "crash: 1 to %d records, and as many commits as the store has keys for\n",
            STORE_BATCH);
        return 2;
    }
    char path[] = "/tmp/store.XXXXXX";
    int file = mkstemp(path), told[2], status;
    if (file < 0 || pipe(told) < 0)
        return 2;
    close(file);
    pid_t worker = fork();
    if (worker == 0)
        work(path, commits, told[1]);
    close(told[1]);
    if (worker < 0 || waitpid(worker, &status, 0) < 0 || status != 0)
        return 2;
    unsigned lost = verify(path, told[0]);
    unlink(path);
    return lost ? 1 : 0;
}
