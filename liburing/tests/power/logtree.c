/* Commits to Debian's LevelDB, or with -DROCKSDB to its RocksDB, in the folder where it runs, and
 * checks what a power failure has left of it.
 *
 *   logtree run sync|nosync [COMMITS]     prints each commit that was acknowledged
 *   logtree check                         reads these; status 1: a commit is lost, or there by
 *                                         halves, or it can't be opened
 */
#ifdef ROCKSDB
#include <rocksdb/c.h>
#define OF(name) rocksdb_##name
typedef rocksdb_t database;
typedef rocksdb_options_t options;
typedef rocksdb_writeoptions_t write_options;
typedef rocksdb_readoptions_t read_options;
typedef rocksdb_writebatch_t batch;
#else
#include <leveldb/c.h>
#define OF(name) leveldb_##name
typedef leveldb_t database;
typedef leveldb_options_t options;
typedef leveldb_writeoptions_t write_options;
typedef leveldb_readoptions_t read_options;
typedef leveldb_writebatch_t batch;
#endif
#include <stdio.h>
#include <stdlib.h>
#include <string.h>

enum { PARTS = 3, VALUE = 900 };

static database *open_it(char **error)
{
    options *how = OF(options_create)();
    OF(options_set_create_if_missing)(how, 1);
    OF(options_set_write_buffer_size)(how, 1 << 16);
    return OF(open)(how, "db", error);
}

static void put(database *base, const write_options *how, unsigned commit, char **error)
{
    batch *all = OF(writebatch_create)();
    for (unsigned part = 0; part < PARTS; part++) {
        char text[VALUE];
        unsigned key = commit * PARTS + part;
        memset(text, 'a' + (int)(key % 26), sizeof text);
        OF(writebatch_put)(all, (char *)&key, sizeof key, text, sizeof text);
    }
    OF(write)(base, how, all, error);
    OF(writebatch_destroy)(all);
}

static int run(int is_synced, unsigned commits)
{
    char *error = NULL;
    database *base = open_it(&error);
    write_options *how = OF(writeoptions_create)();
    OF(writeoptions_set_sync)(how, (unsigned char)is_synced);
    for (unsigned commit = 0; !error && commit < commits; commit++) {
        put(base, how, commit, &error);
        if (!error) {
            printf("%u\n", commit);
            fflush(stdout);
        }
    }
    if (!error)
        OF(close)(base);
    return error ? 2 : 0;
}

static unsigned count_parts(database *base, const read_options *how, unsigned commit, char **error)
{
    unsigned found = 0;
    for (unsigned key = commit * PARTS; key < (commit + 1) * PARTS; key++) {
        size_t length;
        char *value = OF(get)(base, how, (char *)&key, sizeof key, &length, error);
        found += value && length == VALUE && value[VALUE - 1] == 'a' + (int)(key % 26);
        free(value);
    }
    return found;
}

static int check(void)
{
    unsigned acknowledged = 0, commit;
    char *error = NULL;
    while (scanf("%u", &commit) == 1)
        acknowledged = commit + 1;
    database *base = open_it(&error);
    read_options *how = OF(readoptions_create)();
    for (commit = 0; !error && commit < acknowledged + 2; commit++) {
        unsigned found = count_parts(base, how, commit, &error);
        if (!error && found != PARTS && (commit < acknowledged || found != 0)) {
            printf("commit %u of %u acknowledged ones has %u of %u parts\n", commit, acknowledged,
                found, PARTS);
            return 1;
        }
    }
    if (error)
        printf("%u commits were acknowledged, and the database says: %s\n", acknowledged, error);
    return error ? 1 : 0;
}

int main(int argc, char **argv)
{
    if (argc > 1 && strcmp(argv[1], "run") == 0)
        return run(
            argc <= 2 || strcmp(argv[2], "sync") == 0, argc > 3 ? (unsigned)atoi(argv[3]) : 8);
    return check();
}
