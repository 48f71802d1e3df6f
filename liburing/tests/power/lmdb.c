/* Commits to Debian's LMDB in the folder where it runs, and checks what a power failure has left of
 * it.
 *
 *   lmdb run [nosync | nometasync | writemap | mapasync] [COMMITS]     prints each commit that was
 *     acknowledged
 *   lmdb check             reads these; status 1: a commit is lost, or there by halves, or the
 *                          environment can't be opened
 */
#include <lmdb.h>
#include <stdio.h>
#include <stdlib.h>
#include <string.h>

enum { PARTS = 3 };

static unsigned flags_of(const char *word)
{
    return strcmp(word, "nosync") == 0       ? MDB_NOSYNC
           : strcmp(word, "nometasync") == 0 ? MDB_NOMETASYNC
           : strcmp(word, "writemap") == 0   ? MDB_WRITEMAP
           : strcmp(word, "mapasync") == 0   ? MDB_WRITEMAP | MDB_MAPASYNC
                                             : 0;
}

static int open_environment(MDB_env **env, unsigned flags)
{
    int result = mdb_env_create(env);
    if (result == 0)
        result = mdb_env_set_mapsize(*env, 1 << 20);
    return result ? result : mdb_env_open(*env, ".", flags, 0600);
}

static int put(MDB_env *env, unsigned commit)
{
    MDB_txn *txn;
    MDB_dbi table;
    int result = mdb_txn_begin(env, NULL, 0, &txn);
    if (result == 0)
        result = mdb_dbi_open(txn, NULL, 0, &table);
    for (unsigned part = 0; result == 0 && part < PARTS; part++) {
        char text[900];
        unsigned key = commit * PARTS + part;
        memset(text, 'a' + (int)(key % 26), sizeof text);
        MDB_val name = {sizeof key, &key}, value = {sizeof text, text};
        result = mdb_put(txn, table, &name, &value, 0);
    }
    return result ? result : mdb_txn_commit(txn);
}

static int run(unsigned flags, unsigned commits)
{
    MDB_env *env;
    int result = open_environment(&env, flags);
    for (unsigned commit = 0; result == 0 && commit < commits; commit++) {
        result = put(env, commit);
        if (result == 0) {
            printf("%u\n", commit);
            fflush(stdout);
        }
    }
    if (result)
        fprintf(stderr, "lmdb: %s\n", mdb_strerror(result));
    return result ? 2 : 0;
}

/* How many parts of a commit are there, and right. */
static unsigned count_parts(MDB_txn *txn, MDB_dbi table, unsigned commit)
{
    unsigned found = 0;
    for (unsigned key = commit * PARTS; key < (commit + 1) * PARTS; key++) {
        MDB_val name = {sizeof key, &key}, value;
        if (mdb_get(txn, table, &name, &value) == 0 && value.mv_size == 900 &&
            ((char *)value.mv_data)[899] == 'a' + (int)(key % 26))
            found++;
    }
    return found;
}

static int check(void)
{
    MDB_env *env;
    MDB_txn *txn;
    MDB_dbi table;
    unsigned acknowledged = 0, commit;
    while (scanf("%u", &commit) == 1)
        acknowledged = commit + 1;
    int result = open_environment(&env, 0);
    if (result == 0)
        result = mdb_txn_begin(env, NULL, MDB_RDONLY, &txn);
    if (result == 0)
        result = mdb_dbi_open(txn, NULL, 0, &table);
    if (result) {
        printf("%u commits were acknowledged, and LMDB says: %s\n", acknowledged,
            mdb_strerror(result));
        return acknowledged || result != MDB_NOTFOUND ? 1 : 0;
    }
    for (commit = 0; commit < acknowledged + 2; commit++) {
        unsigned found = count_parts(txn, table, commit);
        if (found != PARTS && (commit < acknowledged || found != 0)) {
            printf("commit %u of %u acknowledged ones has %u of %u parts\n", commit, acknowledged,
                found, PARTS);
            return 1;
        }
    }
    return 0;
}

int main(int argc, char **argv)
{
    if (argc > 1 && strcmp(argv[1], "run") == 0)
        return run(argc > 2 ? flags_of(argv[2]) : 0, argc > 3 ? (unsigned)atoi(argv[3]) : 8);
    return check();
}
