/* Commits to Debian's Berkeley DB in the folder where it runs, and checks what a power failure has
 * left of it.
 *
 *   bdb run [sync | writenosync | nosync] [COMMITS]     prints each commit that was acknowledged
 *   bdb check                                           reads these; status 1: a commit is lost, or
 * there by halves, or the environment doesn't recover
 */
#define _DEFAULT_SOURCE
#include <db.h>
#include <stdio.h>
#include <stdlib.h>
#include <string.h>

enum { PARTS = 3, SIZE = 900 };

static int open_environment(DB_ENV **env, u_int32_t recovers)
{
    int result = db_env_create(env, 0);
    if (result == 0)
        result = (*env)->open(*env, ".",
            DB_CREATE | DB_PRIVATE | DB_INIT_TXN | DB_INIT_LOG | DB_INIT_MPOOL | DB_INIT_LOCK |
                recovers,
            0600);
    return result;
}

static int open_table(DB_ENV *env, DB **table, u_int32_t flags)
{
    int result = db_create(table, env, 0);
    if (result == 0)
        result = (*table)->open(*table, NULL, "t.db", NULL, DB_BTREE, flags | DB_AUTO_COMMIT, 0600);
    return result;
}

static int put(DB_ENV *env, DB *table, unsigned commit, u_int32_t flags)
{
    DB_TXN *txn;
    int result = env->txn_begin(env, NULL, &txn, 0);
    for (unsigned part = 0; result == 0 && part < PARTS; part++) {
        char text[SIZE];
        unsigned number = commit * PARTS + part;
        memset(text, 'a' + (int)(number % 26), sizeof text);
        DBT key = {.data = &number, .size = sizeof number}, value = {.data = text, .size = SIZE};
        result = table->put(table, txn, &key, &value, 0);
    }
    return result ? result : txn->commit(txn, flags);
}

static int run(const char *word, unsigned commits)
{
    DB_ENV *env;
    DB *table;
    u_int32_t flags = strcmp(word, "nosync") == 0        ? DB_TXN_NOSYNC
                      : strcmp(word, "writenosync") == 0 ? DB_TXN_WRITE_NOSYNC
                                                         : DB_TXN_SYNC;
    int result = open_environment(&env, 0);
    if (result == 0)
        result = open_table(env, &table, DB_CREATE);
    for (unsigned commit = 0; result == 0 && commit < commits; commit++) {
        result = put(env, table, commit, flags);
        if (result == 0) {
            printf("%u\n", commit);
            fflush(stdout);
        }
        if (result == 0 && commit % 3 == 2)
            result = env->txn_checkpoint(env, 0, 0, DB_FORCE);
    }
    if (result)
        fprintf(stderr, "bdb: %s\n", db_strerror(result));
    return result ? 2 : 0;
}

/* How many parts of a commit are there, and right. */
static unsigned count_parts(DB *table, unsigned commit)
{
    unsigned found = 0;
    for (unsigned number = commit * PARTS; number < (commit + 1) * PARTS; number++) {
        DBT key = {.data = &number, .size = sizeof number}, value = {0};
        if (table->get(table, NULL, &key, &value, 0) == 0 && value.size == SIZE &&
            ((char *)value.data)[SIZE - 1] == 'a' + (int)(number % 26))
            found++;
    }
    return found;
}

static int check(void)
{
    DB_ENV *env;
    DB *table;
    unsigned acknowledged = 0, commit;
    while (scanf("%u", &commit) == 1)
        acknowledged = commit + 1;
    int result = open_environment(&env, DB_RECOVER);
    if (result == 0)
        result = open_table(env, &table, 0);
    if (result) {
        printf("%u commits were acknowledged, and Berkeley DB says: %s\n", acknowledged,
            db_strerror(result));
        return acknowledged ? 1 : 0;
    }
    for (commit = 0; commit < acknowledged + 2; commit++) {
        unsigned found = count_parts(table, commit);
        if (found != PARTS && (commit < acknowledged || found != 0)) {
            printf("commit %u of %u acknowledged ones has %u of %u parts\n", commit, acknowledged,
                found, PARTS);
            return 1;
        }
    }
    return 0;
}

int main(int argc, char **argv)
{
    if (argc > 1 && strcmp(argv[1], "run") == 0)
        return run(argc > 2 ? argv[2] : "sync", argc > 3 ? (unsigned)atoi(argv[3]) : 8);
    return check();
}
