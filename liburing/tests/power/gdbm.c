/* Commits to Debian's GDBM in the folder where it runs, and checks what a power failure has left of
 * it.
 *
 *   gdbm run [nosync] [COMMITS]     prints each commit that was acknowledged
 *   gdbm check                      reads these; status 1: a commit is lost, or the file can't be
 * opened
 */
#include <gdbm.h>
#include <stdio.h>
#include <stdlib.h>
#include <string.h>

enum { SIZE = 900 };

static int store(GDBM_FILE file, unsigned commit)
{
    char text[SIZE];
    memset(text, 'a' + (int)(commit % 26), sizeof text);
    datum key = {(char *)&commit, sizeof commit}, value = {text, sizeof text};
    return gdbm_store(file, key, value, GDBM_REPLACE);
}

static int run(int is_synced, unsigned commits)
{
    GDBM_FILE file = gdbm_open("t.gdbm", 512, GDBM_WRCREAT, 0600, NULL);
    if (!file)
        return 2;
    for (unsigned commit = 0; commit < commits; commit++) {
        if (store(file, commit) != 0 || (is_synced && gdbm_sync(file) != 0))
            return 2;
        printf("%u\n", commit);
        fflush(stdout);
    }
    return gdbm_close(file);
}

static int is_there(GDBM_FILE file, unsigned commit)
{
    datum key = {(char *)&commit, sizeof commit}, value = gdbm_fetch(file, key);
    int is_right = value.dptr && value.dsize == SIZE &&
                   value.dptr[SIZE - 1] == 'a' + (int)(commit % 26);
    free(value.dptr);
    return is_right;
}

static int check(void)
{
    unsigned acknowledged = 0, commit;
    while (scanf("%u", &commit) == 1)
        acknowledged = commit + 1;
    if (acknowledged == 0)
        return 0;
    GDBM_FILE file = gdbm_open("t.gdbm", 512, GDBM_READER, 0600, NULL);
    if (!file) {
        printf("%u commits were acknowledged, and GDBM says: %s\n", acknowledged,
            gdbm_strerror(gdbm_errno));
        return 1;
    }
    for (commit = 0; commit < acknowledged; commit++)
        if (!is_there(file, commit)) {
            printf("commit %u of %u acknowledged ones isn't there: %s\n", commit, acknowledged,
                gdbm_strerror(gdbm_errno));
            return 1;
        }
    return 0;
}

int main(int argc, char **argv)
{
    if (argc > 1 && strcmp(argv[1], "run") == 0)
        return run(
            argc < 3 || strcmp(argv[2], "nosync") != 0, argc > 3 ? (unsigned)atoi(argv[3]) : 8);
    return check();
}
