/* A store that commits to a log alone, and brings it into its data where it recovers; right, or
 * with a bug planted in that.
 *
 *   redo run                        commits six values to the log, and says so of each
 *   redo recover [early | marked]   brings the log into the data, and cuts it. early: it is cut
 *                                   before the data are synced; marked: that it has begun is
 * written first, and is taken for the end by who finds it redo check                      status 1:
 * a value is lost that was acknowledged
 */
#define _GNU_SOURCE
#include <fcntl.h>
#include <stdbool.h>
#include <stdint.h>
#include <stdio.h>
#include <stdlib.h>
#include <string.h>
#include <unistd.h>

enum { PLACES = 3, COMMITS = 6 };

/* A value of the log; that of a torn one isn't the sum. */
struct record {
    uint64_t value, sum;
};

static void demand(bool is_so, const char *what)
{
    if (!is_so) {
        perror(what);
        exit(2);
    }
}

static int make(const char *name)
{
    int file = open(name, O_RDWR | O_CREAT, 0600);
    demand(file >= 0, name);
    return file;
}

static void put(int file, const void *from, size_t size, off_t offset)
{
    demand(pwrite(file, from, size, offset) == (ssize_t)size, "pwrite");
}

static void sync_file(int file)
{
    demand(fsync(file) == 0, "fsync");
}

static struct record record_of(uint64_t value)
{
    return (struct record){value, value * 2654435761u};
}

/* The value of a record, or 0: it isn't whole. */
static uint64_t read_record(int file, off_t offset)
{
    struct record found = {0};
    bool is_whole = pread(file, &found, sizeof found, offset) == sizeof found &&
                    found.sum == record_of(found.value).sum;
    return is_whole ? found.value : 0;
}

static int run(void)
{
    int log = make("log"), folder = open(".", O_RDONLY | O_DIRECTORY);
    make("data");
    sync_file(folder);
    for (uint64_t value = 1; value <= COMMITS; value++) {
        struct record record = record_of(value);
        put(log, &record, sizeof record, (off_t)((value - 1) * sizeof record));
        sync_file(log);
        printf("%d\n", (int)value);
        fflush(stdout);
    }
    return 0;
}

/* Brings the log's records into their places: both have the same form. */
static void replay(int log, int data)
{
    uint64_t value;
    for (off_t at = 0; (value = read_record(log, at)) != 0; at += (off_t)sizeof(struct record)) {
        struct record record = record_of(value);
        put(data, &record, sizeof record, (off_t)(value % PLACES * sizeof record));
    }
}

static int recover(const char *bug)
{
    int log = make("log"), data = make("data");
    bool is_marked = strcmp(bug, "marked") == 0, has_mark = access("mark", F_OK) == 0;
    if (is_marked && !has_mark) {
        make("mark");
        sync_file(open(".", O_RDONLY | O_DIRECTORY));
    }
    if (!is_marked || !has_mark)
        replay(log, data);
    if (strcmp(bug, "early") != 0)
        sync_file(data);
    demand(ftruncate(log, 0) == 0, "ftruncate");
    sync_file(log);
    return 0;
}

/* Whether the log or the data have a value, or a later one in its place. */
static bool is_there(uint64_t value)
{
    int log = open("log", O_RDONLY), data = open("data", O_RDONLY);
    uint64_t found = read_record(data, (off_t)(value % PLACES * sizeof(struct record)));
    for (off_t at = 0; found < value && read_record(log, at) != 0; at += sizeof(struct record))
        found = read_record(log, at) == value ? value : found;
    return found >= value;
}

static int check(void)
{
    int value;
    while (scanf("%d", &value) == 1)
        if (!is_there((uint64_t)value)) {
            printf("value %d was acknowledged, and is lost\n", value);
            return 1;
        }
    return 0;
}

int main(int argc, char **argv)
{
    if (argc > 1 && strcmp(argv[1], "run") == 0)
        return run();
    if (argc > 1 && strcmp(argv[1], "recover") == 0)
        return recover(argc > 2 ? argv[2] : "right");
    return argc > 1 && strcmp(argv[1], "check") == 0 ? check() : 2;
}
