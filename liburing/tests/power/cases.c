/* One way after the other in which a program writes a file, syncs it and says so, and a check of
 * what a crash has left.
 *
 *   ways run WAY [unsynced]     8 KB go to `data`; once they are safe, or, `unsynced`, once they
 * are written, a line is printed ways check                  status 1: the line was printed, and
 * `data` isn't whole ways list                   prints the ways ways run CASE, ways check CASE
 * what a parameter of `explore crash` decides: unit, replace, retry; what nobody sees: killed; and
 * two folders, each of which has a name and is synced: folders; a write and its sync that are given
 * to io_submit(2) before either is asked for: together
 */
#define _GNU_SOURCE
#include "ways.h"

#include <fcntl.h>
#include <signal.h>
#include <stdio.h>
#include <string.h>
#include <sys/mman.h>
#include <sys/stat.h>
#include <unistd.h>

/* Memory that nobody sees written, since the process is killed: the comparison at the end tells of
 * it. */
static void run_killed(void)
{
    write_memory(make("data", 0));
    kill(getpid(), SIGKILL);
}

/* A file with a sector is safe, and what is to be written is another one. */
static int begin_with_sector(void)
{
    int file = make("data", 0);
    put(file, bytes, SECTOR, 0);
    sync_file(file);
    sync_folder();
    puts("begun");
    fflush(stdout);
    memset(bytes, 'y', SECTOR);
    return file;
}

/* A sector is written over, and is to be the old or the new one. */
static void run_unit(void)
{
    int file = begin_with_sector();
    put(file, bytes, SECTOR, 0);
    sync_file(file);
}

/* A file is replaced by a rename, without a sync of the new one: one that is as long as the old or
 * the new is to be there, and never an empty one. */
static void run_replace(void)
{
    begin_with_sector();
    put(make("new", 0), bytes, SECTOR, 0);
    demand(rename("new", "data") == 0, "rename");
}

/* An fsync that fails is called again, and then believed. */
static void run_retry(void)
{
    int file = make("data", 0);
    sync_folder();
    put(file, bytes, SIZE, 0);
    if (fsync(file) < 0 && fsync(file) < 0)
        _exit(0);
    puts("safe");
}

static void sync_named(const char *folder)
{
    int opened = open(folder, O_RDONLY | O_DIRECTORY);
    demand(opened >= 0 && fsync(opened) == 0 && close(opened) == 0, folder);
}

/* A name in each of two folders is safe once its folder was synced: the sync of one isn't that of
 * the other. */
static void run_folders(void)
{
    demand(mkdir("one", 0777) == 0 && mkdir("two", 0777) == 0, "mkdir");
    sync_folder();
    make("one/name", 0);
    make("two/name", 0);
    sync_named("one");
    sync_named("two");
    puts("safe");
}

static bool is_printed(const char *word)
{
    char line[100];
    while (fgets(line, sizeof line, stdin))
        if (strncmp(line, word, strlen(word)) == 0)
            return true;
    return false;
}

/* Whether `data` has so many bytes, all of them one of these letters. */
static bool is_whole(size_t size, const char *letters)
{
    static char found[2 * SIZE];
    int file = open("data", O_RDONLY);
    ssize_t length = file < 0 ? -1 : read(file, found, sizeof found);
    if (length != (ssize_t)size || !strchr(letters, found[0]))
        return false;
    for (size_t i = 1; i < size; i++)
        if (found[i] != found[0])
            return false;
    return true;
}

static int check_folders(void)
{
    if (!is_printed("safe") || (access("one/name", F_OK) == 0 && access("two/name", F_OK) == 0))
        return 0;
    puts("a name is lost");
    return 1;
}

static int check_replace(void)
{
    struct stat about;
    if (!is_printed("begun") || (stat("data", &about) == 0 && about.st_size == SECTOR))
        return 0;
    puts("data isn't as long");
    return 1;
}

static int check(const char *what)
{
    if (what && strcmp(what, "folders") == 0)
        return check_folders();
    if (what && strcmp(what, "replace") == 0)
        return check_replace();
    bool is_half = what && strcmp(what, "unit") == 0;
    if (is_half ? !is_printed("begun") || is_whole(SECTOR, "xy")
                : !is_printed("safe") || is_whole(SIZE, "x"))
        return 0;
    puts("data isn't whole");
    return 1;
}

static int run(const char *name)
{
    if (strcmp(name, "unit") == 0)
        return run_unit(), 0;
    if (strcmp(name, "replace") == 0)
        return run_replace(), 0;
    if (strcmp(name, "retry") == 0)
        return run_retry(), 0;
    if (strcmp(name, "folders") == 0)
        return run_folders(), 0;
    if (strcmp(name, "killed") == 0)
        return run_killed(), 0;
    if (strcmp(name, "together") == 0)
        return run_together(), puts("safe"), 0;
    for (const struct way *way = ways; way->name; way++)
        if (strcmp(way->name, name) == 0) {
            way->write();
            sync_folder();
            puts("safe");
            return 0;
        }
    return 2;
}

int main(int argc, char **argv)
{
    memset(bytes, 'x', sizeof bytes);
    is_synced = argc < 4;
    if (argc > 1 && strcmp(argv[1], "list") == 0) {
        for (const struct way *way = ways; way->name; way++)
            puts(way->name);
        return 0;
    }
    if (argc > 1 && strcmp(argv[1], "check") == 0)
        return check(argc > 2 ? argv[2] : NULL);
    return argc > 2 ? run(argv[2]) : 2;
}
