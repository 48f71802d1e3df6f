/* Tests by direct calls: the record of choices (WULGACH_CHOICES) is its process's, and no other
 * file has its lines. Its policy is a seed, whichever the surrounding has. A test that hangs ends
 * by an alarm.
 */
#define _GNU_SOURCE
#include "engines.h"

#include <sys/stat.h>
#include <sys/wait.h>

static char prefix[] = "/tmp/wulgach-records-XXXXXX";

/* How long the record of a process is; -1: there is none. */
static off_t length_of(pid_t process)
{
    char path[64];
    struct stat about;
    snprintf(path, sizeof path, "%s/of.%d", prefix, (int)process);
    return stat(path, &about) == 0 ? about.st_size : -1;
}

static void forget(pid_t process)
{
    char path[64];
    snprintf(path, sizeof path, "%s/of.%d", prefix, (int)process);
    unlink(path);
}

/* A ring on which choices are made. */
static void choose(void)
{
    struct ring ring;
    int32_t results[8];
    make_ring(&ring, 8, 0, 0);
    for (uint64_t i = 0; i < 8; i++)
        put(&ring, IORING_OP_NOP, i, 0);
    check(enter(&ring, 8, 8, IORING_ENTER_GETEVENTS) == 8);
    reap_all(&ring, 8, results);
    close_ring(&ring);
}

/* A child's choices stand in its own record. */
static void test_child(void)
{
    choose();
    off_t before = length_of(getpid());
    check(before > 0);
    pid_t child = fork();
    if (child == 0) {
        choose();
        _exit(0);
    }
    int status;
    check(waitpid(child, &status, 0) == child && status == 0);
    check(length_of(getpid()) == before && length_of(child) > 0);
    forget(child);
}

/* A program that closes all that it doesn't know, and opens files under these numbers. */
static void test_numbers(void)
{
    char path[] = "/tmp/wulgach-records-XXXXXX";
    struct stat about;
    off_t before = length_of(getpid());
    closefrom(3);
    int file = mkstemp(path);
    for (int number = 3; number < 1024; number++)
        check(number == file || dup2(file, number) == number);
    check(unlink(path) == 0);
    for (int number = 4; number < 64; number++)
        close(number);
    choose();
    check(fstat(3, &about) == 0 && about.st_size == 0 && length_of(getpid()) > before);
    closefrom(3);
}

/* A program that takes its environment away between calls. */
static void test_environment(void)
{
    off_t before = length_of(getpid());
    check(clearenv() == 0);
    choose();
    check(length_of(getpid()) > before);
}

int main(void)
{
    char choices[64];
    alarm((unsigned)(PATIENCE * patience()));
    check(mkdtemp(prefix) != NULL);
    snprintf(choices, sizeof choices, "%s/of", prefix);
    check(setenv("WULGACH_POLICY", "seed:1", 1) == 0 && setenv("WULGACH_CHOICES", choices, 1) == 0);
    test = "a child's record";
    test_child();
    test = "numbers of a record";
    test_numbers();
    test = "a record without an environment";
    test_environment();
    forget(getpid());
    check(rmdir(prefix) == 0);
    return 0;
}
