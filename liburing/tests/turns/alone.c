/* A program of one thread: what it prints is the same with `uring-run --threads` and without. By
 * mode it makes a call that isn't served, which is to be told of by its name:
 *
 *   refused   asynchronous calls of the kernel's own kind, which are refused
 *   passed    one that the kernel carries out
 */
#define _GNU_SOURCE
#include <fcntl.h>
#include <stdio.h>
#include <string.h>
#include <sys/stat.h>
#include <sys/syscall.h>
#include <time.h>
#include <unistd.h>

static int print(void)
{
    char line[64] = "";
    struct stat about;
    struct timespec begun, ended;
    const struct timespec moment = {0, 2000000};
    const char *path = "turns.of.one";
    FILE *file = fopen(path, "w+");
    if (!file || fprintf(file, "%s %d\n", "a line", 42) != 10 || fseek(file, 0, SEEK_SET) != 0 ||
        !fgets(line, sizeof line, file))
        return 1;
    clock_gettime(CLOCK_MONOTONIC, &begun);
    nanosleep(&moment, NULL);
    clock_gettime(CLOCK_MONOTONIC, &ended);
    long slept = (ended.tv_sec - begun.tv_sec) * 1000000000 + ended.tv_nsec - begun.tv_nsec;
    printf("%s%d %d %d %s\n", line, stat(path, &about), (int)about.st_size, slept >= 2000000,
        access("/no/such/file", R_OK) ? "none" : "one");
    return fclose(file) != 0 || unlink(path) != 0;
}

int main(int count, char **words)
{
    const char *mode = count > 1 ? words[1] : "";
    unsigned long context = 0;
    if (strcmp(mode, "refused") == 0)
        return syscall(SYS_io_setup, 1, &context) == 0;
    if (strcmp(mode, "passed") == 0)
        return syscall(SYS_quotactl, 0, NULL, 0, NULL) == 0;
    return print();
}
