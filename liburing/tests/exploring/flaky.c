/* A program that one can't trust: `tests/exploring/trusted` and `tests/power/trusted` know how
 * `explore` is to tell of it.
 *
 *   flaky differs FILE     every second run, as FILE counts them, has one request, and the others
 *                          three
 *   flaky until FILE N     the first N runs fail
 *   flaky dies|hangs       it writes a new file by two requests, and if the second ends first it
 *                          dies, or hangs; a file that is there already hides that
 *   flaky longer           it fails if the last of three requests ends first; before that come two
 *                          more, and then another two, if the second of those ends first
 */
#include <fcntl.h>
#include <liburing.h>
#include <stdbool.h>
#include <stdio.h>
#include <stdlib.h>
#include <string.h>
#include <unistd.h>

static struct io_uring ring;

/* Which run this is, from 1 on. */
static int count_run(const char *path)
{
    int file = open(path, O_RDWR | O_CREAT, 0600);
    char count = 0;
    if (file < 0 || lockf(file, F_LOCK, 0) < 0 || pread(file, &count, 1, 0) < 0)
        exit(3);
    count++;
    if (pwrite(file, &count, 1, 0) != 1)
        exit(3);
    close(file);
    return count;
}

static struct io_uring_sqe *entry(unsigned user_data)
{
    struct io_uring_sqe *made = io_uring_get_sqe(&ring);
    io_uring_prep_nop(made);
    made->user_data = user_data;
    return made;
}

/* Whose completion is reaped first, of so many. */
static int reap(int count)
{
    struct io_uring_cqe *completion;
    int first = -1;
    for (int i = 0; i < count; i++) {
        if (io_uring_wait_cqe(&ring, &completion) != 0)
            exit(3);
        first = first < 0 ? (int)completion->user_data : first;
        printf("%d ", (int)completion->user_data);
        io_uring_cqe_seen(&ring, completion);
    }
    return first;
}

static int run_nops(int count)
{
    for (int i = 0; i < count; i++)
        entry((unsigned)i);
    io_uring_submit(&ring);
    return reap(count);
}

static int run_longer(void)
{
    if (run_nops(2) == 1)
        run_nops(2);
    return run_nops(3) == 2;
}

static int run_writes(bool dies)
{
    int file = open("data", O_RDWR | O_CREAT | O_EXCL, 0600);
    if (file < 0)
        return 0;
    for (unsigned i = 0; i < 2; i++) {
        struct io_uring_sqe *made = entry(i);
        io_uring_prep_write(made, file, "ab" + i, 1, i);
        made->user_data = i;
    }
    io_uring_submit(&ring);
    if (reap(2) == 0)
        return 0;
    if (dies)
        abort();
    for (;;)
        pause();
}

int main(int argc, char **argv)
{
    if (argc < 2 || io_uring_queue_init(8, &ring, 0) != 0)
        return 3;
    if (strcmp(argv[1], "differs") == 0 && argc == 3)
        return run_nops(count_run(argv[2]) % 2 ? 3 : 1), 0;
    if (strcmp(argv[1], "until") == 0 && argc == 4)
        return run_nops(1), count_run(argv[2]) <= atoi(argv[3]);
    if (strcmp(argv[1], "longer") == 0)
        return run_longer();
    return run_writes(strcmp(argv[1], "dies") == 0);
}
