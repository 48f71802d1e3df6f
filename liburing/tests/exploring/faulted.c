/* Two requests that may have faults: prints each completion with its result, in the order in which
 * they come.
 *
 *   faulted writes   two writes of 8 bytes, which don't meet
 *   faulted synced   a write and an fsync
 *   faulted silent   the two writes, of which the first skips success
 */
#include <errno.h>
#include <liburing.h>
#include <stdio.h>
#include <string.h>
#include <sys/mman.h>
#include <unistd.h>

static void stop(const char *what, int result)
{
    printf("%s: %d\n", what, result);
    _exit(1);
}

static void prepare(struct io_uring *ring, unsigned number, int file, int is_sync, int is_silent)
{
    static const char bytes[] = "abcdefg";
    struct io_uring_sqe *entry = io_uring_get_sqe(ring);
    if (is_sync)
        io_uring_prep_fsync(entry, file, 0);
    else
        io_uring_prep_write(entry, file, bytes, sizeof bytes, sizeof bytes * number);
    entry->flags = is_silent ? IOSQE_CQE_SKIP_SUCCESS : 0;
    entry->user_data = number;
}

/* Submits, and prints what comes until two have come, or nothing comes any more: time passes once
 * nothing else can go on. */
static void print_both(struct io_uring *ring)
{
    struct io_uring_cqe *completion;
    struct __kernel_timespec second = {1, 0};
    int result = io_uring_submit_and_wait_timeout(ring, &completion, 2, &second, NULL);
    if (result != 2 && result != -ETIME)
        stop("submitting", result);
    for (unsigned i = io_uring_cq_ready(ring); i > 0; i--) {
        io_uring_peek_cqe(ring, &completion);
        printf("%u:%d ", (unsigned)completion->user_data, completion->res);
        io_uring_cqe_seen(ring, completion);
    }
    printf("\n");
}

int main(int argc, char **argv)
{
    int is_synced = argc > 1 && strcmp(argv[1], "synced") == 0,
        is_silent = argc > 1 && strcmp(argv[1], "silent") == 0;
    int file = memfd_create("faulted", 0);
    struct io_uring ring;
    int result = io_uring_queue_init(8, &ring, 0);
    if (file < 0 || result < 0)
        stop("a file and a ring", result);
    prepare(&ring, 0, file, 0, is_silent);
    prepare(&ring, 1, file, is_synced, 0);
    print_both(&ring);
    return 0;
}
