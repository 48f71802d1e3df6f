/* Prints the order in which seven requests complete: a chain of 0, 1 and 2, the loose 3 and 4, a
 * drain 5, and 6 after it. The lawful orders are 5! / 3! = 20. Any argument: the requests are
 * submitted, and then waited for by peeks.
 */
#include <errno.h>
#include <liburing.h>
#include <stdio.h>

static void stop(const char *what, int result)
{
    printf("%s: %d\n", what, result);
    _exit(1);
}

static void prepare(struct io_uring *ring, unsigned number, unsigned flags)
{
    struct io_uring_sqe *entry = io_uring_get_sqe(ring);
    io_uring_prep_nop(entry);
    io_uring_sqe_set_flags(entry, flags);
    entry->user_data = number;
}

static unsigned reap(struct io_uring *ring)
{
    struct io_uring_cqe *completion;
    int result;
    while ((result = io_uring_peek_cqe(ring, &completion)) == -EAGAIN)
        ;
    if (result < 0 || completion->res != 0)
        stop("a completion", result);
    unsigned number = (unsigned)completion->user_data;
    io_uring_cqe_seen(ring, completion);
    return number;
}

int main(int argc, char **argv)
{
    static const unsigned flags[7] = {IOSQE_IO_LINK, IOSQE_IO_LINK, 0, 0, 0, IOSQE_IO_DRAIN, 0};
    struct io_uring ring;
    int result = io_uring_queue_init(8, &ring, 0);
    if (result < 0)
        stop("a ring", result);
    for (unsigned i = 0; i < 7; i++)
        prepare(&ring, i, flags[i]);
    (void)argv;
    result = argc > 1 ? io_uring_submit(&ring) : io_uring_submit_and_wait(&ring, 7);
    if (result != 7)
        stop("submitting", result);
    for (unsigned i = 0; i < 7; i++)
        printf("%u", reap(&ring));
    printf("\n");
    io_uring_queue_exit(&ring);
    return 0;
}
