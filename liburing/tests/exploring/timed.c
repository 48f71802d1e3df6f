/* A chain of three no-ops and a timeout of a second, waited for by calls of two seconds at most:
 * prints which completes when (9 is the timeout), and L where a wait ends without any.
 */
#include <errno.h>
#include <liburing.h>
#include <stdio.h>
#include <stdlib.h>

static struct io_uring ring;

static void prepare_no_op(unsigned number, unsigned flags)
{
    struct io_uring_sqe *entry = io_uring_get_sqe(&ring);
    io_uring_prep_nop(entry);
    entry->flags = (__u8)flags;
    entry->user_data = number;
}

int main(void)
{
    struct __kernel_timespec time = {1, 0}, limit = {2, 0};
    if (io_uring_queue_init(8, &ring, 0) != 0)
        return 3;
    for (unsigned i = 0; i < 3; i++)
        prepare_no_op(i, i < 2 ? IOSQE_IO_LINK : 0);
    struct io_uring_sqe *timeout = io_uring_get_sqe(&ring);
    io_uring_prep_timeout(timeout, &time, 0, 0);
    timeout->user_data = 9;
    if (io_uring_submit(&ring) != 4)
        return 3;
    for (int left = 4; left > 0;) {
        struct io_uring_cqe *completion;
        int result = io_uring_wait_cqe_timeout(&ring, &completion, &limit);
        if (result != 0 && result != -ETIME)
            return 3;
        if (result == -ETIME) {
            printf("L");
            continue;
        }
        printf("%u", (unsigned)completion->user_data);
        io_uring_cqe_seen(&ring, completion);
        left--;
    }
    printf("\n");
    return 0;
}
