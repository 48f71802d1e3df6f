/* A sender whose timeout ends before its send has: taken for a send that failed, its buffer is used
 * again, and the peer gets what it wasn't sent. The send stands behind a chain of no-ops, so the
 * timeout has to end many steps before it would where time passes only if nothing else can go on.
 *
 *   late planted|right timeout|count|wait [SECONDS]
 *
 * It is linked with the clocks that go with virtual time, and sees that they agree. right: waits
 * for the send too. What ends: a timeout, one that counts completions besides, or the limit of a
 * wait, each of so many seconds (1).
 */
#include <errno.h>
#include <liburing.h>
#include <stdbool.h>
#include <stdio.h>
#include <stdlib.h>
#include <string.h>
#include <sys/socket.h>
#include <time.h>
#include <unistd.h>

enum { NO_OPS = 20, SEND = 1, TIMEOUT = 2, SIZE = 64 };

static struct io_uring ring;
static bool is_sent, is_over;
static int64_t begun, lasts;

static void demand(bool is_so, const char *what)
{
    if (is_so)
        return;
    printf("late: %s\n", what);
    exit(3);
}

static void submit_all(
    int socket, const char *buffer, const char *what, struct __kernel_timespec *time)
{
    for (int i = 0; i < NO_OPS; i++) {
        struct io_uring_sqe *entry = io_uring_get_sqe(&ring);
        io_uring_prep_nop(entry);
        entry->flags = IOSQE_IO_LINK | IOSQE_CQE_SKIP_SUCCESS;
    }
    struct io_uring_sqe *send = io_uring_get_sqe(&ring);
    io_uring_prep_send(send, socket, buffer, SIZE, 0);
    send->user_data = SEND;
    if (strcmp(what, "wait") != 0) {
        struct io_uring_sqe *timeout = io_uring_get_sqe(&ring);
        io_uring_prep_timeout(timeout, time, strcmp(what, "count") == 0 ? 5 : 0, 0);
        timeout->user_data = TIMEOUT;
    }
    demand(io_uring_submit(&ring) > NO_OPS, "submitting");
}

static int64_t now(void)
{
    struct timespec time;
    clock_gettime(CLOCK_MONOTONIC, &time);
    return time.tv_sec * 1000000000 + time.tv_nsec;
}

/* Waits for one completion, for so long at most if a time is given. */
static void wait_once(struct __kernel_timespec *limit)
{
    struct io_uring_cqe *completion;
    int result = limit ? io_uring_wait_cqe_timeout(&ring, &completion, limit)
                       : io_uring_wait_cqe(&ring, &completion);
    is_over |= result == -ETIME;
    demand(
        result != -ETIME || now() - begun >= lasts, "the clocks don't know that the time is over");
    demand(result == 0 || (result == -ETIME && limit), "waiting");
    if (result < 0)
        return;
    is_sent |= completion->user_data == SEND;
    is_over |= completion->user_data == TIMEOUT;
    demand(completion->user_data != TIMEOUT || completion->res != -ETIME || now() - begun >= lasts,
        "the clocks don't know that the time is over");
    io_uring_cqe_seen(&ring, completion);
}

int main(int argc, char **argv)
{
    bool is_right = argc > 1 && strcmp(argv[1], "right") == 0;
    const char *what = argc > 2 ? argv[2] : "timeout";
    struct __kernel_timespec time = {argc > 3 ? atol(argv[3]) : 1, 0};
    int pair[2];
    char buffer[SIZE], got[SIZE];
    demand(io_uring_queue_init(64, &ring, 0) == 0 && socketpair(AF_UNIX, SOCK_STREAM, 0, pair) == 0,
        "a ring and sockets");
    memset(buffer, 'a', sizeof buffer);
    begun = now();
    lasts = time.tv_sec * 1000000000;
    submit_all(pair[0], buffer, what, &time);
    while (!is_sent && (is_right || !is_over))
        wait_once(strcmp(what, "wait") == 0 ? &time : NULL);
    if (!is_sent)
        memset(buffer, 'b', sizeof buffer);
    while (!is_sent)
        wait_once(NULL);
    demand(read(pair[1], got, sizeof got) == SIZE, "reading");
    if (got[0] == 'a')
        return 0;
    printf("the peer got what it wasn't sent\n");
    return 1;
}
