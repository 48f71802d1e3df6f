/* Meets the rules of the core that a word names, and no others: `tests/exploring/covered` knows
 * which.
 */
#include <liburing.h>
#include <stdio.h>
#include <stdlib.h>
#include <string.h>
#include <unistd.h>

static struct io_uring ring;
static int ends[2]; /* of a pipe */
static char byte;

static struct io_uring_sqe *entry(unsigned flags, unsigned user_data)
{
    struct io_uring_sqe *made = io_uring_get_sqe(&ring);
    io_uring_prep_nop(made);
    io_uring_sqe_set_flags(made, flags);
    made->user_data = user_data;
    return made;
}

/* An fsync that fails. */
static void failing(unsigned flags, unsigned user_data)
{
    struct io_uring_sqe *made = entry(flags, user_data);
    io_uring_prep_fsync(made, -1, 0);
    io_uring_sqe_set_flags(made, flags);
    made->user_data = user_data;
}

/* A read that waits until the pipe is written to. */
static void waiting(unsigned flags, unsigned user_data)
{
    struct io_uring_sqe *made = entry(flags, user_data);
    io_uring_prep_read(made, ends[0], &byte, 1, 0);
    io_uring_sqe_set_flags(made, flags);
    made->user_data = user_data;
}

static void cancelling(unsigned target, unsigned user_data)
{
    struct io_uring_sqe *made = entry(0, user_data);
    io_uring_prep_cancel64(made, target, 0);
    made->user_data = user_data;
}

static void reap(unsigned count)
{
    struct io_uring_cqe *completion;
    for (unsigned i = 0; i < count; i++) {
        if (io_uring_wait_cqe(&ring, &completion) != 0)
            exit(3);
        io_uring_cqe_seen(&ring, completion);
    }
}

static void submit(unsigned count)
{
    io_uring_submit(&ring);
    reap(count);
}

static void put_bad_word(void)
{
    unsigned tail = *ring.sq.ktail;
    ring.sq.array[tail & *ring.sq.kring_mask] = 1000;
    *ring.sq.ktail = tail + 1;
    io_uring_enter(ring.ring_fd, 1, 0, 0, NULL);
}

static int meet(const char *word)
{
    if (strcmp(word, "nothing") == 0)
        entry(0, 1), submit(1);
    else if (strcmp(word, "chain") == 0)
        entry(IOSQE_IO_LINK, 1), entry(0, 2), submit(2);
    else if (strcmp(word, "soft") == 0)
        failing(IOSQE_IO_LINK, 1), entry(0, 2), submit(2);
    else if (strcmp(word, "hard") == 0)
        failing(IOSQE_IO_HARDLINK, 1), entry(0, 2), submit(2);
    else if (strcmp(word, "fault") == 0)
        entry(0, 1)->opcode = 200, submit(1);
    else if (strcmp(word, "faults") == 0)
        entry(IOSQE_IO_LINK, 1)->opcode = 200, entry(0, 2), submit(2);
    else if (strcmp(word, "drain") == 0)
        waiting(0, 1), entry(IOSQE_IO_DRAIN, 2), entry(0, 3), submit(0), write(ends[1], "x", 1),
            reap(3);
    else if (strcmp(word, "nobody") == 0)
        cancelling(9, 1), submit(1);
    else if (strcmp(word, "running") == 0)
        waiting(0, 9), submit(0), cancelling(9, 1), submit(2);
    else if (strcmp(word, "cancelled") == 0)
        waiting(IOSQE_IO_LINK, 1), entry(0, 9), cancelling(9, 2), submit(1), write(ends[1], "x", 1),
            reap(2);
    else if (strcmp(word, "skipped") == 0)
        entry(IOSQE_CQE_SKIP_SUCCESS, 1), entry(0, 2), submit(1);
    else if (strcmp(word, "refused") == 0)
        entry(IOSQE_CQE_SKIP_SUCCESS, 1), entry(IOSQE_IO_DRAIN, 2), submit(1);
    else if (strcmp(word, "told") == 0)
        failing(IOSQE_CQE_SKIP_SUCCESS, 1), submit(1);
    else if (strcmp(word, "overflow") == 0)
        entry(0, 1), submit(0), entry(0, 2), submit(0), entry(0, 3), submit(3);
    else if (strcmp(word, "dropped") == 0)
        put_bad_word();
    else
        return 2;
    return 0;
}

int main(int argc, char **argv)
{
    struct io_uring_params parameters = {0};
    if (argc > 1 && strcmp(argv[1], "overflow") == 0)
        parameters = (struct io_uring_params){.flags = IORING_SETUP_CQSIZE, .cq_entries = 2};
    if (pipe(ends) < 0 ||
        io_uring_queue_init_params(parameters.flags ? 2 : 8, &ring, &parameters) != 0)
        return 3;
    return meet(argc > 1 ? argv[1] : "nothing");
}
