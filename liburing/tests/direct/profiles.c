/* The rules in which Linux differs from the manual pages, under each profile, which WULGACH_PROFILE
 * says. All hold under every policy; and Linux's on a real ring, if the kernel gives one and it is
 * built for that.
 */
#define _GNU_SOURCE
#include "profile.h"

#include <fcntl.h>
#include <poll.h>

/* A drain in a ring that has skipped success is refused, and ends the call of a ring that stops. */
static void test_refused_drain(void)
{
    for (int goes_on = 0; goes_on < 2; goes_on++) {
        begin(goes_on ? IORING_SETUP_SUBMIT_ALL : 0);
        put(&ring, IORING_OP_NOP, 0, IOSQE_CQE_SKIP_SUCCESS);
        put(&ring, IORING_OP_NOP, 1, IOSQE_IO_DRAIN);
        put(&ring, IORING_OP_NOP, 2, 0);
        check(enter(&ring, 3, 0, 0) == (is_by_manual() || goes_on ? 3 : 2));
        if (!is_by_manual() && !goes_on)
            submit(1);
        int32_t results[3];
        reap_all(&ring, 2, results);
        check(results[1] == (is_by_manual() ? 0 : -EOPNOTSUPP) && results[2] == 0);
        /* With a fault of its own too: that of an operation comes first. */
        put(&ring, NO_OPERATION, 0, IOSQE_IO_DRAIN);
        put(&ring, IORING_OP_NOP, 1, IOSQE_IO_DRAIN | IOSQE_IO_LINK)->ioprio = 0x9000;
        put(&ring, IORING_OP_NOP, 2, 0);
        check(enter(&ring, 3, 0, 0) == (goes_on ? 3 : 1));
        if (!goes_on)
            submit(2);
        reap_all(&ring, 3, results);
        check(results[0] == -EINVAL && results[1] == (is_by_manual() ? -EINVAL : -EOPNOTSUPP) &&
              results[2] == -ECANCELED);
        stop();
    }
}

/* After a member that fails and skips success the others post nothing; nor does the fault after a
 * first one that skips. */
static void test_silent_members(void)
{
    begin(0);
    put_failing(0, IOSQE_IO_LINK | IOSQE_CQE_SKIP_SUCCESS);
    put(&ring, IORING_OP_NOP, 1, IOSQE_IO_LINK);
    put(&ring, IORING_OP_NOP, 2, 0);
    submit(3);
    if (is_by_manual()) {
        int32_t results[3];
        reap_all(&ring, 3, results);
        check(results[0] == -EBADF && results[1] == -ECANCELED && results[2] == -ECANCELED);
    } else {
        EXPECT({0, -EBADF});
    }
    put(&ring, IORING_OP_NOP, 0, IOSQE_IO_LINK | IOSQE_CQE_SKIP_SUCCESS);
    put(&ring, NO_OPERATION, 1, 0);
    submit(2);
    if (is_by_manual()) {
        int32_t results[2];
        reap_all(&ring, 2, results);
        check(results[0] == -ECANCELED && results[1] == -EINVAL);
    } else {
        EXPECT({0, -ECANCELED});
    }
    stop();
}

/* One that is cancelled, or has a fault, ends once those before it have. */
static void test_doomed_in_their_turn(void)
{
    begin(IORING_SETUP_SUBMIT_ALL);
    for (int round = 0; round < 4; round++) {
        put_waiting(0, IOSQE_IO_LINK);
        put(&ring, IORING_OP_NOP, 1, IOSQE_IO_LINK);
        put(&ring, NO_OPERATION, 2, 0);
        submit(3);
        if (!is_by_manual()) {
            EXPECT({0, -ECANCELED}, {1, -ECANCELED}, {2, -EINVAL});
            continue;
        }
        int32_t results[3];
        reap_all(&ring, 3, results);
        check(results[0] == -ECANCELED && results[1] == -ECANCELED && results[2] == -EINVAL);
    }
    stop();
}

/* A cancel finds what waits, whether or not it was begun; by Linux's rules nothing that a link
 * holds back, or a drain up to the cancel's own end. */
static void test_cancels(void)
{
    int32_t results[3];
    begin(0);
    put_waiting(0, 0);
    put(&ring, IORING_OP_ASYNC_CANCEL, 1, 0)->addr = 0;
    submit(2);
    reap_all(&ring, 2, results);
    check(results[0] == -ECANCELED && results[1] == 0);
    put_waiting(0, IOSQE_IO_LINK);
    put(&ring, IORING_OP_NOP, 1, 0);
    put(&ring, IORING_OP_ASYNC_CANCEL, 2, 0)->addr = 1;
    submit(3);
    if (is_by_manual()) {
        reap_all(&ring, 2, results);
        check(results[1] == -ECANCELED && results[2] == 0);
        feed();
        EXPECT({0, 1});
    } else {
        EXPECT({2, -ENOENT});
        feed();
        EXPECT({0, 1}, {1, 0});
    }
    put(&ring, IORING_OP_ASYNC_CANCEL, 0, 0)->addr = 1;
    put(&ring, IORING_OP_NOP, 1, IOSQE_IO_DRAIN);
    submit(2);
    reap_all(&ring, 2, results);
    check(is_by_manual() ? results[0] == 0 && results[1] == -ECANCELED
                         : results[0] == -ENOENT && results[1] == 0);
    stop();
}

/* A drain is owed, so that by Linux's rules the second of two requests waits for the first. */
static void expect_owed_drain(void)
{
    put_waiting(2, 0);
    submit(1);
    put(&ring, IORING_OP_NOP, 3, 0);
    submit(1);
    if (is_by_manual())
        EXPECT({3, 0});
    feed();
    if (is_by_manual())
        EXPECT({2, 1});
    else
        EXPECT({2, 1}, {3, 0});
}

/* By Linux's rules a later request waits for what was accepted beside a drain, and after a drain
 * that isn't the first of its chain. */
static void test_drains(void)
{
    begin(0);
    put(&ring, IORING_OP_NOP, 0, IOSQE_IO_DRAIN);
    put_waiting(1, 0);
    submit(2);
    EXPECT({0, 0});
    put(&ring, IORING_OP_NOP, 2, 0);
    submit(1);
    if (is_by_manual())
        EXPECT({2, 0});
    feed();
    if (is_by_manual())
        EXPECT({1, 1});
    else
        EXPECT({1, 1}, {2, 0});
    put(&ring, IORING_OP_NOP, 0, IOSQE_IO_LINK);
    put(&ring, IORING_OP_NOP, 1, IOSQE_IO_DRAIN);
    submit(2);
    EXPECT({0, 0}, {1, 0});
    expect_owed_drain();
    stop();
}

static void send_to_ring(struct ring *other)
{
    struct io_uring_sqe *message = put(other, IORING_OP_MSG_RING, 0, 0);
    message->fd = ring.fd;
    message->len = 7;
    message->off = 5;
    check(result_of_one(other, 1) == 0);
}

/* A completion that belongs to no end of a request waits for no drain by Linux's rules, and takes
 * none that is owed. */
static void test_messages_beside_drains(void)
{
    struct ring other;
    begin(0);
    make_ring(&other, 4, 0, 0);
    put_waiting(0, 0);
    put(&ring, IORING_OP_NOP, 1, IOSQE_IO_DRAIN);
    submit(2);
    send_to_ring(&other);
    if (!is_by_manual())
        EXPECT({5, 7});
    feed();
    if (is_by_manual())
        EXPECT({0, 1}, {1, 0}, {5, 7});
    else
        EXPECT({0, 1}, {1, 0});
    put(&ring, IORING_OP_NOP, 0, IOSQE_IO_LINK);
    put(&ring, IORING_OP_NOP, 1, IOSQE_IO_DRAIN);
    submit(2);
    EXPECT({0, 0}, {1, 0});
    send_to_ring(&other);
    EXPECT({5, 7});
    expect_owed_drain();
    close_ring(&other);
    stop();
}

/* One of its own submission that needn't wait, or has to. */
enum after_cancel { NO_OP, DEVICE, READY_POLL, HOUR, EMPTY_POLL, EMPTY_PIPE, AFTER_CANCEL };

static void put_after_cancel(enum after_cancel what, uint64_t user_data, int device)
{
    static struct __kernel_timespec hour = {.tv_sec = 3600};
    static char text[4];
    if (what == NO_OP)
        put(&ring, IORING_OP_NOP, user_data, 0);
    else if (what == DEVICE)
        put_transfer(&ring, IORING_OP_READ, user_data, 0, device, text, 4, 0);
    else if (what == HOUR)
        put_transfer(&ring, IORING_OP_TIMEOUT, user_data, 0, -1, &hour, 1, 0);
    else if (what == EMPTY_PIPE)
        put_waiting(user_data, 0);
    else
        put_plain(&ring, IORING_OP_POLL_ADD, user_data, ends[what == READY_POLL])
            ->poll32_events = what == READY_POLL ? POLLOUT : POLLIN;
}

/* A cancel or a removal after a link finds of its own submission what has to wait, and nothing that
 * needn't: all of that was issued before. */
static void test_cancels_after_links(void)
{
    static const struct {
        uint8_t code;
        uint32_t flags;
        enum after_cancel what;
    } rows[] = {
        {IORING_OP_ASYNC_CANCEL, 0, NO_OP},
        {IORING_OP_ASYNC_CANCEL, 0, DEVICE},
        {IORING_OP_ASYNC_CANCEL, 0, READY_POLL},
        {IORING_OP_ASYNC_CANCEL, 0, HOUR},
        {IORING_OP_ASYNC_CANCEL, 0, EMPTY_POLL},
        {IORING_OP_ASYNC_CANCEL, 0, EMPTY_PIPE},
        {IORING_OP_ASYNC_CANCEL, IORING_ASYNC_CANCEL_ALL, NO_OP},
        {IORING_OP_ASYNC_CANCEL, IORING_ASYNC_CANCEL_ALL, DEVICE},
        {IORING_OP_ASYNC_CANCEL, IORING_ASYNC_CANCEL_ALL, READY_POLL},
        {IORING_OP_ASYNC_CANCEL, IORING_ASYNC_CANCEL_ALL, HOUR},
        {IORING_OP_ASYNC_CANCEL, IORING_ASYNC_CANCEL_ALL, EMPTY_POLL},
        {IORING_OP_ASYNC_CANCEL, IORING_ASYNC_CANCEL_ALL, EMPTY_PIPE},
        {IORING_OP_ASYNC_CANCEL, IORING_ASYNC_CANCEL_ANY, NO_OP},
        {IORING_OP_ASYNC_CANCEL, IORING_ASYNC_CANCEL_ANY, EMPTY_PIPE},
        {IORING_OP_POLL_REMOVE, 0, READY_POLL},
        {IORING_OP_POLL_REMOVE, 0, EMPTY_POLL},
        {IORING_OP_TIMEOUT_REMOVE, 0, HOUR},
    };
    int device = open("/dev/zero", O_RDONLY);
    check(device >= 0);
    for (size_t i = 0; i < 2 * sizeof rows / sizeof *rows; i++) {
        int32_t results[3];
        const uint8_t link = i % 2 ? IOSQE_IO_HARDLINK : IOSQE_IO_LINK;
        const uint32_t flags = rows[i / 2].flags;
        bool has_to_wait = rows[i / 2].what >= HOUR;
        if (is_by_manual() && rows[i / 2].code == IORING_OP_ASYNC_CANCEL && flags == 0)
            continue;
        begin(0);
        put(&ring, IORING_OP_NOP, 0, link);
        struct io_uring_sqe *cancel = put(&ring, rows[i / 2].code, 1, 0);
        cancel->addr = flags & IORING_ASYNC_CANCEL_ANY ? 0 : 2;
        cancel->cancel_flags = flags;
        put_after_cancel(rows[i / 2].what, 2, device);
        submit(3);
        reap_all(&ring, 3, results);
        check(results[0] == 0 && results[1] == (flags ? has_to_wait : has_to_wait ? 0 : -ENOENT));
        check(has_to_wait ? results[2] == -ECANCELED : results[2] >= 0);
        stop();
    }
    close(device);
}

/* A send without copies that its chain cancels has a notice all the same, also where its own
 * completion is skipped. */
static void test_cancelled_sends(void)
{
    enum { AFTER_A_FAILURE, AFTER_A_SILENT_ONE, BEFORE_A_FAULT };
    for (int way = AFTER_A_FAILURE; way <= BEFORE_A_FAULT; way++) {
        int32_t results[3] = {0}, notices = 0;
        unsigned flags = 0, silent = way == AFTER_A_SILENT_ONE && !is_by_manual();
        begin(0);
        if (way != BEFORE_A_FAULT)
            put_failing(
                0, IOSQE_IO_LINK | (way == AFTER_A_SILENT_ONE ? IOSQE_CQE_SKIP_SUCCESS : 0));
        put_transfer(&ring, IORING_OP_SEND_ZC, 1, way == BEFORE_A_FAULT ? IOSQE_IO_LINK : 0,
            ends[1], &byte, 1, 0);
        if (way == BEFORE_A_FAULT)
            put(&ring, NO_OPERATION, 0, 0);
        submit(2);
        check(enter(&ring, 0, 3 - silent, IORING_ENTER_GETEVENTS) == 0 &&
              count_ready(&ring) == 3 - silent);
        for (unsigned i = 0; i < 3 - silent; i++) {
            struct seen found = next_of(&ring);
            if (found.flags & IORING_CQE_F_NOTIF)
                notices += found.user_data == 1 && found.res == 0;
            else
                results[found.user_data] = found.res;
            if (found.user_data == 1 && found.res == -ECANCELED)
                flags = found.flags;
        }
        check(notices == 1 && results[0] == (way == BEFORE_A_FAULT ? -EINVAL : -EBADF) &&
              results[1] == (silent ? 0 : -ECANCELED));
        check(flags == (way == BEFORE_A_FAULT ? IORING_CQE_F_MORE : 0));
        stop();
    }
}

int main(int count, char **words)
{
    static const struct named tests[] = {
        {"refused drain", test_refused_drain},
        {"silent members", test_silent_members},
        {"doomed in their turn", test_doomed_in_their_turn},
        {"cancels", test_cancels},
        {"drains", test_drains},
        {"messages beside drains", test_messages_beside_drains},
        {"cancels after links", test_cancels_after_links},
        {"cancelled sends", test_cancelled_sends},
    };
    return are_rings_there()
               ? run_tests(tests, sizeof tests / sizeof *tests, count > 1 ? words[1] : NULL)
               : 0;
}
