/* Tests by direct calls: completions that the ring has no room for, and when those that are reaped
 * make some. All hold under every policy.
 */
#define _GNU_SOURCE
#include "engines.h"

#include <sys/uio.h>

/* More completions than the ring has room for: none is lost, and they come in order. */
static void test_overflow(void)
{
    struct ring ring;
    make_ring(&ring, 4, 4, 0);
    for (unsigned round = 0; round < 3; round++) {
        for (unsigned i = 0; i < 4; i++)
            put(&ring, IORING_OP_NOP, round * 4 + i, i < 3 ? IOSQE_IO_LINK : 0);
        check(enter(&ring, 4, 0, 0) == 4);
        while (flags_of(&ring) & IORING_SQ_TASKRUN && !(flags_of(&ring) & IORING_SQ_CQ_OVERFLOW) &&
               count_ready(&ring) < 4)
            enter(&ring, 0, 4, IORING_ENTER_GETEVENTS);
    }
    unsigned reaped = 0, seen[12] = {0};
    while (reaped < 12) {
        check(enter(&ring, 0, 1, IORING_ENTER_GETEVENTS) == 0);
        while (count_ready(&ring) > 0) {
            struct completion found = reap(&ring);
            check(found.res == 0 && found.user_data < 12 && !seen[found.user_data]++);
            check(found.user_data % 4 == 0 || seen[found.user_data - 1]);
            reaped++;
        }
    }
    check(enter(&ring, 0, 0, IORING_ENTER_GETEVENTS) == 0);
    check(is_at_rest(&ring));
    close_ring(&ring);
}

/* In order, eight no-ops complete at once, four of them past the ring's end. A wait for more than
 * the ring holds ends when it is full. */
static void test_overflow_flag(void)
{
    struct ring ring;
    make_ring(&ring, 4, 4, 0);
    for (unsigned i = 0; i < 8; i++) {
        put(&ring, IORING_OP_NOP, i, 0);
        check(enter(&ring, 1, 0, 0) == 1);
    }
    check(!is_in_order() || flags_of(&ring) & IORING_SQ_CQ_OVERFLOW);
    check(enter(&ring, 0, 100, IORING_ENTER_GETEVENTS) == 0);
    check(count_ready(&ring) == 4);
    close_ring(&ring);
}

/* An operation that changes the completion ring's head itself: the end of the next request finds
 * the room. */
static void test_head_before_end(void)
{
    struct ring ring;
    unsigned head = 4;
    int file = make_file();
    check(write(file, &head, sizeof head) == sizeof head);
    make_ring(&ring, 4, 4, 0);
    for (unsigned i = 0; i < 4; i++)
        put(&ring, IORING_OP_NOP, i, 0);
    check(enter(&ring, 4, 4, IORING_ENTER_GETEVENTS) == 4);
    put_transfer(&ring, IORING_OP_READ, 4, IOSQE_IO_LINK | IOSQE_CQE_SKIP_SUCCESS, file,
        cq_word(&ring, ring.params.cq_off.head), sizeof head, 0);
    put(&ring, IORING_OP_NOP, 5, 0);
    check(enter(&ring, 2, 0, 0) == 2);
    check(
        !is_in_order() || (!(flags_of(&ring) & IORING_SQ_CQ_OVERFLOW) && count_ready(&ring) == 1));
    check(enter(&ring, 0, 1, IORING_ENTER_GETEVENTS) == 0);
    check(count_ready(&ring) > 0);
    close(file);
    close_ring(&ring);
}

/* Completions that wait to be reaped are moved where they are queued: by one, over themselves. */
static void test_some_reaped(void)
{
    struct ring ring;
    uint64_t reaped = 0;
    make_ring(&ring, 4, 64, 0);
    for (unsigned i = 0; i < 60; i++) {
        put(&ring, IORING_OP_NOP, i, 0);
        check(enter(&ring, 1, i - i / 2 + 1, IORING_ENTER_GETEVENTS) == 1);
        if (i % 2)
            check(reap(&ring).user_data == reaped++);
    }
    while (count_ready(&ring) > 0)
        check(reap(&ring).user_data == reaped++);
    check(reaped == 60);
    close_ring(&ring);
}

/* In order, a submission that asks for no completion goes on too, beside one that is there already.
 */
static void test_peek_beside_one(void)
{
    struct ring ring;
    make_ring(&ring, 4, 0, 0);
    for (unsigned i = 0; i < 4; i++) {
        put(&ring, IORING_OP_NOP, i, 0);
        check(enter(&ring, 1, 0, IORING_ENTER_GETEVENTS) == 1);
        check(!is_in_order() || count_ready(&ring) == i + 1);
    }
    check(enter(&ring, 0, 4, IORING_ENTER_GETEVENTS) == 0);
    close_ring(&ring);
}

/* A completion head past the tail ends the call, and no more. */
static void test_wrong_head(void)
{
    struct ring ring;
    make_ring(&ring, 4, 0, 0);
    unsigned *head = cq_word(&ring, ring.params.cq_off.head);
    *head = 3;
    put(&ring, IORING_OP_NOP, 0, 0);
    check(enter(&ring, 1, 1, IORING_ENTER_GETEVENTS) == -EBADFD);
    *head = 0;
    check(enter(&ring, 1, 1, IORING_ENTER_GETEVENTS) == 1);
    check(reap(&ring).res == 0);
    close_ring(&ring);
}

/* Fills the ring, which has four cells, and reaps all without another call. */
static void fill_and_reap(struct ring *ring)
{
    for (unsigned i = 0; i < 4; i++)
        put(ring, IORING_OP_NOP, i, 0);
    check(enter(ring, 4, 4, IORING_ENTER_GETEVENTS) == 4);
    for (unsigned i = 0; i < 4; i++)
        check(reap(ring).res == 0);
}

/* One more has come, and hasn't overflowed. */
static void check_in_ring(struct ring *ring, uint64_t user_data, int32_t res)
{
    check(!(flags_of(ring) & IORING_SQ_CQ_OVERFLOW) && count_ready(ring) == 1);
    struct completion found = reap(ring);
    check(found.user_data == user_data && found.res == res);
}

/* A message to a ring whose completions were reaped since its last call finds room there. */
static void test_message_to_a_reaped_ring(void)
{
    struct ring ring, sender;
    make_ring(&ring, 4, 4, 0);
    make_ring(&sender, 4, 0, 0);
    for (unsigned round = 0; round < 3; round++) {
        fill_and_reap(&ring);
        struct io_uring_sqe *entry = put_plain(&sender, IORING_OP_MSG_RING, 0, ring.fd);
        entry->len = 77;
        entry->off = 5;
        check(result_of_one(&sender, 1) == 0);
        check_in_ring(&ring, 5, 77);
    }
    close_ring(&ring);
    close_ring(&sender);
}

/* And so do the tags of what is unregistered, or takes another's place. */
static void test_tags_in_a_reaped_ring(void)
{
    struct ring ring;
    int file = make_file();
    char byte;
    struct iovec bytes = {&byte, 1};
    uint64_t file_tag = 8, buffer_tag = 9, none = 0;
    struct io_uring_rsrc_register files = {
        .nr = 1, .data = (uintptr_t)&file, .tags = (uintptr_t)&file_tag};
    struct io_uring_rsrc_register buffers = {
        .nr = 1, .data = (uintptr_t)&bytes, .tags = (uintptr_t)&buffer_tag};
    struct io_uring_rsrc_update2 update = {
        .nr = 1, .data = (uintptr_t)&file, .tags = (uintptr_t)&none};
    make_ring(&ring, 4, 4, 0);
    check(register_at(ring.fd, IORING_REGISTER_FILES2, &files, sizeof files) == 0);
    check(register_at(ring.fd, IORING_REGISTER_BUFFERS2, &buffers, sizeof buffers) == 0);
    fill_and_reap(&ring);
    check(register_at(ring.fd, IORING_REGISTER_FILES_UPDATE2, &update, sizeof update) == 1);
    check_in_ring(&ring, 8, 0);
    fill_and_reap(&ring);
    check(register_at(ring.fd, IORING_UNREGISTER_BUFFERS, NULL, 0) == 0);
    check_in_ring(&ring, 9, 0);
    close(file);
    close_ring(&ring);
}

/* And what a cancel by io_uring_register(2) ends. */
static void test_cancel_in_a_reaped_ring(void)
{
    struct ring ring;
    struct io_uring_sync_cancel_reg any = {.flags = IORING_ASYNC_CANCEL_ANY, .timeout = {-1, -1}};
    int ends[2];
    char byte;
    check(pipe(ends) == 0);
    make_ring(&ring, 4, 4, 0);
    put_transfer(&ring, IORING_OP_READ, 6, 0, ends[0], &byte, 1, 0);
    check(enter(&ring, 1, 0, 0) == 1);
    fill_and_reap(&ring);
    check(register_at(ring.fd, IORING_REGISTER_SYNC_CANCEL, &any, 1) == 1);
    check_in_ring(&ring, 6, -ECANCELED);
    close_pair(ends);
    close_ring(&ring);
}

/* By a head past the tail none counts as reaped: a tag overflows, and comes once the head is right.
 */
static void test_tag_by_a_wrong_head(void)
{
    struct ring ring;
    int file = make_file();
    uint64_t tag = 8;
    struct io_uring_rsrc_register files = {
        .nr = 1, .data = (uintptr_t)&file, .tags = (uintptr_t)&tag};
    make_ring(&ring, 4, 4, 0);
    unsigned *head = cq_word(&ring, ring.params.cq_off.head);
    check(register_at(ring.fd, IORING_REGISTER_FILES2, &files, sizeof files) == 0);
    fill_and_reap(&ring);
    *head = 9;
    check(register_at(ring.fd, IORING_UNREGISTER_FILES, NULL, 0) == 0);
    check(flags_of(&ring) & IORING_SQ_CQ_OVERFLOW);
    *head = 4;
    check(enter(&ring, 0, 1, IORING_ENTER_GETEVENTS) == 0);
    check_in_ring(&ring, 8, 0);
    close(file);
    close_ring(&ring);
}

int main(int count, char **words)
{
    static const struct named tests[] = {
        {"overflow", test_overflow},
        {"overflow flag", test_overflow_flag},
        {"head before end", test_head_before_end},
        {"some reaped", test_some_reaped},
        {"peek beside one", test_peek_beside_one},
        {"wrong head", test_wrong_head},
        {"message to a reaped ring", test_message_to_a_reaped_ring},
        {"tags in a reaped ring", test_tags_in_a_reaped_ring},
        {"cancel in a reaped ring", test_cancel_in_a_reaped_ring},
        {"tag by a wrong head", test_tag_by_a_wrong_head},
    };
    return run_tests(tests, sizeof tests / sizeof *tests, count > 1 ? words[1] : NULL);
}
