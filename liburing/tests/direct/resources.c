/* Tests of what is registered, by direct calls, but files and rings: buffers and their tags,
 * eventfds and restrictions; and of rings with SQPOLL and with large cells. All hold under every
 * policy, which the environment says.
 *
 *   resources [NAME]         with a name: that test alone
 */
#define _GNU_SOURCE
#include "engines.h"

#include <poll.h>
#include <sys/eventfd.h>
#include <sys/uio.h>

static void test_buffers(void)
{
    struct ring ring;
    static char memory[8192];
    struct iovec vectors[2] = {{memory, 4096}, {NULL, 0}}, bad = {(void *)8, 4096};
    int fd = make_file();
    make_ring(&ring, 8, 0, 0);
    check(register_at(ring.fd, IORING_UNREGISTER_BUFFERS, NULL, 0) == -ENXIO);
    check(register_at(ring.fd, IORING_REGISTER_BUFFERS, &bad, 1) == -EFAULT);
    check(register_at(ring.fd, IORING_REGISTER_BUFFERS, vectors, 2) == 0);
    check(register_at(ring.fd, IORING_REGISTER_BUFFERS, vectors, 2) == -EBUSY);
    memcpy(memory + 100, "fixed", 5);
    put_transfer(&ring, IORING_OP_WRITE_FIXED, 0, 0, fd, memory + 100, 5, 0);
    check(result_of_one(&ring, 1) == 5);
    put_transfer(&ring, IORING_OP_READ_FIXED, 0, 0, fd, memory + 4091, 5, 0);
    check(result_of_one(&ring, 1) == 5 && memcmp(memory + 4091, "fixed", 5) == 0);
    put_transfer(&ring, IORING_OP_READ_FIXED, 0, 0, fd, memory + 4092, 5, 0);
    check(result_of_one(&ring, 1) == -EFAULT);
    put_transfer(&ring, IORING_OP_READ_FIXED, 0, 0, fd, memory, 5, 0)->buf_index = 1;
    check(result_of_one(&ring, 1) == -EFAULT);
    check(register_at(ring.fd, IORING_UNREGISTER_BUFFERS, NULL, 0) == 0);
    put_transfer(&ring, IORING_OP_READ_FIXED, 0, 0, fd, memory, 5, 0);
    check(result_of_one(&ring, 1) == -EFAULT);
    close(fd);
    close_ring(&ring);
}

/* A length that is below 0 as a signed one counts before its address, in each row, and of an update
 * too: as on a real ring. */
static void test_length_below_zero(void)
{
    struct ring ring;
    static char memory[4096];
    struct iovec vectors[2] = {{memory, sizeof memory}, {memory, (size_t)1 << 63}};
    struct io_uring_rsrc_update2 update = {.data = (uintptr_t)&vectors[1], .nr = 1};
    make_ring(&ring, 4, 0, 0);
    for (int is_null = 0; is_null < 2; is_null++) {
        vectors[1].iov_base = is_null ? NULL : memory;
        check(register_at(ring.fd, IORING_REGISTER_BUFFERS, &vectors[1], 1) == -EINVAL);
        check(register_at(ring.fd, IORING_REGISTER_BUFFERS, vectors, 2) == -EINVAL);
        check(register_at(ring.fd, IORING_REGISTER_BUFFERS, vectors, 1) == 0);
        check(register_at(ring.fd, IORING_REGISTER_BUFFERS_UPDATE, &update, sizeof update) ==
              -EINVAL);
        check(register_at(ring.fd, IORING_UNREGISTER_BUFFERS, NULL, 0) == 0);
    }
    vectors[1] = (struct iovec){memory, SIZE_MAX >> 1};
    check(register_at(ring.fd, IORING_REGISTER_BUFFERS, &vectors[1], 1) == -EFAULT);
    close_ring(&ring);
}

static void test_tags_of_buffers(void)
{
    struct ring ring;
    static char memory[2][16];
    int ends[2];
    uint64_t tags[2] = {11, 12};
    struct iovec vectors[2] = {{memory[0], 16}, {memory[1], 16}}, none = {0};
    struct io_uring_rsrc_register asked = {
        .nr = 2, .data = (uintptr_t)vectors, .tags = (uintptr_t)tags};
    struct io_uring_rsrc_update2 update = {.offset = 0, .data = (uintptr_t)&none, .nr = 1};
    check(pipe(ends) == 0);
    make_ring(&ring, 8, 0, 0);
    check(register_at(ring.fd, IORING_REGISTER_BUFFERS2, &asked, sizeof asked) == 0);
    put_transfer(&ring, IORING_OP_READ_FIXED, 0, 0, ends[0], memory[0], 4, 0);
    check(enter(&ring, 1, 0, 0) == 1);
    check(enter_for(&ring, 1, 1000) == -ETIME);
    check(register_at(ring.fd, IORING_REGISTER_BUFFERS_UPDATE, &update, sizeof update) == 1);
    check(enter_for(&ring, 1, 1000) == -ETIME);
    check(write(ends[1], "four", 4) == 4);
    check(next_of(&ring).res == 4 && next_of(&ring).user_data == 11);
    update.tags = (uintptr_t)tags;
    check(register_at(ring.fd, IORING_REGISTER_BUFFERS_UPDATE, &update, sizeof update) == -EINVAL);
    check(register_at(ring.fd, IORING_UNREGISTER_BUFFERS, NULL, 0) == 0);
    check(next_of(&ring).user_data == 12);
    check(register_at(ring.fd, IORING_REGISTER_BUFFERS2, &asked, sizeof asked) == 0);
    check(register_at(ring.fd, IORING_UNREGISTER_BUFFERS, NULL, 0) == 0);
    check(next_of(&ring).user_data == 12 && next_of(&ring).user_data == 11);
    close_pair(ends);
    close_ring(&ring);
}

static void test_eventfd(void)
{
    struct ring ring;
    uint64_t count = 0;
    int fd = eventfd(0, EFD_NONBLOCK), file = make_file();
    make_ring(&ring, 8, 0, 0);
    check(register_at(ring.fd, IORING_UNREGISTER_EVENTFD, NULL, 0) == -ENXIO);
    check(register_at(ring.fd, IORING_REGISTER_EVENTFD, &file, 1) == -EINVAL);
    check(register_at(ring.fd, IORING_REGISTER_EVENTFD, &fd, 1) == 0);
    check(register_at(ring.fd, IORING_REGISTER_EVENTFD, &fd, 1) == -EBUSY);
    check(read(fd, &count, sizeof count) < 0);
    put(&ring, IORING_OP_NOP, 0, 0);
    check(result_of_one(&ring, 1) == 0);
    check(read(fd, &count, sizeof count) == sizeof count && count >= 1);
    *cq_word(&ring, ring.params.cq_off.flags) = IORING_CQ_EVENTFD_DISABLED;
    put(&ring, IORING_OP_NOP, 0, 0);
    check(result_of_one(&ring, 1) == 0);
    check(read(fd, &count, sizeof count) < 0);
    check(register_at(ring.fd, IORING_UNREGISTER_EVENTFD, NULL, 0) == 0);
    close(fd);
    close(file);
    close_ring(&ring);
}

/* A call tells an eventfd once of all that it shows. One whose counter is full stays so, and no
 * call waits for it. */
static void test_full_eventfd(void)
{
    struct ring ring;
    uint64_t count = UINT64_MAX - 1;
    int fd = eventfd(0, 0);
    make_ring(&ring, 8, 0, 0);
    check(write(fd, &count, sizeof count) == sizeof count);
    check(register_at(ring.fd, IORING_REGISTER_EVENTFD, &fd, 1) == 0);
    submit_nop(&ring, 0);
    check(wait_for_one(&ring) == 0);
    check(read(fd, &count, sizeof count) == sizeof count && count >= UINT64_MAX - 1);
    submit_nop(&ring, 0);
    check(wait_for_one(&ring) == 0);
    check(read(fd, &count, sizeof count) == sizeof count && count == 1);
    close(fd);
    close_ring(&ring);
}

/* An eventfd for what ends asynchronously alone isn't told of an event that is there when its
 * request is submitted, but of later ones, and of what a call of register ends. */
static void test_async_eventfd(void)
{
    struct ring ring;
    uint64_t count = 0;
    int fd = eventfd(0, EFD_NONBLOCK), ends[2];
    struct io_uring_sync_cancel_reg now = {.flags = IORING_ASYNC_CANCEL_ANY, .timeout = {-1, -1}};
    check(pipe(ends) == 0 && write(ends[1], "x", 1) == 1);
    make_ring(&ring, 8, 0, 0);
    check(register_at(ring.fd, IORING_REGISTER_EVENTFD_ASYNC, &fd, 1) == 0);
    struct io_uring_sqe *poll = put_plain(&ring, IORING_OP_POLL_ADD, 0, ends[0]);
    poll->poll32_events = POLLIN;
    poll->len = IORING_POLL_ADD_MULTI;
    check(enter(&ring, 1, 0, 0) == 1);
    /* (of a lazy layer it comes in the call that waits for it) */
    bool came = count_ready(&ring) > 0;
    check(next_of(&ring).flags == IORING_CQE_F_MORE);
    check((read(fd, &count, sizeof count) < 0) == came);
    check(write(ends[1], "x", 1) == 1);
    check(next_of(&ring).flags == IORING_CQE_F_MORE);
    check(read(fd, &count, sizeof count) == sizeof count);
    check(register_at(ring.fd, IORING_REGISTER_SYNC_CANCEL, &now, 1) == 1);
    check(read(fd, &count, sizeof count) == sizeof count);
    check(next_of(&ring).res == -ECANCELED);
    close_pair(ends);
    close(fd);
    close_ring(&ring);
}

/* Who sleeps on an eventfd calls no more: so a call of each kind leaves nothing that can go on. */
static void test_left_to_eventfd(void)
{
    static const struct {
        unsigned min_complete, flags;
    } calls[] = {{1, IORING_ENTER_GETEVENTS}, {0, IORING_ENTER_GETEVENTS}, {0, 0}};
    struct ring ring;
    uint64_t count;
    int fd = eventfd(0, EFD_NONBLOCK);
    make_ring(&ring, 8, 0, 0);
    check(register_at(ring.fd, IORING_REGISTER_EVENTFD, &fd, 1) == 0);
    for (int i = 0; i < 30; i++) {
        for (uint64_t n = 0; n < 4; n++)
            put(&ring, IORING_OP_NOP, n, n == 0 ? IOSQE_IO_LINK : 0);
        check(enter(&ring, 4, calls[i % 3].min_complete, calls[i % 3].flags) == 4);
        check(count_ready(&ring) == 4 && read(fd, &count, sizeof count) == sizeof count);
        for (int n = 0; n < 4; n++)
            reap(&ring);
    }
    close(fd);
    close_ring(&ring);
}

/* An advice has its length in 64 bits, and in 32 only where that is 0. */
static void test_advice(void)
{
    struct ring ring;
    enum { PAGE = 4096 };
    int fd = make_file();
    char *pages = mmap(NULL, 3 * PAGE, PROT_READ | PROT_WRITE, MAP_PRIVATE | MAP_ANONYMOUS, -1, 0);
    check(pages != MAP_FAILED);
    make_ring(&ring, 8, 0, 0);
    for (uint64_t length = 0; length <= 2; length += 2) {
        memset(pages, 7, 3 * PAGE);
        struct io_uring_sqe *entry = put_transfer(
            &ring, IORING_OP_MADVISE, 0, 0, -1, pages, PAGE, length * PAGE);
        entry->fadvise_advice = MADV_DONTNEED;
        check(result_of_one(&ring, 1) == 0);
        check(pages[0] == 0 && pages[PAGE] == (length == 2 ? 0 : 7) && pages[2 * PAGE] == 7);
    }
    put_plain(&ring, IORING_OP_FADVISE, 0, fd)->addr = 1ull << 63;
    check(result_of_one(&ring, 1) == -EINVAL);
    put_plain(&ring, IORING_OP_FADVISE, 0, fd)->buf_index = 1;
    check(result_of_one(&ring, 1) == -EINVAL);
    munmap(pages, 3 * PAGE);
    close(fd);
    close_ring(&ring);
}

static void test_restrictions(void)
{
    static struct io_uring_restriction many[104];
    struct ring ring;
    struct io_uring_restriction rows[2] = {
        {.opcode = IORING_RESTRICTION_SQE_OP, .sqe_op = IORING_OP_NOP},
        {.opcode = IORING_RESTRICTION_REGISTER_OP, .register_op = IORING_REGISTER_PROBE}};
    int fd = make_file();
    make_ring(&ring, 8, 0, IORING_SETUP_R_DISABLED);
    check(enter(&ring, 0, 0, IORING_ENTER_GETEVENTS) == -EBADFD);
    check(register_at(ring.fd, IORING_REGISTER_RESTRICTIONS, many, 104) == -EINVAL);
    check(register_at(ring.fd, IORING_REGISTER_RESTRICTIONS, rows, 2) == 0);
    check(register_at(ring.fd, IORING_REGISTER_RESTRICTIONS, rows, 2) == -EBUSY);
    check(register_at(ring.fd, IORING_REGISTER_ENABLE_RINGS, NULL, 0) == 0);
    check(register_at(ring.fd, IORING_REGISTER_ENABLE_RINGS, NULL, 0) == -EACCES);
    check(register_at(ring.fd, IORING_REGISTER_FILES, &fd, 1) == -EACCES);
    put(&ring, IORING_OP_NOP, 0, 0);
    check(result_of_one(&ring, 1) == 0);
    put_plain(&ring, IORING_OP_FSYNC, 0, fd);
    check(result_of_one(&ring, 1) == -EACCES);
    put(&ring, IORING_OP_NOP, 0, IOSQE_ASYNC);
    check(result_of_one(&ring, 1) == -EACCES);
    close(fd);
    close_ring(&ring);
}

/* A ring whose thread takes entries: it sleeps, and a call wakes it. */
static void test_sqpoll(void)
{
    struct ring ring;
    int32_t results[2];
    make_ring(&ring, 8, 0, IORING_SETUP_SQPOLL);
    check(flags_of(&ring) & IORING_SQ_NEED_WAKEUP);
    put(&ring, IORING_OP_NOP, 0, 0);
    put(&ring, IORING_OP_NOP, 1, 0);
    check(enter(&ring, 2, 2, IORING_ENTER_GETEVENTS | IORING_ENTER_SQ_WAKEUP) == 2);
    reap_all(&ring, 2, results);
    check(results[0] == 0 && results[1] == 0 && flags_of(&ring) & IORING_SQ_NEED_WAKEUP);
    /* After a call that wakes it, memory alone is looked at. */
    put(&ring, IORING_OP_NOP, 0, IOSQE_IO_LINK);
    put(&ring, IORING_OP_NOP, 1, 0);
    check(enter(&ring, 0, 0, IORING_ENTER_SQ_WAKEUP) == 0);
    check(count_ready(&ring) == 2 && reap(&ring).user_data == 0 && reap(&ring).user_data == 1);
    /* What is published after words that name no slot is taken too. */
    publish(&ring, 99);
    publish(&ring, 99);
    put(&ring, IORING_OP_NOP, 5, 0);
    check(enter(&ring, 3, 0, IORING_ENTER_SQ_WAKEUP) == 3);
    check(*sq_word(&ring, ring.params.sq_off.dropped) == 2 &&
          *sq_word(&ring, ring.params.sq_off.head) == *sq_word(&ring, ring.params.sq_off.tail));
    check(count_ready(&ring) == 1 && reap(&ring).user_data == 5);
    /* It returns what it was asked for, also where that is more than an int holds. */
    check(enter(&ring, UINT32_MAX, 0, 0) == (long)UINT32_MAX &&
          enter(&ring, (uint32_t)-EINVAL, 0, 0) == (long)(uint32_t)-EINVAL);
    close_ring(&ring);
}

/* Entries and completions of twice the size: each stands after the other by so much. The second
 * half of a completion is 0, whatever stood there. */
static void test_large_cells(void)
{
    struct ring ring;
    make_ring(&ring, 4, 0, IORING_SETUP_SQE128 | IORING_SETUP_CQE32);
    const size_t entry_size = 2 * sizeof(struct io_uring_sqe),
                 completion_size = 2 * sizeof(struct io_uring_cqe);
    size_t entries_size = ring.params.sq_entries * entry_size,
           cq_size = ring.params.cq_off.cqes + ring.params.cq_entries * completion_size;
    char *entries = map(&ring, entries_size, IORING_OFF_SQES),
         *cq = map(&ring, cq_size, IORING_OFF_CQ_RING);
    memset(cq + ring.params.cq_off.cqes, 0xff, ring.params.cq_entries * completion_size);
    for (unsigned i = 0; i < 10; i++) {
        unsigned slot = i % ring.params.sq_entries;
        struct io_uring_sqe *entry = (void *)(entries + slot * entry_size);
        memset(entry, 0, entry_size);
        entry->opcode = i % 2 ? IORING_OP_NOP : IORING_OP_LAST;
        entry->user_data = i;
        publish(&ring, slot);
        check(enter(&ring, 1, 1, IORING_ENTER_GETEVENTS) == 1);
        const struct io_uring_cqe *completion = (void *)(cq + ring.params.cq_off.cqes +
                                                         i % ring.params.cq_entries *
                                                             completion_size);
        check(completion->user_data == i && completion->res == (i % 2 ? 0 : -EINVAL));
        check(memcmp(&completion[1], (char[sizeof *completion]){0}, sizeof *completion) == 0);
        __atomic_store_n(cq_word(&ring, ring.params.cq_off.head), i + 1, __ATOMIC_RELEASE);
    }
    munmap(entries, entries_size);
    munmap(cq, cq_size);
    close_ring(&ring);
}

int main(int count, char **words)
{
    static const struct named tests[] = {
        {"buffers", test_buffers},
        {"length below zero", test_length_below_zero},
        {"tags of buffers", test_tags_of_buffers},
        {"eventfd", test_eventfd},
        {"full eventfd", test_full_eventfd},
        {"async eventfd", test_async_eventfd},
        {"left to an eventfd", test_left_to_eventfd},
        {"advice", test_advice},
        {"restrictions", test_restrictions},
        {"sqpoll", test_sqpoll},
        {"large cells", test_large_cells},
    };
    return run_tests(tests, sizeof tests / sizeof *tests, count > 1 ? words[1] : NULL);
}
