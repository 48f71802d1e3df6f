/* Tests by direct calls: memory that is refused, by the wrapped malloc, calloc and realloc of this
 * program, and how often memory is asked for to grow. All hold under every policy.
 */
#define _GNU_SOURCE
#include "engines.h"

#include <netinet/in.h>
#include <poll.h>
#include <sys/socket.h>
#include <sys/uio.h>

/* So many are allowed, or all if it is negative; then one is refused, or as many as `refusals`
 * says. */
static long allocations_left = -1, refusals;
enum { LARGE = 16384 };
static unsigned reallocations; /* to so much and more */

static bool is_allowed(void)
{
    if (allocations_left < 0 || allocations_left-- > 0)
        return true;
    allocations_left = --refusals > 0 ? 0 : -1;
    return false;
}

void *__real_malloc(size_t size);
void *__real_calloc(size_t count, size_t size);
void *__real_realloc(void *at, size_t size);
void *__wrap_malloc(size_t size);
void *__wrap_calloc(size_t count, size_t size);
void *__wrap_realloc(void *at, size_t size);

void *__wrap_malloc(size_t size)
{
    return is_allowed() ? __real_malloc(size) : NULL;
}

void *__wrap_calloc(size_t count, size_t size)
{
    return is_allowed() ? __real_calloc(count, size) : NULL;
}

void *__wrap_realloc(void *at, size_t size)
{
    reallocations += size >= LARGE;
    return is_allowed() ? __real_realloc(at, size) : NULL;
}

/* Each allocation of a submission is refused in turn: the call ends with -EAGAIN or takes less, and
 * a later one takes the rest, once. */
static void test_refused_memory(void)
{
    for (long allowed = 0; allowed < 40; allowed++) {
        struct ring ring;
        int32_t results[4];
        make_ring(&ring, 4, 0, 0);
        struct iovec vector = {(void *)(uintptr_t) "x", 1};
        int file = make_file();
        for (unsigned i = 0; i < 4; i++)
            put_transfer(
                &ring, IORING_OP_WRITEV, i, i < 3 ? IOSQE_IO_LINK : 0, file, &vector, 1, i);
        allocations_left = allowed;
        long result = enter(&ring, 4, 0, 0);
        allocations_left = -1;
        check(result == -EAGAIN || (result > 0 && result <= 4));
        long taken = result > 0 ? result : 0;
        while (taken < 4) {
            result = enter(&ring, (unsigned)(4 - taken), 0, 0);
            check(result > 0);
            taken += result;
        }
        reap_all(&ring, 4, results);
        for (unsigned i = 0; i < 4; i++)
            check(results[i] == 1);
        check(lseek(file, 0, SEEK_END) == 4);
        close(file);
        close_ring(&ring);
    }
}

/* What a call was refused memory for waits, and the next call takes it with what was published
 * since: a chain goes over both. */
static void test_refused_call(void)
{
    bool is_refused = true;
    for (long turn = 0; is_refused; turn++) {
        struct ring ring;
        int32_t results[3];
        make_ring(&ring, 4, 0, 0);
        put_at(&ring, 2, IORING_OP_FSYNC, 0, IOSQE_IO_LINK);
        put_at(&ring, 3, IORING_OP_NOP, 1, IOSQE_IO_LINK);
        allocations_left = turn / 2;
        refusals = 1 + turn % 2;
        long taken = enter(&ring, 2, 0, 0);
        is_refused = allocations_left <= 0;
        allocations_left = -1;
        check(taken == -EAGAIN || taken == 1 || taken == 2);
        put_at(&ring, 0, IORING_OP_NOP, 2, 0);
        long left = taken < 0 ? 3 : 3 - taken;
        check(enter(&ring, (unsigned)left, 0, 0) == left);
        reap_all(&ring, 3, results);
        check(results[0] == -EBADF);
        check(results[1] == (taken == 1 ? 0 : -ECANCELED));
        check(results[2] == (taken < 0 ? -ECANCELED : 0));
        close_ring(&ring);
    }
}

/* Memory is refused while what was reaped is heard: it is heard all the same. */
static void test_refused_reaps(void)
{
    bool is_refused = true;
    for (long allowed = 0; is_refused; allowed++) {
        struct ring ring;
        make_ring(&ring, 8, 0, 0);
        for (unsigned i = 0; i < 6; i++)
            put(&ring, IORING_OP_NOP, i, 0);
        check(enter(&ring, 6, 6, IORING_ENTER_GETEVENTS) == 6);
        for (unsigned i = 0; i < 6; i++)
            reap(&ring);
        allocations_left = allowed;
        check(enter(&ring, 0, 0, IORING_ENTER_GETEVENTS) == 0);
        is_refused = allocations_left <= 0;
        allocations_left = -1;
        check(count_ready(&ring) == 0 && is_at_rest(&ring));
        close_ring(&ring);
    }
}

/* A message is refused memory at each place, where so many requests wait on the other ring: it is
 * sent or not, and posted once, after what comes before it. */
static bool send_refused(unsigned outstanding, long allowed, long refused)
{
    struct ring ring, other;
    int ends[2];
    check(pipe(ends) == 0);
    make_ring(&ring, 4, 0, 0);
    make_ring(&other, 16, 0, 0);
    for (unsigned i = 0; i < outstanding; i++)
        put_plain(&other, IORING_OP_POLL_ADD, i, ends[0])->poll32_events = POLLIN;
    check(enter(&other, outstanding, 0, 0) == (long)outstanding);
    struct io_uring_sqe *entry = put_plain(&ring, IORING_OP_MSG_RING, 0, other.fd);
    entry->len = 77;
    entry->off = 55;
    allocations_left = allowed;
    refusals = refused;
    long result = enter(&ring, 1, 0, 0);
    bool is_refused = allocations_left <= 0;
    allocations_left = -1;
    refusals = 0;
    check(result == 1 || result == -EAGAIN);
    check(result == 1 || enter(&ring, 1, 0, 0) == 1);
    int32_t sent = next_of(&ring).res;
    check(sent == 0 || sent == -ENOMEM);
    submit_nop(&other, 66);
    struct seen first = next_of(&other), second = sent == 0 ? next_of(&other) : first;
    check(sent == 0 ? first.user_data == 55 && first.res == 77 && second.user_data == 66
                    : first.user_data == 66);
    check(enter(&other, 0, 0, IORING_ENTER_GETEVENTS) == 0 && count_ready(&other) == 0);
    close(ends[0]), close(ends[1]);
    close_ring(&ring);
    close_ring(&other);
    return is_refused;
}

/* Events of as many polls that go on are refused memory: each comes once, or, where they are
 * cancelled then, before their end. */
static bool tell_refused(unsigned polls, long allowed, long refused, bool is_cancelled)
{
    struct ring ring;
    int ends[8][2];
    unsigned seen = 0;
    make_ring(&ring, 8, 0, 0);
    for (unsigned i = 0; i < polls; i++) {
        check(pipe(ends[i]) == 0);
        struct io_uring_sqe *entry = put_plain(&ring, IORING_OP_POLL_ADD, i, ends[i][0]);
        entry->poll32_events = POLLIN;
        entry->len = IORING_POLL_ADD_MULTI;
    }
    check(enter(&ring, polls, 0, 0) == (long)polls && enter_for(&ring, 1, 1000) == -ETIME);
    for (unsigned i = 0; i < polls; i++)
        check(write(ends[i][1], "x", 1) == 1);
    allocations_left = allowed;
    refusals = refused;
    long result = enter(&ring, 0, is_cancelled ? 0 : polls, IORING_ENTER_GETEVENTS);
    bool is_refused = allocations_left <= 0;
    allocations_left = -1;
    refusals = 0;
    check(result == 0 || is_refused);
    struct io_uring_sync_cancel_reg all = {
        .flags = IORING_ASYNC_CANCEL_ALL | IORING_ASYNC_CANCEL_ANY, .timeout = {-1, -1}};
    check(!is_cancelled || register_at(ring.fd, IORING_REGISTER_SYNC_CANCEL, &all, 1) >= 0);
    for (unsigned ended = 0; ended < polls;) {
        struct seen found = next_of(&ring);
        unsigned bit = 1u << found.user_data;
        /* Of one that was cancelled no event comes after its end. */
        check(!(seen & bit) && (found.res == POLLIN) == (found.flags == IORING_CQE_F_MORE) &&
              (is_cancelled || found.res == POLLIN));
        if (found.res == POLLIN && is_cancelled)
            continue;
        seen |= bit;
        ended++;
    }
    submit_nop(&ring, 66);
    check(next_of(&ring).user_data == 66);
    for (unsigned i = 0; i < polls; i++)
        close(ends[i][0]), close(ends[i][1]);
    close_ring(&ring);
    return is_refused;
}

/* (with traces there is a file for each ring: then just few wait, or many) */
static void test_refused_extras(void)
{
    unsigned step = getenv("WULGACH_TRACE") ? 8 : 1;
    for (unsigned count = 0; count <= 8; count += step) {
        for (long refused = 1; refused <= 3; refused++) {
            for (long allowed = 0; send_refused(count, allowed, refused); allowed++)
                continue;
            for (long allowed = 0; count > 0 && tell_refused(count, allowed, refused, false);
                 allowed++)
                continue;
            for (long allowed = 0;
                 count > 0 && tell_refused(count, allowed, refused < 3 ? refused : 1000, true);
                 allowed++)
                continue;
        }
    }
}

/* A send without copies that is refused memory as it ends has its notice last, or none. */
static void test_refused_notice(void)
{
    struct sockaddr_in address = {.sin_family = AF_INET, .sin_addr.s_addr = htonl(INADDR_LOOPBACK)};
    socklen_t size = sizeof address;
    int listener = socket(AF_INET, SOCK_STREAM, 0), sender = socket(AF_INET, SOCK_STREAM, 0);
    check(bind(listener, (void *)&address, size) == 0 && listen(listener, 1) == 0 &&
          getsockname(listener, (void *)&address, &size) == 0);
    check(connect(sender, (void *)&address, size) == 0);
    int receiver = accept(listener, NULL, NULL);
    for (unsigned count = 0; count < 6; count++) {
        bool is_refused = true;
        for (long turn = 0; is_refused; turn++) {
            struct ring ring;
            make_ring(&ring, 8, 0, 0);
            for (unsigned i = 0; i < count; i++)
                put_plain(&ring, IORING_OP_POLL_ADD, i, listener)->poll32_events = POLLIN;
            put_transfer(&ring, IORING_OP_SEND_ZC, 9, 0, sender, "four", 4, 0);
            check(enter(&ring, count + 1, 0, 0) == count + 1);
            allocations_left = turn / 2;
            refusals = 1 + turn % 2;
            long result = enter(&ring, 0, 1, IORING_ENTER_GETEVENTS);
            is_refused = allocations_left <= 0;
            allocations_left = -1;
            refusals = 0;
            check(result == 0 || is_refused);
            struct seen first = next_of(&ring);
            check(first.user_data == 9 && first.res == 4 && !(first.flags & IORING_CQE_F_NOTIF));
            if (first.flags & IORING_CQE_F_MORE) {
                struct seen second = next_of(&ring);
                check(
                    second.user_data == 9 && second.res == 0 && second.flags == IORING_CQE_F_NOTIF);
            }
            submit_nop(&ring, 66);
            check(next_of(&ring).user_data == 66);
            close_ring(&ring);
        }
    }
    close(listener), close(sender), close(receiver);
}

/* Where memory is refused at any place as a read begins to wait, who sleeps on the ring's
 * descriptor is woken by what comes, and then sleeps. */
static void test_refused_readiness(void)
{
    bool is_refused = !is_under_valgrind();
    const char *before = getenv("WULGACH_TEST_POLLED");
    setenv("WULGACH_TEST_POLLED", "yes", 1);
    for (long turn = 0; is_refused; turn++) {
        struct ring ring;
        int ends[2];
        char letter;
        make_ring(&ring, 4, 0, 0);
        check(pipe(ends) == 0);
        put_transfer(&ring, IORING_OP_READ, 7, 0, ends[0], &letter, 1, 0);
        allocations_left = turn;
        long result = enter(&ring, 1, 0, IORING_ENTER_GETEVENTS);
        is_refused = allocations_left < 0;
        allocations_left = -1;
        check(result == 1 || result == -EAGAIN);
        check(result == 1 || enter(&ring, 1, 0, IORING_ENTER_GETEVENTS) == 1);
        check(write(ends[1], "x", 1) == 1);
        check(poll(&(struct pollfd){.fd = ring.fd, .events = POLLIN}, 1, 1000 * patience()) == 1);
        check(wait_for_one(&ring) == 1 && enter(&ring, 0, 0, IORING_ENTER_GETEVENTS) == 0);
        check(poll(&(struct pollfd){.fd = ring.fd, .events = POLLIN}, 1, 0) == 0);
        close(ends[0]), close(ends[1]);
        close_ring(&ring);
    }
    if (!before)
        unsetenv("WULGACH_TEST_POLLED");
}

/* Calls of one no-op each, of which none is reaped: tables grow by doubling, or each call would
 * move all that waits. */
static void test_growing(void)
{
    enum { CALLS = 2048, MOST_GROWTHS = 100 };
    struct ring ring;
    make_ring(&ring, 8, 0, 0);
    unsigned before = reallocations;
    for (unsigned i = 0; i < CALLS; i++)
        submit_nop(&ring, i);
    check(reallocations - before <= MOST_GROWTHS);
    close_ring(&ring);
}

int main(int count, char **words)
{
    static const struct named tests[] = {
        {"refused memory", test_refused_memory},
        {"refused call", test_refused_call},
        {"refused reaps", test_refused_reaps},
        {"refused extras", test_refused_extras},
        {"refused notice", test_refused_notice},
        {"refused readiness", test_refused_readiness},
        {"growing", test_growing},
    };
    return run_tests(tests, sizeof tests / sizeof *tests, count > 1 ? words[1] : NULL);
}
