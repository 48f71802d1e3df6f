/* Tests of rings that a thread has by number (IORING_REGISTER_RING_FDS), by direct calls: calls by
 * number, which threads io_uring knows, and what the layer keeps for it. All hold under every
 * policy, which the environment says.
 *
 *   enrolled [NAME]          with a name: that test alone
 */
#define _GNU_SOURCE
#include "engines.h"

#include <limits.h>
#include <pthread.h>
#include <sys/resource.h>
#include <sys/wait.h>

static long enter_by_number(unsigned number, unsigned to_submit)
{
    long result = wulgach_syscall(SYS_io_uring_enter, number, to_submit, to_submit,
        IORING_ENTER_GETEVENTS | IORING_ENTER_REGISTERED_RING, NULL, (size_t)0);
    return result < 0 ? -errno : result;
}

/* A thread calls on a ring by a number, also where its descriptor is closed. */
static void test_rings_by_number(void)
{
    struct ring ring, other;
    int file = make_file();
    make_ring(&ring, 8, 0, 0);
    make_ring(&other, 8, 0, 0);
    struct io_uring_rsrc_update row = {.offset = (unsigned)-1, .data = (uint64_t)ring.fd},
                                bad = {.offset = 3, .data = (uint64_t)file}, past = {.offset = 16};
    check(enter_by_number(0, 0) == -EBADF);
    check(register_at(other.fd, IORING_REGISTER_RING_FDS, &row, 0) == -EINVAL);
    check(register_at(other.fd, IORING_REGISTER_RING_FDS, &row, 17) == -EINVAL);
    check(register_at(other.fd, IORING_REGISTER_RING_FDS, NULL, 1) == -EFAULT);
    check(register_at(other.fd, IORING_REGISTER_RING_FDS, &bad, 1) == -EOPNOTSUPP);
    check(register_at(other.fd, IORING_REGISTER_RING_FDS, &past, 1) == -EINVAL);
    check(register_at(other.fd, IORING_REGISTER_RING_FDS, &row, 1) == 1);
    unsigned number = row.offset;
    check(number < 16 && register_at(other.fd, IORING_REGISTER_RING_FDS, &row, 1) == -EBUSY);
    int status;
    pid_t child = fork();
    if (child == 0)
        _exit(enter_by_number(number, 0) == -EINVAL ? 0 : 1);
    check(waitpid(child, &status, 0) == child && status == 0);
    close(ring.fd);
    put(&ring, IORING_OP_NOP, 7, 0);
    check(enter_by_number(number, 1) == 1 && reap(&ring).user_data == 7);
    check(enter_by_number(15, 0) == -EBADF && enter_by_number(16, 0) == -EINVAL);
    check(register_at(other.fd, IORING_UNREGISTER_RING_FDS, &row, 1) == -EINVAL);
    row.data = 0;
    check(register_at(other.fd, IORING_UNREGISTER_RING_FDS, &row, 1) == 1);
    check(enter_by_number(number, 0) == -EBADF);
    close(file);
    close_ring(&other);
}

/* Whether io_uring knows the thread: to another no number is one. */
static bool is_known(void)
{
    long result = enter_by_number(0, 0);
    check(result == -EINVAL || result == -EBADF);
    return result == -EBADF;
}

static long dismiss(const struct ring *ring, struct io_uring_rsrc_update *row, unsigned count)
{
    return register_at(ring->fd, IORING_UNREGISTER_RING_FDS, row, count);
}

/* What is no number's row. */
static struct io_uring_rsrc_update no_row = {.offset = 77, .data = 5};

static void *know_by_submitting(void *of)
{
    const struct ring *rings = of;
    struct io_uring_sync_cancel_reg nothing = {.addr = 1, .timeout = {-1, -1}};
    check(!is_known() && enter(&rings[0], 0, 0, IORING_ENTER_GETEVENTS) == 0);
    check(register_at(rings[0].fd, IORING_REGISTER_SYNC_CANCEL, &nothing, 1) == -ENOENT);
    check(enter(&rings[1], 1, 0, 0) == -EBADFD &&
          enter(&rings[2], 1, 0, IORING_ENTER_SQ_WAKEUP) == 1 && !is_known());
    check(dismiss(&rings[0], &no_row, 1) == 0 && dismiss(&rings[0], (void *)1, 16) == 0 &&
          dismiss(&rings[0], &no_row, 17) == -EINVAL);
    check(enter(&rings[0], 1, 0, 0) == 0 && is_known());
    check(
        dismiss(&rings[0], &no_row, 1) == -EINVAL && dismiss(&rings[0], (void *)1, 16) == -EFAULT);
    return NULL;
}

static void *know_by_enrolling(void *of)
{
    const struct ring *ring = of;
    check(register_at(ring->fd, IORING_REGISTER_RING_FDS, &no_row, 17) == -EINVAL && !is_known());
    check(register_at(ring->fd, IORING_REGISTER_RING_FDS, &no_row, 1) == -EINVAL && is_known());
    return NULL;
}

static void *know_by_set_up(void *of)
{
    struct io_uring_params bad = {.flags = 1U << 31};
    struct ring ring;
    (void)of;
    check(set_up(4, &bad) == -EINVAL && !is_known());
    make_ring(&ring, 4, 0, 0);
    close_ring(&ring);
    check(is_known());
    return NULL;
}

/* A thread becomes known as it makes a ring, asks for a submission or enrolls a ring; and a child
 * isn't by what its parent did. */
static void test_known_threads(void)
{
    static void *(*const ways[])(void *) = {know_by_submitting, know_by_enrolling, know_by_set_up};
    struct ring rings[3];
    int status;
    make_ring(&rings[0], 4, 0, 0);
    make_ring(&rings[1], 4, 0, IORING_SETUP_R_DISABLED);
    make_ring(&rings[2], 4, 0, IORING_SETUP_SQPOLL);
    for (size_t i = 0; i < sizeof ways / sizeof *ways; i++) {
        pthread_t thread;
        check(
            pthread_create(&thread, NULL, ways[i], rings) == 0 && pthread_join(thread, NULL) == 0);
    }
    check(is_known());
    pid_t child = fork();
    if (child == 0) {
        check(!is_known());
        know_by_set_up(NULL);
        _exit(0);
    }
    check(waitpid(child, &status, 0) == child && status == 0);
    for (size_t i = 0; i < 3; i++)
        close_ring(&rings[i]);
}

static bool is_open(int fd)
{
    return fcntl(fd, F_GETFD) >= 0;
}

/* The layer's own descriptor of a number's ring may be closed by the program, and be another ring's
 * by then: that stays open as its number is taken back. */
static void test_number_of_another(void)
{
    enum { MOST = 256 };
    bool was_open[MOST];
    struct ring ring, other;
    struct rlimit limit, least;
    check(getrlimit(RLIMIT_NOFILE, &limit) == 0);
    least = (struct rlimit){MOST, limit.rlim_max};
    check(setrlimit(RLIMIT_NOFILE, &least) == 0);
    make_ring(&ring, 4, 0, 0);
    make_ring(&other, 4, 0, 0);
    int own = 0;
    for (int fd = 0; fd < MOST; fd++)
        was_open[fd] = is_open(fd);
    struct io_uring_rsrc_update row = {.offset = 0, .data = (uint32_t)ring.fd};
    check(register_at(ring.fd, IORING_REGISTER_RING_FDS, &row, 1) == 1);
    while (own < MOST && (was_open[own] || !is_open(own)))
        own++;
    row.data = 0;
    check(own < MOST && dup2(other.fd, own) == own);
    check(register_at(ring.fd, IORING_UNREGISTER_RING_FDS, &row, 1) == 1 && is_open(own));
    close(own);
    check(setrlimit(RLIMIT_NOFILE, &limit) == 0);
    close_ring(&ring);
    close_ring(&other);
}

/* A program that has all the keys that there are for what threads have of their own
 * (pthread_key_create(3)) keeps what it has by them. */
static void use_all_keys(void)
{
    static pthread_key_t keys[PTHREAD_KEYS_MAX];
    struct ring ring;
    unsigned most = 0;
    for (; most < PTHREAD_KEYS_MAX && pthread_key_create(&keys[most], NULL) == 0; most++)
        check(pthread_setspecific(keys[most], &keys[most]) == 0);
    make_ring(&ring, 4, 0, 0);
    struct io_uring_rsrc_update row = {.offset = UINT32_MAX, .data = (uint64_t)ring.fd};
    check(register_at(ring.fd, IORING_REGISTER_RING_FDS, &row, 1) == 1);
    check(enter(&(struct ring){.fd = (int)row.offset}, 0, 0, IORING_ENTER_REGISTERED_RING) == 0);
    for (unsigned i = 0; i < most; i++)
        check(pthread_getspecific(keys[i]) == &keys[i]);
    row.data = 0;
    check(register_at(ring.fd, IORING_UNREGISTER_RING_FDS, &row, 1) == 1);
    close_ring(&ring);
}

/* (it comes before any ring is made, in a process of its own) */
static void test_no_keys(void)
{
    int status;
    pid_t child = fork();
    if (child == 0) {
        use_all_keys();
        _exit(0);
    }
    check(waitpid(child, &status, 0) == child && status == 0);
}

int main(int count, char **words)
{
    static const struct named tests[] = {
        {"no keys", test_no_keys},
        {"rings by number", test_rings_by_number},
        {"known threads", test_known_threads},
        {"number of another", test_number_of_another},
    };
    return run_tests(tests, sizeof tests / sizeof *tests, count > 1 ? words[1] : NULL);
}
