/* Tests of memory, by direct calls: which may be registered, how a ring's is mapped, and that a
 * call reads its mask once; and of what a process can't ask. What is expected is what a real ring
 * of Linux 6.18 was seen to do, but where our own rule is named. All hold under every policy.
 *
 *   mapped [NAME]            with a name: that test alone
 */
#define _GNU_SOURCE
#include "asleep.h"
#include "engines.h"

#include <poll.h>
#include <pthread.h>
#include <sys/eventfd.h>
#include <sys/stat.h>
#include <sys/sysinfo.h>
#include <sys/uio.h>
#include <sys/vfs.h>

#ifdef IS_ALSO_REAL
enum { IS_REAL = 1 };
#else
enum { IS_REAL = 0 };
#endif

enum { PAGE = 4096, BOTH = 2 * PAGE };

/* Calls of stat and readlink are refused, as where there is no /proc. */
static bool has_no_proc;

int __real_stat(const char *path, struct stat *status);
int __wrap_stat(const char *path, struct stat *status);
ssize_t __real_readlink(const char *path, char *target, size_t room);
ssize_t __wrap_readlink(const char *path, char *target, size_t room);

int __wrap_stat(const char *path, struct stat *status)
{
    if (!has_no_proc)
        return __real_stat(path, status);
    errno = ENOENT;
    return -1;
}

ssize_t __wrap_readlink(const char *path, char *target, size_t room)
{
    if (!has_no_proc)
        return __real_readlink(path, target, room);
    errno = ENOENT;
    return -1;
}

static char *anonymous(int protection, int sharing)
{
    char *at = mmap(NULL, BOTH, protection, sharing | MAP_ANONYMOUS, -1, 0);
    check(at != MAP_FAILED);
    return at;
}

/* What registering these bytes as a buffer comes to. */
static long kept(const struct ring *ring, void *at, size_t size)
{
    struct iovec bytes = {at, size};
    long result = register_at(ring->fd, IORING_REGISTER_BUFFERS, &bytes, 1);
    check(result < 0 || register_at(ring->fd, IORING_UNREGISTER_BUFFERS, NULL, 0) == 0);
    return result;
}

/* And the first of these pages as a ring of buffers. */
static long kept_as_ring(const struct ring *ring, void *at)
{
    struct io_uring_buf_reg asked = {.ring_addr = (uintptr_t)at, .ring_entries = 8, .bgid = 1};
    long result = register_at(ring->fd, IORING_REGISTER_PBUF_RING, &asked, 1);
    check(result < 0 || register_at(ring->fd, IORING_UNREGISTER_PBUF_RING, &asked, 1) == 0);
    return result;
}

static void check_kept(const struct ring *ring, void *at, long result)
{
    check(kept(ring, at, BOTH) == result);
    check(kept_as_ring(ring, at) == result);
}

static void test_memory_of_no_file(void)
{
    struct ring ring;
    static char memory[2 * BOTH];
    make_ring(&ring, 8, 0, 0);
    check_kept(&ring, anonymous(PROT_READ | PROT_WRITE, MAP_PRIVATE), 0);
    check_kept(&ring, anonymous(PROT_READ | PROT_WRITE, MAP_SHARED), 0);
    check_kept(&ring, anonymous(PROT_WRITE, MAP_PRIVATE), 0);
    check_kept(&ring, memory + (PAGE - (uintptr_t)memory % PAGE), 0);
    check_kept(&ring, anonymous(PROT_READ, MAP_PRIVATE), -EFAULT);
    check_kept(&ring, anonymous(PROT_READ | PROT_EXEC, MAP_PRIVATE), -EFAULT);
    check_kept(&ring, anonymous(PROT_NONE, MAP_PRIVATE), -EFAULT);
    check_kept(&ring, (void *)((uintptr_t)test_memory_of_no_file / PAGE * PAGE), -EFAULT);
    check_kept(&ring, (void *)-(uintptr_t)PAGE, -EOVERFLOW);
    char *half = anonymous(PROT_READ | PROT_WRITE, MAP_PRIVATE);
    check(mprotect(half + PAGE, PAGE, PROT_READ) == 0);
    check(kept(&ring, half, BOTH) == -EFAULT && kept(&ring, half, PAGE) == 0 &&
          kept_as_ring(&ring, half) == 0);
    check(munmap(half + PAGE, PAGE) == 0);
    check(kept(&ring, half, BOTH) == -EFAULT && kept(&ring, half + PAGE, 1) == -EFAULT &&
          kept(&ring, half + PAGE - 1, 1) == 0);
    close_ring(&ring);
}

static void test_memory_of_files(void)
{
    struct ring ring;
    struct statfs status;
    int file = make_file(), memory = memfd_create("memory", 0);
    check(
        ftruncate(file, BOTH) == 0 && ftruncate(memory, BOTH) == 0 && fstatfs(file, &status) == 0);
    make_ring(&ring, 8, 0, 0);
    /* (where files are kept in memory they may be written so) */
    check_kept(&ring, mmap(NULL, BOTH, PROT_READ | PROT_WRITE, MAP_SHARED, file, 0),
        status.f_type == 0x01021994 ? 0 : -EFAULT);
    check_kept(&ring, mmap(NULL, BOTH, PROT_READ | PROT_WRITE, MAP_PRIVATE, file, 0), 0);
    check_kept(&ring, mmap(NULL, BOTH, PROT_READ, MAP_SHARED, file, 0), -EFAULT);
    check_kept(&ring, mmap(NULL, BOTH, PROT_READ, MAP_PRIVATE, file, 0), -EFAULT);
    check_kept(
        &ring, mmap(NULL, BOTH, PROT_READ | PROT_WRITE, MAP_PRIVATE, file, 2 * BOTH), -EFAULT);
    check_kept(&ring, mmap(NULL, BOTH, PROT_READ | PROT_WRITE, MAP_SHARED, memory, 0), 0);
    check_kept(&ring, mmap(NULL, BOTH, PROT_READ, MAP_SHARED, memory, 0), -EFAULT);
    check_kept(
        &ring, mmap(NULL, BOTH, PROT_READ | PROT_WRITE, MAP_SHARED, memory, 2 * BOTH), -EFAULT);
    close(file);
    close(memory);
    close_ring(&ring);
}

/* A ring whose descriptor polls, whichever the others are. */
static int make_polled_ring(struct io_uring_params *params)
{
    long fd = wulgach_polled_syscall(SYS_io_uring_setup, 8, params);
    check(fd >= 0);
    return (int)fd;
}

static long mapped(
    int fd, void *at, size_t size, int protection, int flags, unsigned long long offset)
{
    void *memory = wulgach_mmap(at, size, protection, flags, fd, (off_t)offset);
    long result = memory == MAP_FAILED ? -errno : 0;
    if (result == 0)
        munmap(memory, size);
    return result;
}

/* The rights to memory, as the process sees them: `rw-s`. */
static bool has_rights(const void *at, const char *rights)
{
    char line[512], found[8];
    bool is_found = false;
    FILE *maps = fopen("/proc/self/maps", "r");
    unsigned long start;
    check(maps != NULL);
    while (!is_found && fgets(line, sizeof line, maps))
        is_found = sscanf(line, "%lx-%*x %7s", &start, found) == 2 && start == (uintptr_t)at;
    fclose(maps);
    return is_found && strcmp(found, rights) == 0;
}

static void test_mappings(void)
{
    enum { ALL = PROT_READ | PROT_WRITE };
    struct io_uring_params params = {0};
    /* (our own rule) */
    static const long of_private = IS_REAL ? 0 : -ENODEV;
    char *place = anonymous(PROT_NONE, MAP_PRIVATE);
    int fd = make_polled_ring(&params);
    static const unsigned long long parts[] = {
        IORING_OFF_SQ_RING, IORING_OFF_CQ_RING, IORING_OFF_SQES, IORING_OFF_SQES + PAGE};
    for (size_t i = 0; i < sizeof parts / sizeof *parts; i++) {
        check(mapped(fd, NULL, PAGE, ALL, MAP_SHARED | MAP_POPULATE, parts[i]) == 0 &&
              mapped(fd, NULL, 1 << 20, ALL, MAP_SHARED_VALIDATE, parts[i]) == 0);
        check(mapped(fd, place, PAGE, ALL, MAP_SHARED, parts[i]) == -EINVAL &&
              mapped(fd, place, PAGE, ALL, MAP_SHARED | MAP_FIXED, parts[i]) == -EINVAL);
        check(mapped(fd, NULL, 0, ALL, MAP_SHARED, parts[i]) == -EINVAL &&
              mapped(fd, NULL, PAGE, ALL, MAP_SHARED, parts[i] + 1) == -EINVAL);
        check(mapped(fd, NULL, PAGE, ALL | PROT_EXEC, MAP_SHARED, parts[i]) == -EPERM &&
              mapped(fd, NULL, PAGE, ALL, 0, parts[i]) == -EINVAL);
        check(
            mapped(fd, NULL, PAGE, ALL, MAP_SHARED_VALIDATE | MAP_SYNC, parts[i]) == -EOPNOTSUPP &&
            mapped(fd, NULL, PAGE, ALL, MAP_SHARED | MAP_GROWSDOWN, parts[i]) == -EINVAL);
        check(mapped(fd, NULL, PAGE, ALL, MAP_PRIVATE, parts[i]) == of_private &&
              mapped(fd, NULL, PAGE, PROT_READ, MAP_PRIVATE, parts[i]) == 0);
    }
    check(mapped(fd, NULL, PAGE, ALL, MAP_SHARED, 1 << 29) == -ENOMEM &&
          mapped(fd, place, PAGE, ALL, MAP_SHARED, 1 << 29) == -EINVAL);
    check(mapped(fd, NULL, PAGE, ALL, MAP_SHARED | MAP_ANONYMOUS, 1 << 29) == 0);
    check(munmap(place, BOTH) == 0);
    close(fd);
}

/* An entry table is mapped whole, or longer. */
static void expect_whole_entries(unsigned entries, unsigned flags)
{
    enum { ALL = PROT_READ | PROT_WRITE, SIZE = 4 * PAGE };
    struct io_uring_params params = {.flags = flags};
    long made = wulgach_polled_syscall(SYS_io_uring_setup, entries, &params);
    static const unsigned long long parts[] = {IORING_OFF_SQES, IORING_OFF_SQES + PAGE};
    int fd = (int)made;
    check(made >= 0);
    for (size_t i = 0; i < sizeof parts / sizeof *parts; i++) {
        check(mapped(fd, NULL, PAGE, ALL, MAP_SHARED, parts[i]) == -EFAULT &&
              mapped(fd, NULL, SIZE - PAGE, PROT_READ, MAP_SHARED | MAP_POPULATE, parts[i]) ==
                  -EFAULT);
        check(mapped(fd, NULL, SIZE - PAGE + 1, ALL, MAP_SHARED, parts[i]) == 0 &&
              mapped(fd, NULL, SIZE, ALL, MAP_SHARED, parts[i]) == 0 &&
              mapped(fd, NULL, 2 * SIZE, ALL, MAP_SHARED, parts[i]) == 0);
        check(mapped(fd, NULL, PAGE, ALL | PROT_EXEC, MAP_SHARED, parts[i]) == -EPERM &&
              mapped(fd, NULL, PAGE, ALL, 0, parts[i]) == -EINVAL &&
              mapped(fd, NULL, PAGE, ALL, MAP_SHARED | MAP_GROWSDOWN, parts[i]) == -EINVAL);
    }
    check(mapped(fd, NULL, PAGE, ALL, MAP_SHARED, IORING_OFF_SQ_RING) == 0 &&
          mapped(fd, NULL, PAGE, ALL, MAP_SHARED, IORING_OFF_CQ_RING) == 0);
    close(fd);
}

static void test_part_of_entries(void)
{
    expect_whole_entries(256, 0);
    expect_whole_entries(128, IORING_SETUP_SQE128);
}

/* A mapping that is refused says why, also where another ring was closed meanwhile, which the layer
 * then lets go. */
static void test_refusals(void)
{
    struct io_uring_params params = {0};
    int fd = make_polled_ring(&params);
    for (unsigned i = 0; i < 5; i++) {
        struct io_uring_params of_other = {0};
        close(make_polled_ring(&of_other));
        usleep(11000);
        check(mapped(fd, NULL, PAGE, PROT_READ, MAP_SHARED, 1 << 29) == -ENOMEM);
    }
    close(fd);
}

static void test_rights(void)
{
    static const struct {
        int protection;
        const char *rights;
    } rows[] = {{PROT_READ | PROT_WRITE, "rw-s"}, {PROT_READ, "r--s"}, {PROT_WRITE, "-w-s"},
        {PROT_NONE, "---s"}};
    struct io_uring_params params = {0};
    int fd = make_polled_ring(&params);
    for (size_t i = 0; i < sizeof rows / sizeof *rows; i++) {
        char *memory = wulgach_mmap(
            NULL, PAGE, rows[i].protection, MAP_SHARED, fd, IORING_OFF_SQ_RING);
        check(memory != MAP_FAILED && has_rights(memory, rows[i].rights));
        check(!(rows[i].protection & PROT_READ) ||
              *(unsigned *)(memory + params.sq_off.ring_entries) == 8);
        munmap(memory, PAGE);
    }
    close(fd);
}

/* ---- what is asked once, and what can't be asked ---- */

struct waiter {
    struct ring *ring;
    const void *mask;
    long result;
    pid_t thread; /* once it runs */
};

static void *wait_with_mask(void *argument)
{
    struct waiter *waiter = argument;
    __atomic_store_n(&waiter->thread, gettid(), __ATOMIC_RELEASE);
    waiter->result = wulgach_syscall(SYS_io_uring_enter, waiter->ring->fd, 0, 1,
        IORING_ENTER_GETEVENTS, waiter->mask, waiter->mask ? 8 : 0);
    waiter->result = waiter->result < 0 ? -errno : waiter->result;
    return NULL;
}

/* A call that was woken sleeps on, though the memory of its mask is gone. */
static void test_mask_is_read_once(void)
{
    struct ring ring;
    pthread_t thread;
    int ends[2];
    char *mask = anonymous(PROT_READ | PROT_WRITE, MAP_PRIVATE);
    struct waiter waiter = {&ring, mask, 99, 0};
    check(pipe(ends) == 0);
    make_ring(&ring, 8, 0, 0);
    check(pthread_create(&thread, NULL, wait_with_mask, &waiter) == 0);
    await_sleep(&waiter.thread);
    check(munmap(mask, BOTH) == 0);
    put_plain(&ring, IORING_OP_POLL_ADD, 5, ends[0])->poll32_events = POLLIN;
    check(enter(&ring, 1, 0, 0) == 1);
    usleep(100000);
    check(waiter.result == 99 && write(ends[1], "x", 1) == 1);
    check(pthread_join(thread, NULL) == 0 && waiter.result == 0);
    check(next_of(&ring).res == POLLIN);
    close_pair(ends);
    close_ring(&ring);
}

/* Where it can't be asked how many threads there are, a call waits for what another may submit. */
static void test_unknown_threads(void)
{
    struct ring ring;
    pthread_t thread;
    struct waiter waiter = {&ring, NULL, 99, 0};
    make_ring(&ring, 8, 0, 0);
    has_no_proc = true;
    check(pthread_create(&thread, NULL, wait_with_mask, &waiter) == 0);
    await_sleep(&waiter.thread);
    check(waiter.result == 99);
    submit_nop(&ring, 1);
    check(pthread_join(thread, NULL) == 0 && waiter.result == 0);
    has_no_proc = false;
    check(next_of(&ring).user_data == 1);
    close_ring(&ring);
}

/* Where it can't be asked what a descriptor is, an eventfd is taken as one. */
static void test_unknown_eventfd(void)
{
    struct ring ring;
    uint64_t told;
    int fd = eventfd(0, EFD_NONBLOCK);
    make_ring(&ring, 8, 0, 0);
    has_no_proc = true;
    check(register_at(ring.fd, IORING_REGISTER_EVENTFD, &fd, 1) == 0);
    has_no_proc = false;
    submit_nop(&ring, 1);
    check(read(fd, &told, sizeof told) == sizeof told && told == 1);
    check(next_of(&ring).user_data == 1);
    close(fd);
    close_ring(&ring);
}

/* The thread of a ring may run where a processor is online. */
static void test_processors(void)
{
    for (unsigned number = 0; number < 2; number++) {
        struct io_uring_params params = {.flags = IORING_SETUP_SQPOLL | IORING_SETUP_SQ_AFF,
            .sq_thread_cpu = number ? (unsigned)get_nprocs_conf() : 0};
        long fd = set_up(4, &params);
        check(number ? fd == -EINVAL : fd >= 0);
        if (fd >= 0)
            close((int)fd);
    }
}

int main(int count, char **words)
{
    static const struct named tests[] = {
        {"memory of no file", test_memory_of_no_file},
        {"memory of files", test_memory_of_files},
        {"mappings", test_mappings},
        {"part of the entries", test_part_of_entries},
        {"refusals", test_refusals},
        {"rights", test_rights},
        {"mask is read once", test_mask_is_read_once},
        {"unknown threads", test_unknown_threads},
        {"unknown eventfd", test_unknown_eventfd},
        {"processors", test_processors},
    };
    struct io_uring_params params = {0};
    long fd = set_up(1, &params);
    if (IS_REAL && fd < 0) {
        puts("mapped: this kernel makes no rings");
        return 0;
    }
    close((int)fd);
    alarm((unsigned)(PATIENCE * patience()));
    return run_tests(tests, sizeof tests / sizeof *tests, count > 1 ? words[1] : NULL);
}
