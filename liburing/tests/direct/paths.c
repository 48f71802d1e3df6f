/* Tests of operations on names, attributes and an epoll instance, by direct calls: each does what
 * the system call of its name does, and a chain of them goes on in order; and of what is copied of
 * an entry. All hold under every policy, which the environment says. They work in a folder of their
 * own.
 *
 *   paths [NAME]             with a name: that test alone
 */
#define _GNU_SOURCE
#include "engines.h"
#include "filters.h"

#include <linux/openat2.h>
#include <sys/epoll.h>
#include <sys/mman.h>
#include <sys/stat.h>
#include <sys/uio.h>
#include <sys/wait.h>
#include <sys/xattr.h>

static char folder[] = "/tmp/wulgach-paths-XXXXXX";
static int root;

static struct io_uring_sqe *put_path(
    struct ring *ring, uint8_t code, uint64_t user_data, const char *path)
{
    struct io_uring_sqe *entry = put(ring, code, user_data, 0);
    entry->fd = root;
    entry->addr = (uintptr_t)path;
    return entry;
}

static struct io_uring_sqe *put_paths(
    struct ring *ring, uint8_t code, const char *path, const char *other)
{
    struct io_uring_sqe *entry = put_path(ring, code, 0, path);
    entry->len = (uint32_t)root;
    entry->addr2 = (uintptr_t)other;
    return entry;
}

static bool is_there(const char *path)
{
    struct stat status;
    return fstatat(root, path, &status, AT_SYMLINK_NOFOLLOW) == 0;
}

/* A folder, a file in it, two more names of the file, another name of one of these, and all taken
 * away again. */
static void test_names(void)
{
    struct ring ring;
    struct statx told;
    struct open_how how = {.flags = O_RDWR | O_CREAT | O_EXCL, .mode = 0600};
    make_ring(&ring, 8, 0, 0);
    put_path(&ring, IORING_OP_MKDIRAT, 0, "d")->len = 0700;
    check(result_of_one(&ring, 1) == 0 && is_there("d"));
    put_path(&ring, IORING_OP_MKDIRAT, 0, "d")->len = 0700;
    check(result_of_one(&ring, 1) == -EEXIST);
    struct io_uring_sqe *entry = put_path(&ring, IORING_OP_OPENAT2, 0, "d/file");
    entry->off = (uintptr_t)&how;
    entry->len = sizeof how;
    int fd = result_of_one(&ring, 1);
    check(fd >= 0 && write(fd, "five!", 5) == 5 && close(fd) == 0);
    put_paths(&ring, IORING_OP_LINKAT, "d/file", "d/link");
    check(result_of_one(&ring, 1) == 0);
    entry = put_path(&ring, IORING_OP_SYMLINKAT, 0, "file");
    entry->addr2 = (uintptr_t) "d/name";
    check(result_of_one(&ring, 1) == 0 && is_there("d/name"));
    put_paths(&ring, IORING_OP_RENAMEAT, "d/link", "d/other");
    check(result_of_one(&ring, 1) == 0 && !is_there("d/link"));
    entry = put_path(&ring, IORING_OP_STATX, 0, "d/other");
    entry->len = STATX_BASIC_STATS;
    entry->off = (uintptr_t)&told;
    check(result_of_one(&ring, 1) == 0 && told.stx_size == 5 && told.stx_nlink == 2);
    static const char *const gone[] = {"d/file", "d/name", "d/other", "d"};
    for (size_t i = 0; i < 4; i++) {
        put_path(&ring, IORING_OP_UNLINKAT, 0, gone[i])->unlink_flags = i == 3 ? AT_REMOVEDIR : 0;
        check(result_of_one(&ring, 1) == 0 && !is_there(gone[i]));
    }
    put_path(&ring, IORING_OP_UNLINKAT, 0, "d");
    check(result_of_one(&ring, 1) == -ENOENT);
    close_ring(&ring);
}

/* A chain makes a folder, opens a file in it and takes both away; by the manual pages' rules the
 * first that fails ends it, and Linux goes on after a folder that is there already. */
static void test_chain(void)
{
    struct ring ring;
    int32_t results[4];
    make_ring(&ring, 8, 0, 0);
    for (int is_there_already = 0; is_there_already < 2; is_there_already++) {
        struct io_uring_sqe *made = put_path(&ring, IORING_OP_MKDIRAT, 0, "c");
        made->len = 0700;
        struct io_uring_sqe *opened = put_path(&ring, IORING_OP_OPENAT, 1, "c/file");
        opened->open_flags = O_RDWR | O_CREAT;
        opened->len = 0600;
        struct io_uring_sqe *gone = put_path(&ring, IORING_OP_UNLINKAT, 2, "c/file");
        struct io_uring_sqe *last = put_path(&ring, IORING_OP_UNLINKAT, 3, "c");
        last->unlink_flags = AT_REMOVEDIR;
        made->flags = opened->flags = gone->flags = IOSQE_IO_LINK;
        if (is_there_already)
            check(mkdirat(root, "c", 0700) == 0);
        check(enter(&ring, 4, 0, 0) == 4);
        reap_all(&ring, 4, results);
        check(results[0] == (is_there_already ? -EEXIST : 0));
        bool ends = is_there_already && is_by_manual();
        check(ends ? results[1] == -ECANCELED : close(results[1]) == 0);
        check(results[2] == (ends ? -ECANCELED : 0) && results[3] == results[2]);
    }
    check((unlinkat(root, "c", AT_REMOVEDIR) == 0) == is_by_manual());
    close_ring(&ring);
}

/* Attributes of a file and of a name, where the file system has them; else each says what the
 * system call says. */
static void test_attributes(void)
{
    struct ring ring;
    char value[8] = "";
    int file = openat(root, "attributes", O_RDWR | O_CREAT, 0600);
    char path[64];
    snprintf(path, sizeof path, "%s/attributes", folder);
    int32_t can_set = fsetxattr(file, "user.asked", "1", 1, 0) < 0 ? -errno : 0,
            length = can_set < 0 ? can_set : 5;
    make_ring(&ring, 8, 0, 0);
    for (int is_named = 0; is_named < 2; is_named++) {
        for (int is_get = 0; is_get < 2; is_get++) {
            uint8_t code = is_named ? (is_get ? IORING_OP_GETXATTR : IORING_OP_SETXATTR)
                                    : (is_get ? IORING_OP_FGETXATTR : IORING_OP_FSETXATTR);
            struct io_uring_sqe *entry = put(&ring, code, 0, 0);
            entry->fd = is_named ? 0 : file;
            entry->addr = (uintptr_t)(is_named ? "user.second" : "user.first");
            entry->addr2 = (uintptr_t)(is_get ? value : "value");
            entry->addr3 = is_named ? (uintptr_t)path : 0;
            entry->len = is_get ? sizeof value : 5;
            check(result_of_one(&ring, 1) == (is_get ? length : can_set));
            check(!is_get || can_set < 0 || memcmp(value, "value", 5) == 0);
            memset(value, 0, is_get ? sizeof value : 0);
        }
    }
    close(file);
    check(unlinkat(root, "attributes", 0) == 0);
    close_ring(&ring);
}

/* A ring's descriptor is no epoll instance, whichever fault comes first. */
static void test_ring_is_no_instance(void)
{
    static const char *const ways[] = {NULL, "yes"};
    struct ring ring, other;
    struct epoll_event event = {.events = EPOLLIN};
    int ends[2], file = make_file();
    check(pipe(ends) == 0);
    for (int way = 0; way < 4; way++) {
        if (ways[way / 2])
            setenv("WULGACH_TEST_POLLED", ways[way / 2], 1);
        make_ring(&ring, 8, 0, 0);
        unsetenv("WULGACH_TEST_POLLED");
        if (ways[way % 2])
            setenv("WULGACH_TEST_POLLED", ways[way % 2], 1);
        make_ring(&other, 8, 0, 0);
        unsetenv("WULGACH_TEST_POLLED");
        for (int change = EPOLL_CTL_ADD; change <= EPOLL_CTL_MOD; change++) {
            put_transfer(&ring, IORING_OP_EPOLL_CTL, 0, 0, other.fd, &event, (unsigned)change,
                (uint64_t)ends[0]);
            check(result_of_one(&ring, 1) == -EINVAL);
        }
        put_transfer(
            &ring, IORING_OP_EPOLL_CTL, 0, 0, ring.fd, &event, EPOLL_CTL_ADD, (uint64_t)ends[0]);
        check(result_of_one(&ring, 1) == -EINVAL);
        put_transfer(&ring, IORING_OP_EPOLL_CTL, 0, 0, other.fd, &event, EPOLL_CTL_ADD, 9999);
        check(result_of_one(&ring, 1) == -EBADF);
        put_transfer(
            &ring, IORING_OP_EPOLL_CTL, 0, 0, other.fd, &event, EPOLL_CTL_ADD, (uint64_t)file);
        check(result_of_one(&ring, 1) == -EPERM);
        put_transfer(
            &ring, IORING_OP_EPOLL_CTL, 0, 0, other.fd, NULL, EPOLL_CTL_ADD, (uint64_t)ends[0]);
        check(result_of_one(&ring, 1) == -EFAULT);
        close_ring(&ring);
        close_ring(&other);
    }
    close_pair(ends);
    close(file);
}

/* An epoll instance takes a descriptor, changes it, and lets it go. */
static void test_epoll(void)
{
    struct ring ring;
    struct epoll_event event = {.events = EPOLLIN, .data.u64 = 7}, found;
    int ends[2], all = epoll_create1(EPOLL_CLOEXEC);
    check(pipe(ends) == 0 && write(ends[1], "x", 1) == 1);
    make_ring(&ring, 8, 0, 0);
    static const struct {
        int change;
        int32_t res;
        int ready;
    } rows[] = {{EPOLL_CTL_MOD, -ENOENT, 0}, {EPOLL_CTL_ADD, 0, 1}, {EPOLL_CTL_ADD, -EEXIST, 1},
        {EPOLL_CTL_DEL, 0, 0}, {EPOLL_CTL_DEL, -ENOENT, 0}};
    for (size_t i = 0; i < sizeof rows / sizeof *rows; i++) {
        put_transfer(&ring, IORING_OP_EPOLL_CTL, 0, 0, all, &event, (unsigned)rows[i].change,
            (uint64_t)ends[0]);
        check(result_of_one(&ring, 1) == rows[i].res);
        check(epoll_wait(all, &found, 1, 0) == rows[i].ready &&
              (!rows[i].ready || found.data.u64 == 7));
    }
    put_transfer(&ring, IORING_OP_EPOLL_CTL, 0, 0, all, NULL, EPOLL_CTL_ADD, (uint64_t)ends[0]);
    check(result_of_one(&ring, 1) == -EFAULT);
    close_pair(ends);
    close(all);
    close_ring(&ring);
}

/* What a structure of an open may be, and an open into a slot: the kernel's faults, in its order.
 */
static void test_how(void)
{
    struct ring ring;
    struct io_uring_rsrc_register sparse = {.nr = 2, .flags = IORING_RSRC_REGISTER_SPARSE};
    struct {
        struct open_how how;
        char more[8192];
    } large = {.how = {.flags = O_RDWR | O_CREAT | O_CLOEXEC, .mode = 0600}};
    static const struct {
        uint32_t size, slot;
        bool has_path;
        char more;
        int32_t res;
    } rows[] = {{8216, 0, true, 0, 0}, {8216, 0, true, 1, -E2BIG}, {23, 0, true, 0, -EINVAL},
        {23, 0, false, 0, -EINVAL}, {24, 1, true, 0, -EINVAL}, {24, 1, false, 0, -EFAULT},
        {32, 0, true, 1, -E2BIG}, {32, 0, false, 1, -E2BIG}, {4097, 0, true, 0, 0},
        {32, 0, true, 0, 0}};
    make_ring(&ring, 8, 0, 0);
    check(register_at(ring.fd, IORING_REGISTER_FILES2, &sparse, sizeof sparse) == 0);
    for (size_t i = 0; i < sizeof rows / sizeof *rows; i++) {
        struct io_uring_sqe *entry = put_path(
            &ring, IORING_OP_OPENAT2, 0, rows[i].has_path ? "how" : NULL);
        entry->off = (uintptr_t)&large;
        entry->len = rows[i].size;
        entry->file_index = rows[i].slot;
        large.more[7] = rows[i].more;
        int32_t res = result_of_one(&ring, 1);
        check(res == rows[i].res ||
              (rows[i].res == 0 && res > 0 && close(res) == 0 && unlinkat(root, "how", 0) == 0));
        check(!is_there("how"));
    }
    close_ring(&ring);
}

/* What is newer in a structure of an open is looked at first, up to what isn't 0 or can't be read:
 * it lies over the end of a page, or its newer fields begin one. */
static void test_how_at_an_edge(void)
{
    enum { PAGE = 4096, KNOWN = sizeof(struct open_how), LONG = 64 };
    struct ring ring;
    char *pages = mmap(NULL, 3 * PAGE, PROT_READ | PROT_WRITE, MAP_PRIVATE | MAP_ANONYMOUS, -1, 0),
         *page = pages + PAGE;
    check(pages != MAP_FAILED && mprotect(pages, PAGE, PROT_NONE) == 0 &&
          mprotect(page + PAGE, PAGE, PROT_NONE) == 0);
    make_ring(&ring, 8, 0, 0);
    for (int row = 0; row < 4; row++) {
        bool is_at_end = row & 1, has_more = row & 2;
        struct io_uring_sqe *entry = put_path(&ring, IORING_OP_OPENAT2, 0, "no");
        entry->off = (uintptr_t)(is_at_end ? page + PAGE - KNOWN - 8 : page - KNOWN);
        entry->len = is_at_end ? LONG : KNOWN + 8;
        page[0] = page[PAGE - 1] = has_more;
        check(result_of_one(&ring, 1) == (has_more ? -E2BIG : -EFAULT));
    }
    munmap(pages, 3 * PAGE);
    close_ring(&ring);
}

/* What a slot has isn't closed by exec: an open into one that says so is refused, but after its
 * path. */
static void test_open_into_slot(void)
{
    struct ring ring;
    struct io_uring_rsrc_register sparse = {.nr = 2, .flags = IORING_RSRC_REGISTER_SPARSE};
    static const struct {
        const char *path;
        uint32_t slot, flags;
        int32_t res;
    } rows[] = {{NULL, 1, O_CLOEXEC, -EFAULT}, {"", 1, O_CLOEXEC, -ENOENT},
        {"no", 1, O_CLOEXEC, -EINVAL}, {"no", 1, 0, -ENOENT}, {"no", 0, O_CLOEXEC, -ENOENT}};
    make_ring(&ring, 8, 0, 0);
    check(register_at(ring.fd, IORING_REGISTER_FILES2, &sparse, sizeof sparse) == 0);
    for (size_t i = 0; i < sizeof rows / sizeof *rows; i++) {
        struct io_uring_sqe *entry = put_path(&ring, IORING_OP_OPENAT, 0, rows[i].path);
        entry->open_flags = rows[i].flags;
        entry->file_index = rows[i].slot;
        check(result_of_one(&ring, 1) == rows[i].res);
    }
    close_ring(&ring);
}

/* What is wrong with a path or a name is a fault of its entry, and the call ends after that; seen
 * at a ring of Linux 6.18. */
static void test_refused_names(void)
{
    static char of_4096[4097], of_256[257], of_255[256];
    static const struct {
        uint8_t opcode;
        uint32_t flags;
        const char *first, *second, *third;
        int32_t res;
    } rows[] = {
        {IORING_OP_OPENAT, 0, "", NULL, NULL, -ENOENT},
        {IORING_OP_OPENAT, O_DSYNC, "", NULL, NULL, -ENOENT},
        {IORING_OP_OPENAT, 0, of_4096, NULL, NULL, -ENAMETOOLONG},
        {IORING_OP_OPENAT, 0, of_4096 + 1, NULL, NULL, NO_FAULT},
        {IORING_OP_MKDIRAT, 0, "", NULL, NULL, -ENOENT},
        {IORING_OP_UNLINKAT, 0, "", NULL, NULL, -ENOENT},
        {IORING_OP_UNLINKAT, AT_REMOVEDIR, "", NULL, NULL, -ENOENT},
        {IORING_OP_STATX, 0, "", NULL, NULL, -ENOENT},
        {IORING_OP_STATX, AT_EMPTY_PATH, "", NULL, NULL, NO_FAULT},
        {IORING_OP_STATX, AT_EMPTY_PATH, NULL, NULL, NULL, -EFAULT},
        {IORING_OP_RENAMEAT, 0, "", "new", NULL, -ENOENT},
        {IORING_OP_RENAMEAT, 0, "old", "", NULL, -ENOENT},
        {IORING_OP_RENAMEAT, 0, "", NULL, NULL, -ENOENT},
        {IORING_OP_RENAMEAT, 0, NULL, "", NULL, -EFAULT},
        {IORING_OP_SYMLINKAT, 0, "", "new", NULL, -ENOENT},
        {IORING_OP_SYMLINKAT, 0, "old", "", NULL, -ENOENT},
        {IORING_OP_SYMLINKAT, 0, of_4096, "", NULL, -ENAMETOOLONG},
        {IORING_OP_LINKAT, 0, "", "new", NULL, -ENOENT},
        {IORING_OP_LINKAT, AT_EMPTY_PATH, "", "", NULL, -ENOENT},
        {IORING_OP_LINKAT, AT_EMPTY_PATH, "", "no/new", NULL, NO_FAULT},
        {IORING_OP_FGETXATTR, 0, "", NULL, NULL, -ERANGE},
        {IORING_OP_FGETXATTR, 0, of_256, NULL, NULL, -ERANGE},
        {IORING_OP_FGETXATTR, 0, of_4096, NULL, NULL, -ERANGE},
        {IORING_OP_FGETXATTR, 0, of_255, NULL, NULL, NO_FAULT},
        {IORING_OP_FSETXATTR, 0, "", "v", NULL, -ERANGE},
        {IORING_OP_GETXATTR, 0, "", NULL, NULL, -ERANGE},
        {IORING_OP_GETXATTR, 0, "user.a", NULL, "", -ENOENT},
        {IORING_OP_GETXATTR, 0, "user.a", NULL, of_4096, -ENAMETOOLONG},
        {IORING_OP_SETXATTR, 0, of_256, "v", "", -ERANGE},
        {IORING_OP_SETXATTR, 0, "user.a", "v", "", -ENOENT},
        {IORING_OP_SETXATTR, 0, "user.a", NULL, "", -EFAULT},
    };
    struct ring ring;
    struct statx told;
    memset(of_4096, 'l', 4096);
    memset(of_256, 'l', 256);
    memset(of_255, 'l', 255);
    make_ring(&ring, 8, 0, 0);
    for (size_t i = 0; i < sizeof rows / sizeof *rows; i++) {
        struct io_uring_sqe *entry = put_path(&ring, rows[i].opcode, 0, rows[i].first);
        entry->off = rows[i].opcode == IORING_OP_STATX ? (uintptr_t)&told
                                                       : (uintptr_t)rows[i].second;
        entry->addr3 = (uintptr_t)rows[i].third;
        entry->len = rows[i].opcode == IORING_OP_LINKAT || rows[i].opcode == IORING_OP_RENAMEAT
                         ? (uint32_t)root
                         : rows[i].opcode == IORING_OP_SETXATTR ||
                               rows[i].opcode == IORING_OP_FSETXATTR;
        entry->statx_flags = rows[i].flags;
        expect_entry_fault(&ring, rows[i].res);
    }
    close_ring(&ring);
}

/* From now on the calls that copy a process's memory aren't served, as in many a container. */
static void refuse_copies(void)
{
    FILTER(BPF_STMT(BPF_LD | BPF_W | BPF_ABS, offsetof(struct seccomp_data, nr)),
        BPF_JUMP(BPF_JMP | BPF_JEQ | BPF_K, SYS_process_vm_readv, 1, 0),
        BPF_JUMP(BPF_JMP | BPF_JEQ | BPF_K, SYS_process_vm_writev, 0, 1),
        BPF_STMT(BPF_RET | BPF_K, SECCOMP_RET_ERRNO | EPERM),
        BPF_STMT(BPF_RET | BPF_K, SECCOMP_RET_ALLOW));
}

/* Vectors of several pages, a path across two, what can't be read, and what can't be written. */
static void expect_copies(void)
{
    enum { VECTORS = 1000 };
    static char bytes[VECTORS];
    struct iovec vectors[VECTORS];
    struct ring ring;
    char *pages = mmap(NULL, 8192, PROT_READ | PROT_WRITE, MAP_PRIVATE | MAP_ANONYMOUS, -1, 0);
    int file = make_file();
    for (int i = 0; i < VECTORS; i++)
        vectors[i] = (struct iovec){bytes + i, 1};
    make_ring(&ring, 8, 0, 0);
    put_transfer(&ring, IORING_OP_WRITEV, 0, 0, file, vectors, VECTORS, 0);
    check(result_of_one(&ring, 1) == VECTORS);
    put_transfer(&ring, IORING_OP_READV, 0, 0, file, (void *)8, 2, 0);
    check(result_of_one(&ring, 1) == -EFAULT);
    strcpy(pages + 4094, "none");
    put_path(&ring, IORING_OP_UNLINKAT, 0, pages + 4094);
    check(result_of_one(&ring, 1) == -ENOENT);
    check(mprotect(pages + 4096, 4096, PROT_NONE) == 0);
    put_path(&ring, IORING_OP_UNLINKAT, 0, pages + 4094);
    check(result_of_one(&ring, 1) == -EFAULT);
    memset(pages, 0, 4096);
    check(mprotect(pages, 4096, PROT_READ) == 0 && set_up(4, (void *)pages) == -EFAULT &&
          set_up(4, (void *)(pages + 4096)) == -EFAULT);
    check(munmap(pages, 8192) == 0);
    close(file);
    close_ring(&ring);
}

/* So it is too where these calls aren't served. */
static void test_copies(void)
{
    int status;
    expect_copies();
    pid_t child = fork();
    if (child == 0) {
        refuse_copies();
        expect_copies();
        test_refused_names();
        _exit(0);
    }
    check(waitpid(child, &status, 0) == child && status == 0);
}

int main(int count, char **words)
{
    static const struct named tests[] = {
        {"names", test_names},
        {"refused names", test_refused_names},
        {"how", test_how},
        {"how at an edge", test_how_at_an_edge},
        {"open into slot", test_open_into_slot},
        {"chain", test_chain},
        {"attributes", test_attributes},
        {"epoll", test_epoll},
        {"ring is no instance", test_ring_is_no_instance},
        {"copies", test_copies},
    };
    check(mkdtemp(folder) && (root = open(folder, O_PATH | O_DIRECTORY)) >= 0);
    int status = run_tests(tests, sizeof tests / sizeof *tests, count > 1 ? words[1] : NULL);
    close(root);
    check(rmdir(folder) == 0);
    return status;
}
