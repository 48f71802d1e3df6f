/* Tests of registered files and their slots, by direct calls: direct descriptors, slots that are
 * given out, tags, and when a request finds its slot. All hold under every policy, which the
 * environment says.
 *
 *   slots [NAME]         with a name: that test alone
 */
#define _GNU_SOURCE
#include "engines.h"

#include <sys/socket.h>

static void test_files(void)
{
    struct ring ring;
    char text[8] = "";
    int first = make_file(), second = make_file(), list[3] = {first, -1, -1}, fds[2] = {second, -2};
    make_ring(&ring, 8, 0, 0);
    check(register_at(ring.fd, IORING_UNREGISTER_FILES, NULL, 0) == -ENXIO);
    check(register_at(ring.fd, IORING_REGISTER_FILES, list, 0) == -EINVAL);
    check(register_at(ring.fd, IORING_REGISTER_FILES, list, 1u << 21) == -EMFILE);
    check(register_at(ring.fd, IORING_REGISTER_FILES, NULL, 3) == -EFAULT);
    check(register_at(ring.fd, IORING_REGISTER_FILES, list, 3) == 0);
    check(register_at(ring.fd, IORING_REGISTER_FILES, list, 3) == -EBUSY);
    /* The registered file stays when its descriptor is closed. */
    check(pwrite(first, "first", 5, 0) == 5);
    close(first);
    put_transfer(&ring, IORING_OP_READ, 0, IOSQE_FIXED_FILE, 0, text, 5, 0);
    check(result_of_one(&ring, 1) == 5 && memcmp(text, "first", 5) == 0);
    put_transfer(&ring, IORING_OP_READ, 0, IOSQE_FIXED_FILE, 1, text, 5, 0);
    check(result_of_one(&ring, 1) == -EBADF);
    put_transfer(&ring, IORING_OP_READ, 0, IOSQE_FIXED_FILE, 3, text, 5, 0);
    check(result_of_one(&ring, 1) == -EBADF);
    struct io_uring_files_update update = {.offset = 1, .fds = (uintptr_t)fds};
    check(register_at(ring.fd, IORING_REGISTER_FILES_UPDATE, &update, 2) == 2);
    put_transfer(&ring, IORING_OP_WRITE, 0, IOSQE_FIXED_FILE, 1, "second", 6, 0);
    check(result_of_one(&ring, 1) == 6);
    check(pread(second, text, 6, 0) == 6 && memcmp(text, "second", 6) == 0);
    update.offset = 2;
    check(register_at(ring.fd, IORING_REGISTER_FILES_UPDATE, &update, 2) == -EINVAL);
    fds[0] = ring.fd;
    check(register_at(ring.fd, IORING_REGISTER_FILES_UPDATE, &update, 1) == -EBADF);
    check(register_at(ring.fd, IORING_UNREGISTER_FILES, NULL, 0) == 0);
    close(second);
    close_ring(&ring);
}

/* A chain that opens a file into a slot, writes to it there, and closes it; then slots that are
 * given out. */
static void test_direct_descriptors(void)
{
    struct ring ring;
    struct io_uring_rsrc_register sparse = {.nr = 2, .flags = IORING_RSRC_REGISTER_SPARSE};
    char path[] = "/tmp/engines-XXXXXX";
    int fd = mkstemp(path);
    check(fd >= 0);
    make_ring(&ring, 8, 0, 0);
    check(register_at(ring.fd, IORING_REGISTER_FILES2, &sparse, 1) == -EINVAL);
    check(register_at(ring.fd, IORING_REGISTER_FILES2, &sparse, sizeof sparse) == 0);
    struct io_uring_sqe *open_entry = put(&ring, IORING_OP_OPENAT, 0, IOSQE_IO_LINK);
    *open_entry = (struct io_uring_sqe){.opcode = IORING_OP_OPENAT,
        .flags = IOSQE_IO_LINK,
        .fd = AT_FDCWD,
        .addr = (uintptr_t)path,
        .open_flags = O_RDWR,
        .file_index = 1};
    put_transfer(&ring, IORING_OP_WRITE, 1, IOSQE_FIXED_FILE | IOSQE_IO_LINK, 0, "direct", 6, 0);
    put(&ring, IORING_OP_CLOSE, 2, 0)->file_index = 1;
    check(result_of_one(&ring, 3) == 0);
    char text[6];
    check(pread(fd, text, 6, 0) == 6 && memcmp(text, "direct", 6) == 0);
    for (int i = 0; i < 3; i++) {
        struct io_uring_sqe *entry = put_plain(&ring, IORING_OP_SOCKET, 0, AF_UNIX);
        entry->off = SOCK_STREAM;
        entry->file_index = IORING_FILE_INDEX_ALLOC;
        check(result_of_one(&ring, 1) == (i < 2 ? i : -ENFILE));
    }
    put(&ring, IORING_OP_CLOSE, 0, 0)->file_index = 3;
    check(result_of_one(&ring, 1) == -EINVAL);
    unlink(path);
    close(fd);
    close_ring(&ring);
}

/* Puts a socket into a slot, or into any. Returns its result, which is the slot if any was asked
 * for. */
static int open_in(struct ring *ring, uint32_t file_index)
{
    struct io_uring_sqe *entry = put_plain(ring, IORING_OP_SOCKET, 0, AF_UNIX);
    entry->off = SOCK_STREAM;
    entry->file_index = file_index;
    return result_of_one(ring, 1);
}

static int close_slot(struct ring *ring, uint32_t slot)
{
    put(ring, IORING_OP_CLOSE, 0, 0)->file_index = slot + 1;
    return result_of_one(ring, 1);
}

static int give_out(const struct ring *ring, uint32_t from, uint32_t len)
{
    struct io_uring_file_index_range range = {.off = from, .len = len};
    return (int)register_at(ring->fd, IORING_REGISTER_FILE_ALLOC_RANGE, &range, 0);
}

/* Which slot a file gets that asks for any: what a real ring of Linux 6.18 answers to the same. */
static void test_slots(void)
{
    enum { ANY = -1 };
    struct ring ring;
    struct io_uring_rsrc_register sparse = {.nr = 4, .flags = IORING_RSRC_REGISTER_SPARSE};
    make_ring(&ring, 8, 0, 0);
    check(open_in(&ring, (uint32_t)ANY) == -ENFILE && open_in(&ring, 1) == -ENXIO &&
          close_slot(&ring, 0) == -ENXIO);
    check(give_out(&ring, 0, 1) == -EINVAL && give_out(&ring, 0, 0) == 0 &&
          register_at(ring.fd, IORING_REGISTER_FILE_ALLOC_RANGE, NULL, 0) == -EINVAL);
    check(register_at(ring.fd, IORING_REGISTER_FILES2, &sparse, sizeof sparse) == 0);
    check(close_slot(&ring, 0) == -EBADF && close_slot(&ring, 4) == -EINVAL &&
          open_in(&ring, 5) == -EINVAL);
    for (int i = 0; i < 4; i++)
        check(open_in(&ring, (uint32_t)ANY) == i);
    check(open_in(&ring, (uint32_t)ANY) == -ENFILE);
    check(close_slot(&ring, 1) == 0 && close_slot(&ring, 3) == 0 && open_in(&ring, 1) == 0);
    check(open_in(&ring, (uint32_t)ANY) == 3 && open_in(&ring, (uint32_t)ANY) == 1);
    check(close_slot(&ring, 0) == 0 && close_slot(&ring, 1) == 0 && close_slot(&ring, 2) == 0 &&
          close_slot(&ring, 3) == 0 && open_in(&ring, 2) == 0);
    check(open_in(&ring, (uint32_t)ANY) == 2 && open_in(&ring, (uint32_t)ANY) == 3 &&
          open_in(&ring, (uint32_t)ANY) == 0);
    check(give_out(&ring, 1, 4) == -EINVAL && give_out(&ring, UINT32_MAX, 2) == -EOVERFLOW &&
          give_out(&ring, 1, 2) == 0);
    check(close_slot(&ring, 0) == 0 && close_slot(&ring, 3) == 0 &&
          open_in(&ring, (uint32_t)ANY) == -ENFILE);
    check(
        close_slot(&ring, 2) == 0 && open_in(&ring, 4) == 0 && open_in(&ring, (uint32_t)ANY) == 2);
    check(register_at(ring.fd, IORING_UNREGISTER_FILES, NULL, 0) == 0 &&
          open_in(&ring, (uint32_t)ANY) == -ENFILE);
    close_ring(&ring);
}

/* The tag of a file is told once its slot is another's and no request has it. */
static void test_tags_of_files(void)
{
    struct ring ring;
    int ends[2], none = -1;
    uint64_t tags[2] = {11, 12}, tag = 13;
    char text[4];
    check(pipe(ends) == 0);
    int list[2] = {ends[0], ends[1]}, empty[2] = {ends[0], -1};
    struct io_uring_rsrc_register asked = {
        .nr = 2, .data = (uintptr_t)empty, .tags = (uintptr_t)tags};
    make_ring(&ring, 8, 0, 0);
    check(ring.params.features & IORING_FEAT_RSRC_TAGS);
    check(register_at(ring.fd, IORING_REGISTER_FILES2, &asked, sizeof asked) == -EINVAL);
    asked.data = (uintptr_t)list;
    asked.tags = 8;
    check(register_at(ring.fd, IORING_REGISTER_FILES2, &asked, sizeof asked) == -EFAULT);
    asked.tags = (uintptr_t)tags;
    check(register_at(ring.fd, IORING_REGISTER_FILES2, &asked, sizeof asked) == 0);
    struct io_uring_rsrc_update2 update = {
        .offset = 1, .data = (uintptr_t)&none, .tags = (uintptr_t)&tag, .nr = 1};
    check(register_at(ring.fd, IORING_REGISTER_FILES_UPDATE2, &update, sizeof update) == -EINVAL);
    update.data = (uintptr_t)&ends[1];
    check(register_at(ring.fd, IORING_REGISTER_FILES_UPDATE2, &update, sizeof update) == 1);
    struct seen found = next_of(&ring);
    check(found.user_data == 12 && found.res == 0 && found.flags == 0);
    put_transfer(&ring, IORING_OP_READ, 0, IOSQE_FIXED_FILE, 0, text, 4, 0);
    check(enter(&ring, 1, 0, 0) == 1);
    check(enter_for(&ring, 1, 1000) == -ETIME);
    check(register_at(ring.fd, IORING_UNREGISTER_FILES, NULL, 0) == 0);
    check(next_of(&ring).user_data == 13);
    check(enter_for(&ring, 1, 1000) == -ETIME);
    check(write(ends[1], "four", 4) == 4);
    check(next_of(&ring).res == 4 && next_of(&ring).user_data == 11);
    close_pair(ends);
    close_ring(&ring);
}

/* The tags of a table that goes are told from its last slot on. */
static void test_tags_of_table(void)
{
    struct ring ring;
    int list[3] = {0, -1, 0};
    uint64_t tags[3] = {11, 0, 13};
    struct io_uring_rsrc_register asked = {
        .nr = 3, .data = (uintptr_t)list, .tags = (uintptr_t)tags};
    make_ring(&ring, 4, 0, 0);
    check(register_at(ring.fd, IORING_REGISTER_FILES2, &asked, sizeof asked) == 0);
    check(register_at(ring.fd, IORING_UNREGISTER_FILES, NULL, 0) == 0);
    check(next_of(&ring).user_data == 13 && next_of(&ring).user_data == 11);
    close_ring(&ring);
}

/* A slot that can't be told is empty again. */
static void test_untold_slots(void)
{
    struct ring ring;
    struct io_uring_rsrc_register sparse = {.nr = 2, .flags = IORING_RSRC_REGISTER_SPARSE};
    char byte;
    int file = make_file();
    int *list = mmap(NULL, 4096, PROT_READ | PROT_WRITE, MAP_PRIVATE | MAP_ANONYMOUS, -1, 0);
    check(list != MAP_FAILED);
    list[0] = list[1] = file;
    check(mprotect(list, 4096, PROT_READ) == 0);
    make_ring(&ring, 8, 0, 0);
    check(register_at(ring.fd, IORING_REGISTER_FILES2, &sparse, sizeof sparse) == 0);
    for (int i = 0; i < 3; i++) {
        struct io_uring_sqe *entry = put_plain(&ring, IORING_OP_FILES_UPDATE, 0, -1);
        entry->addr = (uintptr_t)list;
        entry->len = 2;
        entry->off = IORING_FILE_INDEX_ALLOC;
        check(result_of_one(&ring, 1) == -EFAULT);
    }
    for (int slot = 0; slot < 2; slot++) {
        put_transfer(&ring, IORING_OP_READ, 0, IOSQE_FIXED_FILE, slot, &byte, 1, 0);
        check(result_of_one(&ring, 1) == -EBADF);
    }
    munmap(list, 4096);
    close(file);
    close_ring(&ring);
}

/* Submits two entries without a link between them, and returns their results. */
static void results_of_two(struct ring *ring, int32_t results[2])
{
    check(enter(ring, 2, 2, IORING_ENTER_GETEVENTS) == 2);
    for (int i = 0; i < 2; i++) {
        struct completion found = reap(ring);
        results[found.user_data] = found.res;
    }
}

/* A slot is found by a request in its turn: in order after those of its call that change slots, and
 * always before those after it. */
static void test_turns(void)
{
    struct ring ring;
    char text[16];
    int32_t results[2];
    int fd = make_file(), list[2] = {fd, -1};
    const char *policy = getenv("WULGACH_POLICY");
    bool is_in_order = !policy || strcmp(policy, "order") == 0;
    check(pwrite(fd, "0123456789abcdef", 16, 0) == 16);
    make_ring(&ring, 8, 0, 0);
    check(register_at(ring.fd, IORING_REGISTER_FILES, list, 2) == 0);
    put_transfer(&ring, IORING_OP_FILES_UPDATE, 0, 0, -1, &fd, 1, 1);
    put_transfer(&ring, IORING_OP_READ, 1, IOSQE_FIXED_FILE, 1, text, 16, 0);
    results_of_two(&ring, results);
    check(results[0] == 1 && (results[1] == 16 || (!is_in_order && results[1] == -EBADF)));
    put_transfer(&ring, IORING_OP_READ, 0, IOSQE_FIXED_FILE, 1, text, 16, 0);
    put(&ring, IORING_OP_CLOSE, 1, 0)->file_index = 2;
    results_of_two(&ring, results);
    check(results[0] == 16 && results[1] == 0);
    put(&ring, IORING_OP_CLOSE, 0, 0)->file_index = 1;
    put_transfer(&ring, IORING_OP_READ, 1, IOSQE_FIXED_FILE, 0, text, 16, 0);
    results_of_two(&ring, results);
    check(results[0] == 0 && (results[1] == -EBADF || (!is_in_order && results[1] == 16)));
    close(fd);
    close_ring(&ring);
}

/* One whose turn it was when its call returned has found its slot, whatever the application does
 * then. */
static void test_turn_at_return(void)
{
    struct ring ring;
    char text[16];
    int fd = make_file(), list[2] = {fd, fd};
    check(pwrite(fd, "0123456789abcdef", 16, 0) == 16);
    make_ring(&ring, 8, 0, 0);
    check(register_at(ring.fd, IORING_REGISTER_FILES, list, 2) == 0);
    put(&ring, IORING_OP_CLOSE, 0, 0)->file_index = 2;
    put_transfer(&ring, IORING_OP_READ, 1, IOSQE_FIXED_FILE, 0, text, 16, 0);
    check(enter(&ring, 2, 0, 0) == 2);
    check(register_at(ring.fd, IORING_UNREGISTER_FILES, NULL, 0) == 0);
    check(enter(&ring, 0, 2, IORING_ENTER_GETEVENTS) == 0);
    for (int i = 0; i < 2; i++) {
        struct completion found = reap(&ring);
        check(found.user_data == 1 ? found.res == 16 : found.res == 0 || found.res == -ENXIO);
    }
    close(fd);
    close_ring(&ring);
}

/* The results of operations on a descriptor that is open for its path alone. */
static void use_path(struct ring *ring, int path)
{
    static const uint8_t codes[] = {IORING_OP_READ, IORING_OP_WRITE, IORING_OP_FSYNC,
        IORING_OP_FALLOCATE, IORING_OP_POLL_ADD, IORING_OP_SEND, IORING_OP_SHUTDOWN,
        IORING_OP_MSG_RING};
    static const char none;
    for (size_t i = 0; i < sizeof codes; i++) {
        struct io_uring_sqe *entry = put_plain(ring, codes[i], 0, path);
        entry->addr = codes[i] == IORING_OP_READ || codes[i] == IORING_OP_WRITE ||
                              codes[i] == IORING_OP_SEND
                          ? (uintptr_t)&none
                          : 0;
        entry->poll32_events = codes[i] == IORING_OP_POLL_ADD;
        check(result_of_one(ring, 1) == -EBADF);
    }
    put_plain(ring, IORING_OP_NOP, 0, path);
    check(result_of_one(ring, 1) == 0);
    put_plain(ring, IORING_OP_NOP, 0, path)->rw_flags = 2; /* IORING_NOP_FILE */
    check(result_of_one(ring, 1) == -EBADF);
    put_plain(ring, IORING_OP_ASYNC_CANCEL, 0, path)->cancel_flags = IORING_ASYNC_CANCEL_FD |
                                                                     IORING_ASYNC_CANCEL_ALL;
    check(result_of_one(ring, 1) == -EBADF);
}

/* By its number no file is found that is open for its path alone. A path begins at one, and it can
 * be closed; and an open puts one into a slot, which then holds it. */
static void test_paths(void)
{
    struct ring ring;
    int path = open("/dev/null", O_PATH), folder = open("/dev", O_PATH), none = -1;
    struct io_uring_files_update update = {.fds = (uintptr_t)&path};
    struct io_uring_sync_cancel_reg now = {
        .fd = path, .flags = IORING_ASYNC_CANCEL_FD | IORING_ASYNC_CANCEL_ALL, .timeout = {-1, -1}};
    make_ring(&ring, 8, 0, 0);
    use_path(&ring, path);
    check(register_at(ring.fd, IORING_REGISTER_EVENTFD, &path, 1) == -EBADF &&
          register_at(ring.fd, IORING_REGISTER_SYNC_CANCEL, &now, 1) == -EBADF);
    check(register_at(ring.fd, IORING_REGISTER_FILES, &path, 1) == -EBADF &&
          register_at(ring.fd, IORING_REGISTER_FILES, &none, 1) == 0);
    check(register_at(ring.fd, IORING_REGISTER_FILES_UPDATE, &update, 1) == -EBADF);
    for (uint64_t offset = 0; offset <= UINT32_MAX; offset += UINT32_MAX) {
        put_transfer(&ring, IORING_OP_FILES_UPDATE, 0, 0, -1, &path, 1, offset);
        check(result_of_one(&ring, 1) == -EBADF);
    }
    check(register_at(path, IORING_REGISTER_FILES, &none, 1) == -EBADF &&
          enter(&(struct ring){.fd = path}, 0, 0, 0) == -EBADF);
    struct io_uring_sqe *entry = put_transfer(&ring, IORING_OP_OPENAT, 0, 0, folder, "null", 0, 0);
    entry->open_flags = O_PATH;
    entry->file_index = 1;
    check(result_of_one(&ring, 1) == 0);
    entry = put(&ring, IORING_OP_ASYNC_CANCEL, 0, IOSQE_FIXED_FILE);
    entry->cancel_flags = IORING_ASYNC_CANCEL_FD | IORING_ASYNC_CANCEL_ALL;
    check(result_of_one(&ring, 1) == 0);
    put_plain(&ring, IORING_OP_CLOSE, 0, path);
    check(result_of_one(&ring, 1) == 0 && fcntl(path, F_GETFD) < 0);
    close(folder);
    close_ring(&ring);
}

/* Descriptors go into the table by an entry: into slots, or where there is room. */
static void test_updates(void)
{
    struct ring ring;
    struct io_uring_rsrc_register sparse = {.nr = 2, .flags = IORING_RSRC_REGISTER_SPARSE};
    int file = make_file(), list[2] = {file, file};
    char text[4];
    check(pwrite(file, "here", 4, 0) == 4);
    make_ring(&ring, 8, 0, 0);
    put_transfer(&ring, IORING_OP_FILES_UPDATE, 0, 0, -1, list, 1, 0);
    check(result_of_one(&ring, 1) == -ENXIO);
    check(register_at(ring.fd, IORING_REGISTER_FILES2, &sparse, sizeof sparse) == 0);
    put_transfer(&ring, IORING_OP_FILES_UPDATE, 0, 0, -1, list, 1, 1);
    check(result_of_one(&ring, 1) == 1);
    put_transfer(&ring, IORING_OP_READ, 0, IOSQE_FIXED_FILE, 1, text, 4, 0);
    check(result_of_one(&ring, 1) == 4 && memcmp(text, "here", 4) == 0);
    put_transfer(&ring, IORING_OP_FILES_UPDATE, 0, 0, -1, list, 2, IORING_FILE_INDEX_ALLOC);
    check(result_of_one(&ring, 1) == 1 && list[0] == 0);
    put_transfer(&ring, IORING_OP_FILES_UPDATE, 0, 0, -1, list, 0, 0);
    check(result_of_one(&ring, 1) == -EINVAL);
    close(file);
    close_ring(&ring);
}

int main(int count, char **words)
{
    static const struct named tests[] = {
        {"files", test_files},
        {"direct descriptors", test_direct_descriptors},
        {"slots", test_slots},
        {"tags of files", test_tags_of_files},
        {"tags of a table", test_tags_of_table},
        {"untold slots", test_untold_slots},
        {"turns", test_turns},
        {"turn at a return", test_turn_at_return},
        {"paths", test_paths},
        {"updates", test_updates},
    };
    return run_tests(tests, sizeof tests / sizeof *tests, count > 1 ? words[1] : NULL);
}
