/* A program that is linked with nothing of ours, and whose calls that change files are put into a
 * log. It is run by uring-run, in a folder that counts as the disk.
 *
 *   logged copies | bytes | places | syncs | lengths | parts
 *
 * Status 0: all was as it is to be. Else a line says what wasn't.
 */
#define _GNU_SOURCE
#include "logged.h"

#include <pthread.h>
#include <sys/uio.h>

/* Where bytes go to may stand where nothing is. */
static void refuse_place(int from, int to, int pipe)
{
    loff_t begin = 0, *nowhere = (loff_t *)8;
    WANT(syscall(SYS_copy_file_range, from, &begin, to, nowhere, 5, 0) == -1 && errno == EFAULT);
    WANT(syscall(SYS_copy_file_range, from, nowhere, to, &begin, 5, 0) == -1 && errno == EFAULT);
    WANT(syscall(SYS_sendfile, to, from, nowhere, 5) == -1 && errno == EFAULT);
    WANT(syscall(SYS_splice, pipe, NULL, to, nowhere, 5, 0) == -1 && errno == EFAULT);
    WANT(syscall(SYS_pwritev, to, nowhere, 1, 0, 0) == -1 && errno == EFAULT);
    WANT(syscall(SYS_mkdir, nowhere, 0700) == -1 && errno == EFAULT);
    WANT(begin == 0 && lseek(to, 0, SEEK_END) == 0);
}

/* What is moved, to a place of its own, is put into the log. */
static void move(int from, int to, int pipe)
{
    char letters[18] = {0};
    loff_t begin = 1, at = 2;
    struct iovec parts[] = {{(char *)"vec", 3}, {(char *)"tor", 3}};
    WANT(copy_file_range(from, &begin, to, &at, 5, 0) == 5 && begin == 6 && at == 7);
    WANT(splice(pipe, NULL, to, &at, 4, 0) == 4 && at == 11);
    WANT(pwritev(to, parts, 2, 11) == 6);
    WANT(pread(to, letters, sizeof letters, 0) == 17 &&
         memcmp(letters, "\0\0movedpipevector", 17) == 0);
}

static void *copy(void *none)
{
    enum { LONG = 3 << 20 };
    loff_t begin = 0, at = 0;
    int from = make("from"), to = make("to"), ends[2];
    WANT(pipe(ends) == 0 && write(from, "-mo", 3) == 3 && write(from, "ved", 3) == 3 &&
         write(ends[1], "pipe", 4) == 4);
    refuse_place(from, to, ends[0]);
    move(from, to, ends[0]);
    WANT(ftruncate(from, LONG) == 0 && copy_file_range(from, &begin, to, &at, LONG, 0) == LONG);
    exit(0);
    return none;
}

/* Once the process's first thread has ended what others point to is read all the same. */
static void copies(void)
{
    pthread_t thread;
    WANT(pthread_create(&thread, NULL, copy, NULL) == 0);
    pthread_exit(NULL);
}

static long write_by_ring(const struct ring *ring, int file, const void *from, uint32_t length)
{
    return do_by_ring(
        ring, (struct io_uring_sqe){
                  .opcode = IORING_OP_WRITE, .fd = file, .addr = (uintptr_t)from, .len = length});
}

/* Bytes that can't be read, none or not all of them, are written as far as they can: what stands in
 * the log after these isn't lost. */
static void bytes(void)
{
    enum { SIZE = 70 * 4096 };
    struct ring ring = set_up(0);
    int file = make("bytes");
    char *room = mmap(
             NULL, SIZE + 4096, PROT_READ | PROT_WRITE, MAP_PRIVATE | MAP_ANONYMOUS, -1, 0),
         *last = room + SIZE - 3;
    WANT(room != MAP_FAILED && munmap(room + SIZE, 4096) == 0);
    const struct iovec parts[] = {{(char *)"part", 4}, {last, 5}, {(char *)"none", 4}};
    memcpy(last, "end", 3);
    WANT(syscall(SYS_write, file, 8, 5) == -1 && errno == EFAULT);
    WANT(write_by_ring(&ring, file, (const void *)8, 5) == -EFAULT);
    WANT(syscall(SYS_write, file, -100L, 200) == -1 && errno == EFAULT);
    WANT(syscall(SYS_pwrite64, file, 8, (size_t)1 << 32, 0) == -1 && errno == EFAULT &&
         last_event(EVENT_WRITE, false).length == 0x7ffff000);
    WANT(pwrite(file, room, SIZE + 5, 0) <= SIZE && pwrite(file, last, 5, 0) <= 3);
    WANT(pwritev(file, parts, 3, 0) <= 7);
    WANT(pwrite(file, room, SIZE, 0) == SIZE && write_by_ring(&ring, file, "behind", 6) == 6);
}

/* A write of three letters by a ring, and the same by a system call: where these stand then is
 * where the log has them. */
struct place {
    int open_flags; /* of the file, which has ten letters */
    int flags; /* RWF_.. */
    int64_t offset; /* -1: none. The descriptor's position is 4 */
    ssize_t at; /* there they stand */
    bool syncs;
};

static void want_place(const struct place *place, int file, bool is_of_ring, long written)
{
    char letters[20] = {0};
    struct event event = last_event(EVENT_WRITE, is_of_ring);
    WANT(written == 3 && pread(file, letters, sizeof letters, 0) >= 10 &&
         memcmp(letters + place->at, "xyz", 3) == 0);
    WANT(event.offset == place->at && event.length == 3 &&
         (event.flags == SYNCS_ITS_RANGE) == place->syncs);
}

static int make_ten(const struct place *place)
{
    int file = open("places", O_RDWR | O_CREAT | O_TRUNC | place->open_flags, 0600);
    WANT(file >= 0 && write(file, "0123456789", 10) == 10 && lseek(file, 4, SEEK_SET) == 4);
    return file;
}

static void places(void)
{
    enum { APPENDS = 16, APPENDS_NOT = 32 }; /* RWF_APPEND and RWF_NOAPPEND */
    static const struct place all[] = {
        {0, 0, 2, 2, false},
        {0, 0, -1, 4, false},
        {O_APPEND, 0, 2, 10, false},
        {O_APPEND, 0, -1, 10, false},
        {0, APPENDS, 2, 10, false},
        {O_APPEND, APPENDS_NOT, 2, 2, false},
        {O_APPEND, APPENDS_NOT, -1, 4, false},
        {0, APPENDS_NOT, 2, 2, false},
        {O_DSYNC, 0, 2, 2, true},
        {O_SYNC, 0, 2, 2, true},
        {0, RWF_DSYNC, 2, 2, true},
        {0, RWF_SYNC, 2, 2, true},
    };
    struct ring ring = set_up(0);
    struct iovec part = {(char *)"xyz", 3};
    for (size_t i = 0; i < sizeof all / sizeof *all; i++) {
        int file = make_ten(&all[i]);
        want_place(&all[i], file, true,
            do_by_ring(&ring, (struct io_uring_sqe){.opcode = IORING_OP_WRITE,
                                  .fd = file,
                                  .addr = (uintptr_t)part.iov_base,
                                  .len = 3,
                                  .off = (uint64_t)all[i].offset,
                                  .rw_flags = all[i].flags}));
        file = make_ten(&all[i]);
        want_place(&all[i], file, false,
            syscall(SYS_pwritev2, file, &part, 1, all[i].offset, 0, all[i].flags));
    }
}

static void want_sync(
    const struct ring *ring, int file, uint64_t offset, uint32_t length, bool is_of_range)
{
    WANT(do_by_ring(
             ring, (struct io_uring_sqe){
                       .opcode = IORING_OP_FSYNC, .fd = file, .off = offset, .len = length}) == 0);
    struct event event = last_event(EVENT_SYNC, true);
    WANT((event.flags == IS_OF_RANGE) == is_of_range && event.offset == (int64_t)offset &&
         event.length == length);
}

/* One with an offset alone isn't of all bytes. What is open for its path alone can't be synced. */
static void syncs(void)
{
    struct ring ring = set_up(0);
    int file = make("syncs"), path = open("syncs", O_PATH);
    want_sync(&ring, file, 0, 0, false);
    want_sync(&ring, file, 0, 4096, true);
    want_sync(&ring, file, 4096, 4096, true);
    want_sync(&ring, file, 4096, 0, true);
    WANT(fsync(path) == -1 && errno == EBADF && fdatasync(path) == -1 && errno == EBADF &&
         syncfs(path) == -1 && errno == EBADF);
    WANT(fsync(file) == 0 && last_event(EVENT_SYNC, false).flags == 0);
}

/* A length by a ring is put into the log as one by a call is. */
static void lengths(void)
{
    enum { FTRUNCATE = 55 };
    struct ring ring = set_up(0);
    int file = make("length");
    WANT(write(file, "shorter", 7) == 7);
    WANT(do_by_ring(&ring, (struct io_uring_sqe){.opcode = FTRUNCATE, .fd = file, .off = 5}) == 0 &&
         lseek(file, 0, SEEK_END) == 5);
    WANT(do_by_ring(&ring,
             (struct io_uring_sqe){.opcode = FTRUNCATE, .fd = file, .off = UINT64_MAX}) == -EINVAL);
}

/* All bytes of a write are in the log that has as many parts as a call may have, and of the last
 * one as many as can be read. */
static void parts(void)
{
    enum { MOST = 1024, EACH = 3, LENGTH = MOST * EACH };
    struct ring ring = set_up(0);
    struct iovec all[MOST + 1];
    int file = make("parts");
    char *room = mmap(NULL, 2 * 4096, PROT_READ | PROT_WRITE, MAP_PRIVATE | MAP_ANONYMOUS, -1, 0),
         *letters = room + 4096 - LENGTH;
    WANT(room != MAP_FAILED && munmap(room + 4096, 4096) == 0);
    for (size_t i = 0; i < LENGTH; i++)
        letters[i] = (char)('a' + i % 23);
    for (size_t i = 0; i <= MOST; i++)
        all[i] = (struct iovec){letters + i * EACH, EACH};
    WANT(do_by_ring(&ring,
             (struct io_uring_sqe){
                 .opcode = IORING_OP_WRITEV, .fd = file, .addr = (uintptr_t)all, .len = MOST}) ==
         LENGTH);
    struct found_event found = find_event(EVENT_WRITE, true);
    WANT(found.event.bytes == LENGTH && memcmp(found.bytes, letters, LENGTH) == 0);
    WANT(writev(file, all, MOST) == LENGTH);
    found = find_event(EVENT_WRITE, false);
    WANT(found.event.bytes == LENGTH && memcmp(found.bytes, letters, LENGTH) == 0);
    all[MOST - 1].iov_len = EACH + 1;
    WANT(writev(file, all, MOST) <= LENGTH && last_event(EVENT_WRITE, false).bytes == LENGTH);
    WANT(writev(file, all, MOST + 1) == -1 && errno == EINVAL);
}

static const struct mode modes[] = {{"copies", copies}, {"bytes", bytes}, {"places", places},
    {"syncs", syncs}, {"lengths", lengths}, {"parts", parts}};

int main(int argc, char **argv)
{
    return run_mode(modes, sizeof modes / sizeof *modes, argc, argv);
}
