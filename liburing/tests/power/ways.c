/* Each way in which a program writes a file and syncs it. */
#define _GNU_SOURCE
#include "../trapped/trapped.h"
#include "ways.h"

#include <fcntl.h>
#include <pthread.h>
#include <signal.h>
#include <stdio.h>
#include <stdlib.h>
#include <string.h>
#include <sys/mman.h>
#include <sys/sendfile.h>
#include <sys/stat.h>
#include <sys/syscall.h>
#include <sys/uio.h>
#include <sys/wait.h>
#include <unistd.h>

char bytes[SIZE] __attribute__((aligned(4096)));
bool is_synced = true;

void demand(bool is_so, const char *what)
{
    if (!is_so) {
        perror(what);
        _exit(2);
    }
}

int make(const char *name, int flags)
{
    int file = open(name, O_RDWR | O_CREAT | flags, 0600);
    demand(file >= 0, name);
    return file;
}

void sync_folder(void)
{
    int folder = open(".", O_RDONLY | O_DIRECTORY);
    demand(fsync(folder) == 0, "fsync of the folder");
    close(folder);
}

void sync_file(int file)
{
    if (is_synced)
        demand(fsync(file) == 0, "fsync");
}

void put(int file, const char *from, size_t size, off_t offset)
{
    demand(pwrite(file, from, size, offset) == (ssize_t)size, "pwrite");
}

static void by_write(void)
{
    int file = make("data", 0);
    demand(write(file, bytes, 5000) == 5000 && write(file, bytes, SIZE - 5000) == SIZE - 5000,
        "write");
    sync_file(file);
}

static void by_creat(void)
{
    int file = creat("data", 0600);
    put(file, bytes, SIZE, 0);
    if (is_synced)
        demand(fdatasync(file) == 0, "fdatasync");
}

static void by_vectors(void)
{
    struct iovec parts[] = {{bytes, 100}, {bytes, SIZE - 100}};
    int file = make("data", 0);
    demand(writev(file, parts, 2) == SIZE, "writev");
    sync_file(file);
}

static void by_flags(void)
{
    struct iovec part = {bytes, SIZE};
    int file = make("data", 0);
    demand(pwritev2(file, &part, 1, 0, is_synced ? RWF_DSYNC : 0) == SIZE, "pwritev2");
}

static void by_synced_file(void)
{
    put(make("data", is_synced ? O_DSYNC : 0), bytes, SIZE, 0);
}

static void by_wholly_synced_file(void)
{
    put(make("data", is_synced ? O_SYNC : 0), bytes, SIZE, 0);
}

static void by_direct(void)
{
    int file = make("data", O_DIRECT);
    put(file, bytes, SIZE, 0);
    sync_file(file);
}

static void by_append(void)
{
    int file = make("data", O_APPEND);
    for (int part = 0; part < 4; part++)
        demand(write(file, bytes, SIZE / 4) == SIZE / 4, "write");
    sync_file(file);
}

static void by_stream(void)
{
    FILE *file = fopen("data", "w");
    demand(file && fwrite(bytes, 1, SIZE, file) == SIZE && fflush(file) == 0, "fwrite");
    sync_file(fileno(file));
}

/* Longer bytes are cut off first. */
static void by_cut(void)
{
    int file = make("data", 0);
    for (int part = 0; part < 2; part++)
        put(file, "old", 3, part * SIZE);
    sync_file(file);
    put(make("data", O_TRUNC), bytes, SIZE, 0);
    sync_file(file);
}

static void by_length(void)
{
    int file = make("data", 0);
    demand(ftruncate(file, 2 * SIZE) == 0, "ftruncate");
    put(file, bytes, SIZE, 0);
    demand(truncate("data", SIZE) == 0, "truncate");
    sync_file(file);
}

static void by_room(void)
{
    int file = make("data", 0);
    demand(fallocate(file, 0, 0, SIZE) == 0, "fallocate");
    put(file, bytes, SIZE, 0);
    sync_file(file);
}

static int source(void)
{
    int file = make("source", 0);
    put(file, bytes, SIZE, 0);
    return file;
}

static void by_copy(void)
{
    int from = source(), file = make("data", 0);
    demand(copy_file_range(from, NULL, file, NULL, SIZE, 0) == SIZE, "copy_file_range");
    sync_file(file);
}

static void by_sendfile(void)
{
    int from = source(), file = make("data", 0);
    demand(sendfile(file, from, NULL, SIZE) == SIZE, "sendfile");
    sync_file(file);
}

char *write_memory(int file)
{
    demand(ftruncate(file, SIZE) == 0, "ftruncate");
    char *memory = mmap(NULL, SIZE, PROT_READ | PROT_WRITE, MAP_SHARED, file, 0);
    demand(memory != MAP_FAILED, "mmap");
    memcpy(memory, bytes, SIZE);
    return memory;
}

static void by_memory(void)
{
    int file = make("data", 0);
    char *memory = write_memory(file);
    if (is_synced)
        demand(msync(memory, SIZE, MS_SYNC) == 0, "msync");
    sync_file(file);
}

/* No other sync: the bytes and the length are those of memory that was synced. */
static void by_synced_memory(void)
{
    char *memory = write_memory(make("data", 0));
    demand(msync(memory, is_synced ? SIZE : SIZE / 2, MS_SYNC) == 0, "msync");
}

static void by_rename(void)
{
    int file = make("new", 0);
    put(file, bytes, SIZE, 0);
    sync_file(file);
    demand(rename("new", "data") == 0, "rename");
}

static void by_link(void)
{
    int file = make("new", 0);
    put(file, bytes, SIZE, 0);
    sync_file(file);
    demand(link("new", "data") == 0 && unlink("new") == 0, "link");
}

static void by_symbolic_link(void)
{
    int file = make("new", 0);
    put(file, bytes, SIZE, 0);
    sync_file(file);
    demand(symlink("new", "data") == 0, "symlink");
}

/* A file of another folder, which is removed then. */
static void by_folder(void)
{
    demand(mkdir("folder", 0700) == 0, "mkdir");
    int file = make("folder/new", 0);
    put(file, bytes, SIZE, 0);
    sync_file(file);
    demand(rename("folder/new", "data") == 0 && rmdir("folder") == 0, "rename, rmdir");
}

static void by_exchange(void)
{
    int file = make("new", 0);
    put(make("data", 0), "old", 3, 0);
    put(file, bytes, SIZE, 0);
    sync_file(file);
    demand(syscall(SYS_renameat2, AT_FDCWD, "new", AT_FDCWD, "data", 2) == 0 && unlink("new") == 0,
        "renameat2");
}

/* That a range is on its way to the disk makes nothing safe. */
static void by_range(void)
{
    int file = make("data", 0);
    put(file, bytes, SIZE, 0);
    demand(
        sync_file_range(file, 0, SIZE,
            SYNC_FILE_RANGE_WAIT_BEFORE | SYNC_FILE_RANGE_WRITE | SYNC_FILE_RANGE_WAIT_AFTER) == 0,
        "sync_file_range");
    sync_file(file);
}

static void by_nameless(void)
{
    char name[40];
    int file = open(".", O_TMPFILE | O_RDWR, 0600);
    put(file, bytes, SIZE, 0);
    sync_file(file);
    snprintf(name, sizeof name, "/proc/self/fd/%d", file);
    demand(linkat(AT_FDCWD, name, AT_FDCWD, "data", AT_SYMLINK_FOLLOW) == 0, "linkat");
}

static void by_child(void)
{
    if (fork() == 0) {
        by_write();
        _exit(0);
    }
    int status;
    demand(wait(&status) > 0 && status == 0, "a child");
}

static void *write_part(void *part)
{
    int file = open("data", O_RDWR);
    put(file, bytes, SIZE / 4, *(int *)part * (SIZE / 4));
    sync_file(file);
    return part;
}

static void by_threads(void)
{
    static int parts[4] = {0, 1, 2, 3};
    pthread_t threads[4];
    close(make("data", 0));
    for (int i = 0; i < 4; i++)
        demand(pthread_create(&threads[i], NULL, write_part, &parts[i]) == 0, "a thread");
    for (int i = 0; i < 4; i++)
        pthread_join(threads[i], NULL);
}

static void by_inline(void)
{
    int file = make("data", 0);
    long result;
    __asm__ volatile("syscall"
                     : "=a"(result)
                     : "a"((long)SYS_write), "D"((long)file), "S"(bytes), "d"((long)SIZE)
                     : "rcx", "r11", "memory");
    demand(result == SIZE, "a call of its own");
    sync_file(file);
}

static void by_whole_sync(void)
{
    put(make("data", 0), bytes, SIZE, 0);
    if (is_synced)
        sync();
}

static void by_disk_sync(void)
{
    int file = make("data", 0);
    put(file, bytes, SIZE, 0);
    if (is_synced)
        demand(syncfs(file) == 0, "syncfs");
}

static void by_splice(void)
{
    int file = make("data", 0), pipes[2];
    demand(pipe(pipes) == 0 && write(pipes[1], bytes, SIZE) == SIZE, "a pipe");
    demand(splice(pipes[0], NULL, file, NULL, SIZE, 0) == SIZE, "splice");
    sync_file(file);
}

static void do_by_ring(const struct ring *ring, struct io_uring_sqe entry, int result)
{
    const struct io_uring_cqe *last = (const struct io_uring_cqe *)(ring->cq +
                                                                    ring->params.cq_off.cqes);
    publish(ring, entry);
    demand(enter(ring, 1, 1, NULL) == 1 && last->res == result, "a ring");
}

/* The sync of a range that has all bytes, or of one with an offset and no length, which has none.
 */
static void by_ring(void)
{
    struct ring writes = set_up(0), syncs = set_up(0);
    int file = make("data", 0);
    do_by_ring(&writes,
        (struct io_uring_sqe){
            .opcode = IORING_OP_WRITE, .fd = file, .addr = (uintptr_t)bytes, .len = SIZE},
        SIZE);
    do_by_ring(&syncs,
        (struct io_uring_sqe){.opcode = IORING_OP_FSYNC,
            .fd = file,
            .off = is_synced ? 0 : SIZE / 2,
            .len = is_synced ? SIZE : 0},
        0);
}

/* Memory that a ring's sync makes safe, or, of a range that has half of it, doesn't. */
static void by_memory_and_ring(void)
{
    struct ring syncs = set_up(0);
    int file = make("data", 0);
    write_memory(file);
    do_by_ring(&syncs,
        (struct io_uring_sqe){
            .opcode = IORING_OP_FSYNC, .fd = file, .len = is_synced ? SIZE : SIZE / 2},
        0);
}

const struct way ways[] = {
    {"write", by_write},
    {"creat", by_creat},
    {"writev", by_vectors},
    {"pwritev2", by_flags},
    {"dsync", by_synced_file},
    {"osync", by_wholly_synced_file},
    {"direct", by_direct},
    {"append", by_append},
    {"stream", by_stream},
    {"cut", by_cut},
    {"length", by_length},
    {"room", by_room},
    {"copy", by_copy},
    {"sendfile", by_sendfile},
    {"memory", by_memory},
    {"msync", by_synced_memory},
    {"rename", by_rename},
    {"link", by_link},
    {"nameless", by_nameless},
    {"symlink", by_symbolic_link},
    {"folder", by_folder},
    {"exchange", by_exchange},
    {"range", by_range},
    {"child", by_child},
    {"threads", by_threads},
    {"inline", by_inline},
    {"sync", by_whole_sync},
    {"syncfs", by_disk_sync},
    {"splice", by_splice},
    {"ring", by_ring},
    {"both", by_memory_and_ring},
    {"aio", by_aio},
    {"aiov", by_aio_vectors},
    {"aio_ring", by_aio_ring},
    {"aio_refused", by_aio_refused},
    {NULL, NULL},
};
