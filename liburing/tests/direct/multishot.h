/* What tests of reads that go on share, IORING_OP_READ_MULTISHOT: their buffers, of a list or of a
 * ring in memory, and what is expected of them. */
#ifndef MULTISHOT_H
#define MULTISHOT_H

#include "engines.h"

/* (not in most headers) */
enum { READ_MULTISHOT = 49 };

enum { BY_LIST = 1, BY_RING, NO_GROUP, FIRST = 10, SIZE = 4, MOST = 8 };

static char memory[MOST][SIZE];
static struct io_uring_buf_ring *cells;

static inline void provide_list(struct ring *ring, int count)
{
    struct io_uring_sqe *entry = put_plain(ring, IORING_OP_PROVIDE_BUFFERS, 0, count);
    entry->addr = (uintptr_t)memory;
    entry->len = SIZE;
    entry->off = FIRST;
    entry->buf_group = BY_LIST;
    check(result_of_one(ring, 1) == 0);
}

static inline void provide_ring(struct ring *ring, int count)
{
    struct io_uring_buf_reg asked = {
        .ring_addr = (uintptr_t)cells, .ring_entries = MOST, .bgid = BY_RING};
    for (int i = 0; i < count; i++)
        cells->bufs[i] = (struct io_uring_buf){
            .addr = (uintptr_t)memory[i], .len = SIZE, .bid = (uint16_t)(FIRST + i)};
    __atomic_store_n(&cells->tail, (uint16_t)count, __ATOMIC_RELEASE);
    check(register_at(ring->fd, IORING_REGISTER_PBUF_RING, &asked, 1) == 0);
}

/* A ring, and so many buffers of this kind. */
static inline void make_with(struct ring *ring, unsigned completions, int kind, int count)
{
    make_ring(ring, 4, completions, 0);
    memset(memory, 0, sizeof memory);
    if (kind == BY_RING)
        provide_ring(ring, count);
    else if (kind == BY_LIST)
        provide_list(ring, count);
}

static inline struct io_uring_sqe *put_read(struct ring *ring, uint64_t user_data, int fd, int kind)
{
    struct io_uring_sqe *entry = put(ring, READ_MULTISHOT, user_data, IOSQE_BUFFER_SELECT);
    entry->fd = fd;
    entry->buf_group = (uint16_t)kind;
    return entry;
}

static inline void begin_read(struct ring *ring, int fd, int kind)
{
    put_read(ring, 1, fd, kind);
    check(enter(ring, 1, 0, 0) == 1);
}

/* The next completion says that so many bytes stand in this buffer, and that more follow. */
static inline void expect_bytes(struct ring *ring, const char *bytes, int buffer)
{
    struct seen found = next_of(ring);
    check(found.user_data == 1 && found.res == (int32_t)strlen(bytes));
    check(found.flags == (IORING_CQE_F_MORE | IORING_CQE_F_BUFFER |
                             (uint32_t)(FIRST + buffer) << IORING_CQE_BUFFER_SHIFT));
    check(memcmp(memory[buffer], bytes, strlen(bytes)) == 0);
}

static inline void expect_end(struct ring *ring, int32_t res)
{
    struct seen found = next_of(ring);
    check(found.user_data == 1 && found.res == res && found.flags == 0);
}

static inline void expect_nothing(struct ring *ring)
{
    check(enter_for(ring, 1, 20000000) == -ETIME && count_ready(ring) == 0);
}

static inline void make_pipe(int *ends, const char *bytes)
{
    check(pipe(ends) == 0 && write(ends[1], bytes, strlen(bytes)) == (ssize_t)strlen(bytes));
}

/* Whether rings are made here that know the operation. */
static inline bool is_known_here(void)
{
    struct io_uring_params params = {0};
    struct io_uring_probe *probe = calloc(1, sizeof *probe + 256 * sizeof *probe->ops);
    long fd = set_up(1, &params);
    if (fd < 0)
        return false;
    check(probe && register_at((int)fd, IORING_REGISTER_PROBE, probe, 256) == 0);
    bool is_known = probe->last_op >= READ_MULTISHOT &&
                    probe->ops[READ_MULTISHOT].flags & IO_URING_OP_SUPPORTED;
    free(probe);
    close((int)fd);
    return is_known;
}

/* Runs these tests, or the one that is named. */
static inline int run_multishot(const struct named *tests, size_t count, const char *name)
{
    alarm((unsigned)(PATIENCE * patience()));
#ifdef IS_ALSO_REAL
    if (!is_known_here()) {
        printf("this kernel has no reads that go on\n");
        return 0;
    }
#else
    check(is_known_here());
#endif
    cells = mmap(NULL, 4096, PROT_READ | PROT_WRITE, MAP_PRIVATE | MAP_ANONYMOUS, -1, 0);
    check(cells != MAP_FAILED);
    return run_tests(tests, count, name);
}

#endif
