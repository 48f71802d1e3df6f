/* Reads and receives into provided buffers, of a list in memory and of one that entries fill, and
 * which buffer each takes, whatever it ends with. */
#include "sweeps.h"

static char memory[8][64];
static const char bytes[100];
static _Alignas(4096) struct io_uring_buf list[16];

/* (not in most headers) */
enum { READ_MULTISHOT = 49 };

enum { IN_MEMORY, BY_ENTRIES, MISSING, GROUPS };

static const char *const groups[GROUPS] = {"list in memory", "list by entries", "no list"};

static void provide(struct ring *ring)
{
    struct io_uring_buf_reg it = {
        .ring_addr = (uintptr_t)list, .ring_entries = 8, .bgid = IN_MEMORY};
    check(register_at(ring->fd, IORING_REGISTER_PBUF_RING, &it, 1) == 0);
    for (int i = 0; i < 8; i++)
        list[i] = (struct io_uring_buf){
            .addr = (uintptr_t)memory[i], .len = 64, .bid = (uint16_t)(10 + i)};
    ((struct io_uring_buf_ring *)list)->tail = 8;
    put_transfer(ring, IORING_OP_PROVIDE_BUFFERS, 0, IOSQE_CQE_SKIP_SUCCESS, 8, memory, 64, 20)
        ->buf_group = BY_ENTRIES;
    check(enter(ring, 1, 0, IORING_ENTER_GETEVENTS) == 1);
}

static void take(
    struct ring *ring, uint8_t code, int fd, unsigned group, unsigned length, unsigned flags)
{
    struct io_uring_sqe *entry = begin(ring, code, fd, NULL, length, 0);
    entry->flags = (uint8_t)(IOSQE_BUFFER_SELECT | flags);
    entry->buf_group = (uint16_t)group;
    tell_all(ring, "ends");
}

/* On a ring of its own one that ends somehow, and one that is sound and shows what is left. */
static void try(
    const char *name, uint8_t code, int fd, unsigned group, unsigned length, unsigned flags)
{
    struct ring ring;
    int zeros = open("/dev/zero", O_RDONLY);
    make_ring(&ring, 8, 0, 0);
    provide(&ring);
    printf("%s of %u, %s, flags %x:", name, length, groups[group], flags);
    take(&ring, code, fd, group, length, flags);
    take(&ring, IORING_OP_READ, zeros, group, 8, 0);
    put(&ring, IORING_OP_ASYNC_CANCEL, subject + 1, 0)->addr = subject - 1;
    subject--;
    tell_all(&ring, "cancelled");
    subject++;
    printf("\n");
    close(zeros);
    close_ring(&ring);
}

static void sweep_group(unsigned group, unsigned length, unsigned flags)
{
    int ends[2], some[2], shut[2];
    check(pipe(ends) == 0 && pipe(some) == 0 && write(some[1], bytes, 100) == 100 &&
          socketpair(AF_UNIX, SOCK_STREAM, 0, shut) == 0 && shutdown(shut[0], SHUT_RD) == 0);
    const struct {
        const char *name;
        uint8_t code;
        int fd;
    } reads[] = {{"/dev/zero", IORING_OP_READ, open("/dev/zero", O_RDONLY)},
        {"end to write", IORING_OP_READ, ends[1]},
        {"file to write", IORING_OP_READ, open("/dev/null", O_WRONLY)},
        {"folder", IORING_OP_READ, open("/tmp", O_RDONLY | O_DIRECTORY)},
        {"pipe, received", IORING_OP_RECV, ends[0]}, {"empty pipe", IORING_OP_READ, ends[0]},
        {"socket alone", IORING_OP_RECV, socket(AF_INET, SOCK_STREAM, 0)},
        {"socket that is shut", IORING_OP_RECV, shut[0]},
        {"eventfd", IORING_OP_READ, eventfd(1, 0)}, {"nothing", IORING_OP_READ, 999},
        {"file, read on", READ_MULTISHOT, make_digits(O_RDONLY)},
        {"pipe, read on", READ_MULTISHOT, some[0]},
        {"end to write, read on", READ_MULTISHOT, dup(ends[1])},
        {"socket that is shut, read on", READ_MULTISHOT, dup(shut[0])},
        {"eventfd, read on", READ_MULTISHOT, eventfd(1, 0)}};
    for (unsigned i = 0; i < count_of(reads); i++) {
        try(reads[i].name, reads[i].code, reads[i].fd, group, length, flags);
        close(reads[i].fd);
    }
    close(ends[1]);
    close(some[1]);
    close(shut[1]);
}

int main(void)
{
    static const unsigned lengths[] = {0, 4, 8, 100};
    for (unsigned group = 0; group < GROUPS; group++)
        for (unsigned i = 0; i < count_of(lengths); i++) {
            sweep_group(group, lengths[i], 0);
            sweep_group(group, lengths[i], IOSQE_ASYNC);
        }
}
