/* Cancels of polls, by descriptors, slots and user data, with each set of flags, by entries and by
 * io_uring_register(2). */
#include "sweeps.h"

/* As newer headers have `io_uring_sync_cancel_reg`. */
struct at_once {
    uint64_t addr;
    int32_t fd;
    uint32_t flags;
    int64_t time[2];
    uint8_t code, padding[7];
    uint64_t more[3];
};

/* The polls of a case: of a pipe by its descriptor, by another descriptor of it, and by its slot;
 * and of another pipe. */
static int pipes[2][2], twin;

static void begin_polls(struct ring *ring)
{
    const int files[] = {pipes[0][0], twin, 1, pipes[1][0]};
    subject += 100;
    for (unsigned i = 0; i < count_of(files); i++) {
        struct io_uring_sqe *entry = put(
            ring, IORING_OP_POLL_ADD, subject + i, i == 2 ? IOSQE_FIXED_FILE : 0);
        entry->fd = files[i];
        entry->poll32_events = 1;
    }
    check(enter(ring, count_of(files), 0, 0) == count_of(files));
}

/* Ends what is left of a case. */
static void end_polls(struct ring *ring)
{
    put(ring, IORING_OP_ASYNC_CANCEL, subject + 10, 0)->cancel_flags = IORING_ASYNC_CANCEL_ALL |
                                                                       IORING_ASYNC_CANCEL_ANY;
    tell_now(ring, "all");
    printf("\n");
}

static void sweep_cancels(struct ring *ring, const char *name, int fd)
{
    for (unsigned flags = 0; flags < 64; flags++)
        for (unsigned by = 0; by < 2; by++) {
            begin_polls(ring);
            printf(
                "cancel of %s, flags %x, %s:", name, flags, by ? "another's number" : "its number");
            struct io_uring_sqe *entry = put(ring, IORING_OP_ASYNC_CANCEL, subject + 9, 0);
            entry->fd = fd;
            entry->addr = subject + (by ? 3 : 0);
            entry->len = by ? IORING_OP_POLL_ADD : IORING_OP_READ;
            entry->cancel_flags = flags;
            tell_now(ring, "cancelled");
            end_polls(ring);
        }
}

static void sweep_at_once(struct ring *ring, const char *name, int fd)
{
    for (unsigned flags = 0; flags < 64; flags++)
        for (unsigned kind = 0; kind < 5; kind++) {
            static const uint8_t codes[] = {
                IORING_OP_NOP, IORING_OP_POLL_ADD, IORING_OP_READ, 200, IORING_OP_NOP};
            struct at_once it = {.addr = subject + 100,
                .fd = fd,
                .flags = flags,
                .time = {-1, -1},
                .code = codes[kind],
                .padding = {kind == 4}};
            begin_polls(ring);
            printf("cancel at once of %s, flags %x, code %d%s: %ld", name, flags, codes[kind],
                kind == 4 ? " and a padding" : "",
                register_at(ring->fd, IORING_REGISTER_SYNC_CANCEL, &it, 1));
            tell_now(ring, "cancelled");
            end_polls(ring);
        }
}

int main(void)
{
    struct ring ring;
    make_ring(&ring, 16, 0, 0);
    check(pipe(pipes[0]) == 0 && pipe(pipes[1]) == 0);
    twin = dup(pipes[0][0]);
    check(register_at(ring.fd, IORING_REGISTER_FILES, (int[]){pipes[1][1], pipes[0][0]}, 2) == 0);
    const struct {
        const char *name;
        int fd;
    } files[] = {{"the descriptor", pipes[0][0]}, {"the slot", 1}, {"the other pipe", pipes[1][0]},
        {"nothing", 999}};
    for (unsigned i = 0; i < count_of(files); i++) {
        sweep_cancels(&ring, files[i].name, files[i].fd);
        sweep_at_once(&ring, files[i].name, files[i].fd);
    }
}
