/* Random restrictions of a ring that isn't enabled yet, beside registrations and operations that
 * they allow or don't. */
#include "dice.h"

static void restrict_ring(void)
{
    static const uint8_t operations[] = {0, 1, 22, 6, 14, 40, 200},
                         codes[] = {0, 1, 2, 4, 5, 8, 11, 12, 13, 20, 24, 99},
                         flags[] = {0, 1, 2, 4, 8, 16, 32, 64, 5, 255};
    struct io_uring_restriction list[5] = {0};
    unsigned count = dice(5);
    printf("restrictions");
    for (unsigned i = 0; i < count; i++) {
        list[i].opcode = (uint16_t)(once_in(15) ? dice(8) : dice(4));
        list[i].sqe_op = list[i].opcode == 0   ? codes[dice(count_of(codes))]
                         : list[i].opcode == 1 ? operations[dice(count_of(operations))]
                                               : flags[dice(count_of(flags))];
        list[i].resv = once_in(30);
        list[i].resv2[1] = once_in(30);
        printf(" %u/%u", list[i].opcode, list[i].sqe_op);
    }
    printf(
        ": %ld", register_at(ring.fd, IORING_REGISTER_RESTRICTIONS, dice(12) ? list : NULL, count));
}

static void register_something(void)
{
    static const unsigned codes[] = {IORING_UNREGISTER_BUFFERS, IORING_UNREGISTER_FILES,
        IORING_UNREGISTER_EVENTFD, IORING_REGISTER_PROBE, IORING_REGISTER_PERSONALITY,
        IORING_REGISTER_ENABLE_RINGS, IORING_REGISTER_SYNC_CANCEL, IORING_REGISTER_RING_FDS, 99};
    char bytes[1024] = {0};
    unsigned code = codes[dice(count_of(codes))];
    bool has_bytes = code == IORING_REGISTER_PROBE || code == IORING_REGISTER_SYNC_CANCEL ||
                     code == IORING_REGISTER_RING_FDS;
    if (code == IORING_REGISTER_PERSONALITY || (code == IORING_REGISTER_ENABLE_RINGS && dice(3)))
        code = IORING_UNREGISTER_FILES;
    printf("registration %u: %ld", code,
        register_at(ring.fd, code, has_bytes ? bytes : NULL,
            code == IORING_REGISTER_PROBE ? 4 : has_bytes));
}

static void operate(void)
{
    static const uint8_t operations[] = {IORING_OP_NOP, IORING_OP_READV, IORING_OP_READ,
        IORING_OP_POLL_ADD, IORING_OP_ASYNC_CANCEL, 200},
                         flags[] = {0, 0, 1, 2, 4, 8, 16, 64, 5};
    char what[40];
    struct io_uring_sqe *entry = put_step(operations[dice(count_of(operations))]);
    entry->flags = flags[dice(count_of(flags))];
    entry->fd = entry->opcode == IORING_OP_NOP ? -1
                : entry->opcode == IORING_OP_ASYNC_CANCEL || entry->flags & IOSQE_FIXED_FILE
                    ? 0
                    : files[2];
    entry->addr = entry->opcode == IORING_OP_ASYNC_CANCEL ? next_number - 2 : (uintptr_t)memory[0];
    entry->len = entry->opcode == IORING_OP_READ ? 10 : 0;
    if (entry->opcode == IORING_OP_POLL_ADD)
        entry->poll32_events = 1;
    snprintf(what, sizeof what, "operation %u with flags %x", entry->opcode, entry->flags);
    submit(what);
}

static void step(void)
{
    switch (dice(9)) {
    case 0:
    case 1:
        restrict_ring();
        break;
    case 2:
        printf("enabling: %ld", once_in(3) ? register_at(ring.fd, IORING_REGISTER_ENABLE_RINGS,
                                                 once_in(8) ? memory : NULL, 0)
                                           : 0);
        break;
    case 3:
        printf("a file: %ld", register_at(ring.fd, IORING_REGISTER_FILES, &files[2], 1));
        break;
    case 4:
        register_something();
        break;
    default:
        operate();
    }
}

int main(void)
{
    return play(100, 30, IORING_SETUP_R_DISABLED, step);
}
