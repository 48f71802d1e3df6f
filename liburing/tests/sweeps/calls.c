/* Calls of io_uring_enter(2), by set-ups: with each flag, each last argument, and more or less to
 * submit and to wait for than there is. */
#include "sweeps.h"

static uint64_t mask;
static struct __kernel_timespec soon = {0, 5000000}, negative = {-1, 0}, large = {0, 2000000000};
static void *const NOWHERE = (void *)8;

static const struct {
    const char *name;
    unsigned flags;
} setups[] = {{"plain", 0}, {"deferred", IORING_SETUP_SINGLE_ISSUER | IORING_SETUP_DEFER_TASKRUN},
    {"disabled", IORING_SETUP_R_DISABLED}};

/* One call on a ring of its own, to which so many no-ops were published. */
static void try(unsigned setup, unsigned published, unsigned to_submit, unsigned min_complete,
    unsigned flags, const void *argument, size_t size)
{
    struct ring ring;
    make_ring(&ring, 4, 0, setups[setup].flags);
    for (unsigned i = 0; i < published; i++)
        put(&ring, IORING_OP_NOP, i, 0);
    long result = wulgach_syscall(
        SYS_io_uring_enter, ring.fd, to_submit, min_complete, flags, argument, size);
    printf(": %ld, head %u, %u completions\n", result < 0 ? -errno : result,
        *sq_word(&ring, ring.params.sq_off.head), count_ready(&ring));
    close_ring(&ring);
}

static void sweep_arguments(unsigned setup)
{
    struct argument {
        const char *name;
        struct io_uring_getevents_arg it;
        size_t size;
    } arguments[] = {
        {"a time", {.ts = (uintptr_t)&soon}, 24},
        {"a time and a mask", {(uintptr_t)&mask, 8, 0, (uintptr_t)&soon}, 24},
        {"a mask of 4", {(uintptr_t)&mask, 4, 0, (uintptr_t)&soon}, 24},
        {"a mask nowhere", {(uintptr_t)NOWHERE, 8, 0, (uintptr_t)&soon}, 24},
        {"a size without a mask", {0, 77, 0, (uintptr_t)&soon}, 24},
        {"a time nowhere", {.ts = (uintptr_t)NOWHERE}, 24},
        {"a negative time", {.ts = (uintptr_t)&negative}, 24},
        {"too many nanoseconds", {.ts = (uintptr_t)&large}, 24},
        {"16 bytes", {.ts = (uintptr_t)&soon}, 16},
        {"32 bytes", {.ts = (uintptr_t)&soon}, 32},
        {"no bytes", {.ts = (uintptr_t)&soon}, 0},
        {"the third word", {0, 0, 5000, (uintptr_t)&soon}, 24},
    };
    for (unsigned i = 0; i < count_of(arguments); i++)
        for (unsigned published = 0; published < 3; published++)
            for (unsigned least = 0; least < 3; least++)
                for (unsigned gets = 0; gets < 2; gets++) {
                    printf("%s, %s, %u submitted, %u waited for%s", setups[setup].name,
                        arguments[i].name, published, least, gets ? ", gets events" : "");
                    try(setup, published, published, least, IORING_ENTER_EXT_ARG | gets,
                        &arguments[i].it, arguments[i].size);
                }
}

static void sweep_flags(unsigned setup)
{
    for (unsigned bit = 0; bit < 32; bit++)
        for (unsigned published = 0; published < 2; published++) {
            if (1u << bit == IORING_ENTER_SQ_WAIT)
                continue;
            printf("%s, flag %u, %u submitted", setups[setup].name, bit, published);
            try(setup, published, published, 0, 1u << bit, NULL, 0);
            printf("%s, flag %u, %u submitted and waited for", setups[setup].name, bit, published);
            try(setup, published, published, published, 1u << bit | IORING_ENTER_GETEVENTS, &mask,
                8);
        }
}

static void sweep_masks(unsigned setup)
{
    const struct {
        const char *name;
        const void *at;
        size_t size;
    } masks[] = {{"no mask", NULL, 8}, {"a mask", &mask, 8}, {"a mask nowhere", NOWHERE, 8},
        {"a mask of 4", &mask, 4}};
    for (unsigned i = 0; i < count_of(masks); i++)
        for (unsigned published = 0; published < 2; published++)
            for (unsigned to_submit = 0; to_submit < 4; to_submit++) {
                printf("%s, %s beside %u, %u to submit", setups[setup].name, masks[i].name,
                    published, to_submit);
                try(setup, published, to_submit, 0, 0, masks[i].at, masks[i].size);
                printf("%s, %s beside %u, %u to submit, gets events", setups[setup].name,
                    masks[i].name, published, to_submit);
                try(setup, published, to_submit, published && to_submit, IORING_ENTER_GETEVENTS,
                    masks[i].at, masks[i].size);
            }
}

int main(void)
{
    for (unsigned setup = 0; setup < count_of(setups); setup++) {
        sweep_arguments(setup);
        sweep_flags(setup);
        sweep_masks(setup);
    }
}
