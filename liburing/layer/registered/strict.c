/* Reads WULGACH_STRICT, and asks the kernel: for each set-up whether it would make such a ring, and
 * once which operations and features it has. A ring of the kernel is made for that, and closed at
 * once; nothing is submitted to it.
 */
#define _GNU_SOURCE
#include "registered/strict.h"
#include "process/fault.h"

#include <errno.h>
#include <stdlib.h>
#include <string.h>
#include <sys/syscall.h>
#include <unistd.h>

enum { MOST_PROBED = 256 };

static bool is_on;
static bool operations[MOST_PROBED]; /* that the kernel serves */
static uint32_t features;

static int make_kernel_ring(uint32_t entries, struct io_uring_params *params)
{
    long fd = syscall(SYS_io_uring_setup, entries, params, 0, 0, 0, ASKS_KERNEL);
    return fd < 0 ? -errno : (int)fd;
}

static void read_probe(int fd)
{
    union {
        struct io_uring_probe probe;
        unsigned char
            bytes[sizeof(struct io_uring_probe) + MOST_PROBED * sizeof(struct io_uring_probe_op)];
    } told;
    memset(&told, 0, sizeof told);
    long result = syscall(
        SYS_io_uring_register, fd, IORING_REGISTER_PROBE, &told, MOST_PROBED, 0, ASKS_KERNEL);
    demand(result >= 0, "WULGACH_STRICT: the kernel doesn't say which operations it has");
    for (int i = 0; i < told.probe.ops_len && i < MOST_PROBED; i++)
        operations[told.probe.ops[i].op] = told.probe.ops[i].flags & IO_URING_OP_SUPPORTED;
}

static void read_environment(void)
{
    const char *word = getenv("WULGACH_STRICT");
    demand(!word || !*word || strcmp(word, "yes") == 0 || strcmp(word, "no") == 0,
        "WULGACH_STRICT is yes or no");
    is_on = word && strcmp(word, "yes") == 0;
    if (!is_on)
        return;
    struct io_uring_params params = {0};
    int fd = make_kernel_ring(1, &params);
    demand(
        fd >= 0, "WULGACH_STRICT: the kernel of this machine makes no ring, so it can't be asked");
    features = params.features;
    read_probe(fd);
    close(fd);
}

bool is_strict(void)
{
    static pthread_once_t once = PTHREAD_ONCE_INIT;
    pthread_once(&once, read_environment);
    return is_on;
}

int ask_set_up(uint32_t entries, const struct io_uring_params *params)
{
    struct io_uring_params asked = *params;
    asked.flags = wulgach_strict_flags_asked(asked.flags);
    int fd = is_strict() ? make_kernel_ring(entries, &asked) : -1;
    if (fd >= 0)
        close(fd);
    return is_strict() && fd < 0 ? fd : 0;
}

/* (the ring's set-up has asked) */
int32_t strict_fault(struct ring *ring, const struct io_uring_sqe *entry)
{
    return wulgach_strict_refusal(&ring->strict, submission_of(entry), is_on, ring->is_linux,
        operations[entry->opcode], features & IORING_FEAT_CQE_SKIP);
}
