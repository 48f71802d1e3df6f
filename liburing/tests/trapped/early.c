/* A library whose constructor calls io_uring and shares memory with a file. It is preloaded after
 * uring-run's, so that constructors as they come would call it first.
 */
#define _GNU_SOURCE
#include "trapped.h"

__attribute__((constructor)) static void call_early(void)
{
    struct ring ring = set_up(0);
    int file = memfd_create("early", MFD_CLOEXEC);
    WANT(file >= 0 && ftruncate(file, 4096) == 0 && map(4096, file, 0));
    publish(&ring, (struct io_uring_sqe){.opcode = IORING_OP_NOP});
    WANT(enter(&ring, 1, 1, NULL) == 1);
    WANT(close(ring.fd) == 0 && close(file) == 0);
}
