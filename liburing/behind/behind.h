/* Put before a source of liburing, which is compiled unchanged: leaves out the system calls that
 * are written inline for the processor, and takes liburing's generic ones, whose syscall(), mmap()
 * and close() are the layer's.
 */
#define _GNU_SOURCE
#define LIBURING_INTERNAL
#define LIBURING_ARCH_X86_SYSCALL_H
#define LIBURING_ARCH_AARCH64_SYSCALL_H
#include "lib.h"
#include "syscall.h"
#include <sys/mman.h>
long wulgach_polled_syscall(long call, ...);
void *wulgach_mmap(void *at, size_t size, int protection, int flags, int fd, off_t offset);
int wulgach_close(int fd);
#define syscall wulgach_polled_syscall
#define mmap wulgach_mmap
#define close wulgach_close
#include "arch/generic/syscall.h"
#undef syscall
#undef mmap
#undef close
