/* Calls of the kernel's that a test's thread may not make from some moment on. */
#ifndef FILTERS_H
#define FILTERS_H

#include "ring.h"

#include <linux/filter.h>
#include <linux/seccomp.h>
#include <stddef.h>
#include <sys/prctl.h>

static inline void filter_calls(struct sock_filter *lines, size_t count)
{
    struct sock_fprog filter = {.len = (unsigned short)count, .filter = lines};
    check(prctl(PR_SET_NO_NEW_PRIVS, 1, 0, 0, 0) == 0 &&
          prctl(PR_SET_SECCOMP, SECCOMP_MODE_FILTER, &filter) == 0);
}

#define FILTER(...) \
    filter_calls((struct sock_filter[]){__VA_ARGS__}, \
        sizeof((struct sock_filter[]){__VA_ARGS__}) / sizeof(struct sock_filter))

#endif
