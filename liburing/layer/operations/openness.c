/* What the kernel says of a descriptor. Whether it counts as open, or as a count, is the library's
 * decision. */
#define _GNU_SOURCE
#include "operations/openness.h"
#include "process/numbers.h"
#include "process/process.h"
#include "wulgach_setup.h"

#include <fcntl.h>
#include <linux/kcmp.h>
#include <sched.h>
#include <stdio.h>
#include <sys/syscall.h>
#include <unistd.h>

/* Linux 6.10 says by it whether two descriptors are of one file, and others by a slower call. */
#ifndef F_DUPFD_QUERY
#define F_DUPFD_QUERY 1027
#endif

struct wulgach_openness openness_of(int fd)
{
    int flags = fcntl(fd, F_GETFL);
    return (struct wulgach_openness){
        .is_open = flags >= 0, .is_path = flags >= 0 && flags & O_PATH};
}

bool counts_as_open(int fd, bool is_of_slot)
{
    struct wulgach_openness openness = openness_of(fd);
    return wulgach_counts_as_open(&openness, is_of_slot);
}

/* (a handler may have come amid that: so it is asked so often at most) */
bool is_open_besides(int fd)
{
    enum { MOST_ASKED = 1000 };
    for (int asked = 1;; asked++) {
        uint64_t before = count_low_numbers();
        if (!counts_as_open(fd, false))
            return false;
        if (asked == MOST_ASKED || !has_had_low_number(before))
            return true;
        sched_yield();
    }
}

size_t name_of_descriptor(int fd, char name[MOST_OF_NAME])
{
    char path[40];
    snprintf(path, sizeof path, "/proc/thread-self/fd/%d", fd);
    ssize_t length = readlink(path, name, MOST_OF_NAME);
    return length < 0 ? 0 : (size_t)length;
}

int are_on_one_file(int one, int other)
{
    pid_t process = this_process();
    int result = one == other ? 1 : fcntl(one, F_DUPFD_QUERY, other);
    if (result >= 0)
        return result;
    long order = syscall(SYS_kcmp, process, process, KCMP_FILE, one, other);
    return order < 0 ? -1 : order == 0;
}

bool is_same_file(int one, int other)
{
    int same = are_on_one_file(one, other);
    return wulgach_is_taken_so(WULGACH_IS_SAME_FILE, same >= 0, same > 0);
}
