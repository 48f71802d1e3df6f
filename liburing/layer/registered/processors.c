/* Which processors are online is read where the kernel lists them. */
#define _GNU_SOURCE
#include "registered/processors.h"
#include "process/passing.h"
#include "wulgach_setup.h"

#include <fcntl.h>

enum { MOST = 4096 }; /* the kernel's list has at most a page */

bool is_online(uint32_t number)
{
    uint8_t list[MOST];
    long fd = pass(SYS_openat, AT_FDCWD, (long)"/sys/devices/system/cpu/online",
        O_RDONLY | O_CLOEXEC, 0, 0, 0);
    long length = fd < 0 ? -1 : pass(SYS_read, fd, (long)list, MOST, 0, 0, 0);
    if (fd >= 0)
        pass(SYS_close, fd, 0, 0, 0, 0, 0);
    bool is_read = length > 0;
    return wulgach_is_taken_so(
        WULGACH_IS_ONLINE, is_read, is_read && wulgach_lists_number(list, (size_t)length, number));
}
