// Stands between a program that it is preloaded into and its standard input and output, so that
// they give and take a few bytes at a time, are interrupted, or fail.
//
// READ_MOST and WRITE_MOST are the most bytes of a call, READ_STOP and WRITE_STOP the call, from 0
// on, that is interrupted. With READ_FAILS a read after the last byte fails. After WRITE_ROOM bytes
// a write fails, or with WRITE_NONE it takes none.
#define _GNU_SOURCE
#include <errno.h>
#include <limits.h>
#include <stdlib.h>
#include <sys/syscall.h>
#include <unistd.h>

struct stream {
    long most, stop, calls;
};

static struct stream input, output;
static long room;
static int fails, takes_none;

static long number(const char *name, long otherwise)
{
    const char *text = getenv(name);
    return text ? atol(text) : otherwise;
}

__attribute__((constructor)) static void begin(void)
{
    input = (struct stream){number("READ_MOST", LONG_MAX), number("READ_STOP", -1), 0};
    output = (struct stream){number("WRITE_MOST", LONG_MAX), number("WRITE_STOP", -1), 0};
    room = number("WRITE_ROOM", LONG_MAX);
    fails = getenv("READ_FAILS") != NULL;
    takes_none = getenv("WRITE_NONE") != NULL;
}

static ssize_t failure(int error)
{
    errno = error;
    return -1;
}

static size_t least(size_t count, long most)
{
    return count < (size_t)most ? count : (size_t)most;
}

ssize_t read(int file, void *buffer, size_t count)
{
    if (file != 0)
        return syscall(SYS_read, file, buffer, count);
    if (input.calls++ == input.stop)
        return failure(EINTR);
    ssize_t got = syscall(SYS_read, file, buffer, least(count, input.most));
    return got == 0 && fails ? failure(EIO) : got;
}

ssize_t write(int file, const void *buffer, size_t count)
{
    if (file != 1)
        return syscall(SYS_write, file, buffer, count);
    if (output.calls++ == output.stop)
        return failure(EINTR);
    count = least(least(count, output.most), room);
    if (count == 0)
        return takes_none ? 0 : failure(EIO);
    ssize_t put = syscall(SYS_write, file, buffer, count);
    room -= put > 0 ? put : 0;
    return put;
}
