/* Copies by system calls, which end with an error where a load or a store would end the program: by
 * those that read and write a process's memory, here its own, or through a pipe. Which way a copy
 * goes is the library's decision. The process is named by the thread that calls: its first one may
 * have ended.
 */
#define _GNU_SOURCE
#include "requests/copying.h"
#include "process/numbers.h"
#include "process/passing.h"
#include "process/process.h"
#include "wulgach_waits.h"

#include <errno.h>
#include <fcntl.h>
#include <limits.h>
#include <stdlib.h>
#include <string.h>
#include <sys/uio.h>
#include <unistd.h>

/* No page is smaller: what stands between two multiples can be read as a whole or not at all. And a
 * pipe that is empty has room for one. */
enum { SMALLEST_PAGE = 4096 };

/* A copy, in to the layer or out to the application. */
struct copy {
    char *to;
    const char *from;
    size_t size;
    bool is_out;
};

static int64_t copy_by_process(const struct copy *copy)
{
    const struct iovec to = {copy->to, copy->size},
                       from = {(char *)(uintptr_t)copy->from, copy->size};
    ssize_t copied = copy->is_out ? process_vm_writev(this_thread(), &from, 1, &to, 1, 0)
                                  : process_vm_readv(this_thread(), &to, 1, &from, 1, 0);
    return copied < 0 ? -errno : copied;
}

static __thread int made[2];

static int make_pipe(void)
{
    return pipe2(made, O_CLOEXEC) < 0 ? -1 : made[0];
}

/* Each part is read before the next one is written: so nothing waits. */
static int64_t copy_through(int reader, int writer, const struct copy *copy)
{
    size_t done = 0;
    while (done < copy->size) {
        size_t part = copy->size - done < SMALLEST_PAGE ? copy->size - done : SMALLEST_PAGE;
        long result = pass(SYS_write, writer, (long)(copy->from + done), (long)part, 0, 0, 0);
        if (result > 0)
            result = pass(SYS_read, reader, (long)(copy->to + done), result, 0, 0, 0);
        if (result < 0)
            return result;
        done += (size_t)result;
        if ((size_t)result < part)
            break;
    }
    return (int64_t)done;
}

/* (a signal's handler that calls makes a pipe too) */
static int64_t copy_by_pipe(const struct copy *copy)
{
    sigset_t signals;
    block_signals(&signals);
    begin_low_number();
    int reader = made_high(make_pipe);
    int64_t copied = -errno;
    int writer = reader >= 0 ? moved_high(made[1]) : -1;
    end_low_number();
    if (reader >= 0) {
        copied = copy_through(reader, writer, copy);
        close(writer);
        close(reader);
    }
    allow_signals(&signals);
    return copied;
}

static int64_t copy_plainly(const struct copy *copy)
{
    memcpy(copy->to, copy->from, copy->size);
    return (int64_t)copy->size;
}

static int64_t copy_by(uint32_t way, const struct copy *copy)
{
    switch (way) {
    case WULGACH_COPIES_BY_PROCESS:
        return copy_by_process(copy);
    case WULGACH_COPIES_BY_PIPE:
        return copy_by_pipe(copy);
    default:
        return copy_plainly(copy);
    }
}

static int carry_out(const struct copy *copy)
{
    uint32_t way = wulgach_copying_next(WULGACH_COPYING_BEGINS, 0, copy->size);
    while (way <= WULGACH_COPIES_PLAINLY)
        way = wulgach_copying_next(way, copy_by(way, copy), copy->size);
    return way == WULGACH_COPYING_IS_DONE ? 0 : wulgach_missing_fault(WULGACH_NO_MEMORY);
}

int copy_in(void *to, uint64_t from, size_t size)
{
    struct copy copy = {to, (const char *)(uintptr_t)from, size, false};
    return carry_out(&copy);
}

int copy_out(uint64_t to, const void *from, size_t size)
{
    struct copy copy = {(char *)(uintptr_t)to, from, size, true};
    return carry_out(&copy);
}

int copy_text(struct text *text, uint64_t from, size_t most)
{
    char letters[PATH_MAX];
    const char *end = NULL;
    size_t length = 0;
    for (size_t piece; (piece = wulgach_text_part(from + length, most - length, end)) > 0;) {
        int result = copy_in(letters + length, from + length, piece);
        if (result < 0)
            return result;
        end = memchr(letters + length, '\0', piece);
        length = end ? (size_t)(end - letters) : length + piece;
    }
    *text = (struct text){.letters = strndup(letters, length), .length = length, .has_end = end};
    return text->letters ? 0 : wulgach_missing_fault(WULGACH_NO_MEMORY_OWN);
}
