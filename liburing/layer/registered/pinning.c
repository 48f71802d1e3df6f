/* Which memory may be registered: the kernel is asked for its pages, to be written, and with which
 * files it is shared is looked up in /proc. What its lines say, and what all this comes to, is the
 * library's decision.
 */
#define _GNU_SOURCE
#include "registered/pinning.h"
#include "process/passing.h"
#include "wulgach_register.h"

#include <fcntl.h>
#include <stdint.h>
#include <stdlib.h>
#include <string.h>
#include <sys/mman.h>
#include <sys/vfs.h>
#include <unistd.h>

#ifndef MADV_POPULATE_WRITE
#define MADV_POPULATE_WRITE 23
#endif

struct span {
    uintptr_t start, end;
};

static bool ask_for(uintptr_t at, size_t size, uintptr_t page)
{
    uintptr_t start = at / page * page;
    return madvise((void *)start, at - start + size, MADV_POPULATE_WRITE) == 0;
}

/* Whether this kernel can be asked for pages: it is asked for one that is there. */
static bool can_ask(uintptr_t page)
{
    char here;
    return ask_for((uintptr_t)&here, 1, page);
}

/* Reads a file to its end, with a 0 after it. NULL: it can't be read, or there is no memory for it.
 */
static char *read_file(const char *path)
{
    size_t length = 0, room = 0;
    char *text = NULL;
    long count = 0, fd = pass(SYS_openat, AT_FDCWD, (long)path, O_RDONLY | O_CLOEXEC, 0, 0, 0);
    for (; fd >= 0 && count >= 0; length += (size_t)count) {
        if (room - length < 4096) {
            char *more = realloc(text, room = 2 * room + 16384);
            if (!more)
                break;
            text = more;
        }
        count = pass(SYS_read, fd, (long)(text + length), (long)(room - length - 1), 0, 0, 0);
        if (count == 0)
            break;
    }
    if (fd >= 0)
        pass(SYS_close, fd, 0, 0, 0, 0, 0);
    if (fd >= 0 && count == 0 && text) {
        text[length] = '\0';
        return text;
    }
    free(text);
    return NULL;
}

/* Whether the memory that a line of the thread's list is of is shared with a file which is written
 * back. */
static bool is_of_a_file(const char *line, const struct wulgach_mapped *mapped)
{
    struct statfs status;
    bool knows = mapped->is_asked && statfs(line + mapped->path, &status) == 0;
    return wulgach_is_of_a_file(mapped, knows, knows ? (uint64_t)(uint32_t)status.f_type : 0);
}

/* Notes this memory. Returns false if there is no room. */
static bool note(struct known_memory *known, const struct wulgach_mapped *mapped)
{
    if (known->count == known->room) {
        struct span *more = realloc(
            known->spans, (known->room = 2 * known->room + 8) * sizeof *more);
        if (!more)
            return false;
        known->spans = more;
    }
    known->spans[known->count++] = (struct span){mapped->start, mapped->end};
    return true;
}

/* Notes what such lines are of, and counts those that say it. Returns false if there is no room. */
static bool note_lines(struct known_memory *known, char *text, uint64_t *lines)
{
    struct wulgach_mapped mapped;
    char *rest = NULL;
    for (char *line = strtok_r(text, "\n", &rest); line; line = strtok_r(NULL, "\n", &rest)) {
        if (!wulgach_mapped_of((const uint8_t *)line, strlen(line), &mapped))
            continue;
        ++*lines;
        if (is_of_a_file(line, &mapped) && !note(known, &mapped))
            return false;
    }
    return true;
}

static void look_up(struct known_memory *known)
{
    char *text = read_file("/proc/thread-self/maps");
    uint64_t lines = 0;
    bool is_whole = text && note_lines(known, text, &lines);
    known->is_looked_up = true;
    known->is_listed = wulgach_is_listed(is_whole, lines);
    free(text);
}

static bool is_shared(const struct known_memory *known, const struct iovec *bytes)
{
    for (size_t i = 0; i < known->count; i++)
        if (wulgach_has_byte_of((uintptr_t)bytes->iov_base, bytes->iov_len, known->spans[i].start,
                known->spans[i].end))
            return true;
    return false;
}

int pinning_fault(struct known_memory *known, const struct iovec *bytes)
{
    uintptr_t page = (uintptr_t)sysconf(_SC_PAGESIZE);
    if (!known->is_looked_up)
        look_up(known);
    bool is_there = ask_for((uintptr_t)bytes->iov_base, bytes->iov_len, page);
    struct wulgach_memory memory = {
        .from = (uintptr_t)bytes->iov_base,
        .size = bytes->iov_len,
        .page = page,
        .is_asked = is_there || can_ask(page),
        .is_there = is_there,
        .is_listed = known->is_listed,
        .is_written_back = is_shared(known, bytes),
    };
    return wulgach_pinning_fault(&memory);
}

void forget_memory(struct known_memory *known)
{
    free(known->spans);
}
