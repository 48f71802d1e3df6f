/* Calls that move bytes from one file to another: what they moved is read where it went, and stands
 * at the event's end. */
#define _GNU_SOURCE
#include "files.h"
#include "../layer/traces/logging.h"
#include "../layer/process/passing.h"

#include <sys/mman.h>
#include <sys/syscall.h>
#include <unistd.h>

/* The end of an operation that moved so many bytes, which are read here. */
static void end_copy(int reader, int64_t begin, long result)
{
    struct event event = {.kind = EVENT_END, .result = result};
    long memory = result <= 0 ? -1
                              : pass(SYS_mmap, 0, result, PROT_READ | PROT_WRITE,
                                    MAP_PRIVATE | MAP_ANONYMOUS, -1, 0);
    if (memory < 0 && memory > -4096) {
        log_event(&event, NULL, NULL, NULL, 0);
        return;
    }
    long read = pass(SYS_pread64, reader, memory, result, begin, 0, 0);
    struct iovec bytes = {(void *)memory, read > 0 ? (size_t)read : 0};
    log_event(&event, NULL, NULL, &bytes, 1);
    pass(SYS_munmap, memory, result, 0, 0, 0, 0);
}

/* (a place that can't be read the kernel refuses) */
long call_copy(const struct file_call *call)
{
    const struct wulgach_call_words *is = &call->is;
    char path[PATH_ROOM];
    uint64_t file, place = is->offset;
    if (!is_on_disk(is->fd, path, &file) ||
        (is->address && !read_memory((const void *)(uintptr_t)is->address, &place, sizeof place)))
        return carry(call);
    struct event event = {
        .kind = EVENT_COPY, .file = file, .length = wulgach_seen_length_with(0, is->length)};
    wulgach_place_write(&event, is->fd, place, 0);
    log_event(&event, path, NULL, NULL, 0);
    long result = carry(call);
    end_copy(reader_of(file, is->fd), event.offset, result);
    return result;
}
