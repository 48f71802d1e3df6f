/* Makes ring memory: the submission ring's words and array at IORING_OFF_SQ_RING, the completion
 * ring's words and completions at IORING_OFF_CQ_RING, and the entry table at IORING_OFF_SQES. It is
 * a memfd, which is sparse and as long as the last offset demands, and of which each is mapped by
 * itself: without the feature SINGLE_MMAP a program does so, and one that never asks for it does so
 * too. Or it is memory without a file, and then both rings stand at both offsets, as in the kernel.
 */
#define _GNU_SOURCE
#include "rings/memory.h"
#include "calls/signals.h"
#include "wulgach.h"
#include "wulgach_setup.h"

#include <errno.h>
#include <pthread.h>
#include <signal.h>
#include <stdbool.h>
#include <stddef.h>
#include <string.h>
#include <sys/mman.h>
#include <unistd.h>

/* Where the array and the completions stand in their mappings: after the words, on a cache line of
 * their own. */
enum { AFTER_WORDS = 64 };

static void *map(int fd, size_t size, uint64_t offset)
{
    void *at = fd < 0 ? mmap(NULL, size, PROT_READ | PROT_WRITE, MAP_SHARED | MAP_ANONYMOUS, -1, 0)
                      : mmap(NULL, size, PROT_READ | PROT_WRITE, MAP_SHARED, fd, (off_t)offset);
    return at == MAP_FAILED ? NULL : at;
}

/* Lengthens a memfd. If the process may have no file as long, that is an error, and not a signal.
 */
static int lengthen(int fd, uint64_t length)
{
    sigset_t own;
    hold_long_files(&own);
    int result = ftruncate(fd, (off_t)length) < 0 ? -errno : 0;
    let_long_files(&own, result == -EFBIG);
    return result;
}

/* The bytes of the mapping at the first offset. */
static size_t first_size(const struct memory *memory)
{
    return memory->is_single ? memory->sq_size + memory->cq_size : memory->sq_size;
}

static int map_all(struct memory *memory, int fd)
{
    memory->sq = map(fd, first_size(memory), IORING_OFF_SQ_RING);
    if (!memory->is_single)
        memory->cq = map(fd, memory->cq_size, IORING_OFF_CQ_RING);
    else if (memory->sq)
        memory->cq = (struct cq_words *)((char *)memory->sq + memory->sq_size);
    memory->entries = map(fd, memory->entries_size, IORING_OFF_SQES);
    if (!memory->sq || !memory->cq || !memory->entries) {
        return -errno;
    }
    memory->array = (uint32_t *)((char *)memory->sq + AFTER_WORDS);
    memory->completions = (struct io_uring_cqe *)((char *)memory->cq + AFTER_WORDS);
    return 0;
}

static void tell_offsets(struct io_uring_params *params, const struct memory *memory)
{
    uint32_t cq = memory->is_single ? (uint32_t)memory->sq_size : 0;
    params->sq_entries = memory->sq_entries;
    params->cq_entries = memory->cq_entries;
    params->sq_off = (struct io_sqring_offsets){
        .head = offsetof(struct sq_words, head),
        .tail = offsetof(struct sq_words, tail),
        .ring_mask = offsetof(struct sq_words, mask),
        .ring_entries = offsetof(struct sq_words, entries),
        .flags = offsetof(struct sq_words, flags),
        .dropped = offsetof(struct sq_words, dropped),
        .array = AFTER_WORDS,
    };
    params->cq_off = (struct io_cqring_offsets){
        .head = cq + offsetof(struct cq_words, head),
        .tail = cq + offsetof(struct cq_words, tail),
        .ring_mask = cq + offsetof(struct cq_words, mask),
        .ring_entries = cq + offsetof(struct cq_words, entries),
        .overflow = cq + offsetof(struct cq_words, overflow),
        .flags = cq + offsetof(struct cq_words, flags),
        .cqes = cq + AFTER_WORDS,
    };
}

/* The completion ring begins on a cache line. */
static size_t round_to_line(size_t size)
{
    return (size + AFTER_WORDS - 1) / AFTER_WORDS * AFTER_WORDS;
}

void plan_memory(struct memory *memory, bool is_single, uint32_t sq_entries, uint32_t cq_entries,
    struct io_uring_params *params)
{
    memory->sq_entries = sq_entries;
    memory->cq_entries = cq_entries;
    memory->is_single = is_single;
    memory->sq_size = AFTER_WORDS + round_to_line(sq_entries * sizeof(uint32_t));
    wulgach_cells_of(params->flags, &memory->entry_cells, &memory->completion_cells);
    memory->cq_size = AFTER_WORDS +
                      cq_entries * memory->completion_cells * sizeof(struct io_uring_cqe);
    memory->entries_size = sq_entries * memory->entry_cells * sizeof(struct io_uring_sqe);
    tell_offsets(params, memory);
}

int make_memory(struct memory *memory, int fd)
{
    int result = fd < 0 ? 0 : lengthen(fd, IORING_OFF_SQES + memory->entries_size);
    if (result == 0)
        result = map_all(memory, fd);
    if (result < 0)
        return result;
    memory->sq->mask = memory->sq_entries - 1;
    memory->sq->entries = memory->sq_entries;
    memory->cq->mask = memory->cq_entries - 1;
    memory->cq->entries = memory->cq_entries;
    return 0;
}

int make_file(void)
{
    int fd = memfd_create("wulgach ring", MFD_CLOEXEC);
    return fd < 0 ? -errno : fd;
}

/* A shared mapping of no size that is moved is mapped once more, and stays. It is moved to where
 * the kernel puts memory that is asked for so. */
static void *map_part(const struct memory *memory, const struct wulgach_mapping *asked)
{
    void *part = wulgach_region_of(asked->offset) == WULGACH_RINGS ? (void *)memory->sq
                                                                   : memory->entries;
    void *place = mmap((void *)asked->at, asked->size, PROT_NONE,
        MAP_PRIVATE | MAP_ANONYMOUS | MAP_NORESERVE | (int)wulgach_mapping_placing(asked), -1, 0);
    if (place == MAP_FAILED)
        return MAP_FAILED;
    if (mremap(part, 0, asked->size, MREMAP_MAYMOVE | MREMAP_FIXED, place) != MAP_FAILED &&
        mprotect(place, asked->size, (int)wulgach_mapping_protection(asked)) == 0)
        return place;
    int error = errno;
    munmap(place, asked->size);
    errno = error;
    return MAP_FAILED;
}

void *map_again(const struct memory *memory, const struct wulgach_mapping *asked)
{
    int32_t fault = wulgach_mapping_fault(asked, memory->entries_size);
    if (fault == 0)
        return map_part(memory, asked);
    errno = -fault;
    return MAP_FAILED;
}

static void unmap(void *at, size_t size)
{
    if (at)
        munmap(at, size);
}

void free_memory(struct memory *memory)
{
    unmap(memory->sq, first_size(memory));
    if (!memory->is_single)
        unmap(memory->cq, memory->cq_size);
    unmap(memory->entries, memory->entries_size);
}
