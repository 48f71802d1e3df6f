/* Memory that processes share: which parts of this process's it is, by whose place in what is
 * shared a futex in it is told. A child that is forked has the same parts. */
#define _GNU_SOURCE
#include "sayings.h"
#include "turns.h"

#include <sys/mman.h>
#include <sys/shm.h>
#include <sys/stat.h>

enum { MOST_PARTS = 1024 };

/* What is shared is a file, a segment of System V's, or has no name. */
static const uint64_t OF_FILES = 1ul << 32, OF_SEGMENTS = 1ul << 33, UNNAMED = 1ul << 34;

static struct part {
    uint64_t from, to, space, place;
} parts[MOST_PARTS];
static int part_count;

struct key key_of(uint64_t word, bool is_private)
{
    for (int i = 0; !is_private && i < part_count; i++)
        if (word >= parts[i].from && word < parts[i].to)
            return (struct key){parts[i].space, parts[i].place + (word - parts[i].from)};
    return (struct key){(uint64_t)self->process, word};
}

static void add_part(uint64_t from, uint64_t to, uint64_t space, uint64_t place)
{
    static bool was_told;
    if (from >= to)
        return;
    if (part_count < MOST_PARTS) {
        parts[part_count++] = (struct part){from, to, space, place};
        return;
    }
    if (!was_told)
        say_line(
            "over %d parts of memory are shared: others don't find futexes in more", MOST_PARTS);
    was_told = true;
}

/* What lies there isn't any more: what is left of a part are its two ends. */
static void forget_parts(uint64_t from, uint64_t to)
{
    for (int i = part_count - 1; i >= 0; i--) {
        struct part part = parts[i];
        if (part.to <= from || part.from >= to)
            continue;
        parts[i] = parts[--part_count];
        add_part(part.from, from, part.space, part.place);
        add_part(to, part.to, part.space, part.place + (to - part.from));
    }
}

static uint64_t space_of_file(int fd)
{
    struct stat about;
    return kernel(SYS_fstat, fd, &about) < 0
               ? UNNAMED
               : OF_FILES + number_of_file(about.st_dev, about.st_ino);
}

void note_mapped(const struct trap *trap, long at)
{
    uint64_t from = (uint64_t)at, to = from + (uint64_t)trap->words[1];
    bool is_shared = trap->words[3] & MAP_SHARED, has_file = !(trap->words[3] & MAP_ANONYMOUS);
    if (at < 0 && at > -4096)
        return;
    forget_parts(from, to);
    if (is_shared)
        add_part(from, to,
            has_file ? space_of_file((int)trap->words[4]) : UNNAMED + world->unnamed++,
            has_file ? (uint64_t)trap->words[5] : 0);
}

long serve_map(struct trap *trap)
{
    long at = pass_on(trap);
    note_mapped(trap, at);
    return at;
}

long serve_unmap(struct trap *trap)
{
    long result = pass_on(trap);
    if (result == 0)
        forget_parts((uint64_t)trap->words[0], (uint64_t)(trap->words[0] + trap->words[1]));
    return result;
}

long serve_remap(struct trap *trap)
{
    uint64_t from = (uint64_t)trap->words[0], to = from + (uint64_t)trap->words[1];
    struct key key = key_of(from, false);
    long at = pass_on(trap);
    if (at < 0 && at > -4096)
        return at;
    forget_parts(from, to);
    forget_parts((uint64_t)at, (uint64_t)(at + trap->words[2]));
    if (key.space >= MOST_PROCESSES)
        add_part((uint64_t)at, (uint64_t)(at + trap->words[2]), key.space, key.place);
    return at;
}

long serve_shmat(struct trap *trap)
{
    struct shmid_ds about;
    change_world();
    long at = pass_on(trap);
    if ((at >= 0 || at < -4096) && kernel(SYS_shmctl, trap->words[0], IPC_STAT, &about) == 0)
        add_part((uint64_t)at, (uint64_t)at + about.shm_segsz,
            OF_SEGMENTS + (uint64_t)trap->words[0], 0);
    return at;
}
