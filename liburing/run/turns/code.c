/* Places are told as addr2line(1) says them, which a child becomes, or else by the file that is
 * mapped there and how far into it. */
#define _GNU_SOURCE
#include "code.h"
#include "chance.h"
#include "turns.h"

#include <elf.h>
#include <fcntl.h>
#include <limits.h>
#include <stdio.h>
#include <stdlib.h>
#include <string.h>
#include <unistd.h>

enum { MOST_AREAS = 512, MAPS = 1 << 18 };

struct area {
    uintptr_t start, end;
    uint64_t offset;
    bool is_code, is_program;
    char path[256];
};

static struct area areas[MOST_AREAS];
static int area_count;

/* Libraries of the system's, and this one: a caller is looked for behind them. */
static bool is_of_system(const char *path)
{
    static const char *const names[] = {"/libc.so", "/libc-", "/libpthread", "/ld-linux",
        "/uring-threads.so", "/libstdc++", "/libgcc_s"};
    for (size_t i = 0; i < sizeof names / sizeof *names; i++)
        if (strstr(path, names[i]))
            return true;
    return path[0] != '/';
}

static void read_area(const char *line)
{
    struct area *area = areas + area_count;
    char rights[5];
    int path = 0;
    if (area_count == MOST_AREAS || sscanf(line, "%lx-%lx %4s %lx %*s %*u %n", &area->start,
                                        &area->end, rights, &area->offset, &path) < 4)
        return;
    size_t size = strcspn(line + path, "\n");
    snprintf(area->path, sizeof area->path, "%.*s", (int)size, line + path);
    area->is_code = rights[2] == 'x';
    area->is_program = area->is_code && !is_of_system(area->path);
    area_count++;
}

void read_code(void)
{
    static char maps[MAPS];
    long fd = kernel(SYS_open, "/proc/self/maps", O_RDONLY | O_CLOEXEC), size = 0, part;
    area_count = 0;
    while (fd >= 0 && size < MAPS - 1 &&
           (part = kernel(SYS_read, fd, maps + size, MAPS - 1 - size)) > 0)
        size += part;
    if (fd >= 0)
        kernel(SYS_close, fd);
    maps[size] = '\0';
    for (char *line = maps; *line;
         line += strcspn(line, "\n") + (line[strcspn(line, "\n")] != '\0'))
        read_area(line);
}

static const struct area *area_of(uintptr_t at)
{
    for (int i = 0; i < area_count; i++)
        if (at >= areas[i].start && at < areas[i].end)
            return areas + i;
    return NULL;
}

/* Whether a call stands before: to a place that it names, by a register or by memory. */
static bool follows_call(const struct area *area, uintptr_t at)
{
    const uint8_t *after = (const uint8_t *)at;
    if (at - area->start < 8)
        return false;
    if (after[-5] == 0xe8 || (after[-6] == 0xff && after[-5] == 0x15))
        return true;
    for (int length = 2; length <= 7; length++)
        if (after[-length] == 0xff && (after[-length + 1] >> 3 & 7) == 2)
            return true;
    return false;
}

const void *caller_on_stack(uintptr_t stack)
{
    enum { FARTHEST = 1 << 14 };
    const struct area *of_stack = area_of(stack);
    if (!of_stack)
        return NULL;
    for (uintptr_t at = stack & ~(uintptr_t)7; at + 8 <= of_stack->end && at - stack < FARTHEST;
         at += 8) {
        uintptr_t word = *(const uintptr_t *)at;
        const struct area *area = area_of(word);
        if (area && area->is_program && follows_call(area, word))
            return (const void *)word;
    }
    return NULL;
}

/* Where a file has what is mapped from this place of it. */
static uint64_t address_in_file(const char *path, uint64_t offset)
{
    enum { MOST_PARTS = 32 };
    Elf64_Ehdr head;
    Elf64_Phdr parts[MOST_PARTS];
    long fd = kernel(SYS_open, path, O_RDONLY | O_CLOEXEC);
    uint64_t address = offset;
    if (fd < 0 || kernel(SYS_pread64, fd, &head, sizeof head, 0) != sizeof head ||
        head.e_phnum > MOST_PARTS)
        head.e_phnum = 0;
    if (head.e_phnum > 0)
        kernel(SYS_pread64, fd, parts, head.e_phnum * sizeof *parts, head.e_phoff);
    for (int i = 0; i < head.e_phnum; i++)
        if (parts[i].p_type == PT_LOAD && offset >= parts[i].p_offset &&
            offset - parts[i].p_offset < parts[i].p_filesz)
            address = offset - parts[i].p_offset + parts[i].p_vaddr;
    if (fd >= 0)
        kernel(SYS_close, fd);
    return address;
}

/* In a child, which becomes the program that knows lines. */
static void become_reader(const char *path, uint64_t address, int to)
{
    const uint64_t none = 0;
    char word[32];
    const char *const words[] = {"addr2line", "-s", "-C", "-f", "-e", path, word, NULL},
                      *const surrounding[] = {"PATH=/usr/local/bin:/usr/bin:/bin", NULL};
    snprintf(word, sizeof word, "%#lx", address);
    pause_chance(true);
    kernel(SYS_rt_sigprocmask, SIG_SETMASK, &none, 0, sizeof none);
    kernel(SYS_dup2, to, STDOUT_FILENO);
    long quiet = kernel(SYS_open, "/dev/null", O_WRONLY);
    kernel(SYS_dup2, quiet, STDERR_FILENO);
    kernel(SYS_execve, "/usr/bin/addr2line", words, surrounding);
    kernel(SYS_exit_group, 127);
}

/* Two lines: the function, and where its source is. */
static bool read_line(const char *path, uint64_t address, char *room, size_t size)
{
    int ends[2];
    long length = 0, part;
    if (kernel(SYS_pipe2, ends, O_CLOEXEC) < 0)
        return false;
    long child = kernel(SYS_fork);
    if (child == 0)
        become_reader(path, address, ends[1]);
    kernel(SYS_close, ends[1]);
    while (child > 0 && length < (long)size - 1 &&
           (part = kernel(SYS_read, ends[0], room + length, (long)size - 1 - length)) > 0)
        length += part;
    kernel(SYS_close, ends[0]);
    if (child > 0)
        kernel(SYS_wait4, child, 0, 0, 0);
    room[length] = '\0';
    return length > 0;
}

void describe_place(const void *at, char room[PLACE_ROOM])
{
    char lines[PLACE_ROOM / 2];
    const struct area *area = area_of((uintptr_t)at - 1);
    if (!area)
        read_code();
    area = area_of((uintptr_t)at - 1);
    if (!area || area->path[0] != '/') {
        snprintf(room, PLACE_ROOM, "%p", at);
        return;
    }
    uint64_t address = address_in_file(area->path, (uintptr_t)at - 1 - area->start + area->offset);
    char *line = read_line(area->path, address, lines, sizeof lines) ? strchr(lines, '\n') : NULL;
    const char *name = strrchr(area->path, '/') + 1;
    if (!line || strncmp(line + 1, "??", 2) == 0) {
        bool has_function = line && strncmp(lines, "??", 2) != 0;
        snprintf(room, PLACE_ROOM, "%.100s+%#lx%s%.*s", name, address, has_function ? " in " : "",
            has_function ? (int)(line - lines) : 0, lines);
        return;
    }
    snprintf(room, PLACE_ROOM, "%.*s in %.*s", (int)strcspn(line + 1, "\n "), line + 1,
        (int)(line - lines), lines);
}
