/* Calls that change names: a file is made, linked, renamed, removed. */
#define _GNU_SOURCE
#include "files.h"
#include "../layer/traces/logging.h"
#include "../layer/process/passing.h"

#include <errno.h>
#include <fcntl.h>
#include <linux/openat2.h>
#include <stdint.h>
#include <stdio.h>
#include <string.h>
#include <sys/stat.h>
#include <sys/syscall.h>

/* A name: its folder, its path through no link but the last, and the file that has it, or 0. */
struct name {
    bool is_on_disk;
    uint64_t folder, file;
    bool is_link;
    char path[PATH_ROOM];
};

/* A path of the program's, which may be a bad pointer: read a part at a time. */
static bool read_path(const char *from, char room[PATH_ROOM])
{
    size_t at = 0, part;
    while ((part = wulgach_seen_path_part((uintptr_t)(from + at), at)) > 0) {
        if (!read_memory(from + at, room + at, part))
            return false;
        if (memchr(room + at, '\0', part))
            return true;
        at += part;
    }
    return false;
}

/* Cuts a path into its folder and its last part. */
static const char *cut(char path[PATH_ROOM], const char **folder)
{
    struct wulgach_last_part part;
    wulgach_seen_last_part((const uint8_t *)path, strlen(path), &part);
    path[part.end] = '\0';
    if (part.begin > 0)
        path[part.begin - 1] = '\0';
    *folder = part.begin == 0 ? "." : part.begin == 1 ? "/" : path;
    return path + part.begin;
}

/* Opens a path alone, as an open by these rules finds it (openat2(2), RESOLVE_..). */
static long open_path(int at, const char *path, uint64_t flags, uint64_t resolve)
{
    struct open_how how = {.flags = flags | O_PATH | O_CLOEXEC, .resolve = resolve};
    if (resolve == 0)
        return pass(SYS_openat, at, (long)path, (long)how.flags, 0, 0, 0);
    return pass(SYS_openat2, at, (long)path, (long)&how, sizeof how, 0, 0);
}

static void clear_name(struct name *name)
{
    name->is_on_disk = name->is_link = false;
    name->folder = name->file = 0;
}

/* What a name is in a folder that is open. */
static void look_at_name(int folder, const char *last, struct name *name)
{
    struct stat about;
    if (pass(SYS_newfstatat, folder, (long)last, (long)&about, AT_SYMLINK_NOFOLLOW, 0, 0) == 0) {
        name->file = about.st_ino;
        name->is_link = S_ISLNK(about.st_mode);
    }
    if (!path_of(folder, name->path) || pass(SYS_fstat, folder, (long)&about, 0, 0, 0, 0) < 0)
        return;
    size_t length = strlen(name->path);
    name->folder = about.st_ino;
    if (length + strlen(last) + 2 > PATH_ROOM ||
        !wulgach_seen_is_entry_name((const uint8_t *)last, strlen(last)))
        return;
    name->is_on_disk = is_path_on_disk(name->path);
    snprintf(name->path + length, PATH_ROOM - length, "/%s", last);
}

/* The name of a path, which is cut. */
static struct name *find_path(int at, char path[PATH_ROOM], uint64_t resolve, struct name *name)
{
    const char *folder, *last = cut(path, &folder);
    long opened = open_path(at, folder, O_DIRECTORY, resolve);
    clear_name(name);
    if (opened < 0)
        return name;
    look_at_name((int)opened, last, name);
    pass(SYS_close, opened, 0, 0, 0, 0, 0);
    return name;
}

static struct name *find_name(int at, uint64_t from, struct name *name)
{
    char path[PATH_ROOM];
    clear_name(name);
    return read_path((const char *)(uintptr_t)from, path) ? find_path(at, path, 0, name) : name;
}

/* The end of a call, which may have made the file that is there. */
static long end_making(const struct file_call *call, long result, long at, const char *path)
{
    struct stat about;
    struct event end = {
        .kind = EVENT_END, .result = wulgach_seen_end_result((uint64_t)call->number, result)};
    if (wulgach_seen_tells_file((uint64_t)call->number, result) &&
        pass(SYS_newfstatat, at, (long)path, (long)&about, AT_SYMLINK_NOFOLLOW | AT_EMPTY_PATH, 0,
            0) == 0)
        end.file = about.st_ino;
    log_event(&end, NULL, NULL, NULL, 0);
    return result;
}

static bool is_logged(
    const struct file_call *call, const struct name *one, const struct name *other)
{
    return wulgach_seen_logs_names(
        (uint64_t)call->number, one->is_on_disk, other && other->is_on_disk);
}

/* One name is made or removed. */
long call_on_name(const struct file_call *call)
{
    const bool has_text = call->kind == WULGACH_CALL_MAKE_LINK;
    struct name name;
    char text[PATH_ROOM];
    if (!is_logged(call, find_name(call->is.fd, call->is.path, &name), NULL) ||
        (has_text && !read_path((const char *)(uintptr_t)call->is.second_path, text)))
        return carry(call);
    struct event event = {.kind = (uint16_t)call->kind, .file = name.folder};
    log_event(&event, name.path, has_text ? text : NULL, NULL, 0);
    return end_making(call, carry(call), AT_FDCWD, name.path);
}

long call_rename(const struct file_call *call)
{
    const struct wulgach_call_words *is = &call->is;
    struct name one, other;
    if (!is_logged(call, find_name(is->fd, is->path, &one),
            find_name(is->second_fd, is->second_path, &other)))
        return carry(call);
    struct event event = {.kind = EVENT_RENAME,
        .flags = (uint16_t)is->flags,
        .file = one.folder,
        .second = other.folder,
        .length = one.file};
    log_event(
        &event, one.is_on_disk ? one.path : NULL, other.is_on_disk ? other.path : NULL, NULL, 0);
    return end_operation(carry(call));
}

/* A new name of a file: one that has none may be given by its descriptor. */
long call_link(const struct file_call *call)
{
    const struct wulgach_call_words *is = &call->is;
    struct name name;
    struct stat about;
    if (!is_logged(call, find_name(is->fd, is->path, &name), NULL) ||
        pass(SYS_newfstatat, is->second_fd, (long)is->second_path, (long)&about,
            wulgach_seen_linked_flags(is->flags), 0, 0) < 0)
        return carry(call);
    struct event event = {.kind = EVENT_LINK, .file = name.folder, .second = about.st_ino};
    log_event(&event, name.path, NULL, NULL, 0);
    return end_operation(carry(call));
}

/* How a file is opened: its words, and what openat2 has beside them. */
struct opening {
    int at;
    const char *path;
    uint64_t flags, resolve;
};

/* The file that it finds, if it is there, and which one that is if it's on the disk. */
struct found {
    bool is_there, is_on_disk;
    mode_t mode;
    uint64_t file;
    char path[PATH_ROOM];
};

/* (its number is free again before the program's file is opened) */
static void find_file(const struct opening *opening, struct found *found)
{
    struct stat about = {0};
    long fd = open_path(opening->at, opening->path, 0, opening->resolve);
    found->is_there = fd >= 0;
    found->is_on_disk = fd >= 0 && is_on_disk((int)fd, found->path, &found->file);
    if (fd < 0)
        return;
    pass(SYS_fstat, fd, (long)&about, 0, 0, 0, 0);
    pass(SYS_close, fd, 0, 0, 0, 0, 0);
    found->mode = about.st_mode;
}

/* A file that is there loses its bytes. */
static long open_cut(const struct file_call *call, const struct found *found)
{
    if (!found->is_on_disk)
        return carry(call);
    struct event event = {.kind = EVENT_LENGTH, .file = found->file};
    log_event(&event, found->path, NULL, NULL, 0);
    long result = carry(call);
    end_operation(wulgach_seen_end_result((uint64_t)call->number, result));
    return result;
}

/* A name that is a symbolic link leads to another, which may be one too. */
static struct name *follow(const struct opening *opening, struct name *name)
{
    char path[PATH_ROOM], room[PATH_ROOM];
    const char *folder;
    for (uint32_t i = 0; name->is_link && wulgach_seen_follows_link(opening->flags, i); i++) {
        long length = pass(
            SYS_readlinkat, AT_FDCWD, (long)name->path, (long)path, PATH_ROOM - 1, 0, 0);
        if (length <= 0)
            break;
        path[length] = '\0';
        memcpy(room, name->path, PATH_ROOM);
        cut(room, &folder);
        long at = pass(SYS_open, (long)folder, O_PATH | O_DIRECTORY | O_CLOEXEC, 0, 0, 0, 0);
        find_path((int)at, path, opening->resolve, name);
        pass(SYS_close, at, 0, 0, 0, 0, 0);
    }
    return name;
}

/* A file that isn't there is made, with a name. */
static long open_new(const struct file_call *call, const struct opening *opening)
{
    char path[PATH_ROOM];
    struct name name;
    if (!read_path(opening->path, path) ||
        !is_logged(
            call, follow(opening, find_path(opening->at, path, opening->resolve, &name)), NULL))
        return carry(call);
    struct event event = {.kind = EVENT_CREATE, .file = name.folder};
    log_event(&event, name.path, NULL, NULL, 0);
    long result = carry(call);
    return end_making(call, result, result, "");
}

/* One without a name: there is nothing of it before it is there. */
static long open_nameless(const struct file_call *call)
{
    long result = carry(call);
    char path[PATH_ROOM];
    struct event event = {.kind = EVENT_CREATE}, end = {.kind = EVENT_END};
    if (wulgach_seen_tells_file((uint64_t)call->number, result) &&
        is_on_disk((int)result, path, &end.file)) {
        log_event(&event, NULL, NULL, NULL, 0);
        log_event(&end, NULL, NULL, NULL, 0);
    }
    return result;
}

/* How a file is opened. False: the kernel refuses it, since its structure can't be read or isn't
 * one. */
static bool read_opening(const struct file_call *call, struct opening *opening)
{
    const struct wulgach_call_words *is = &call->is;
    struct open_how how = {.flags = is->flags};
    if ((is->address || is->count) &&
        (!wulgach_seen_says_how(is->count) ||
            !read_memory((const void *)(uintptr_t)is->address, &how, sizeof how)))
        return false;
    *opening = (struct opening){is->fd, (const char *)(uintptr_t)is->path, how.flags, how.resolve};
    return true;
}

static long open_known(const struct file_call *call, const struct opening *opening)
{
    struct found found = {0};
    find_file(opening, &found);
    switch (wulgach_logged_open(opening->flags, found.is_there, found.mode)) {
    case WULGACH_OPEN_NAMES:
        return open_new(call, opening);
    case WULGACH_OPEN_NAMELESS:
        return open_nameless(call);
    case WULGACH_OPEN_CUTS:
        return open_cut(call, &found);
    default:
        return carry(call);
    }
}

long call_open(const struct file_call *call)
{
    struct opening opening;
    return read_opening(call, &opening) ? open_known(call, &opening) : carry(call);
}
