/* A program that this one becomes or starts inherits the filter, and so needs this library too: a
 * surrounding without LD_PRELOAD is given it again, and one that preloads others has it in front of
 * these. One that can't take it, since it is linked statically or has other rights than its user,
 * is told of: the kernel ends it with SIGSYS if it calls io_uring.
 */
#define _GNU_SOURCE
#include "run.h"

#include <dlfcn.h>
#include <elf.h>
#include <endian.h>
#include <errno.h>
#include <fcntl.h>
#include <limits.h>
#include <linux/capability.h>
#include <spawn.h>
#include <stdarg.h>
#include <stdbool.h>
#include <stdio.h>
#include <stdlib.h>
#include <string.h>
#include <sys/stat.h>
#include <sys/syscall.h>
#include <sys/xattr.h>
#include <unistd.h>
#include <wordexp.h>

extern char **environ;

/* NAME=PATH as it was when this library came in, with the policy and the like. */
enum { MOST_VARIABLES = 24 };
static char *variables[MOST_VARIABLES + 1];
static size_t variable_count;

/* This library's path, as it was loaded. */
static const char *own = "";

/* The length of "LD_PRELOAD=". */
enum { PRELOAD = 11 };

static bool is_preload(const char *variable)
{
    return strncmp(variable, "LD_PRELOAD=", PRELOAD) == 0;
}

static bool is_ours(const char *variable)
{
    return is_preload(variable) || strncmp(variable, "WULGACH_", 8) == 0;
}

static void __attribute__((constructor)) remember(void)
{
    Dl_info about;
    if (dladdr(variables, &about) != 0 && about.dli_fname)
        own = about.dli_fname;
    for (char **at = environ; *at && variable_count < MOST_VARIABLES; at++)
        if (is_ours(*at))
            variables[variable_count++] = strdup(*at);
}

static bool has_name(char *const *surrounding, const char *variable)
{
    size_t length = (size_t)(strchr(variable, '=') - variable) + 1;
    for (; surrounding && *surrounding; surrounding++)
        if (strncmp(*surrounding, variable, length) == 0)
            return true;
    return false;
}

static size_t count_of(char *const *words)
{
    size_t count = 0;
    while (words && words[count])
        count++;
    return count;
}

/* Whether a list of libraries, with colons or spaces between, names this one. */
static bool names_own(const char *list)
{
    size_t length = strlen(own), word;
    for (; *list; list += word + (list[word] != '\0')) {
        word = strcspn(list, ": ");
        if (word == length && strncmp(list, own, length) == 0)
            return true;
    }
    return false;
}

/* The LD_PRELOAD that is taken of a surrounding, the last one, if it doesn't name this library; or
 * NULL. */
static char *const *preload_without_own(char *const *surrounding)
{
    char *const *found = NULL;
    for (; surrounding && *surrounding; surrounding++)
        if (is_preload(*surrounding))
            found = surrounding;
    return found && !names_own(*found + PRELOAD) ? found : NULL;
}

/* How long that is with this library in front, and its end. */
static size_t room_with_own(char *const *surrounding)
{
    char *const *other = preload_without_own(surrounding);
    return other ? strlen(*other) + strlen(own) + 2 : 1;
}

static char *put_own(const char *other, char *room)
{
    const char *list = other + PRELOAD;
    sprintf(room, "LD_PRELOAD=%s%s%s", own, *list ? ":" : "", list);
    return room;
}

/* Room for a surrounding with ours, on the stack: a child of vfork has no memory of its own. */
#define ROOM_FOR(surrounding) \
    char *room[count_of(surrounding) + MOST_VARIABLES + 1]; \
    char preload[room_with_own(surrounding)]

/* The surrounding with what is missing of ours, for a program that is about to be started. */
static char *const *with_ours(char *const *surrounding, char **room, char *preload)
{
    wulgach_note_start();
    char *const *other = preload_without_own(surrounding);
    size_t count = count_of(surrounding);
    if (count > 0)
        memcpy(room, surrounding, count * sizeof *room);
    for (size_t i = 0; i < variable_count; i++)
        if (!has_name(surrounding, variables[i]))
            room[count++] = variables[i];
    room[count] = NULL;
    if (other)
        room[other - surrounding] = put_own(*other, preload);
    return room;
}

/* Whether a file is a program without an interpreter, which loads no library. */
static bool is_static(int file)
{
    Elf64_Ehdr head;
    if (pread(file, &head, sizeof head, 0) != sizeof head ||
        memcmp(head.e_ident, ELFMAG, SELFMAG) != 0 || head.e_ident[EI_CLASS] != ELFCLASS64)
        return false;
    for (unsigned i = 0; i < head.e_phnum; i++) {
        Elf64_Phdr part;
        if (pread(file, &part, sizeof part, (off_t)(head.e_phoff + i * head.e_phentsize)) !=
                sizeof part ||
            part.p_type == PT_INTERP)
            return false;
    }
    return true;
}

/* Whether a file's capabilities, so many bytes, give some: those that this process has, since it
 * gets no others; or are to be in effect, though there are none. */
static bool gives_capabilities(const struct vfs_ns_cap_data *given, size_t size)
{
    struct __user_cap_header_struct head = {.version = _LINUX_CAPABILITY_VERSION_3};
    struct __user_cap_data_struct own[_LINUX_CAPABILITY_U32S_3] = {0};
    uint32_t gained = 0;
    syscall(SYS_capget, &head, own);
    for (size_t i = 0;
         i < VFS_CAP_U32 && sizeof given->magic_etc + (i + 1) * sizeof *given->data <= size; i++)
        gained |= own[i].permitted &
                  (le32toh(given->data[i].permitted) |
                      (le32toh(given->data[i].inheritable) & own[i].inheritable));
    return gained || le32toh(given->magic_etc) & VFS_CAP_FLAGS_EFFECTIVE;
}

/* Whether the loader of a program passes over what is preloaded (AT_SECURE of getauxval(3)):
 * whoever starts it acts for another user than its real one, or its file gives it capabilities.
 * That its mode is to change its user the kernel passes over, since this process takes no new
 * privileges. */
static bool has_other_rights(int file)
{
    struct vfs_ns_cap_data given;
    if (getuid() != geteuid() || getgid() != getegid())
        return true;
    ssize_t size = getuid() == 0 ? -1
                                 : fgetxattr(file, "security.capability", &given, sizeof given);
    return size >= (ssize_t)sizeof given.magic_etc && gives_capabilities(&given, (size_t)size);
}

/* The kernel reads so much of a script's first line, and looks for what runs it in so many that
 * name each other. */
enum { FIRST_LINE = 256, MOST_SCRIPTS = 5 };

/* The path of what runs a script, which stands in its first line, or NULL: the file is none. */
static const char *interpreter_of(int file, char line[FIRST_LINE])
{
    ssize_t size = pread(file, line, FIRST_LINE - 1, 0);
    if (size < 2 || memcmp(line, "#!", 2) != 0)
        return NULL;
    line[size] = '\0';
    char *path = line + 2 + strspn(line + 2, " \t");
    path[strcspn(path, " \t\n")] = '\0';
    return path;
}

static bool look_below(int folder, const char *path, unsigned depth, bool tells);

/* Whether a program is reached, or of a script the one that runs it; one that isn't is told of. */
static bool look_at_file(int file, const char *name, unsigned depth, bool tells)
{
    char line[FIRST_LINE];
    const char *interpreter = depth < MOST_SCRIPTS ? interpreter_of(file, line) : NULL;
    if (interpreter)
        return look_below(AT_FDCWD, interpreter, depth + 1, tells);
    bool loads_nothing = is_static(file), has_others = !loads_nothing && has_other_rights(file);
    if (loads_nothing && tells)
        say("it is linked statically and can't be reached: SIGSYS ends it if it calls io_uring, or writes to memory that it shares with a file",
            name);
    else if (has_others && tells)
        say("it has other rights than its user and can't be reached: SIGSYS ends it if it calls io_uring, or writes to memory that it shares with a file",
            name);
    return !loads_nothing && !has_others;
}

/* (what opens something else waits, as for the other end of a named pipe, or does something, as of
 * a device) */
static bool look_below(int folder, const char *path, unsigned depth, bool tells)
{
    struct stat about;
    bool is_one_reached = true;
    int kept = errno, file = -1;
    if (fstatat(folder, path, &about, 0) == 0 && S_ISREG(about.st_mode))
        file = openat(folder, path, O_RDONLY | O_NONBLOCK | O_CLOEXEC);
    if (file >= 0) {
        is_one_reached = look_at_file(file, path, depth, tells);
        close(file);
    }
    errno = kept;
    return is_one_reached;
}

static void look_at(const char *path)
{
    look_below(AT_FDCWD, path, 0, true);
}

bool is_reached(int folder, const char *path, char *const *surrounding)
{
    bool has_own = false;
    for (; surrounding && *surrounding; surrounding++)
        has_own |= is_preload(*surrounding) && names_own(*surrounding + PRELOAD);
    return has_own && look_below(folder, path, 0, false);
}

/* The same of a name that is looked for in PATH, as the C library does: an empty part is the folder
 * in which the process is, and without PATH it is in one of two. */
static void look_for(const char *name)
{
    const char *path = getenv("PATH");
    if (strchr(name, '/')) {
        look_at(name);
        return;
    }
    if (!path)
        path = "/bin:/usr/bin";
    for (bool is_last = false; !is_last; path++) {
        char found[PATH_MAX];
        int length = (int)strcspn(path, ":");
        int size = snprintf(
            found, sizeof found, "%.*s%s%s", length, path, length > 0 ? "/" : "", name);
        if (size < (int)sizeof found && access(found, X_OK) == 0) {
            look_at(found);
            return;
        }
        path += length;
        is_last = *path == '\0';
    }
}

static void *next(const char *name)
{
    return dlsym(RTLD_NEXT, name);
}

SEEN int execve(const char *path, char *const *words, char *const *surrounding)
{
    int (*call)(const char *, char *const *, char *const *);
    *(void **)&call = next("execve");
    look_at(path);
    ROOM_FOR(surrounding);
    return call(path, words, with_ours(surrounding, room, preload));
}

SEEN int fexecve(int file, char *const *words, char *const *surrounding)
{
    int (*call)(int, char *const *, char *const *);
    *(void **)&call = next("fexecve");
    look_at_file(file, "a program", 0, true);
    ROOM_FOR(surrounding);
    return call(file, words, with_ours(surrounding, room, preload));
}

/* The file itself has an empty path. (A C library before 2.34 hasn't this call.) */
SEEN int execveat(int at, const char *path, char *const *words, char *const *surrounding, int flags)
{
    look_below(at, path, 0, true);
    if (flags & AT_EMPTY_PATH && faccessat(at, path, F_OK, 0) != 0)
        look_at_file(at, "a program", 0, true);
    ROOM_FOR(surrounding);
    return (int)syscall(
        SYS_execveat, at, path, words, with_ours(surrounding, room, preload), flags);
}

SEEN int execvpe(const char *name, char *const *words, char *const *surrounding)
{
    int (*call)(const char *, char *const *, char *const *);
    *(void **)&call = next("execvpe");
    look_for(name);
    ROOM_FOR(surrounding);
    return call(name, words, with_ours(surrounding, room, preload));
}

SEEN int execv(const char *path, char *const *words)
{
    return execve(path, words, environ);
}

SEEN int execvp(const char *name, char *const *words)
{
    return execvpe(name, words, environ);
}

/* The words of a call that lists them. */
#define LISTED(first) \
    size_t count = 1; \
    va_list arguments; \
    va_start(arguments, first); \
    while (va_arg(arguments, char *)) \
        count++; \
    va_end(arguments); \
    char *words[count + 1]; \
    words[0] = (char *)first; \
    va_start(arguments, first); \
    for (size_t i = 1; i <= count; i++) \
    words[i] = va_arg(arguments, char *)

SEEN int execl(const char *path, const char *first, ...)
{
    LISTED(first);
    va_end(arguments);
    return execv(path, words);
}

SEEN int execlp(const char *name, const char *first, ...)
{
    LISTED(first);
    va_end(arguments);
    return execvp(name, words);
}

SEEN int execle(const char *path, const char *first, ...)
{
    LISTED(first);
    char *const *surrounding = va_arg(arguments, char *const *);
    va_end(arguments);
    return execve(path, words, surrounding);
}

SEEN int posix_spawn(pid_t *process, const char *path, const posix_spawn_file_actions_t *actions,
    const posix_spawnattr_t *attributes, char *const *words, char *const *surrounding)
{
    int (*call)(pid_t *, const char *, const posix_spawn_file_actions_t *,
        const posix_spawnattr_t *, char *const *, char *const *);
    *(void **)&call = next("posix_spawn");
    look_at(path);
    ROOM_FOR(surrounding);
    return call(process, path, actions, attributes, words, with_ours(surrounding, room, preload));
}

SEEN int posix_spawnp(pid_t *process, const char *name, const posix_spawn_file_actions_t *actions,
    const posix_spawnattr_t *attributes, char *const *words, char *const *surrounding)
{
    int (*call)(pid_t *, const char *, const posix_spawn_file_actions_t *,
        const posix_spawnattr_t *, char *const *, char *const *);
    *(void **)&call = next("posix_spawnp");
    look_for(name);
    ROOM_FOR(surrounding);
    return call(process, name, actions, attributes, words, with_ours(surrounding, room, preload));
}

/* The C library starts the shell of these by itself, with the program's own surrounding. */
static void restore(void)
{
    wulgach_note_start();
    char *const *other = preload_without_own(environ);
    char *preload = other ? malloc(room_with_own(environ)) : NULL;
    if (preload)
        environ[other - environ] = put_own(*other, preload);
    for (size_t i = 0; i < variable_count; i++)
        if (!has_name(environ, variables[i]))
            putenv(variables[i]);
}

SEEN int system(const char *line)
{
    int (*call)(const char *);
    *(void **)&call = next("system");
    restore();
    return call(line);
}

SEEN FILE *popen(const char *line, const char *mode)
{
    FILE *(*call)(const char *, const char *);
    *(void **)&call = next("popen");
    restore();
    return call(line, mode);
}

SEEN int wordexp(const char *line, wordexp_t *words, int flags)
{
    int (*call)(const char *, wordexp_t *, int);
    *(void **)&call = next("wordexp");
    restore();
    return call(line, words, flags);
}
