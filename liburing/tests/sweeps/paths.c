/* Operations of paths in a folder of their own: of no address, empty, of a file, a folder, a link
 * and nothing, with each flag, from folders that are open or aren't. */
#include "sweeps.h"

#include <sys/stat.h>

static char place[] = "/tmp/sweep.XXXXXX", whole[64];

static const struct {
    const char *name, *path;
} paths[] = {{"no address", NULL}, {"an empty path", ""}, {"a file", "file"},
    {"a whole path", whole}, {"a folder", "folder"}, {"a path below a file", "file/x"},
    {"nothing", "nothing"}, {"a link", "link"}};

static const struct {
    const char *name, *path;
    int flags;
} folders[] = {{"here", NULL, AT_FDCWD}, {"a folder", ".", O_RDONLY | O_DIRECTORY},
    {"a folder's path", ".", O_PATH}, {"a file", "file", O_RDONLY}, {"what isn't open", NULL, 999}};

static const struct {
    const char *name;
    uint8_t code;
} operations[] = {{"statx", IORING_OP_STATX}, {"open", IORING_OP_OPENAT},
    {"unlink", IORING_OP_UNLINKAT}, {"mkdir", IORING_OP_MKDIRAT}, {"rename", IORING_OP_RENAMEAT},
    {"link", IORING_OP_LINKAT}, {"symlink", IORING_OP_SYMLINKAT}};

/* Makes what stands in the folder anew. */
static void furnish(void)
{
    static const char *const names[] = {"file", "link", "folder", "nothing", "new"};
    for (unsigned i = 0; i < count_of(names); i++)
        if (unlink(names[i]) != 0)
            rmdir(names[i]);
    close(open("file", O_CREAT | O_WRONLY, 0600));
    check(mkdir("folder", 0700) == 0 && symlink("file", "link") == 0);
}

static void try(
    struct ring *ring, unsigned operation, unsigned folder, unsigned path, unsigned flags)
{
    struct statx told;
    struct seen seen;
    uint8_t code = operations[operation].code;
    bool is_statx = code == IORING_OP_STATX, has_two = code == IORING_OP_RENAMEAT ||
                                                       code == IORING_OP_LINKAT ||
                                                       code == IORING_OP_SYMLINKAT;
    furnish();
    int fd = folders[folder].path ? open(folders[folder].path, folders[folder].flags)
                                  : folders[folder].flags;
    const void *second = is_statx ? (void *)&told : has_two ? "new" : NULL;
    unsigned length = is_statx                                                 ? STATX_BASIC_STATS
                      : code == IORING_OP_RENAMEAT || code == IORING_OP_LINKAT ? (unsigned)fd
                                                                               : 0;
    begin(ring, code, fd, paths[path].path, length, (uintptr_t)second)->statx_flags = flags;
    printf("%s from %s, %s, flags %x:", operations[operation].name, folders[folder].name,
        paths[path].name, flags);
    check(enter(ring, 1, 0, 0) == 1);
    if (!comes(ring, &seen))
        printf(" waits");
    else if (code == IORING_OP_OPENAT && seen.res >= 0) {
        close(seen.res);
        printf(" a descriptor");
    } else
        tell(&seen);
    printf("\n");
    if (folders[folder].path)
        close(fd);
}

int main(void)
{
    static const unsigned flags[] = {0, 1, 2, 4, AT_SYMLINK_NOFOLLOW, AT_REMOVEDIR,
        AT_SYMLINK_FOLLOW, AT_EMPTY_PATH, O_CREAT, O_CREAT | O_EXCL, O_DIRECTORY, O_PATH,
        0x80000000};
    struct ring ring;
    check(mkdtemp(place) && chdir(place) == 0);
    snprintf(whole, sizeof whole, "%s/file", place);
    make_ring(&ring, 8, 0, 0);
    for (unsigned operation = 0; operation < count_of(operations); operation++)
        for (unsigned folder = 0; folder < count_of(folders); folder++)
            for (unsigned path = 0; path < count_of(paths); path++)
                for (unsigned i = 0; i < count_of(flags); i++)
                    try(&ring, operation, folder, path, flags[i]);
    furnish();
    check(unlink("file") == 0 && unlink("link") == 0 && rmdir("folder") == 0 && rmdir(place) == 0);
}
