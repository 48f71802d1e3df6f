/* What is taken for synced is the library's decision; of anything else the kernel says what it
 * says. */
#define _GNU_SOURCE
#include "operations/syncing.h"
#include "operations/openness.h"
#include "wulgach_logged.h"

#include <pthread.h>
#include <stdlib.h>
#include <string.h>
#include <sys/stat.h>
#include <unistd.h>

static bool is_skipping;

static void read_environment(void)
{
    const char *word = getenv("WULGACH_SYNC");
    is_skipping = word && strcmp(word, "skip") == 0;
}

bool is_taken_for_synced(int fd)
{
    static pthread_once_t once = PTHREAD_ONCE_INIT;
    struct stat about;
    pthread_once(&once, read_environment);
    if (!is_skipping || fstat(fd, &about) < 0)
        return false;
    struct wulgach_openness openness = openness_of(fd);
    struct wulgach_synced_kind kind = {
        .is_regular = S_ISREG(about.st_mode), .is_folder = S_ISDIR(about.st_mode)};
    return wulgach_counts_as_synced(&openness, &kind);
}
