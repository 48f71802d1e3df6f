/* Reads WULGACH_PROFILE: `linux`, the default, where the core keeps a ring's requests by Linux's
 * rules; or `manual`, by the manual pages'.
 */
#include "rings/profile.h"
#include "process/fault.h"

#include <pthread.h>
#include <stdlib.h>
#include <string.h>

static bool is_linux;

static void read_environment(void)
{
    const char *word = getenv("WULGACH_PROFILE");
    bool is_manual = word && strcmp(word, "manual") == 0;
    demand(is_manual || !word || !*word || strcmp(word, "linux") == 0,
        "WULGACH_PROFILE is linux or manual");
    is_linux = !is_manual;
}

bool is_profile_linux(void)
{
    static pthread_once_t once = PTHREAD_ONCE_INIT;
    pthread_once(&once, read_environment);
    return is_linux;
}
