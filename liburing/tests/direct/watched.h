/* What tests share each of which is a process of its own, since it would sleep within the layer, or
 * wait without an end, if that had the bug. */
#ifndef WATCHED_H
#define WATCHED_H

#include "engines.h"
#include "sockets.h"

#include <fcntl.h>
#include <signal.h>
#include <sys/stat.h>
#include <sys/wait.h>

/* Whether a request that is alone ends with this. */
static inline bool ends_with(struct ring *ring, int32_t res)
{
    return enter_for(ring, 1, 200000000) == 0 && reap(ring).res == res;
}

static inline bool is_waiting(struct ring *ring)
{
    return enter_for(ring, 1, 1000) == -ETIME && count_ready(ring) == 0;
}

/* Runs a test as a process, and kills that if it takes too long. */
static inline void run_watched(const struct named *named)
{
    int status;
    test = named->name;
    fflush(stdout);
    pid_t child = fork();
    if (child == 0) {
        named->run();
        exit(0);
    }
    for (int i = 0; i < 1000 * patience(); i++, usleep(10000)) {
        if (waitpid(child, &status, WNOHANG) == child) {
            check(status == 0);
            return;
        }
    }
    kill(child, SIGKILL);
    check(!"it ends in time");
}

static inline int run_all_watched(const struct named *tests, size_t count, const char *name)
{
    for (size_t i = 0; i < count; i++)
        if (!name || strcmp(name, tests[i].name) == 0)
            run_watched(&tests[i]);
    return 0;
}

#endif
