/* The layer reads its policy once for a process: so each program has one of its own. What a plain
 * program comes to on the layer is compared with what it comes to on a real ring.
 */
#define _GNU_SOURCE
#include "children.h"
#include "rings.h"
#include "run.h"

#include <errno.h>
#include <signal.h>
#include <stdio.h>
#include <stdlib.h>
#include <string.h>
#include <sys/mman.h>
#include <sys/wait.h>
#include <time.h>
#include <unistd.h>

static char said[4096];

unsigned compared_with_kernel;
bool has_kernel_rings;

const char *last_said(void)
{
    return said;
}

bool look_for_kernel_rings(void)
{
    struct ring ring;
    if (open_ring(&ring, KERNEL, 4, 0, 0) != 0)
        return false;
    close_ring(&ring);
    return true;
}

/* What a child is to leave: where all children write it. */
static struct outcome *shared_outcome(int which)
{
    static struct outcome *outcomes;
    if (!outcomes) {
        outcomes = mmap(
            NULL, 2 * sizeof *outcomes, PROT_READ | PROT_WRITE, MAP_SHARED | MAP_ANONYMOUS, -1, 0);
        if (outcomes == MAP_FAILED)
            abort();
    }
    return &outcomes[which];
}

static void read_said(int file, int status)
{
    ssize_t length = pread(file, said, sizeof said - 1, 0);
    said[length > 0 ? length : 0] = '\0';
    if (WIFSIGNALED(status)) {
        size_t at = strlen(said);
        snprintf(said + at, sizeof said - at, "%s\n",
            WTERMSIG(status) == SIGKILL ? "it hangs" : strsignal(WTERMSIG(status)));
    }
}

/* Waits for a child, and kills it if it takes longer: what loops in the layer has all signals
 * blocked. */
static int wait_for(pid_t child, unsigned seconds)
{
    const struct timespec limit = {seconds, 0};
    sigset_t ended;
    int status = -1;
    sigemptyset(&ended);
    sigaddset(&ended, SIGCHLD);
    while (waitpid(child, &status, WNOHANG) == 0)
        if (sigtimedwait(&ended, NULL, &limit) < 0 && errno == EAGAIN)
            kill(child, SIGKILL);
    return status;
}

static bool run_child(const struct program *program, bool is_kernel, unsigned seconds)
{
    int file = memfd_create("said", 0);
    struct outcome *outcome = shared_outcome(is_kernel);
    sigset_t ended, own;
    sigemptyset(&ended);
    sigaddset(&ended, SIGCHLD);
    sigprocmask(SIG_BLOCK, &ended, &own);
    pid_t child = fork();
    if (child == 0) {
        sigprocmask(SIG_SETMASK, &own, NULL);
        dup2(file, STDERR_FILENO);
        set_environment(program);
        run_program(program, is_kernel, outcome);
        _exit(0);
    }
    int status = child > 0 ? wait_for(child, seconds) : -1;
    if (status != 0)
        read_said(file, status);
    sigprocmask(SIG_SETMASK, &own, NULL);
    close(file);
    return status == 0;
}

/* Whether an entry has one completion or none in both, with the same result. */
static bool is_same(const struct program *program)
{
    const struct outcome *one = shared_outcome(false), *other = shared_outcome(true);
    for (unsigned i = 0; i < program->count; i++)
        if (one->posts[i] != other->posts[i] || one->results[i] != other->results[i]) {
            snprintf(said, sizeof said,
                "random: entry %u has %u completions, the last %d; on a real ring %u, the last %d\n",
                i, one->posts[i], one->results[i], other->posts[i], other->results[i]);
            return false;
        }
    snprintf(said, sizeof said, "random: the files differ from those of a real ring\n");
    return memcmp(one->cells, other->cells, sizeof one->cells) == 0;
}

bool is_right(const struct program *program, unsigned seconds)
{
    said[0] = '\0';
    if (!run_child(program, false, seconds))
        return false;
    if (!program->is_plain || !has_kernel_rings)
        return true;
    compared_with_kernel++;
    return run_child(program, true, seconds) && is_same(program);
}
