/* Whether an open is asked not to wait, and that of a named pipe waits all the same, is the
 * library's decision. No descriptor tells that the other end was opened: so a sleep naps for such a
 * request. */
#define _GNU_SOURCE
#include "operations/openings.h"
#include "calls/signals.h"
#include "operations/means.h"
#include "operations/operations.h"
#include "process/numbers.h"
#include "waiting/glance.h"
#include "wulgach_openings.h"

#include <errno.h>
#include <fcntl.h>
#include <linux/openat2.h>
#include <stdio.h>
#include <sys/stat.h>
#include <sys/syscall.h>
#include <unistd.h>

uint64_t how_flags(const struct request *request)
{
    return request->how ? request->how->flags : 0;
}

/* The call, asked not to wait. */
static int32_t open_unwilling(const struct request *request, struct wulgach_system_call call)
{
    struct open_how how;
    if (request->how) {
        how = *request->how;
        how.flags = wulgach_unwilling_flags(how.flags);
        call.third = (uintptr_t)&how;
    } else {
        call.third = wulgach_unwilling_flags(call.third);
    }
    return make_call(&call);
}

static struct wulgach_how how_of(const struct request *request)
{
    const struct open_how *how = request->how;
    return how ? (struct wulgach_how){how->flags, how->mode, how->resolve}
               : (struct wulgach_how){0};
}

/* Opens a path so, by the call that its request asks for. Returns a descriptor, or -1. */
static int open_so(
    const struct request *request, int folder, const char *path, const struct wulgach_how *so)
{
    struct open_how how = {.flags = so->flags, .mode = so->mode, .resolve = so->resolve};
    return request->how ? (int)syscall(SYS_openat2, folder, path, &how, sizeof how)
                        : openat(folder, path, (int)how.flags, (mode_t)how.mode);
}

/* Looks a path up, as its open does: a descriptor of what it names, for that alone, or -1. */
static int look_up(const struct request *request)
{
    struct wulgach_how how = how_of(request), looking;
    wulgach_looking_how(submission_of(&request->entry), &how, &looking);
    return open_so(request, request->entry.fd, request->path, &looking);
}

void look_for_pipe(struct request *request)
{
    struct stat status;
    block_signals_before(WULGACH_DOES_LOOK_UP, false, false);
    int fd = look_up(request);
    request->has_found_pipe = fd >= 0 && fstat(fd, &status) == 0 && S_ISFIFO(status.st_mode);
    if (request->has_found_pipe) {
        request->found_pipe = moved_high(fd);
        keep_for_later(request->found_pipe);
    } else if (fd >= 0) {
        close(fd);
    }
    request->fd = wulgach_standing_after_path(
        &request->standing, request->fd, request->has_found_pipe);
}

static struct wulgach_how found_how_of(const struct request *request)
{
    struct wulgach_how how = how_of(request), found;
    wulgach_found_how(submission_of(&request->entry), &how, &found);
    return found;
}

/* Opens the pipe that was found, by its link in /proc. */
static int32_t open_found(const struct request *request)
{
    char name[40];
    struct wulgach_how found = found_how_of(request);
    snprintf(name, sizeof name, "/proc/thread-self/fd/%d", request->found_pipe);
    int fd = open_so(request, AT_FDCWD, name, &found);
    return fd < 0 ? -errno : fd;
}

/* What a tee comes to of it, which takes nothing out. False: no pipe can be made for that. */
static bool tee_now(int fd, int32_t *came)
{
    int ends[2];
    if (pipe2(ends, O_CLOEXEC) < 0)
        return false;
    *came = (int32_t)tee(fd, ends[1], 1, SPLICE_F_NONBLOCK);
    close(ends[0]);
    close(ends[1]);
    return true;
}

/* Whether someone has what is read open to write, or has had since it was opened. */
static bool has_writer(int fd)
{
    struct pollfd at = {.fd = fd, .events = POLLIN};
    int32_t teed = 0;
    bool shows = poll_now(&at, 1) > 0, knows = !shows && tee_now(fd, &teed);
    return wulgach_has_writer(shows, knows, teed);
}

/* Takes back that a file isn't to wait, if one was opened. */
static void let_wait(int32_t fd)
{
    int flags = fd >= 0 ? fcntl(fd, F_GETFL) : -1;
    uint32_t after;
    if (wulgach_flags_after(fd >= 0, flags >= 0, (uint32_t)flags, &after))
        fcntl(fd, F_SETFL, (int)after);
}

/* Opens a path by this call, which is asked not to wait. Returns its descriptor, or the negative of
 * an error number. */
static int32_t open_at_once(const struct request *request, const struct wulgach_system_call *call)
{
    int32_t fd = open_unwilling(request, *call);
    if (wulgach_opens_again(fd))
        return make_call(call);
    let_wait(fd);
    return fd;
}

/* Does what the library said is next, and says what that came to. */
static int32_t open_further(
    struct request *request, const struct wulgach_system_call *call, uint32_t step)
{
    if (step == WULGACH_OPENING_ASKS_WRITER)
        return has_writer(request->opened);
    int32_t fd = step == WULGACH_OPENING_BY_LINK ? open_found(request)
                                                 : open_unwilling(request, *call);
    request->is_opened = fd >= 0;
    request->opened = fd;
    return fd;
}

/* What is next after the last step, which came to this, or with what it ends. */
static uint32_t next_step(const struct request *request, uint32_t last, int32_t *res)
{
    int32_t opened = request->is_opened ? request->opened : -1;
    return wulgach_opening_next(
        submission_of(&request->entry), how_flags(request), opened, last, *res, res);
}

/* Gives what was opened to the application, or closes what it ends without. */
static void let_pipe_go(struct request *request, int32_t res, bool was_kept)
{
    request->is_opened = false;
    if (res != request->opened) {
        close_kept(request->opened, false);
        return;
    }
    if (was_kept)
        give_to_application(res, request->closes_on_exec);
    let_wait(res);
}

/* Opens the pipe that was found. Returns the same, or WOULD_WAIT. */
static int32_t open_pipe(struct request *request, const struct wulgach_system_call *call)
{
    bool was_kept = request->is_opened;
    int32_t res = 0;
    uint32_t *step = &request->opening;
    while ((*step = next_step(request, *step, &res)) > WULGACH_OPENING_WAITS)
        res = open_further(request, call, *step);
    if (*step == WULGACH_OPENING_WAITS) {
        if (request->is_opened && !was_kept)
            request->closes_on_exec = keep_for_later(request->opened);
        return WOULD_WAIT;
    }
    if (request->is_opened)
        let_pipe_go(request, res, was_kept);
    return res;
}

int32_t open_by(struct request *request, const struct wulgach_system_call *call, uint32_t way)
{
    return way == WULGACH_OPENS_PIPE ? open_pipe(request, call) : open_at_once(request, call);
}
