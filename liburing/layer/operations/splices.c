/* Splices and tees are asked not to wait, and again once both descriptors are ready. Which is
 * polled, and for what, is the library's decision. */
#define _GNU_SOURCE
#include "operations/splices.h"
#include "operations/operations.h"
#include "operations/sockets.h"
#include "operations/unwilling.h"
#include "wulgach_waits.h"

#include <fcntl.h>
#include <sys/socket.h>

/* What is polled where what it reads from was found ready, or wasn't. */
static struct pollfd poll_after(const struct request *request, bool is_source_ready)
{
    struct wulgach_splice_poll asked;
    wulgach_splice_polls(is_source_ready, &asked);
    return (struct pollfd){
        .fd = asked.is_of_source ? request->second_fd : request->fd, .events = (short)asked.events};
}

struct pollfd poll_of_splice(const struct request *request)
{
    struct pollfd source = poll_after(request, false);
    return shows_ready(source) ? poll_after(request, true) : source;
}

static struct wulgach_directions directions_of(int fd)
{
    struct wulgach_directions directions;
    wulgach_directions_of((uint32_t)fcntl(fd, F_GETFL), &directions);
    return directions;
}

int32_t result_of_splice(const struct request *request, int32_t came_to)
{
    if (!wulgach_splice_asks_directions(came_to))
        return came_to;
    struct wulgach_directions from = directions_of(request->second_fd),
                              to = directions_of(request->fd);
    return wulgach_splice_result(came_to, &from, &to);
}

bool is_unwilling_splice(const struct request *request)
{
    struct wulgach_splice_poll asked;
    wulgach_splice_polls(shows_ready(poll_after(request, false)), &asked);
    int fd = asked.is_of_source ? request->second_fd : request->fd,
        other = asked.is_of_source ? request->fd : request->second_fd;
    struct wulgach_splice_ends ends = {
        .domain = (uint32_t)option_of(fd, SO_DOMAIN),
        .kind = (uint32_t)option_of(fd, SO_TYPE),
        .waits_to_read = asked.is_of_source,
        .is_pipe = is_pipe(fd),
        .other_is_pipe = is_pipe(other),
        .is_unwilling = is_unwilling(fd),
        .other_is_unwilling = is_unwilling(other),
    };
    return wulgach_splice_isnt_to_wait(submission_of(&request->entry), &ends);
}
