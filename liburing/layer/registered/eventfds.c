/* The layer has no thread that could tell an eventfd of what goes on while no call is made. So a
 * ring that has one goes on in each call until nothing can without waiting. That, what is refused,
 * and whether one is told is the library's decision.
 */
#define _GNU_SOURCE
#include "registered/eventfds.h"
#include "operations/openness.h"
#include "process/numbers.h"
#include "requests/copying.h"
#include "rings/ring.h"
#include "waiting/glance.h"
#include "wulgach_setup.h"

#include <fcntl.h>
#include <unistd.h>

/* The kernel says what a descriptor is open on, where there is a /proc. */
static bool is_eventfd(int fd)
{
    char name[MOST_OF_NAME];
    size_t length = name_of_descriptor(fd, name);
    return wulgach_is_taken_so(
        WULGACH_IS_EVENTFD, length > 0, wulgach_is_eventfd_name((uint8_t *)name, length));
}

int register_eventfd(struct ring *ring, uint64_t at, bool is_async)
{
    int fd;
    bool is_read = !ring->telling.is_registered && copy_in(&fd, at, sizeof fd) == 0;
    bool is_open = is_read && counts_as_open(fd, false);
    int result = wulgach_eventfd_registering_fault(
        &ring->telling, is_read, is_open, is_open && is_eventfd(fd));
    if (result < 0)
        return result;
    int copy = kept_copy_of(fd);
    if (copy < 0)
        return copy;
    ring->eventfd = copy;
    wulgach_eventfd_register(&ring->telling, is_async);
    return result;
}

int unregister_eventfd(struct ring *ring)
{
    int result = wulgach_eventfd_unregistering_fault(&ring->telling);
    if (result < 0)
        return result;
    close_kept(ring->eventfd, false);
    wulgach_eventfd_unregister(&ring->telling);
    return result;
}

/* Whether its counter takes 1 at once. */
static bool has_room(const struct ring *ring)
{
    struct pollfd at = {.fd = ring->eventfd, .events = POLLOUT};
    return poll_now(&at, 1) > 0 && at.revents & POLLOUT;
}

void tell_eventfd(struct ring *ring, uint64_t told)
{
    uint32_t flags = load_word(&ring->memory.cq->flags);
    bool takes = wulgach_eventfd_tells(&ring->telling, flags) && has_room(ring);
    uint64_t added = wulgach_eventfd_added(&ring->telling, flags, told, takes);
    if (added > 0 && write(ring->eventfd, &added, sizeof added) > 0) {
        ring->tellings++;
        wulgach_lookout_moves(&ring->lookout);
    }
}

bool is_own_eventfd(const struct ring *ring, int fd)
{
    return ring->telling.is_registered && is_same_file(ring->eventfd, fd);
}
