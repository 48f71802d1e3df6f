/* That a descriptor isn't to wait is seen by all that share the open file, in this process and in
 * others. So others that the layer runs in may have asked it just now, and may be about to take
 * that back: then a call that goes by it sleeps, or takes it for the application's word. So none
 * does that while another does, which a lock of the process tells (fcntl), of a byte that no file
 * has. A pipe's end that can't be locked, since it can only be read, is opened once more for the
 * call, if there is a /proc; anything else that can't be, or that the application has locked there,
 * is asked without.
 */
#define _GNU_SOURCE
#include "operations/unwilling.h"
#include "operations/means.h"
#include "process/process.h"

#include <errno.h>
#include <fcntl.h>
#include <pthread.h>
#include <sched.h>
#include <stdio.h>
#include <unistd.h>

/* Between two tries of a lock, in microseconds. */
enum { PAUSE = 50 };

static pthread_mutex_t only =
    PTHREAD_MUTEX_INITIALIZER; /* the locks of a process don't keep its threads from each other */

void lock_unwilling(void)
{
    pthread_mutex_lock(&only);
}

void unlock_unwilling(void)
{
    pthread_mutex_unlock(&only);
}

static int32_t set_lock(int fd, short type)
{
    struct flock lock = {
        .l_type = type, .l_whence = SEEK_SET, .l_start = WULGACH_LOCKED_BYTE, .l_len = 1};
    return fcntl(fd, F_SETLK, &lock) < 0 ? -errno : 0;
}

struct wulgach_told_lock ask_lock(int fd, int query, int64_t start, int64_t length)
{
    struct flock lock = {
        .l_type = F_WRLCK, .l_whence = SEEK_SET, .l_start = start, .l_len = length};
    bool is_told = fcntl(fd, query, &lock) >= 0;
    return (struct wulgach_told_lock){
        .start = (uint64_t)lock.l_start,
        .length = (uint64_t)lock.l_len,
        .kind = lock.l_type,
        .process = lock.l_pid,
        .own = this_process(),
        .is_told = is_told,
    };
}

/* Whether another has it by a lock that means something else, as that of a whole file. */
static bool is_of_others(int fd)
{
    struct wulgach_told_lock told = ask_lock(fd, F_GETLK, WULGACH_LOCKED_BYTE, 1);
    return wulgach_is_lock_of_others(&told);
}

/* Whether the process has it by a lock of the application's, which ours would take off there. */
static bool is_of_application(int fd)
{
    struct wulgach_told_lock told = ask_lock(fd, F_OFD_GETLK, WULGACH_LOCKED_BYTE, 1);
    return wulgach_is_own_lock(&told);
}

/* Does for the lock what the library says. Returns whether it is to be given back. */
static bool lock_file(int fd)
{
    struct wulgach_locked locked = {.is_of_application = is_of_application(fd)};
    uint32_t next;
    while ((next = wulgach_locking_next(&locked)) < WULGACH_LOCKING_HOLDS) {
        if (next == WULGACH_LOCKING_YIELDS)
            sched_yield();
        else if (next == WULGACH_LOCKING_PAUSES)
            usleep(PAUSE);
        locked.came_to = set_lock(fd, F_WRLCK);
        locked.is_of_others = locked.came_to < 0 && is_of_others(fd);
        locked.tries++;
    }
    return next == WULGACH_LOCKING_HOLDS;
}

/* A descriptor that is asked, or none. */
struct asked {
    int fd;
    bool is_changed, is_locked;
};

static struct asked ask_not_to_wait(int fd)
{
    struct asked asked = {.fd = fd};
    if (fd < 0)
        return asked;
    asked.is_locked = lock_file(fd);
    int flags = fcntl(fd, F_GETFL);
    uint32_t unwilling;
    asked.is_changed = wulgach_asked_flags(flags >= 0, (uint32_t)flags, &unwilling) &&
                       fcntl(fd, F_SETFL, (int)unwilling) >= 0;
    return asked;
}

/* (most were asked by the application, or aren't asked: those aren't looked at again) */
static void take_back(struct asked asked)
{
    int flags = asked.is_changed ? fcntl(asked.fd, F_GETFL) : -1;
    uint32_t after;
    if (wulgach_flags_after(asked.is_changed, flags >= 0, (uint32_t)flags, &after))
        fcntl(asked.fd, F_SETFL, (int)after);
    if (asked.is_locked)
        set_lock(asked.fd, F_UNLCK);
}

int32_t make_unwilling_call(const struct wulgach_system_call *call, int fd, int second_fd)
{
    lock_unwilling();
    struct asked first = ask_not_to_wait(fd), second = ask_not_to_wait(second_fd);
    int32_t res = make_call(call);
    take_back(second);
    take_back(first);
    unlock_unwilling();
    return res;
}

/* A descriptor on what is open by this one, which is opened once more and isn't to wait, and which
 * nobody else has; or -1. */
static int open_anew(int fd)
{
    char name[sizeof "/proc/thread-self/fd/" + 11];
    uint32_t flags;
    int access = fcntl(fd, F_GETFL);
    if (access < 0 || !wulgach_asks_anew(is_pipe(fd), (uint32_t)access & O_ACCMODE, &flags))
        return -1;
    snprintf(name, sizeof name, "/proc/thread-self/fd/%d", fd);
    return open(name, (int)flags);
}

int32_t make_unwilling_transfer(const struct wulgach_system_call *call, int fd)
{
    lock_unwilling();
    int anew = open_anew(fd);
    struct wulgach_system_call other = *call;
    other.first = (uint64_t)anew;
    int32_t res = anew >= 0 ? make_call(&other) : 0;
    if (anew >= 0)
        close(anew);
    unlock_unwilling();
    return anew >= 0 ? res : make_unwilling_call(call, fd, -1);
}

bool is_pipe(int fd)
{
    return fcntl(fd, F_GETPIPE_SZ) >= 0;
}

static bool says_not_to_wait(int fd)
{
    int flags = fcntl(fd, F_GETFL);
    return flags >= 0 && flags & O_NONBLOCK;
}

/* (most wait: these aren't locked) */
bool is_unwilling(int fd)
{
    if (!says_not_to_wait(fd))
        return false;
    lock_unwilling();
    bool is_locked = lock_file(fd);
    bool is_so = says_not_to_wait(fd);
    if (is_locked)
        set_lock(fd, F_UNLCK);
    unlock_unwilling();
    return is_so;
}
