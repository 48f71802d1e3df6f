/* The calls by which somebody may begin to wait for edges of a ring's descriptor
 * (layer/rings/waiters.c): of the program by the C library, and by an instruction of its own, which
 * is trapped (own_calls.c). A descriptor may go to another process too: in a message, or to a
 * program that is started. Code that is loaded once there is a ring may have instructions that
 * aren't trapped.
 */
#define _GNU_SOURCE
#include "files.h"
#include "run.h"

#include <dlfcn.h>
#include <errno.h>
#include <limits.h>
#include <pthread.h>
#include <sched.h>
#include <spawn.h>
#include <stdlib.h>
#include <string.h>
#include <sys/epoll.h>
#include <sys/socket.h>
#include <sys/syscall.h>
#include <unistd.h>

static struct {
    ssize_t (*sendmsg)(int, const struct msghdr *, int);
    int (*sendmmsg)(int, struct mmsghdr *, unsigned, int);
    int (*adddup2)(posix_spawn_file_actions_t *, int, int);
    void *(*dlopen)(const char *, int);
    void *(*dlmopen)(Lmid_t, const char *, int);
} real;

static void find_real(void)
{
    *(void **)&real.sendmsg = dlsym(RTLD_NEXT, "sendmsg");
    *(void **)&real.sendmmsg = dlsym(RTLD_NEXT, "sendmmsg");
    *(void **)&real.adddup2 = dlsym(RTLD_NEXT, "posix_spawn_file_actions_adddup2");
    *(void **)&real.dlmopen = dlsym(RTLD_NEXT, "dlmopen");
    *(void **)&real.dlopen = dlsym(RTLD_NEXT, "dlopen");
}

/* Whether what is heard is told: not where who runs the program says that nobody waits. */
static bool is_told;

__attribute__((constructor)) static void begin(void)
{
    const char *word = getenv("WULGACH_EDGES");
    find_real();
    is_told = (!word || strcmp(word, "no") != 0) && wulgach_share_waiters();
}

/* Another library's constructor may be first. */
static void want_real(void)
{
    if (!real.dlopen)
        find_real();
}

/* The process that has begun to hear, and whether it does. */
static pid_t hearer;
static bool is_begun;

/* Hears, or waits for the thread that begins to. */
static void begin_to_hear(void)
{
    pid_t none = 0, own = getpid();
    if (__atomic_compare_exchange_n(
            &hearer, &none, own, false, __ATOMIC_SEQ_CST, __ATOMIC_SEQ_CST)) {
        if (is_told && trap_own_calls())
            wulgach_hear_waiters();
        __atomic_store_n(&is_begun, true, __ATOMIC_SEQ_CST);
        return;
    }
    /* (a child that was forked amid that doesn't hear) */
    while (none == own && !__atomic_load_n(&is_begun, __ATOMIC_SEQ_CST))
        sched_yield();
}

/* (signals are blocked: a handler that came amid this, and made a ring, would wait for its own
 * thread; and the thread isn't cancelled, for which others would wait) */
void hear_waiters(void)
{
    int before;
    if (__atomic_load_n(&is_begun, __ATOMIC_SEQ_CST))
        return;
    pthread_setcancelstate(PTHREAD_CANCEL_DISABLE, &before);
    begin_to_hear();
    pthread_setcancelstate(before, NULL);
}

/* Calls of the layer, and of this library, go here: those of the program below. */
__attribute__((visibility("hidden"))) int __wrap_epoll_ctl(
    int instance, int change, int fd, struct epoll_event *event)
{
    long result = pass(SYS_epoll_ctl, instance, change, fd, (long)event, 0, 0);
    if (result >= 0)
        return 0;
    errno = (int)-result;
    return -1;
}

SEEN int epoll_ctl(int instance, int change, int fd, struct epoll_event *event)
{
    wulgach_note_waiter((uint32_t)change, fd);
    return __wrap_epoll_ctl(instance, change, fd, event);
}

/* (what can't be read the kernel refuses) */
static void hear_message(const struct msghdr *at)
{
    struct msghdr message;
    int kept = errno;
    if (wulgach_listens_for_waiters() && read_memory(at, &message, sizeof message))
        wulgach_note_message(message.msg_controllen);
    errno = kept;
}

SEEN ssize_t sendmsg(int socket, const struct msghdr *message, int flags)
{
    want_real();
    hear_message(message);
    return real.sendmsg(socket, message, flags);
}

SEEN int sendmmsg(int socket, struct mmsghdr *messages, unsigned count, int flags)
{
    want_real();
    for (unsigned i = 0; i < count && i < IOV_MAX && wulgach_listens_for_waiters(); i++)
        hear_message(&messages[i].msg_hdr);
    return real.sendmmsg(socket, messages, count, flags);
}

/* The copy isn't closed by the program that is started. */
SEEN int posix_spawn_file_actions_adddup2(posix_spawn_file_actions_t *actions, int fd, int number)
{
    want_real();
    wulgach_note_waiter(EPOLL_CTL_ADD, fd);
    return real.adddup2(actions, fd, number);
}

static void hear_loading(const char *path, int mode)
{
    want_real();
    if (path && !(mode & RTLD_NOLOAD))
        wulgach_note_unheard();
}

/* (the loader goes by who has called: these end as jumps) */
SEEN void *dlopen(const char *path, int mode)
{
    hear_loading(path, mode);
    return real.dlopen(path, mode);
}

SEEN void *dlmopen(Lmid_t list, const char *path, int mode)
{
    hear_loading(path, mode);
    return real.dlmopen(list, path, mode);
}
