/* Who may wait for edges of a ring's descriptor. A kernel's ring sees who polls it. The layer's is
 * an epoll instance, and nothing tells which others have it. So the calls are heard by which
 * somebody begins to wait, where `uring-run` hears them all: of the program itself, by the C
 * library or an instruction of its own, of its requests, and of its forked children, which have its
 * descriptors and share a page with it. Until one is heard nobody waits. A program that is started
 * has no ring's descriptor, unless it is kept open for that (FD_CLOEXEC); so that counts as one who
 * waits, as does a descriptor that may be sent to another process. Elsewhere somebody may wait
 * always, unless WULGACH_EDGES says that nobody does.
 */
#define _GNU_SOURCE
#include "rings/waiters.h"
#include "process/fault.h"
#include "process/passing.h"
#include "rings/reached.h"
#include "wulgach_lookout.h"

#include <errno.h>
#include <pthread.h>
#include <stdlib.h>
#include <string.h>
#include <sys/epoll.h>
#include <sys/ioctl.h>
#include <sys/mman.h>

#define SEEN __attribute__((visibility("default"), externally_visible))
SEEN bool wulgach_share_waiters(void);
SEEN void wulgach_hear_waiters(void);
SEEN bool wulgach_listens_for_waiters(void);
SEEN void wulgach_note_waiter(uint32_t change, int fd);
SEEN void wulgach_note_message(uint64_t control);
SEEN void wulgach_note_start(void);
SEEN void wulgach_note_unheard(void);

/* What a process and its forked children share. */
struct shared {
    bool has_ring; /* one of them has made one with a descriptor that polls, */
    bool is_unmarked; /* and one of these has no mark */
    bool was_heard; /* somebody began to wait, or may have */
};

static struct shared *shared; /* NULL: nothing is told */
static bool are_heard; /* all calls are, in this process */

static bool is_so(const bool *word)
{
    return __atomic_load_n(word, __ATOMIC_SEQ_CST);
}

static void make_so(bool *word)
{
    __atomic_store_n(word, true, __ATOMIC_SEQ_CST);
}

/* Whether who runs the program says that nobody waits. */
static bool is_denied;

static void read_environment(void)
{
    const char *word = getenv("WULGACH_EDGES");
    is_denied = word && strcmp(word, "no") == 0;
    demand(is_denied || !word || !*word || strcmp(word, "yes") == 0, "WULGACH_EDGES is yes or no");
}

void note_polled_ring(uint64_t mark)
{
    static pthread_once_t once = PTHREAD_ONCE_INIT;
    pthread_once(&once, read_environment);
    if (!shared)
        return;
    if (mark == 0)
        make_so(&shared->is_unmarked);
    make_so(&shared->has_ring);
}

/* (what was posted is seen by whoever begins to wait after this) */
bool may_wait_for_edges(void)
{
    bool is_heard = is_so(&are_heard);
    if (is_heard)
        __atomic_thread_fence(__ATOMIC_SEQ_CST);
    return wulgach_may_wait_for_edges(is_denied, is_heard, is_heard && is_so(&shared->was_heard));
}

/* Whether it is of use to hear more: all is heard here, there is a ring, and nobody was heard yet.
 */
static bool listens(void)
{
    return is_so(&are_heard) && is_so(&shared->has_ring) && !is_so(&shared->was_heard);
}

bool may_be_instance(int fd)
{
    uint64_t mark;
    return is_so(&shared->is_unmarked) || pass(SYS_ioctl, fd, GETS_MARK, (long)&mark, 0, 0, 0) >= 0;
}

void note_waiter(uint32_t change, int fd)
{
    if (listens() && wulgach_may_begin_to_wait(change, may_be_instance(fd)))
        make_so(&shared->was_heard);
}

void note_message(uint64_t control)
{
    if (listens() && wulgach_may_hand_on(control))
        make_so(&shared->was_heard);
}

bool is_page_of_waiters(const void *at)
{
    return shared && at == shared;
}

static void *map_page(void *at, int placing)
{
    return map_passing(
        at, sizeof *shared, PROT_READ | PROT_WRITE, MAP_SHARED | MAP_ANONYMOUS | placing, -1, 0);
}

void part_waiters(void)
{
    if (!shared)
        return;
    struct shared known = *shared;
    demand(map_page(shared, MAP_FIXED) == shared, "out of memory");
    *shared = known;
}

/* ---- what `uring-run` tells ---- */

/* As the process begins: its children are to share the page. */
bool wulgach_share_waiters(void)
{
    void *page = map_page(NULL, 0);
    if (page != MAP_FAILED)
        shared = page;
    return shared;
}

/* From here on each call is heard, in this process and in those that it forks. */
void wulgach_hear_waiters(void)
{
    make_so(&are_heard);
}

bool wulgach_listens_for_waiters(void)
{
    return listens();
}

void wulgach_note_waiter(uint32_t change, int fd)
{
    note_waiter(change, fd);
}

void wulgach_note_message(uint64_t control)
{
    note_message(control);
}

/* A program is about to be started. */
void wulgach_note_start(void)
{
    int kept = errno;
    if (listens() && is_instance_kept_open())
        make_so(&shared->was_heard);
    errno = kept;
}

/* Something was done after which calls may be unheard. */
void wulgach_note_unheard(void)
{
    if (listens())
        make_so(&shared->was_heard);
}
