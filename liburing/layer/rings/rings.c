/* Making rings. Which ones, and with which error others are refused, is the library's decision.
 */
#define _GNU_SOURCE
#include "calls/enter.h"
#include "calls/signals.h"
#include "calls/whole_calls.h"
#include "choices/injection.h"
#include "choices/passing_time.h"
#include "choices/policy.h"
#include "forks/server.h"
#include "operations/openness.h"
#include "operations/trying.h"
#include "process/passing.h"
#include "process/process.h"
#include "registered/enrolling.h"
#include "registered/eventfds.h"
#include "registered/groups.h"
#include "registered/processors.h"
#include "registered/strict.h"
#include "requests/copying.h"
#include "rings/descriptors.h"
#include "rings/locking.h"
#include "rings/profile.h"
#include "rings/reached.h"
#include "rings/readiness.h"
#include "rings/ring.h"
#include "traces/trace.h"
#include "waiting/clock.h"
#include "wulgach_setup.h"
#include "wulgach_tables.h"
#include "wulgach_taking.h"

#include <errno.h>
#include <stdlib.h>
#include <string.h>
#include <sys/mman.h>
#include <sys/stat.h>
#include <unistd.h>

void let_go(struct ring *ring)
{
    wulgach_core_free(&ring->core);
    free_requests(&ring->requests);
    forget_requests(&ring->running);
    forget_requests(&ring->patient);
    forget_requests(&ring->issuable);
    free_requests(&ring->staged);
    free_entries(ring);
    free_completions(&ring->completions);
    free_memory(&ring->memory);
    free_polled(ring);
    free_pipes(&ring->pipes);
    free_dormant(&ring->dormant);
    free_directory(&ring->directory);
    free_files(ring);
    free_buffers(ring);
    free_groups(ring);
    free_inbox(&ring->inbox);
    free_request(ring->unposted);
    unregister_eventfd(ring);
    free(ring->waiting);
    free(ring->timeouts);
}

void end_ring(struct ring *ring)
{
    close_trace(ring);
    pthread_mutex_destroy(&ring->lock);
    free(ring);
}

void free_ring(struct ring *ring)
{
    let_go(ring);
    end_ring(ring);
}

/* What a set-up asks for, by which rules, and what is so of the ring and of the processor that it
 * names. */
static struct wulgach_asked_ring asked_ring(uint32_t entries, const struct io_uring_params *params)
{
    struct wulgach_asked_ring asked = {.entries = entries,
        .cq_entries = params->cq_entries,
        .flags = params->flags,
        .linux_rules = is_profile_linux()};
    asked.has_reserved = wulgach_parameters_have_reserved((const void *)params);
    if (wulgach_asks_processor(params->flags))
        asked.is_online = is_online(params->sq_thread_cpu);
    if (wulgach_asks_shared(params->flags)) {
        struct ring *shared = hold_ring((int)params->wq_fd);
        asked.is_ring = shared || is_ring((int)params->wq_fd);
        asked.is_open = asked.is_ring || is_open_besides((int)params->wq_fd);
        asked.has_thread = shared && shared->has_thread;
        if (shared)
            release_ring(shared);
    }
    return asked;
}

/* Makes the core and what the ring has of it. */
static int fill_ring(struct ring *ring, const struct wulgach_setup *setup,
    struct io_uring_params *params, bool is_polled)
{
    int result = wulgach_core_new(&ring->core, setup);
    if (result < 0)
        return result;
    note_ring();
    if (!make_entries(ring, setup->sq))
        return wulgach_missing_fault(WULGACH_NO_MEMORY_OWN);
    plan_memory(&ring->memory, is_polled, setup->sq, setup->cq, params);
    return is_polled ? make_memory(&ring->memory, -1) : 0;
}

/* Opens the ring's descriptor, and makes the memory that it names. */
static int open_ring(struct ring *ring, bool is_polled)
{
    struct stat status;
    ring->fd = is_polled ? make_polled(ring) : make_file();
    if (ring->fd < 0)
        return ring->fd;
    int result = fstat(ring->fd, &status) < 0 ? -errno : 0;
    if (result == 0 && !is_polled)
        result = make_memory(&ring->memory, ring->fd);
    if (result < 0)
        return result;
    ring->device = status.st_dev;
    ring->inode = status.st_ino;
    show(ring);
    return 0;
}

/* Makes a ring as the parameters say, but its descriptor, and fills them in. */
static int make_ring(
    struct ring **made, uint32_t entries, struct io_uring_params *params, bool is_polled)
{
    struct wulgach_setup sizes;
    struct wulgach_asked_ring asked = asked_ring(entries, params);
    int result = wulgach_set_up(&asked, &sizes);
    if (result < 0)
        return result;
    struct ring *ring = calloc(1, sizeof *ring);
    if (!ring)
        return wulgach_missing_fault(WULGACH_NO_MEMORY_OWN);
    pthread_mutex_init(&ring->lock, NULL);
    make_inbox(&ring->inbox);
    make_files(&ring->files);
    wulgach_table_begin(&ring->buffers.table);
    wulgach_restrictions_none(&ring->restrictions);
    make_pipes(&ring->pipes);
    make_dormant(&ring->dormant);
    wulgach_shown_begin(&ring->completions.at);
    wulgach_drains_begin(&ring->drains);
    wulgach_due_begin(&ring->due);
    wulgach_lookout_begin(&ring->lookout);
    ring->is_linux = sizes.linux_rules;
    ring->ready_fd = -1;
    wulgach_eventfd_begin(&ring->telling);
    ring->fd = -1;
    result = fill_ring(ring, &sizes, params, is_polled);
    if (result < 0) {
        free_ring(ring);
        return result;
    }
    ring->process = this_process();
    ring->image = this_image();
    note_table(ring);
    start_clock(ring);
    ring->flags = params->flags;
    ring->has_thread = wulgach_has_thread(ring->flags);
    wulgach_strict_begin(&ring->strict);
    wulgach_issuer_begin(&ring->issuer, (uint32_t)this_thread(), ring->flags, is_strict());
    params->features = wulgach_features(is_polled);
    *made = ring;
    return 0;
}

/* A set-up that is under way. */
struct making {
    uint32_t entries;
    bool is_polled;
    uint64_t at; /* where its parameters are, */
    struct io_uring_params params; /* and these */
    struct ring *ring; /* once it is made */
};

/* Does what is next of a set-up, and says what that came to: 0, or a fault. */
static int do_stage(struct making *making, uint32_t stage)
{
    switch (stage) {
    case WULGACH_SET_UP_READS:
        return copy_in(&making->params, making->at, sizeof making->params);
    case WULGACH_SET_UP_ASKS:
        return ask_set_up(making->entries, &making->params);
    case WULGACH_SET_UP_MAKES:
        return make_ring(&making->ring, making->entries, &making->params, making->is_polled);
    case WULGACH_SET_UP_TELLS:
        return copy_out(making->at, &making->params, sizeof making->params);
    default:
        return open_ring(making->ring, making->is_polled);
    }
}

/* Frees a ring of which nobody was told, and closes its descriptor, if it has one. */
static void drop_ring(struct ring *ring)
{
    if (ring->fd >= 0)
        close(ring->fd);
    free_ring(ring);
}

/* Makes a ring, and returns its descriptor, or the negative of an error number. */
static int set_up(uint32_t entries, struct io_uring_params *params, bool is_polled)
{
    struct making making = {.entries = entries, .is_polled = is_polled, .at = (uintptr_t)params};
    uint32_t stage = WULGACH_SET_UP_BEGINS;
    int result = 0;
    while ((stage = wulgach_set_up_next(stage, result)) <= WULGACH_SET_UP_OPENS)
        result = do_stage(&making, stage);
    if (stage == WULGACH_SET_UP_DROPS)
        drop_ring(making.ring);
    if (stage != WULGACH_SET_UP_IS_DONE)
        return result;
    int fd = making.ring->fd;
    add_ring(making.ring);
    note_deed(WULGACH_SETS_UP, 0, false);
    return fd;
}

int setup(uint32_t entries, struct io_uring_params *params, bool is_polled)
{
    sigset_t own;
    serve_at_set_up();
    block_signals(&own);
    read_policy();
    read_injection();
    read_passing_time();
    read_handlers();
    read_devices();
    read_trace();
    int result = set_up(entries, params, is_polled);
    allow_signals(&own);
    return result;
}

void *map_file(void *at, size_t size, int protection, int flags, int fd, int64_t offset)
{
    sigset_t own;
    block_signals(&own);
    struct wulgach_mapping asked = {.at = (uintptr_t)at,
        .size = size,
        .offset = (uint64_t)offset,
        .protection = (uint32_t)protection,
        .flags = (uint32_t)flags};
    struct ring *ring = wulgach_names_descriptor(asked.flags) ? lock_ring(fd) : NULL;
    bool is_polled = ring && ring->ready_fd >= 0;
    void *mapped = is_polled ? map_again(&ring->memory, &asked)
                             : map_passing(at, size, protection, flags, fd, offset);
    /* (what is done as the ring is let go may end with an error of its own) */
    int error = errno;
    if (ring)
        unlock_ring(ring);
    allow_signals(&own);
    errno = error;
    return mapped;
}
