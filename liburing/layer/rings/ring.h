/* A ring: the memory that the application sees, the core that it mirrors, and what the layer keeps
 * beside them. Shared by all files of the layer.
 */
#ifndef RING_H
#define RING_H

#include "calls/completions.h"
#include "calls/extras.h"
#include "registered/buffers.h"
#include "registered/files.h"
#include "registered/restrictions.h"
#include "requests/directory.h"
#include "requests/requests.h"
#include "rings/memory.h"
#include "waiting/dormant.h"
#include "waiting/pipes.h"
#include "wulgach.h"
#include "wulgach_enter.h"
#include "wulgach_register.h"
#include "wulgach_tables.h"
#include "wulgach_taking.h"
#include "wulgach_times.h"

#include <linux/io_uring.h>
#include <poll.h>
#include <pthread.h>
#include <stdbool.h>
#include <stdio.h>
#include <sys/types.h>

/* A descriptor that a ring's descriptor polls for, and what the library keeps of the requests that
 * wait for it. */
struct watched {
    int fd;
    struct wulgach_watched at;
};

struct ring {
    struct ring *next; /* the rings of this process, the newest first */
    dev_t device; /* the memfd's device and inode: how a descriptor is known as this ring's */
    ino_t inode;
    pid_t process; /* who made it, */
    uint32_t image; /* and by what that is known: a forked child has the memory, and not the core */
    pid_t table_of; /* a thread that has the table of descriptors in which it was made: the first
                       one, if that has it, */
    bool is_table_apart; /* or another, where the first has one of its own */
    uint32_t left; /* what is left undone with it, since a child that a handler has forked is back
                      from its parent's sleep */
    int fd; /* the first descriptor, or the one that was found last: it may be closed, or another
               file's by now */
    int called_fd; /* the one of the call that has its lock, or of the last one */
    int known_fd; /* where closes are heard: one that was open on it after so many of them, */
    uint64_t known_at; /* or 0 */
    int ready_fd; /* an eventfd, if the descriptor polls; or negative: the descriptor is memory */
    uint64_t mark; /* and by what that descriptor is known, or 0: by the eventfd alone */
    bool is_readable; /* the eventfd is set, */
    uint32_t told_posted; /* last when so many completions were posted, in a count that wraps */
    struct watched *watched; /* the streams that the descriptor polls for */
    size_t watched_count;
    bool is_untold; /* it can't tell of one of them */
    uint32_t index; /* its number among the process's rings, from 0 */
    uint32_t flags; /* IORING_SETUP_.. */
    bool has_thread; /* by which the kernel's would take its entries */
    uint32_t calls; /* how many calls are on it: it lives as long. A call begins under the lock of
                       all rings */
    pthread_mutex_t lock; /* held during each call, but not while it sleeps */
    struct sleeper *sleepers; /* the threads that sleep in a call on it */
    struct memory memory;
    struct wulgach_core core;
    bool is_linux; /* which keeps requests by Linux's rules; else by the manual pages' */
    struct requests requests; /* accepted and not ended, */
    struct directory directory; /* and where cancels look for them by user data */
    struct requests running; /* those of them that were started and are looked at: */
    struct dormant dormant; /* the others wait for their descriptors */
    struct requests
        patient; /* where ways are chosen: those of the running ones that may have to wait, */
    struct request **waiting; /* and those of them that have to at a choice, */
    size_t waiting_room; /* with room for so many */
    struct requests issuable; /* those that the core lets start, by Linux's rules, */
    bool knows_issuable; /* if they are known */
    struct wulgach_drains drains; /* which of them drain, */
    bool may_count; /* a timeout with a count has started since none ran, */
    bool is_count_reached; /* and one, maybe, has counted enough */
    struct wulgach_lookout lookout; /* which of the running ones are looked at again, what was
                                       written to pipes, and whether threads that sleep are woken */
    struct requests
        staged; /* staged and not accepted; a word that names no slot has an empty place */
    struct wulgach_entry
        *entries; /* what the core is given of each of them: as many as there are slots */
    uint32_t bad_word; /* the word of the last of them, if that names no slot */
    uint32_t returns; /* how often in a row the choice was to return */
    struct files files; /* registered */
    struct buffers buffers;
    struct group *groups; /* of provided buffers */
    struct pipes pipes; /* that polls wait for */
    struct inbox inbox;
    struct request *unposted; /* a completion of the layer's own that the core was given and refused
                                 memory for, or NULL: it is posted before */
    int32_t unposted_res; /* anything else is submitted or posted, and counts as a message till
                             then; and its result */
    uint32_t head; /* the submission ring's, as the application was told it */
    uint32_t
        own_positions; /* how many positions of the core's submission ring were the layer's own */
    struct wulgach_eventfd telling; /* whether an eventfd is registered, and of what it is told; */
    uint64_t tellings; /* how often one was; */
    bool has_shown; /* what has ended was shown since the call began, or last slept, as nothing
                       could go on; */
    int eventfd; /* then one of the layer's own */
    uint64_t call_number; /* how many calls were made on it, */
    pid_t caller; /* and the thread that has called last */
    struct wulgach_issuer issuer; /* the one thread that may call, or submit, if there is one; and
                                     whether the ring is disabled */
    struct wulgach_strict strict; /* where the layer is strict, or goes by Linux's rules: what it
                                     has seen of its entries */
    struct wulgach_restrictions restrictions;
    uint64_t accepted; /* how many requests were accepted so far, */
    uint64_t begun; /* and how many have started; */
    uint64_t unstarted; /* each with a lesser number has started, or ended */
    uint64_t
        held_before; /* each with a lesser number was given its file to keep, if it was known */
    struct wulgach_due due; /* those that are to find their files in their turn */
    struct completions completions; /* posted and not reaped */
    struct wulgach_held_back held; /* what was posted of the ends of the newest submission */
    struct wulgach_limit waits_until; /* until when the call waits that has its lock, if it does so
                                         for a time at most; */
    bool is_rushed; /* and that is over, by choice, before anything else goes on */
    struct wulgach_times times; /* its time, in nanoseconds, and how many timeouts run: */
    struct wulgach_timeout *timeouts; /* these, */
    size_t timeouts_room; /* and for how many there is room */
    uint64_t origin; /* what the real clock said as its time began */
    bool has_complained; /* that the application stored a wrong head was said */
    bool has_trace; /* whether it is known where steps and answers go: */
    int trace_file; /* there, where trace isn't NULL */
    FILE *trace; /* the line that is being written, in memory; or NULL */
    char *line; /* its letters, once it is flushed, */
    size_t line_length; /* and their number */
};

#endif
