/* Requests of io_submit(2), as libaio makes them, where the run has a log: a write and a sync begin
 * before the kernel is given them, and end once the program has taken their events, by
 * io_getevents(2) or from the ring that the kernel shares with it. What the library decides of
 * calls it doesn't know of these: what is logged of them is decided here.
 */
#define _GNU_SOURCE
#include "files.h"
#include "../layer/traces/logging.h"
#include "../layer/process/passing.h"
#include "run.h"

#include <errno.h>
#include <limits.h>
#include <linux/aio_abi.h>
#include <sched.h>
#include <stdatomic.h>
#include <string.h>
#include <sys/syscall.h>
#include <unistd.h>

/* As many requests as Linux has at once, if nobody says otherwise (/proc/sys/fs/aio-max-nr). */
enum { MOST_WAITING = 65536, MOST_CONTEXTS = 64 };

/* What a context's memory begins with; its events follow. `head` is the place of the next event
 * that the program takes. */
#define RING_MAGIC 0xa10a10a1u
struct shared_ring {
    unsigned id, count, head, tail, magic, compatible, incompatible, header_length;
};

/* A context, and the place of the next event of which the log has nothing. */
struct context {
    uint64_t at;
    pid_t process;
    unsigned head;
};

/* A request whose begin is in the log; of no number: none. */
struct waiting {
    uint64_t number, context, entry, file;
    bool fails;
};

static struct {
    _Atomic pid_t holder; /* who has it locked, or 0 */
    _Atomic size_t context_count;
    size_t used; /* places that aren't all free */
    uint64_t last; /* the last request's number */
    struct context contexts[MOST_CONTEXTS];
    struct waiting waiting[MOST_WAITING];
} requests;

static pid_t own_number(void)
{
    return (pid_t)pass(SYS_getpid, 0, 0, 0, 0, 0, 0);
}

/* A signal's handler that comes while it is locked may make such calls too. In a child of a fork it
 * may be locked by a thread that isn't there. */
static void lock_requests(sigset_t *before)
{
    pid_t own = own_number(), holder;
    set_mask(~OPEN_IN_TRAP, before);
    while (holder = 0, !atomic_compare_exchange_weak(&requests.holder, &holder, own)) {
        if (holder != 0 && holder != own &&
            atomic_compare_exchange_weak(&requests.holder, &holder, own))
            return;
        sched_yield();
    }
}

static void unlock_requests(const sigset_t *before)
{
    requests.holder = 0;
    put_mask_back(before);
}

static bool read_ring(uint64_t at, struct shared_ring *ring)
{
    return read_memory((const void *)(uintptr_t)at, ring, sizeof *ring) &&
           ring->magic == RING_MAGIC && ring->count > 0;
}

/* The number of a request that the kernel is about to be given, or 0: there is no room, and its end
 * won't be seen. */
static uint64_t add_waiting(uint64_t context, uint64_t entry, uint64_t file, bool fails)
{
    size_t at = 0;
    while (at < requests.used && requests.waiting[at].number)
        at++;
    if (at == MOST_WAITING)
        return 0;
    uint64_t number = (uint64_t)1 << 63 | ++requests.last;
    requests.waiting[at] = (struct waiting){number, context, entry, file, fails};
    if (at == requests.used)
        requests.used++;
    return number;
}

/* That which was given first, of those of one entry: its memory may have been used again. */
static struct waiting *find_waiting(uint64_t context, uint64_t entry)
{
    struct waiting *found = NULL;
    for (size_t at = 0; at < requests.used; at++) {
        struct waiting *it = requests.waiting + at;
        if (it->number && it->context == context && it->entry == entry &&
            (!found || it->number < found->number))
            found = it;
    }
    return found;
}

static void log_end(struct waiting *it, int64_t result, uint16_t flags)
{
    struct event event = {.kind = EVENT_END,
        .flags = flags,
        .operation = it->number,
        .file = it->file,
        .result = it->fails && result >= 0 ? -EIO : result};
    log_event(&event, NULL, NULL, NULL, 0);
    it->number = 0;
}

/* The next event that the program has taken from a context, and that the log hasn't. It still
 * stands there: whoever gives the kernel a request looks before. */
static bool next_taken(struct context *context, struct io_event *event)
{
    struct shared_ring ring;
    if (!read_ring(context->at, &ring) || context->head == ring.head % ring.count)
        return false;
    const char *events = (const char *)(uintptr_t)context->at + ring.header_length;
    if (!read_memory(events + sizeof *event * context->head, event, sizeof *event))
        return false;
    context->head = (context->head + 1) % ring.count;
    return true;
}

static void log_taken_of(struct context *context)
{
    struct io_event event;
    while (next_taken(context, &event)) {
        struct waiting *it = find_waiting(context->at, event.obj);
        if (it)
            log_end(it, event.res, 0);
    }
}

void log_taken(void)
{
    sigset_t before;
    if (requests.context_count == 0)
        return;
    lock_requests(&before);
    for (size_t i = 0; i < requests.context_count; i++)
        if (requests.contexts[i].process == own_number())
            log_taken_of(requests.contexts + i);
    unlock_requests(&before);
}

/* The context of an address in this process; without one a place for it: a new one, or that of
 * another process, from which this one was forked. */
static struct context *context_of(uint64_t at, pid_t process)
{
    struct context *place = NULL;
    for (size_t i = 0; i < requests.context_count; i++) {
        struct context *it = requests.contexts + i;
        if (it->process == process && it->at == at)
            return it;
        if (it->process != process)
            place = it;
    }
    if (!place && requests.context_count < MOST_CONTEXTS)
        place = requests.contexts + requests.context_count++;
    if (place)
        *place = (struct context){.process = process};
    return place;
}

/* From now on a context's events are looked at. False: they can't be. */
static bool knows_context(uint64_t at)
{
    struct shared_ring ring;
    if (!read_ring(at, &ring))
        return false;
    struct context *it = context_of(at, own_number());
    if (it && it->at != at)
        *it = (struct context){at, it->process, ring.head % ring.count};
    return it;
}

/* What an entry of the program's does, put into an event: false if that isn't logged. */
static bool begin_event(const struct iocb *entry, struct event *event, char path[PATH_ROOM])
{
    int fd = (int)entry->aio_fildes;
    switch (entry->aio_lio_opcode) {
    case IOCB_CMD_PWRITE:
    case IOCB_CMD_PWRITEV:
        if (!is_on_disk(fd, path, &event->file))
            return false;
        event->kind = EVENT_WRITE;
        wulgach_place_write(event, fd, (uint64_t)entry->aio_offset, entry->aio_rw_flags);
        return true;
    case IOCB_CMD_FSYNC:
    case IOCB_CMD_FDSYNC:
        event->kind = EVENT_SYNC;
        event->flags = entry->aio_lio_opcode == IOCB_CMD_FDSYNC ? IS_OF_DATA : 0;
        return wulgach_is_synced_number(fd) && is_on_disk(fd, path, &event->file);
    default:
        return false;
    }
}

/* How many vectors a request has of bytes that it writes, and these: none
 * of what the kernel refuses. */
static size_t read_vectors(const struct iocb *entry, struct iovec vectors[IOV_MAX])
{
    const void *at = (const void *)(uintptr_t)entry->aio_buf;
    if (entry->aio_lio_opcode == IOCB_CMD_PWRITE) {
        vectors[0] = (struct iovec){(void *)(uintptr_t)at, entry->aio_nbytes};
        return 1;
    }
    if (entry->aio_lio_opcode != IOCB_CMD_PWRITEV ||
        !wulgach_seen_may_have_vectors(entry->aio_nbytes) ||
        !read_memory(at, vectors, entry->aio_nbytes * sizeof *vectors))
        return 0;
    return entry->aio_nbytes;
}

static void log_begin(
    struct event *event, const char *path, const struct iocb *entry, uint64_t number)
{
    struct iovec vectors[IOV_MAX];
    size_t count = read_vectors(entry, vectors);
    event->operation = number;
    for (size_t i = 0; i < count; i++)
        event->length = wulgach_seen_length_with(event->length, vectors[i].iov_len);
    log_event(event, path, NULL, vectors, count);
}

/* A request that is logged: it has begun before the kernel has it, and one that the kernel refuses
 * is none. */
static long submit_logged(uint64_t context, uint64_t at, const struct iocb *entry,
    struct event *event, const char *path, uint64_t address)
{
    sigset_t before;
    lock_requests(&before);
    uint64_t number = knows_context(context) ? add_waiting(context, address, event->file,
                                                   event->kind == EVENT_SYNC && fails_now())
                                             : 0;
    unlock_requests(&before);
    if (number)
        log_begin(event, path, entry, number);
    long result = pass(SYS_io_submit, (long)context, 1, (long)at, 0, 0, 0);
    if (number && result != 1) {
        lock_requests(&before);
        struct waiting *it = find_waiting(context, address);
        if (it)
            log_end(it, result, WAS_REFUSED);
        unlock_requests(&before);
    }
    return result;
}

/* Gives the kernel one request, whose address stands here. */
static long submit_one(uint64_t context, uint64_t at)
{
    uint64_t address;
    struct iocb entry;
    struct event event = {0};
    char path[PATH_ROOM];
    if (!read_memory((const void *)(uintptr_t)at, &address, sizeof address) ||
        !read_memory((const void *)(uintptr_t)address, &entry, sizeof entry) ||
        !begin_event(&entry, &event, path))
        return pass(SYS_io_submit, (long)context, 1, (long)at, 0, 0, 0);
    if (event.kind == EVENT_SYNC)
        compare_maps();
    return submit_logged(context, at, &entry, &event, path, address);
}

/* One after the other: the first that is refused ends it. */
static long call_submit(const long words[6])
{
    if (words[1] <= 0)
        return pass(SYS_io_submit, words[0], words[1], words[2], 0, 0, 0);
    for (long i = 0; i < words[1]; i++) {
        long result = submit_one((uint64_t)words[0], (uint64_t)words[2] + (uint64_t)i * 8);
        if (result != 1)
            return i > 0 ? i : result;
    }
    return words[1];
}

/* A sync that is to fail has that result where the program reads it. */
static void tell_failures(uint64_t context, struct io_event *events, long count)
{
    sigset_t before;
    lock_requests(&before);
    for (long i = 0; i < count; i++) {
        const struct waiting *it = find_waiting(context, events[i].obj);
        if (it && it->fails && events[i].res >= 0)
            events[i].res = -EIO;
    }
    unlock_requests(&before);
}

static long call_get_events(const long words[6])
{
    long result = pass(SYS_io_getevents, words[0], words[1], words[2], words[3], words[4], 0);
    if (result > 0)
        tell_failures((uint64_t)words[0], (struct io_event *)words[3], result);
    log_taken();
    return result;
}

/* What runs in a context that goes is waited for, and nobody is told of its end. */
static long call_destroy(const long words[6])
{
    sigset_t before;
    lock_requests(&before);
    for (size_t i = 0; i < requests.context_count; i++)
        if (requests.contexts[i].at == (uint64_t)words[0])
            requests.contexts[i].process = 0;
    for (size_t at = 0; at < requests.used; at++)
        if (requests.waiting[at].context == (uint64_t)words[0])
            requests.waiting[at].number = 0;
    unlock_requests(&before);
    return pass(SYS_io_destroy, words[0], 0, 0, 0, 0, 0);
}

bool is_aio_call(long number)
{
    return number == SYS_io_submit || number == SYS_io_getevents || number == SYS_io_destroy;
}

long serve_aio_call(long number, const long words[6])
{
    return number == SYS_io_submit      ? call_submit(words)
           : number == SYS_io_getevents ? call_get_events(words)
                                        : call_destroy(words);
}
