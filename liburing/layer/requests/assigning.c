/* What a request is carried out on. The kernel finds a file when it begins a request; one that is
 * linked, or drains, or comes after one that does, begins after others, and may use a file that
 * these open.
 */
#define _GNU_SOURCE
#include "operations/openness.h"
#include "operations/operations.h"
#include "operations/polls.h"
#include "operations/trying.h"
#include "process/passing.h"
#include "registered/files.h"
#include "rings/ring.h"
#include "wulgach_setup.h"

#include <fcntl.h>
#include <string.h>
#include <sys/stat.h>
#include <unistd.h>

/* Writes a descriptor, or that of a registered file, which is kept. Returns its fault, or 0. */
static int find_fd(struct ring *ring, int *found, int fd, bool is_registered, struct file **file)
{
    if (is_registered)
        *file = use_file(ring, (uint32_t)fd);
    *found = !is_registered ? fd : *file ? (*file)->fd : -1;
    return wulgach_found_fault(is_registered, *file, fd);
}

/* What the last descriptor was, of those that are asked one right after the other. */
static __thread struct {
    bool is_kept;
    int fd;
    struct wulgach_nature nature;
} asked;

void begin_asking(void)
{
    asked.is_kept = true;
    asked.fd = -1;
}

void end_asking(void)
{
    asked.is_kept = false;
}

/* Asks a descriptor for its name: whether it counts, or tells of signals. */
static void ask_name(int fd, struct wulgach_nature *nature)
{
    char name[MOST_OF_NAME];
    size_t length = name_of_descriptor(fd, name);
    nature->is_counter = wulgach_is_taken_so(
        WULGACH_IS_COUNTER, length > 0, wulgach_is_counter_name((uint8_t *)name, length));
    nature->tells_signals = wulgach_is_signals_name((uint8_t *)name, length);
}

/* Asks a descriptor what it is: nothing, if it isn't open. */
static void ask_status(struct request *request, struct wulgach_nature *nature)
{
    struct stat status;
    if (is_in_memory(request->fd)) {
        wulgach_note_status(nature, true, true, false, 0);
        return;
    }
    bool is_open = pass(SYS_fstat, request->fd, (long)&status, 0, 0, 0, 0) >= 0;
    bool is_polled = is_open && wulgach_asks_polling(status.st_mode, (uint64_t)status.st_blocks) &&
                     can_be_polled(request);
    wulgach_note_status(nature, false, is_open, is_polled, is_open ? status.st_mode : 0);
    if (is_open)
        note_kind(request->fd, nature->is_file);
}

static void ask_access(const struct request *request, struct wulgach_nature *nature)
{
    struct wulgach_directions directions;
    wulgach_directions_of((uint32_t)fcntl(request->fd, F_GETFL), &directions);
    nature->can_read = directions.can_read;
    nature->can_write = directions.can_write;
}

static void ask_status_once(struct request *request, struct wulgach_nature *nature)
{
    if (asked.is_kept && asked.fd == request->fd) {
        *nature = asked.nature;
        return;
    }
    ask_status(request, nature);
    asked.fd = request->fd;
    asked.nature = *nature;
}

/* Asks a descriptor what the library wants to know of it. */
static void ask(struct request *request, uint32_t question, struct wulgach_known *known)
{
    switch (question) {
    case WULGACH_ASK_STATUS:
        ask_status_once(request, &known->nature);
        known->status = true;
        return;
    case WULGACH_ASK_OFFSETS:
        known->nature.has_offsets = has_offsets(request);
        known->offsets = true;
        return;
    default:
        ask_access(request, &known->nature);
        known->access = true;
    }
}

int find_kind(struct request *request)
{
    struct wulgach_trial trial = {
        .length = request->length,
        .was_tried = request->was_tried,
        .was_file = was_file(request->fd),
        .was_in_memory = was_in_memory(request->fd),
        .has_no_devices = has_no_devices(),
        .is_asked_before = is_asked_before(),
    };
    struct wulgach_known known = {0};
    uint32_t kind;
    while ((kind = wulgach_find_kind(submission_of(&request->entry), &trial, &known)) >=
           WULGACH_ASK_STATUS)
        ask(request, kind, &known);
    request->is_tried = kind == WULGACH_KIND_TRIED;
    request->is_tried_at_once = kind == WULGACH_KIND_AT_ONCE;
    request->standing.is_stream = kind == WULGACH_KIND_STREAM;
    request->is_socket = known.nature.is_socket;
    /* (of what wasn't asked, or has a type, the name doesn't matter) */
    if (known.status && !known.nature.has_type &&
        wulgach_asks_name(submission_of(&request->entry), request->length, &known.nature))
        ask_name(request->fd, &known.nature);
    return wulgach_start_fault(
        submission_of(&request->entry), kind == WULGACH_KIND_WRONG, request->length, &known.nature);
}

static int find_buffer(struct ring *ring, struct request *request)
{
    int why = use_buffer(ring, request->needs.buffer, request->vectors, &request->buffer);
    return why < 0 ? fault_of_buffer(request, why) : 0;
}

/* Whether what is needed is open: the file, and of a splice the one that it reads from. */
static bool are_open(const struct request *request)
{
    const struct wulgach_needs *needs = &request->needs;
    return counts_as_open(request->fd, needs->is_registered) &&
           (!needs->needs_second ||
               counts_as_open(request->second_fd, needs->is_second_registered));
}

/* Looks for what is needed. Returns its fault, or 0. */
static int look_for(struct ring *ring, struct request *request, enum wulgach_need need)
{
    const struct wulgach_needs *needs = &request->needs;
    switch (need) {
    case WULGACH_NEEDS_FILE:
        return find_fd(ring, &request->fd, needs->fd, needs->is_registered, &request->file);
    case WULGACH_NEEDS_SECOND:
        return find_fd(ring, &request->second_fd, needs->second_fd, needs->is_second_registered,
            &request->second_file);
    case WULGACH_NEEDS_OPEN:
        return are_open(request) ? 0 : wulgach_missing_fault(WULGACH_NO_FILE);
    case WULGACH_NEEDS_BUFFER:
        return find_buffer(ring, request);
    case WULGACH_NEEDS_POLLING:
        return find_polling(request);
    case WULGACH_NEEDS_KIND:
        return find_kind(request);
    }
    __builtin_unreachable();
}

void assign(struct ring *ring, struct request *request)
{
    request->is_assigned = true;
    request->fd = request->needs.fd;
    for (uint32_t sought = request->needs.sought; sought && request->started == 0;
         sought &= sought - 1)
        request->started = look_for(ring, request, (enum wulgach_need)__builtin_ctz(sought));
}

void assign_in_turn(struct ring *ring, struct request *request)
{
    request->is_due = true;
    wulgach_due_notes(&ring->due, request->number);
}

void assign_before(struct ring *ring, uint64_t number)
{
    const struct requests *requests = &ring->requests;
    struct wulgach_due_span span;
    if (!wulgach_due_before(&ring->due, number, &span))
        return;
    for (size_t place = count_before(requests, span.first);
         place < requests->count && requests->rows[place]->number <= span.last; place++)
        if (requests->rows[place]->is_due && !requests->rows[place]->is_assigned)
            assign(ring, requests->rows[place]);
    wulgach_due_found_before(&ring->due, number);
}
