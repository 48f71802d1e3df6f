/* What is copied of an entry when it is submitted. What it is to the core, which fault its form
 * has, what is copied and which fault that has is the library's decision. */
#define _GNU_SOURCE
#include "operations/openings.h"
#include "operations/operations.h"
#include "operations/polls.h"
#include "operations/sockets.h"
#include "registered/groups.h"
#include "requests/cancels.h"
#include "requests/copying.h"
#include "requests/timeouts.h"

#include <fcntl.h>
#include <linux/openat2.h>
#include <stdlib.h>
#include <string.h>
#include <sys/epoll.h>
#include <sys/socket.h>

/* Copies what stands at an address into memory of its own. */
static int copy_of(void **to, uint64_t from, size_t size)
{
    *to = malloc(size);
    return *to ? copy_in(*to, from, size) : wulgach_missing_fault(WULGACH_NO_MEMORY_OWN);
}

/* Counts their bytes, and returns their fault, or 0. */
static int32_t measure_vectors(struct request *request)
{
    int32_t fault = 0;
    for (uint32_t i = 0; i < request->vector_count; i++) {
        const struct iovec *vector = &request->vectors[i];
        fault = wulgach_vector_fault(submission_of(&request->entry), fault,
            (uintptr_t)vector->iov_base, vector->iov_len, request->vector_count == 1);
        request->length = wulgach_length_with(request->length, vector->iov_len);
    }
    return fault;
}

int copy_vectors(struct request *request, const struct wulgach_piece *piece)
{
    int result = copy_of((void **)&request->vectors, piece->from, piece->size);
    request->vector_count = result < 0 ? 0 : (uint32_t)(piece->size / sizeof *request->vectors);
    return result < 0 ? result : measure_vectors(request);
}

/* A transfer of one buffer becomes one of a single vector. */
static int make_vector(struct request *request, const struct wulgach_piece *buffer)
{
    request->one = (struct iovec){(void *)(uintptr_t)buffer->from, buffer->size};
    request->vectors = &request->one;
    request->length = wulgach_length_with(0, buffer->size);
    request->vector_count = 1;
    return 0;
}

static int copy_time(struct request *request, uint64_t from)
{
    int result = copy_of((void **)&request->time, from, sizeof *request->time);
    return result < 0 ? result : wulgach_time_fault(request->time->tv_sec, request->time->tv_nsec);
}

/* The sizes that the library gives. */
_Static_assert(sizeof(struct iovec) == 16 && sizeof(struct msghdr) == 56 &&
                   sizeof(struct __kernel_timespec) == 16,
    "a piece is as long as it is here");
_Static_assert(sizeof(struct open_how) == 24 && sizeof(struct epoll_event) == 12 &&
                   sizeof(struct sockaddr_storage) == 128,
    "a piece is as long as it is here");

/* Looks at what a structure of an open has after what is known of it, page by page, since what
 * comes after a byte that isn't 0 needn't be there. Returns its fault, or 0. */
static int32_t look_at_rest(uint64_t from, uint64_t end)
{
    enum { PAGE = 4096 };
    static const char zeros[PAGE];
    char page[PAGE];
    bool is_zero = true;
    for (size_t size; (size = wulgach_text_part(from, end - from, !is_zero)) > 0; from += size) {
        int result = copy_in(page, from, size);
        if (result < 0)
            return result;
        is_zero = memcmp(page, zeros, size) == 0;
    }
    return wulgach_how_fault(is_zero);
}

/* A path, or the name of an attribute. */
static int copy_name(const struct request *request, char **to, const struct wulgach_piece *piece)
{
    struct text text;
    int result = copy_text(&text, piece->from, piece->size);
    if (result < 0)
        return result;
    *to = text.letters;
    return wulgach_name_fault(submission_of(&request->entry), piece->what == WULGACH_SECOND_PATH,
        text.length, text.has_end);
}

static int copy_first_path(struct request *request, const struct wulgach_piece *piece)
{
    int result = copy_name(request, &request->path, piece);
    return result < 0 ? result
                      : wulgach_open_fault(submission_of(&request->entry), how_flags(request));
}

/* Copies a piece of what the entry points to. Returns 0, its fault or -ENOMEM. */
static int copy_piece(struct request *request, const struct wulgach_piece *piece)
{
    switch (piece->what) {
    case WULGACH_BUFFER:
        return request->needs.is_of_sockets ? make_message(request, piece)
                                            : make_vector(request, piece);
    case WULGACH_VECTORS:
        return copy_vectors(request, piece);
    case WULGACH_PATH:
        return copy_first_path(request, piece);
    case WULGACH_SECOND_PATH:
        return copy_name(request, &request->second_path, piece);
    case WULGACH_HOW_REST:
        return look_at_rest(piece->from + sizeof *request->how, piece->from + piece->size);
    case WULGACH_HOW:
        return copy_of((void **)&request->how, piece->from, piece->size);
    case WULGACH_TIME:
        return copy_time(request, piece->from);
    case WULGACH_MESSAGE:
        return copy_message(request, piece->from);
    case WULGACH_ADDRESS:
        return copy_address(request, piece->from, piece->size);
    default:
        return copy_of(&request->value, piece->from, piece->size);
    }
}

/* Copies each piece that the library tells, and returns the fault of the entry, or 0, or -ENOMEM.
 */
static int32_t copy_pieces(struct request *request, const struct request *before)
{
    struct wulgach_copied copied = {.has_before = before};
    struct wulgach_piece piece;
    int32_t next;
    if (before)
        copied.before = before->link;
    while ((next = wulgach_next_piece(submission_of(&request->entry), &copied, &piece)) > 0) {
        copied.fault = copy_piece(request, &piece);
        copied.vectors = request->vector_count;
        copied.count++;
    }
    return next;
}

int copy_after(struct request *request, const struct request *before)
{
    const struct wulgach_submission *entry = submission_of(&request->entry);
    struct wulgach_piece buffer;
    wulgach_needs_as(entry, request->mapping, &request->needs);
    /* (nothing is copied of one buffer, and it has no fault) */
    int32_t next = wulgach_one_buffer(entry, &buffer) ? make_vector(request, &buffer)
                                                      : copy_pieces(request, before);
    if (next < 0 && !wulgach_is_own_fault(next))
        return next;
    request->fault = next;
    if (request->needs.selects) /* (of another it is 0) */
        request->wanted = wulgach_wanted_of(entry, request->length);
    /* (without a fault it stays what it is, and so does what it needs) */
    if (next < 0) {
        request->mapping = (enum mapping)wulgach_form_copied(request->mapping, next);
        wulgach_needs_as(entry, request->mapping, &request->needs);
    }
    return 0;
}
