/* The side table of requests: an array of pointers, by rising number. */
#include "requests/requests.h"
#include "process/fault.h"
#include "process/numbers.h"
#include "registered/buffers.h"
#include "registered/files.h"

#include <stdlib.h>
#include <string.h>
#include <unistd.h>

/* The C library's own: for so many bytes it is quicker than what compilers put in its place. */
static void *(*volatile const clear)(void *, int, size_t) = memset;

bool reserve_request(struct requests *requests)
{
    if (requests->kept)
        return true;
    requests->kept = malloc(sizeof *requests->kept);
    if (requests->kept)
        requests->kept->next = NULL;
    return requests->kept;
}

struct request *make_request(struct requests *requests)
{
    if (!reserve_request(requests))
        return NULL;
    struct request *request = requests->kept;
    requests->kept = request->next;
    clear(request, 0, sizeof *request);
    request->epoll = -1;
    return request;
}

void note_fact(struct request *request, enum wulgach_fact fact, int32_t res)
{
    demand(wulgach_course_note(&request->course, fact, res),
        "something happens to a request that can't");
}

const struct wulgach_submission *submission_of(const struct io_uring_sqe *entry)
{
    _Static_assert(
        sizeof(struct wulgach_submission) == sizeof *entry, "an entry has the library's fields");
    return (const void *)entry;
}

struct wulgach_submission *submission_at(struct io_uring_sqe *entry)
{
    return (void *)entry;
}

enum mapping form_of(
    const struct io_uring_sqe *entry, int32_t refusal, bool is_allowed, int32_t *fault)
{
    return (enum mapping)wulgach_form_of(submission_of(entry), refusal, is_allowed, fault);
}

__attribute__((noinline)) static bool make_room(struct requests *requests, size_t more)
{
    size_t need = requests->count + more, gone = (size_t)(requests->rows - requests->at);
    if (2 * need > requests->whole) {
        struct request **at = realloc(requests->at, 2 * need * sizeof *at);
        if (!at)
            return false;
        requests->at = at;
        requests->whole = 2 * need;
    }
    if (gone > 0)
        memmove(requests->at, requests->at + gone, requests->count * sizeof *requests->rows);
    requests->rows = requests->at;
    requests->room = requests->whole;
    return true;
}

bool reserve_requests(struct requests *requests, size_t more)
{
    return requests->count + more <= requests->room || make_room(requests, more);
}

void add_request(struct requests *requests, struct request *request)
{
    requests->rows[requests->count++] = request;
}

size_t count_before(const struct requests *requests, uint64_t number)
{
    size_t low = 0, high = requests->count;
    while (low < high) {
        size_t middle = low + (high - low) / 2;
        if (requests->rows[middle]->number < number)
            low = middle + 1;
        else
            high = middle;
    }
    return low;
}

static bool stands_at(const struct requests *requests, uint64_t number, uint64_t place)
{
    return place < requests->count && requests->rows[place]->number == number;
}

/* Its place, or how many there are: it isn't there. Numbers rise: if none is missing before it, its
 * place is how far its number is from the first. */
static size_t find_place(const struct requests *requests, uint64_t number)
{
    uint64_t distance = requests->count > 0 ? number - requests->rows[0]->number : 0;
    size_t place = stands_at(requests, number, distance) ? (size_t)distance
                                                         : count_before(requests, number);
    return stands_at(requests, number, place) ? place : requests->count;
}

struct request *request_or_none(const struct requests *requests, uint64_t number)
{
    size_t place = find_place(requests, number);
    return place < requests->count ? requests->rows[place] : NULL;
}

size_t place_of(const struct requests *requests, uint64_t number)
{
    size_t place = find_place(requests, number);
    demand(place < requests->count, "the core names a request that isn't outstanding");
    return place;
}

/* The rows before it, or after it, are moved: where there is room on both sides, the fewer. */
size_t insert_request(struct requests *requests, struct request *request)
{
    size_t count = requests->count, place = count;
    if (count > 0 && requests->rows[count - 1]->number > request->number)
        place = count_before(requests, request->number);
    if (place < count - place && requests->rows > requests->at) {
        memmove(requests->rows - 1, requests->rows, place * sizeof *requests->rows);
        requests->rows--;
        requests->room++;
    } else if (place < count) {
        memmove(requests->rows + place + 1, requests->rows + place,
            (count - place) * sizeof *requests->rows);
    }
    requests->rows[place] = request;
    requests->count++;
    return place;
}

struct request *request_of(const struct requests *requests, uint64_t number)
{
    return requests->rows[place_of(requests, number)];
}

void drop_requests(struct requests *requests, size_t count)
{
    requests->rows += count;
    requests->count -= count;
    requests->room -= count;
    if (requests->count == 0) {
        requests->rows = requests->at;
        requests->room = requests->whole;
    }
}

__attribute__((noinline)) static void free_copies(const struct request *request)
{
    if (request->vectors != &request->one)
        free(request->vectors);
    free(request->path);
    free(request->second_path);
    free(request->value);
    free(request->how);
    free(request->time);
}

/* (most have none: one look at all costs less than a call for each) */
static bool has_copies(const struct request *request)
{
    bool has_vectors = request->vectors && request->vectors != &request->one;
    return has_vectors || (uintptr_t)request->path | (uintptr_t)request->second_path |
                              (uintptr_t)request->value | (uintptr_t)request->how |
                              (uintptr_t)request->time;
}

/* Returns whether a file was closed. */
static bool free_parts(const struct request *request)
{
    if (has_copies(request))
        free_copies(request);
    if (request->has_found_pipe)
        close_kept(request->found_pipe, false);
    if (request->is_opened)
        close_kept(request->opened, false);
    if (request->epoll >= 0)
        close(request->epoll);
    bool is_closed = release_file(request->file);
    is_closed |= release_file(request->second_file);
    release_buffer(request->buffer);
    return is_closed;
}

/* The rows on the side that has fewer are moved: after a few that wait, a long chain ends from its
 * beginning on. */
__attribute__((noinline)) static size_t take_from_between(
    struct requests *requests, const struct request *request)
{
    size_t at = place_of(requests, request->number), after = requests->count - at - 1;
    if (at <= after) {
        if (at > 0)
            memmove(requests->rows + 1, requests->rows, at * sizeof *requests->rows);
        drop_requests(requests, 1);
    } else {
        memmove(requests->rows + at, requests->rows + at + 1, after * sizeof *requests->rows);
        requests->count--;
    }
    return at;
}

size_t take_request(struct requests *requests, const struct request *request)
{
    if (requests->count == 0 || requests->rows[0] != request)
        return take_from_between(requests, request);
    drop_requests(requests, 1);
    return 0;
}

bool end_request(struct requests *requests, struct request *request)
{
    take_request(requests, request);
    bool is_closed = free_parts(request);
    request->next = requests->kept;
    requests->kept = request;
    return is_closed;
}

void free_request(struct request *request)
{
    if (!request)
        return;
    free_parts(request);
    /* (one that ends by itself has none any more) */
    release_file(request->duplicate);
    free(request);
}

void free_requests(struct requests *requests)
{
    for (size_t i = 0; i < requests->count; i++)
        free_request(requests->rows[i]);
    for (struct request *kept = requests->kept, *next; kept; kept = next) {
        next = kept->next;
        free(kept);
    }
    forget_requests(requests);
}

void forget_requests(struct requests *requests)
{
    free(requests->at);
    *requests = (struct requests){0};
}
