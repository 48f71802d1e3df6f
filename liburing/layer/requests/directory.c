/* A cancel, a removal and an update go by user data, mostly, of which the library decides who is
 * found. Where thousands wait, most of what it would look at has other user data, which it never
 * finds: so these are left out. A ring on which no cancel was made among many pays nothing for it.
 */
#include "requests/directory.h"
#include "rings/ring.h"

#include <stdlib.h>

/* Up to so many are looked at one after the other. */
enum { MOST_IN_ROW = 64 };

void free_directory(struct directory *directory)
{
    free(directory->drawers);
    *directory = (struct directory){0};
}

/* User data are addresses, or small numbers: each bit of them is to count. */
static struct drawer *drawer_of(const struct directory *directory, uint64_t user_data)
{
    uint64_t mixed = user_data * UINT64_C(0x9e3779b97f4a7c15);
    return &directory->drawers[(mixed >> 32) & (directory->room - 1)];
}

static void put_last(struct directory *directory, struct request *request)
{
    struct drawer *drawer = drawer_of(directory, request->entry.user_data);
    request->before = drawer->last;
    request->next = NULL;
    if (drawer->last)
        drawer->last->next = request;
    else
        drawer->first = request;
    drawer->last = request;
    directory->count++;
}

/* Makes it anew, with room for twice as many as are outstanding. If memory is refused, it isn't
 * kept. */
static void make_directory(struct ring *ring)
{
    struct directory *directory = &ring->directory;
    size_t room = 2 * MOST_IN_ROW;
    free_directory(directory);
    while (room < 2 * ring->requests.count)
        room *= 2;
    directory->drawers = calloc(room, sizeof *directory->drawers);
    directory->room = directory->drawers ? room : 0;
    for (size_t i = 0; directory->room > 0 && i < ring->requests.count; i++)
        put_last(directory, ring->requests.rows[i]);
}

/* Puts a request before the first one after it, from the end on: the last one mostly. */
static void put_in_turn(struct directory *directory, struct request *request)
{
    struct drawer *drawer = drawer_of(directory, request->entry.user_data);
    struct request *before = drawer->last;
    while (before && before->number > request->number)
        before = before->before;
    request->before = before;
    request->next = before ? before->next : drawer->first;
    *(request->before ? &request->before->next : &drawer->first) = request;
    *(request->next ? &request->next->before : &drawer->last) = request;
    directory->count++;
}

void put_into_directory(struct ring *ring, struct request *request)
{
    if (ring->directory.room == 0)
        return;
    if (ring->directory.count >= ring->directory.room)
        make_directory(ring);
    else
        put_in_turn(&ring->directory, request);
}

void take_from_directory(struct ring *ring, struct request *request)
{
    struct directory *directory = &ring->directory;
    if (directory->room == 0)
        return;
    struct drawer *drawer = drawer_of(directory, request->entry.user_data);
    *(request->before ? &request->before->next : &drawer->first) = request->next;
    *(request->next ? &request->next->before : &drawer->last) = request->before;
    directory->count--;
}

void rename_in_directory(struct ring *ring, struct request *request, uint64_t user_data)
{
    if (request->entry.user_data == user_data)
        return;
    take_from_directory(ring, request);
    request->entry.user_data = user_data;
    put_into_directory(ring, request);
}

/* ---- seeking ---- */

static bool has_directory(struct ring *ring)
{
    if (ring->directory.room == 0 && ring->requests.count > MOST_IN_ROW)
        make_directory(ring);
    return ring->directory.room > 0;
}

static const struct drawer *drawer_sought(const struct seeking *seeking)
{
    return drawer_of(&seeking->ring->directory, seeking->user_data);
}

static void begin_rank(struct seeking *seeking, uint32_t rank)
{
    bool is_backwards = wulgach_is_newest_first(rank);
    seeking->rank = rank;
    if (seeking->is_by_directory)
        seeking->next = is_backwards ? drawer_sought(seeking)->last : drawer_sought(seeking)->first;
    else
        seeking->place = is_backwards ? seeking->ring->requests.count : 0;
}

void begin_seeking(struct seeking *seeking, struct ring *ring, const struct wulgach_sought *sought)
{
    bool is_named = wulgach_goes_by_user_data(sought);
    *seeking = (struct seeking){.ring = ring,
        .user_data = sought->user_data,
        .is_by_directory = is_named && has_directory(ring)};
    seeking->first = wulgach_first_rank(sought, ring->is_linux);
    begin_rank(seeking, seeking->first);
}

void begin_seeking_named(struct seeking *seeking, struct ring *ring, uint64_t user_data)
{
    begin_seeking(seeking, ring, &(struct wulgach_sought){.user_data = user_data});
}

static struct request *one_on(const struct request *request, bool is_backwards)
{
    return is_backwards ? request->before : request->next;
}

static struct request *next_in_drawer(struct seeking *seeking, bool is_backwards)
{
    struct request *found = seeking->next;
    while (found && found->entry.user_data != seeking->user_data)
        found = one_on(found, is_backwards);
    seeking->next = found ? one_on(found, is_backwards) : NULL;
    return found;
}

static struct request *next_in_row(struct seeking *seeking, bool is_backwards)
{
    const struct requests *requests = &seeking->ring->requests;
    if (seeking->place == (is_backwards ? 0 : requests->count))
        return NULL;
    return requests->rows[is_backwards ? --seeking->place : seeking->place++];
}

static bool is_of_rank(const struct seeking *seeking, const struct request *request)
{
    uint64_t count = wulgach_timeout_count(submission_of(&request->entry));
    return wulgach_rank_from(seeking->first, request->entry.opcode, request->standing.is_stream,
               count) == seeking->rank;
}

/* The next of the rank that is looked at, or NULL. */
static struct request *next_of_rank(struct seeking *seeking)
{
    bool is_backwards = wulgach_is_newest_first(seeking->rank);
    struct request *found;
    do
        found = seeking->is_by_directory ? next_in_drawer(seeking, is_backwards)
                                         : next_in_row(seeking, is_backwards);
    while (found && !is_of_rank(seeking, found));
    return found;
}

struct request *next_sought(struct seeking *seeking)
{
    struct request *found;
    while (!(found = next_of_rank(seeking)) && seeking->rank < WULGACH_LAST_RANK)
        begin_rank(seeking, seeking->rank + 1);
    return found;
}
