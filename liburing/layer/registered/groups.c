/* A group is a list that requests fill, or a ring in memory of the application's. Which buffer
 * comes next, what is left and what is refused is the library's decision. */
#include "registered/groups.h"
#include "registered/pinning.h"
#include "requests/copying.h"
#include "rings/ring.h"
#include "wulgach_tables.h"

#include <errno.h>
#include <stddef.h>
#include <stdlib.h>
#include <unistd.h>

struct group {
    struct group *next;
    uint16_t id;
    struct wulgach_group kept; /* what becomes of it is the library's: */
    struct wulgach_buffer *rows; /* a list's buffers, */
    uint32_t room; /* and for how many there is room */
    uint64_t ring; /* where the application's ring is */
};

static struct group *find_group(struct ring *ring, uint16_t id)
{
    struct group *group = ring->groups;
    while (group && group->id != id)
        group = group->next;
    return group;
}

/* The group of a number. Where there is none yet, one is made that isn't there for the library;
 * NULL: out of memory. */
static struct group *any_group(struct ring *ring, uint16_t id)
{
    struct group *group = find_group(ring, id);
    if (group || !(group = calloc(1, sizeof *group)))
        return group;
    group->next = ring->groups;
    group->id = id;
    wulgach_group_begin(&group->kept);
    ring->groups = group;
    return group;
}

/* What the library keeps of a group, or of none. */
static struct wulgach_group kept_of(struct ring *ring, uint16_t id)
{
    const struct group *group = find_group(ring, id);
    struct wulgach_group none;
    wulgach_group_begin(&none);
    return group ? group->kept : none;
}

static void drop_group(struct ring *ring, struct group *group)
{
    struct group **at = &ring->groups;
    while (*at != group)
        at = &(*at)->next;
    *at = group->next;
    free(group->rows);
    free(group);
}

void free_groups(struct ring *ring)
{
    while (ring->groups)
        drop_group(ring, ring->groups);
}

static bool make_room(struct group *group, uint32_t more)
{
    uint64_t room = wulgach_group_room(&group->kept, more, group->room);
    if (room == group->room)
        return true;
    struct wulgach_buffer *rows = realloc(group->rows, room * sizeof *rows);
    if (!rows)
        return false;
    group->rows = rows;
    group->room = (uint32_t)room;
    return true;
}

int32_t provide_buffers(struct ring *ring, const struct io_uring_sqe *entry)
{
    struct wulgach_provided provided;
    wulgach_provided_of(submission_of(entry), &provided);
    struct wulgach_buffers asked = {.address = provided.address,
        .length = provided.length,
        .count = provided.count,
        .id = (uint16_t)provided.first};
    struct wulgach_group kept = kept_of(ring, entry->buf_group);
    int32_t fault = wulgach_group_providing_fault(
        &kept, provided.address, provided.length, provided.count, provided.first);
    if (fault < 0)
        return fault;
    struct group *group = any_group(ring, entry->buf_group);
    bool is_provided = group && make_room(group, asked.count) &&
                       wulgach_group_provide(&group->kept, group->rows, group->room, &asked);
    return is_provided ? fault : wulgach_missing_fault(WULGACH_NO_MEMORY_OWN);
}

int32_t remove_buffers(struct ring *ring, const struct io_uring_sqe *entry)
{
    struct group *group = find_group(ring, entry->buf_group);
    struct wulgach_group kept = kept_of(ring, entry->buf_group);
    int32_t fault = wulgach_group_removing_fault(&kept);
    return fault < 0 ? fault
                     : (int32_t)wulgach_group_remove(
                           &group->kept, wulgach_removed_of(submission_of(entry)));
}

/* Reads the argument of a call for a ring that is to be registered, or goes: 0, or its fault. */
static int read_ring(struct io_uring_buf_reg *asked, uint64_t at, uint32_t count, bool goes)
{
    bool is_read = at && count == 1 && copy_in(asked, at, sizeof *asked) == 0;
    _Static_assert(sizeof *asked == sizeof(struct wulgach_ring_form), "the library's structure");
    bool has_reserved = is_read && wulgach_ring_has_reserved((const void *)asked, goes);
    return wulgach_group_argument_fault(count, at != 0, is_read, has_reserved);
}

/* The fault of the form of a ring, by the group that has its number. */
static int form_fault(struct ring *ring, const struct io_uring_buf_reg *asked)
{
    struct wulgach_group kept = kept_of(ring, asked->bgid);
    return wulgach_group_registering_fault(
        &kept, asked->ring_addr, asked->ring_entries, (uint64_t)sysconf(_SC_PAGESIZE));
}

static int pages_fault(const struct io_uring_buf_reg *asked)
{
    struct iovec cells = {
        (void *)(uintptr_t)asked->ring_addr, asked->ring_entries * sizeof(struct io_uring_buf)};
    struct known_memory known = {0};
    int result = pinning_fault(&known, &cells);
    forget_memory(&known);
    return result;
}

static int ring_step(
    struct ring *ring, const struct io_uring_buf_reg *asked, struct group **group, uint32_t step)
{
    switch (step) {
    case WULGACH_RING_FORM:
        return form_fault(ring, asked);
    case WULGACH_RING_PAGES:
        return pages_fault(asked);
    default:
        *group = any_group(ring, asked->bgid);
        return *group ? 0 : wulgach_missing_fault(WULGACH_NO_MEMORY_OWN);
    }
}

/* An empty list goes that a ring is to take the place of. */
static void make_way(struct ring *ring, const struct io_uring_buf_reg *asked)
{
    struct group *group = find_group(ring, asked->bgid);
    if (group && wulgach_group_gives_way(&group->kept, asked->ring_entries))
        drop_group(ring, group);
}

int register_buffer_ring(struct ring *ring, uint64_t at, uint32_t count)
{
    struct io_uring_buf_reg asked;
    int result = read_ring(&asked, at, count, false);
    if (result < 0)
        return result;
    make_way(ring, &asked);
    struct group *group = NULL;
    for (uint32_t steps = wulgach_ring_steps(); steps && result == 0; steps &= steps - 1)
        result = ring_step(ring, &asked, &group, (uint32_t)__builtin_ctz(steps));
    if (result < 0)
        return result;
    group->ring = asked.ring_addr;
    wulgach_group_register(&group->kept, (uint16_t)asked.ring_entries);
    return result;
}

int unregister_buffer_ring(struct ring *ring, uint64_t at, uint32_t count)
{
    struct io_uring_buf_reg asked;
    int result = read_ring(&asked, at, count, true);
    if (result < 0)
        return result;
    struct group *group = find_group(ring, asked.bgid);
    struct wulgach_group kept = kept_of(ring, asked.bgid);
    result = wulgach_group_unregistering_fault(&kept);
    if (result < 0)
        return result;
    wulgach_group_unregister(&group->kept);
    drop_group(ring, group);
    return result;
}

static bool find_in_ring(const struct group *group, struct wulgach_buffer *found)
{
    uint16_t tail = 0, cell;
    struct io_uring_buf buffer = {0};
    bool is_read = copy_in(&tail, group->ring + offsetof(struct io_uring_buf_ring, tail),
                       sizeof tail) == 0;
    if (!wulgach_group_cell(&group->kept, is_read, tail, &cell))
        return false;
    is_read = copy_in(&buffer, group->ring + cell * sizeof buffer, sizeof buffer) == 0;
    struct wulgach_buffer stands = {buffer.addr, buffer.len, buffer.bid};
    return wulgach_group_in_cell(is_read, &stands, found);
}

bool find_provided(struct ring *ring, uint16_t id, struct wulgach_buffer *found)
{
    const struct group *group = find_group(ring, id);
    if (!group)
        return false;
    return wulgach_group_is_ring(&group->kept)
               ? find_in_ring(group, found)
               : wulgach_group_next(&group->kept, group->rows, group->room, found);
}

bool has_buffer_ring(struct ring *ring, uint16_t id)
{
    const struct group *group = find_group(ring, id);
    return group && wulgach_group_is_ring(&group->kept);
}

void take_provided(struct ring *ring, uint16_t id)
{
    wulgach_group_take(&find_group(ring, id)->kept);
}
