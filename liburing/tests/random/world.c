/* Files, pipe, memory and entries of a ring that runs. */
#define _GNU_SOURCE
#include "world.h"

#include <errno.h>
#include <fcntl.h>
#include <poll.h>
#include <stdlib.h>
#include <string.h>
#include <stddef.h>
#include <sys/eventfd.h>
#include <sys/mman.h>
#include <sys/socket.h>
#include <unistd.h>

/* Each ring's descriptors have numbers of their own, far from those that an open would take. */
enum { FIRST_FD = 200, FDS_OF_RING = 16 };

enum { GROUP = 5, SLOTS = 8 };

enum {
    REFUSED_CODE = 250,
    REFUSED_FLAG = 128,
    REFUSED_PRIORITY = 0x9000,
    BAD_ADDRESS = 8,
    NO_FD = 199
};

/* A descriptor moves to its number. */
static int move(const struct world *world, int fd, int at)
{
    int to = FIRST_FD + (int)world->index * FDS_OF_RING + at;
    if (fd < 0 || dup2(fd, to) != to)
        wrong(&world->model, "no descriptor: %s", strerror(errno));
    close(fd);
    return to;
}

static void make_files(struct world *world)
{
    struct things *things = &world->things;
    int ends[2];
    world->fds[LOG] = move(world, memfd_create("log", 0), LOG);
    world->fds[OTHER_LOG] = move(world, dup(world->fds[LOG]), OTHER_LOG);
    world->fds[CELLS] = move(world, memfd_create("cells", 0), CELLS);
    world->fds[ZEROS] = move(world, open("/dev/zero", O_RDWR), ZEROS);
    world->fds[NO_FILE] = NO_FD;
    bool has_sockets = world->program->rings[world->index].has_sockets;
    if ((has_sockets ? socketpair(AF_UNIX, SOCK_STREAM, 0, ends) : pipe(ends)) != 0)
        wrong(&world->model, "no pipe");
    world->fds[PIPE_OUT] = move(world, ends[0], PIPE_OUT);
    world->fds[PIPE_IN] = move(world, dup(ends[1]), PIPE_IN);
    world->feed = move(world, ends[1], OBJECTS);
    for (size_t at = 0; at < sizeof things->cells; at++)
        things->cells[at] = (uint8_t)(0x21 + at % 90);
    if (pwrite(world->fds[CELLS], things->cells, sizeof things->cells, 0) !=
        (ssize_t)sizeof things->cells)
        wrong(&world->model, "no file");
}

/* ---- what is registered ---- */

bool provide(struct world *world, unsigned buffer)
{
    struct io_uring_buf_ring *ring = world->provided_ring;
    struct model *model = &world->model;
    if (world->is_provided[buffer])
        return false;
    world->is_provided[buffer] = true;
    ring->bufs[ring->tail % SLOTS].addr = (uintptr_t)world->provided[buffer];
    ring->bufs[ring->tail % SLOTS].len = PROVIDED_SIZE;
    ring->bufs[ring->tail % SLOTS].bid = (uint16_t)buffer;
    __atomic_store_n(&ring->tail, (uint16_t)(ring->tail + 1), __ATOMIC_RELEASE);
    model->queue[model->queue_length++] = (uint8_t)buffer;
    return true;
}

void update_files(struct world *world)
{
    struct model *model = &world->model;
    int fd = model->has_file ? -1 : world->fds[OTHER_LOG];
    struct io_uring_files_update update = {.offset = OTHER_LOG, .fds = (uintptr_t)&fd};
    if (fd >= 0 && world->things.is_closed)
        return;
    long result = register_at_ring(&world->ring, IORING_REGISTER_FILES_UPDATE, &update, 1);
    if (result != 1)
        wrong(model, "an update of the files ends with %ld", result);
    model->has_file = fd >= 0;
}

/* The files by their numbers; of the pipe's end that is written none, since it is to be closed. Few
 * of the buffers are provided. */
static void register_all(struct world *world)
{
    struct model *model = &world->model;
    int fds[OBJECTS];
    memcpy(fds, world->fds, sizeof fds);
    fds[NO_FILE] = fds[PIPE_IN] = -1;
    if (world->things.is_closed)
        fds[OTHER_LOG] = -1;
    model->has_file = fds[OTHER_LOG] >= 0;
    struct iovec halves[] = {{world->data, sizeof world->data / 2},
        {world->data + MOST_ACTIONS / 2, sizeof world->data / 2}};
    free(world->provided_ring);
    world->provided_ring = aligned_alloc(4096, 4096);
    memset(world->provided_ring, 0, 4096);
    memset(world->is_provided, 0, sizeof world->is_provided);
    struct io_uring_buf_reg group = {
        .ring_addr = (uintptr_t)world->provided_ring, .ring_entries = SLOTS, .bgid = GROUP};
    long files = register_at_ring(&world->ring, IORING_REGISTER_FILES, fds, OBJECTS),
         buffers = register_at_ring(&world->ring, IORING_REGISTER_BUFFERS, halves, 2);
    long provided = register_at_ring(&world->ring, IORING_REGISTER_PBUF_RING, &group, 1);
    if (files != 0 || buffers != 0 || provided != 0)
        wrong(model, "registering ends with %ld, %ld and %ld", files, buffers, provided);
    for (unsigned buffer = 0; buffer < world->program->seed % PROVIDED; buffer++)
        provide(world, buffer);
}

/* ---- what an eventfd is told ---- */

static void register_telling(struct world *world)
{
    enum telling telling = world->program->rings[world->index].telling;
    world->telling = world->is_silenced = 0;
    if (telling == NO_EVENTFD)
        return;
    world->telling = move(world, eventfd(0, EFD_NONBLOCK), OBJECTS + 1);
    long result = register_at_ring(&world->ring,
        telling == OF_ALL ? IORING_REGISTER_EVENTFD : IORING_REGISTER_EVENTFD_ASYNC,
        &world->telling, 1);
    if (result != 0)
        wrong(&world->model, "registering an eventfd ends with %ld", result);
}

void look_at_telling(struct world *world)
{
    uint64_t told = 0;
    if (!world->telling)
        return;
    if (read(world->telling, &told, sizeof told) < 0 && errno != EAGAIN)
        wrong(&world->model, "the eventfd can't be read");
    judge_told(&world->model, told, world->is_silenced);
}

void silence(struct world *world)
{
    world->is_silenced = !world->is_silenced;
    store_cq_flags(&world->ring, world->is_silenced ? IORING_CQ_EVENTFD_DISABLED : 0);
}

/* The rings that the process has made, which the layer counts. */
static unsigned rings_made;

void make_world_ring(struct world *world)
{
    const struct ring_options *options = &world->program->rings[world->index];
    enum way way = world->is_kernel ? KERNEL : options->is_polled ? LAYER_POLLED : LAYER_MEMORY;
    int result = open_ring(
        &world->ring, way, options->entries, options->completions, options->flags);
    struct model *model = &world->model;
    memset(model, 0, sizeof *model);
    *model = (struct model){.program = world->program,
        .ring = world->index,
        .is_kernel = world->is_kernel,
        .is_linux = !world->is_kernel && !world->program->is_manual,
        .things = &world->things,
        .data = world->data,
        .provided = world->provided[0]};
    model->slack = passes_by_choice(model) ? INT64_MAX : 0;
    if (result < 0)
        wrong(model, "set-up ends with %d", result);
    model->layer_index = rings_made++;
    model->sq_entries = world->ring.params.sq_entries;
    model->cq_entries = world->ring.params.cq_entries;
    uint32_t least = options->completions ? options->completions : 2 * options->entries;
    if (model->sq_entries < options->entries || model->sq_entries >= 2u * options->entries ||
        model->cq_entries < least || model->cq_entries >= 4 * least)
        wrong(model, "the ring has %u and %u entries", model->sq_entries, model->cq_entries);
    if (!tells_sizes(&world->ring))
        wrong(model, "the rings' words tell other sizes");
    free(world->is_used);
    world->is_used = calloc(model->sq_entries, sizeof *world->is_used);
    world->seen = 0;
    if (options->has_registered)
        register_all(world);
    register_telling(world);
}

void make_world(struct world *world)
{
    memset(world->data, BLANK, sizeof world->data);
    for (unsigned index = 0; index < world->program->count; index++) {
        const struct action *action = &world->program->actions[index];
        uint32_t at = 0;
        for (int i = 0; action->kind == PUT && is_write(action) && i < action->vectors; i++)
            for (int byte = 0; byte < action->sizes[i]; byte++)
                world->data[index].at[i][GUARD + byte] = written_byte(index, at++);
    }
    memcpy(world->things.data, world->data, sizeof world->data);
    make_files(world);
    make_world_ring(world);
}

/* ---- entries ---- */

static void write_transfer(struct world *world, struct io_uring_sqe *entry, unsigned index)
{
    const struct action *action = &world->program->actions[index];
    for (int i = 0; i < action->vectors; i++)
        world->vectors[index][i] = (struct iovec){
            world->data[index].at[i] + GUARD, action->sizes[i]};
    entry->addr = (uintptr_t)(is_vectored(action) ? (void *)world->vectors[index]
                                                  : world->data[index].at[0] + GUARD);
    entry->len = is_vectored(action) ? action->vectors : action->sizes[0];
    entry->buf_index = is_in_registered_memory(action) ? action->buffer : 0;
    if (is_selecting(action)) {
        entry->addr = 0;
        entry->buf_group = GROUP;
    }
    if (is_of_sockets(action)) {
        entry->msg_flags = action->is_impatient ? MSG_DONTWAIT : 0;
        return;
    }
    uint64_t start = action->object == CELLS ? action->cell * (uint64_t)CELL : 0;
    entry->off = action->object == PIPE_OUT || action->object == PIPE_IN
                     ? 0
                     : start + (uint64_t)(int64_t)action->offset;
    entry->rw_flags = action->is_impatient ? RWF_NOWAIT : 0;
    if (action->flaw == BAD_DATA)
        entry->addr = BAD_ADDRESS;
}

static void write_timeout(struct world *world, struct io_uring_sqe *entry, unsigned index)
{
    const struct action *action = &world->program->actions[index];
    world->times[index] = (struct __kernel_timespec){
        action->time / 1000000000, action->time % 1000000000};
    if (action->flaw == BAD_TIME)
        world->times[index].tv_sec = -1;
    entry->addr = (uintptr_t)&world->times[index];
    entry->len = 1;
    entry->timeout_flags = action->is_success && action->code == IORING_OP_TIMEOUT
                               ? IORING_TIMEOUT_ETIME_SUCCESS
                               : 0;
    entry->off = action->tally;
}

static void write_flaw(struct io_uring_sqe *entry, enum flaw flaw)
{
    if (flaw == BAD_CODE)
        entry->opcode = REFUSED_CODE;
    else if (flaw == BAD_FLAG)
        entry->flags |= REFUSED_FLAG;
    else if (flaw == BAD_PRIORITY)
        entry->ioprio = REFUSED_PRIORITY;
    else if (flaw == BAD_POINTER)
        entry->addr = BAD_ADDRESS;
}

void write_entry(struct world *world, struct io_uring_sqe *entry, unsigned index)
{
    const struct action *action = &world->program->actions[index];
    memset(entry, 0, sizeof *entry);
    entry->opcode = action->code;
    entry->flags = action->flags;
    entry->user_data = user_data_of(index);
    entry->fd = action->is_registered ? (int)action->object : world->fds[action->object];
    if (action->is_registered)
        entry->flags |= IOSQE_FIXED_FILE;
    if (is_read(action) || is_write(action))
        write_transfer(world, entry, index);
    switch (action->code) {
    case IORING_OP_TIMEOUT:
    case IORING_OP_LINK_TIMEOUT:
        write_timeout(world, entry, index);
        break;
    case IORING_OP_POLL_ADD:
        entry->poll32_events = POLLIN;
        break;
    case IORING_OP_MSG_RING:
        entry->fd = world->others[action->target].ring.fd;
        entry->off = (uint64_t)0x77 << 32 | (MESSAGE + index);
        entry->len = index;
        break;
    case IORING_OP_ASYNC_CANCEL:
    case IORING_OP_POLL_REMOVE:
    case IORING_OP_TIMEOUT_REMOVE:
        entry->fd = action->scope & IORING_ASYNC_CANCEL_FD ? entry->fd : 0;
        entry->addr = action->scope & (IORING_ASYNC_CANCEL_FD | IORING_ASYNC_CANCEL_ANY)
                          ? 0
                          : user_data_of(action->target);
        entry->cancel_flags = action->scope |
                              (action->is_registered && index % 2 ? IORING_ASYNC_CANCEL_FD_FIXED
                                                                  : 0);
        break;
    case IORING_OP_FALLOCATE:
        entry->off = (uint64_t)action->offset;
        entry->addr = action->sizes[0];
        break;
    default:
        break;
    }
    write_flaw(entry, action->flaw);
}

void spoil(struct world *world, uint32_t position)
{
    int32_t slot = world->slots[position], index = world->model.published[position];
    if (slot < 0)
        return;
    world->is_used[slot] = false;
    memset(&world->ring.entries[slot], 0xff, sizeof *world->ring.entries);
    memset(world->vectors[index], 0xff, sizeof world->vectors[index]);
    memset(&world->times[index], 0xff, sizeof world->times[index]);
}

/* ---- the pipe ---- */

void feed(struct world *world, uint32_t count)
{
    struct things *things = &world->things;
    uint8_t *bytes = things->piped + things->written;
    if (world->feed < 0)
        return;
    for (uint32_t at = 0; at < count; at++)
        bytes[at] = fed_byte(things->written + at);
    if (write(world->feed, bytes, count) != (ssize_t)count)
        wrong(&world->model, "the pipe is full");
    things->written += count;
    note_feed(&world->model);
}

/* Sees that bytes that were read are the next of the pipe. */
static void check_read(struct world *world, const uint8_t *found, ssize_t got)
{
    struct things *things = &world->things;
    if (got <= 0 || got > things->written - things->read ||
        memcmp(found, things->piped + things->read, (size_t)got) != 0)
        wrong(&world->model, "the pipe holds something else");
    things->read += (uint32_t)got;
}

void sip(struct world *world, uint32_t count)
{
    uint8_t found[256];
    if (world->things.read == world->things.written)
        return;
    check_read(world, found,
        read(world->fds[PIPE_OUT], found, count < sizeof found ? count : sizeof found));
    note_sip(&world->model);
}

void end_feed(struct world *world)
{
    if (world->feed < 0)
        return;
    close(world->feed);
    close(world->fds[PIPE_IN]);
    world->feed = -1;
    world->things.is_fed_out = true;
}

/* ---- at the end ---- */

static void judge_file(
    const struct world *world, enum object object, const uint8_t *wanted, uint32_t length)
{
    static _Thread_local uint8_t found[MOST_BYTES];
    ssize_t got = pread(world->fds[object], found, sizeof found, 0);
    if (got != (ssize_t)length)
        wrong(&world->model, "%s has %zd bytes at the end, and is to have %u",
            object == LOG ? "the log" : "the cells' file", got, length);
    for (uint32_t at = 0; at < length; at++)
        if (found[at] != wanted[at])
            wrong(&world->model, "byte %u of %s is %u at the end, and is to be %u", at,
                object == LOG ? "the log" : "the cells' file", found[at], wanted[at]);
}

static void judge_pipe(struct world *world)
{
    struct things *things = &world->things;
    uint8_t found[4096];
    end_feed(world);
    while (things->read < things->written)
        check_read(world, found, read(world->fds[PIPE_OUT], found, sizeof found));
    if (read(world->fds[PIPE_OUT], found, 1) != 0)
        wrong(&world->model, "the pipe holds more at the end");
}

void judge_world(struct world *world)
{
    const struct things *things = &world->things;
    judge_file(world, LOG, things->log, things->log_length);
    judge_file(world, CELLS, things->cells, sizeof things->cells);
    judge_pipe(world);
    if (!world->is_kernel && lseek(world->fds[LOG], 0, SEEK_CUR) != things->position)
        wrong(&world->model, "the log's position is another");
    if (memcmp(things->data, world->data, sizeof world->data) != 0)
        wrong(&world->model, "memory was written to that nobody gave");
    bool is_open = fcntl(world->fds[OTHER_LOG], F_GETFD) >= 0;
    if (is_open == things->is_closed)
        wrong(&world->model, "a descriptor is %s at the end", is_open ? "open" : "closed");
    if (memcmp(things->provided, world->provided, sizeof world->provided) != 0)
        wrong(&world->model, "a provided buffer was written to that wasn't taken");
    memcpy(world->outcome->cells[world->index], things->cells, sizeof things->cells);
    close_ring(&world->ring);
}
