/* What an operation gives, and what it does to the files, to the pipe and to the application's
 * memory. */
#define _GNU_SOURCE
#include "model.h"

#include <errno.h>
#include <inttypes.h>
#include <linux/io_uring.h>
#include <poll.h>
#include <string.h>

uint8_t written_byte(unsigned index, uint32_t at)
{
    return (uint8_t)(1 + (index * 37 + at * 11) % 200);
}

uint8_t fed_byte(uint32_t at)
{
    return (uint8_t)(1 + at * 7 % 251);
}

/* ---- transfers ---- */

/* Where a transfer's bytes stand in its file, and how many there are from there on. */
struct place {
    uint8_t *at;
    uint32_t start, length;
};

static struct place place_of(struct model *model, const struct action *action)
{
    struct things *things = model->things;
    if (action->object == CELLS) {
        uint32_t start = action->cell * CELL + (uint32_t)action->offset;
        return (struct place){things->cells, start, sizeof things->cells};
    }
    return (struct place){things->log,
        action->offset < 0 ? things->position : (uint32_t)action->offset, things->log_length};
}

/* The bytes that a read of at most so many gives, at most `most`. */
static uint32_t read_bytes(
    struct model *model, const struct action *action, uint32_t length, uint8_t *bytes)
{
    struct things *things = model->things;
    if (action->object == ZEROS) {
        memset(bytes, 0, length);
        return length;
    }
    if (action->object == PIPE_OUT) {
        uint32_t there = things->written - things->read;
        length = length < there ? length : there;
        memcpy(bytes, things->piped + things->read, length);
        return length;
    }
    struct place place = place_of(model, action);
    uint32_t there = place.start < place.length ? place.length - place.start : 0;
    length = length < there ? length : there;
    memcpy(bytes, place.at + place.start, length);
    return length;
}

/* Puts what was read where the application is to find it, and looks whether it is there. */
static void deliver(
    struct model *model, const struct request *request, const uint8_t *bytes, uint32_t length)
{
    struct vectors *wanted = &model->things->data[request->index];
    for (int i = 0; i < request->action->vectors && length > 0; i++) {
        uint32_t size = request->action->sizes[i] < length ? request->action->sizes[i] : length;
        memcpy(wanted->at[i] + GUARD, bytes, size);
        bytes += size;
        length -= size;
    }
    if (memcmp(wanted, &model->data[request->index], sizeof *wanted) != 0)
        wrong(model, "entry %u has read something else", request->index);
}

static void move_on(struct model *model, const struct action *action, uint32_t moved)
{
    struct things *things = model->things;
    if (action->object == PIPE_OUT)
        things->read += moved;
    if ((action->object == LOG || action->object == OTHER_LOG) && action->offset < 0)
        things->position += moved;
}

static void write_bytes(struct model *model, const struct request *request, uint32_t length)
{
    const struct action *action = request->action;
    struct things *things = model->things;
    if (action->object == ZEROS || length == 0)
        return;
    struct place place = action->object == PIPE_IN
                             ? (struct place){things->piped, things->written, 0}
                             : place_of(model, action);
    for (uint32_t at = 0; at < length; at++)
        place.at[place.start + at] = written_byte(request->index, at);
    if (action->object == PIPE_IN)
        things->written += length;
    else if (action->object != CELLS && things->log_length < place.start + length)
        things->log_length = place.start + length;
}

/* A registered file stays open, whatever is closed: that it isn't there is found out at the start.
 */
bool is_no_file(const struct model *model, const struct action *action)
{
    const struct things *things = model->things;
    if (action->is_registered)
        return false;
    return action->object == NO_FILE || (action->object == OTHER_LOG && things->is_closed) ||
           (action->object == PIPE_IN && things->is_fed_out);
}

static bool has_sockets(const struct model *model)
{
    return model->program->rings[model->ring].has_sockets;
}

/* What a request moves at most: a provided buffer may be smaller than what it asks for. */
static uint32_t most_of(const struct action *action)
{
    uint32_t length = length_of(action);
    return is_selecting(action) && length > PROVIDED_SIZE ? PROVIDED_SIZE : length;
}

/* Puts what was read into the provided buffer that is next, and takes that. A socket that has no
 * more to give takes none. */
static void deliver_provided(
    struct model *model, const struct request *request, const uint8_t *bytes, uint32_t length)
{
    uint8_t buffer = model->queue[0];
    if (length == 0 && is_of_sockets(request->action))
        return;
    memcpy(model->things->provided[buffer], bytes, length);
    memmove(model->queue, model->queue + 1, --model->queue_length);
    model->queue_flags = IORING_CQE_F_BUFFER | (uint32_t)buffer << IORING_CQE_BUFFER_SHIFT;
    if (memcmp(model->things->provided[buffer], model->provided + buffer * PROVIDED_SIZE,
            PROVIDED_SIZE) != 0)
        wrong(model, "entry %u has read something else into a provided buffer", request->index);
}

/* A transfer of the first `length` of its bytes. If `is_done`, it is carried out, else only its
 * result is said. */
static int32_t transfer(
    struct model *model, const struct request *request, uint32_t length, bool is_done)
{
    const struct action *action = request->action;
    uint8_t bytes[MOST_VECTORS * 256];
    if (is_no_file(model, action))
        return -EBADF;
    if (is_of_sockets(action) && !is_stream(model, request))
        return -ENOTSOCK;
    if (is_selecting(action) && model->queue_length == 0)
        return -ENOBUFS;
    if (action->is_impatient && model->things->read == model->things->written &&
        !model->things->is_fed_out)
        return length == 0 ? 0 : -EAGAIN;
    uint32_t moved = is_read(action) ? read_bytes(model, action, length, bytes) : length;
    if (action->flaw == BAD_DATA && moved > 0)
        return -EFAULT;
    if (!is_done)
        return (int32_t)moved;
    if (is_selecting(action))
        deliver_provided(model, request, bytes, moved);
    else if (is_read(action))
        deliver(model, request, bytes, moved);
    else
        write_bytes(model, request, moved);
    move_on(model, action, moved);
    return (int32_t)moved;
}

/* ---- all operations ---- */

static int32_t call_file(struct model *model, const struct action *action, bool is_done)
{
    struct things *things = model->things;
    if (is_no_file(model, action))
        return -EBADF;
    bool is_pipe = action->object == PIPE_OUT || action->object == PIPE_IN;
    switch (action->code) {
    case IORING_OP_CLOSE:
        things->is_closed |= is_done;
        return 0;
    case IORING_OP_FSYNC:
        return is_pipe || action->object == ZEROS ? -EINVAL : 0;
    case IORING_OP_FADVISE:
        return is_pipe && !has_sockets(model) ? -ESPIPE : 0;
    case IORING_OP_SYNC_FILE_RANGE:
        return is_pipe || action->object == ZEROS ? -ESPIPE : 0;
    default:
        break;
    }
    uint32_t end = (uint32_t)action->offset + action->sizes[0];
    if (action->sizes[0] == 0)
        return -EINVAL;
    /* A descriptor for reading alone. */
    if (is_pipe && !has_sockets(model))
        return action->object == PIPE_OUT ? -EBADF : -ESPIPE;
    if (action->object == ZEROS || is_pipe)
        return -ENODEV;
    if (is_done && action->object != CELLS && things->log_length < end)
        things->log_length = end;
    return 0;
}

/* The events of a poll for what can be read. */
static int32_t poll_file(const struct model *model, const struct action *action)
{
    const struct things *things = model->things;
    if (action->object != PIPE_OUT)
        return POLLIN;
    bool has_bytes = things->read < things->written || (things->is_fed_out && has_sockets(model));
    int gone = has_sockets(model) ? POLLHUP | POLLRDHUP : POLLHUP;
    return (has_bytes ? POLLIN : 0) | (things->is_fed_out ? gone : 0);
}

static int32_t result_of(
    struct model *model, const struct request *request, uint32_t length, bool is_done)
{
    if (request->failure != 0)
        return request->failure;
    switch (request->action->code) {
    case IORING_OP_NOP:
        return 0;
    case IORING_OP_TIMEOUT:
        return -ETIME;
    case IORING_OP_LINK_TIMEOUT:
        return request->has_fired ? -ETIME : -ECANCELED;
    case IORING_OP_POLL_ADD:
        return poll_file(model, request->action);
    default:
        break;
    }
    bool is_transfer = is_read(request->action) || is_write(request->action);
    return is_transfer ? transfer(model, request, length, is_done)
                       : call_file(model, request->action, is_done);
}

static int32_t success_of(const struct request *request)
{
    bool is_transfer = is_read(request->action) || is_write(request->action);
    /* (the end of its request cancels it) */
    if (request->action->code == IORING_OP_LINK_TIMEOUT)
        return -ECANCELED;
    return is_transfer ? (int32_t)most_of(request->action) : 0;
}

/* Whether a failure of an operation is a success to links, and is skipped as one is: Linux doesn't
 * mark it, once it is carried out. One with a fault of the program's shows that as if it were,
 * though its descriptor isn't open. */
static bool is_forgiven(const struct model *model, const struct request *request, int32_t res)
{
    const struct action *action = request->action;
    bool is_of_kind = action->code == IORING_OP_FSYNC || action->code == IORING_OP_FALLOCATE ||
                      action->code == IORING_OP_SYNC_FILE_RANGE;
    bool has_found_none = res == -EBADF && is_no_file(model, action);
    return (model->is_linux || model->is_kernel) && is_of_kind && request->failure == 0 &&
           !has_found_none;
}

static bool is_success(const struct model *model, const struct request *request, int32_t res)
{
    if (is_forgiven(model, request, res))
        return true;
    if (request->action->code == IORING_OP_TIMEOUT)
        return res == -ETIME && request->action->is_success;
    if (request->action->code == IORING_OP_LINK_TIMEOUT)
        return true;
    /* A send or a receive of less is a success. */
    return res >= 0 && (is_of_sockets(request->action) || res >= success_of(request));
}

/* ---- faults ---- */

static bool can_have(const struct model *model, const struct request *request, int fault)
{
    const struct action *action = request->action;
    bool is_transfer = (is_read(action) || is_write(action)) && !is_of_sockets(action),
         is_fallocate = action->code == IORING_OP_FALLOCATE;
    if (fault != NO_FAULT && request->failure != 0)
        return false;
    switch (fault) {
    case FAULT_EIO:
        return is_transfer || is_fallocate || action->code == IORING_OP_FSYNC;
    case FAULT_ENOSPC:
        return (is_transfer && is_write(action)) || is_fallocate;
    case FAULT_SHORT:
        return is_transfer && !is_stream(model, request) && length_of(action) > 1;
    default:
        return true;
    }
}

/* The fault that the program's list has for a request. */
static int listed_fault(const struct model *model, const struct request *request)
{
    const struct program *program = model->program;
    long number = request - model->requests;
    for (int i = 0; i < program->fault_count && !model->is_kernel; i++)
        if (program->faults[i].ring == model->layer_index && program->faults[i].number == number &&
            can_have(model, request, program->faults[i].kind))
            return program->faults[i].kind;
    return NO_FAULT;
}

int32_t unseen_result(const struct model *model, const struct request *request)
{
    int fault = is_forgiven(model, request, -EIO) ? listed_fault(model, request) : NO_FAULT;
    /* (where no descriptor is open, a fault alone is skipped) */
    bool has_some = model->program->fault_rate && is_no_file(model, request->action) &&
                    can_have(model, request, FAULT_EIO);
    if (fault == NO_FAULT && has_some && is_forgiven(model, request, -EIO))
        return -EIO;
    return fault == FAULT_EIO ? -EIO : fault == FAULT_ENOSPC ? -ENOSPC : success_of(request);
}

/* Whether the result is that of the request with this fault. */
static bool has_result(struct model *model, const struct request *request, int fault, int32_t res)
{
    uint32_t length = most_of(request->action);
    if (!can_have(model, request, fault))
        return false;
    if (fault == FAULT_EIO || fault == FAULT_ENOSPC)
        return res == (fault == FAULT_EIO ? -EIO : -ENOSPC);
    int32_t whole = result_of(model, request, fault == FAULT_SHORT ? length / 2 : length, false);
    bool is_pipe_read = request->action->object == PIPE_OUT &&
                        (is_read(request->action) || request->action->code == IORING_OP_POLL_ADD) &&
                        whole >= 0;
    /* What comes late may have found less in its pipe, or nothing. */
    bool is_less = res > 0 ? res < whole : request->action->is_impatient && res == -EAGAIN;
    bool is_told = request->may_be_told && res == POLLIN;
    return res == whole || (is_pipe_read && model->is_late && is_less) || is_told;
}

static void carry_out_with(
    struct model *model, const struct request *request, int fault, int32_t res)
{
    uint32_t length = most_of(request->action);
    if (fault == FAULT_EIO || fault == FAULT_ENOSPC || request->action->code == IORING_OP_POLL_ADD)
        return;
    if (fault == FAULT_SHORT)
        length /= 2;
    if (request->action->object == PIPE_OUT && res < 0)
        return;
    if (request->action->object == PIPE_OUT)
        length = (uint32_t)res;
    result_of(model, request, length, true);
}

/* Whether it ends so with one of the faults that it can have. Then it does what it does, and that
 * says whether it is a success. */
static bool is_carried_out(
    struct model *model, const struct request *request, int32_t res, bool *is_done)
{
    int first = listed_fault(model, request),
        last = first == NO_FAULT && model->program->fault_rate && !model->is_kernel ? FAULT_SHORT
                                                                                    : first;
    for (int fault = first; fault <= last; fault++)
        if (has_result(model, request, fault, res)) {
            carry_out_with(model, request, fault, res);
            *is_done = is_success(model, request, res);
            return true;
        }
    return false;
}

/* One that was accepted before its descriptor was closed may have kept the file. A close goes by
 * the number. */
static bool may_have_kept(const struct model *model, const struct request *request)
{
    return request->action->object == OTHER_LOG && request->was_open && model->things->is_closed &&
           request->action->code != IORING_OP_CLOSE;
}

static bool is_carried_out_on_kept(
    struct model *model, const struct request *request, int32_t res, bool *is_done)
{
    model->things->is_closed = false;
    bool is_so = is_carried_out(model, request, res, is_done);
    model->things->is_closed = true;
    return is_so;
}

bool carry_out(struct model *model, const struct request *request, int32_t res)
{
    bool is_done;
    if (is_timeout(request) && request->action->tally && res == 0) {
        if (!may_have_counted(model, request))
            wrong(model, "timeout %u ends before so many completions came", request->index);
        model->call->is_fired = true;
        return true;
    }
    if (is_blocked(model, request))
        wrong(model, "entry %u reads of an empty pipe: %" PRId32, request->index, res);
    if (is_carried_out(model, request, res, &is_done))
        return is_done;
    if (may_have_kept(model, request) && is_carried_out_on_kept(model, request, res, &is_done))
        return is_done;
    wrong(model, "entry %u ends with %" PRId32 ", and is to end with %" PRId32, request->index, res,
        result_of(model, request, length_of(request->action), false));
}
