/* What an operation needs, whether it has to wait, and what becomes of a try: with what the manual
 * pages call for, written by hand. */
#include "demand.h"
#include "wulgach_lookout.h"
#include "wulgach_tries.h"
#include "wulgach_waits.h"

#include <errno.h>
#include <stdio.h>
#include <stdlib.h>

enum {
    NOP,
    READV,
    WRITEV,
    FSYNC,
    READ_FIXED,
    WRITE_FIXED,
    POLL_ADD,
    TIMEOUT = 11,
    ACCEPT = 13,
    CONNECT = 16,
    CLOSE = 19,
    FILES_UPDATE,
    READ = 22,
    WRITE,
    SEND = 26,
    RECV,
    SPLICE = 30,
    TEE = 33,
    SEND_ZC = 47
};

static struct wulgach_needs needs(struct wulgach_submission entry)
{
    struct wulgach_needs made;
    wulgach_needs_of(&entry, &made);
    return made;
}

#define NEEDS(...) needs((struct wulgach_submission){__VA_ARGS__})

static void look_at_needs(void)
{
    demand(!NEEDS(.opcode = NOP).needs_file && NEEDS(.opcode = READ).needs_file &&
               NEEDS(.opcode = FSYNC).needs_file && !NEEDS(.opcode = 18).needs_file,
        "a file");
    demand(NEEDS(.opcode = READ, .flags = 1).is_registered && !NEEDS(.opcode = READ).is_registered,
        "a registered file");
    demand(NEEDS(.opcode = SPLICE, .op_flags = 1u << 31).is_second_registered &&
               NEEDS(.opcode = TEE).needs_second && !NEEDS(.opcode = READ).needs_second,
        "a second file");
    demand(NEEDS(.opcode = READ, .fd = 7).fd == 7 && NEEDS(.opcode = READ, .fd = -1).fd == -1 &&
               NEEDS(.opcode = NOP, .fd = 5).fd == 5 &&
               NEEDS(.opcode = SPLICE, .fd = 3, .file_index = 4).fd == 3,
        "which file");
    demand(NEEDS(.opcode = SPLICE, .fd = 3, .file_index = 4).second_fd == 4 &&
               NEEDS(.opcode = TEE, .file_index = UINT32_MAX).second_fd == -1,
        "which second file");
    demand(NEEDS(.opcode = READ_FIXED, .buf_index = 65535).buffer == 65535 &&
               NEEDS(.opcode = NOP, .buf_index = 2).buffer == 2 &&
               NEEDS(.opcode = SEND_ZC, .buf_index = 3).buffer == 3,
        "which buffer");
    demand(NEEDS(.opcode = READ_FIXED).uses_buffer &&
               NEEDS(.opcode = SEND_ZC, .ioprio = 4).uses_buffer &&
               !NEEDS(.opcode = SEND_ZC, .ioprio = 1).uses_buffer &&
               !NEEDS(.opcode = READ).uses_buffer,
        "a buffer");
    demand(NEEDS(.opcode = READ, .flags = 32).selects && NEEDS(.opcode = TIMEOUT).is_timeout &&
               !NEEDS(.opcode = 15).is_timeout,
        "a provided buffer, a timeout");
    demand(NEEDS(.opcode = POLL_ADD, .len = 1, .op_flags = 1).goes_on &&
               !NEEDS(.opcode = POLL_ADD, .len = 1, .op_flags = 1u << 30 | 1).goes_on &&
               NEEDS(.opcode = ACCEPT, .ioprio = 1).goes_on &&
               NEEDS(.opcode = RECV, .ioprio = 2).goes_on &&
               !NEEDS(.opcode = RECV, .ioprio = 1).goes_on &&
               !NEEDS(.opcode = READ, .len = 1).goes_on,
        "one that goes on");
    demand(!NEEDS(.opcode = NOP).can_make_ready && NEEDS(.opcode = WRITE).can_make_ready &&
               !NEEDS(.opcode = POLL_ADD).can_make_ready,
        "what makes ready");
    demand(NEEDS(.opcode = READV).is_read && NEEDS(.opcode = WRITE).is_write &&
               !NEEDS(.opcode = WRITE).is_read && !NEEDS(.opcode = FSYNC).is_write &&
               NEEDS(.opcode = READ).is_read,
        "reads and writes");
    demand(NEEDS(.opcode = POLL_ADD).is_poll && NEEDS(.opcode = CONNECT).is_of_sockets &&
               !NEEDS(.opcode = SPLICE).is_of_sockets && NEEDS(.opcode = SEND_ZC).is_zero_copy &&
               !NEEDS(.opcode = SEND).is_zero_copy,
        "other kinds");
    demand(NEEDS(.opcode = RECV, .ioprio = 2).is_receive &&
               !NEEDS(.opcode = RECV, .ioprio = 2).fills_buffer &&
               NEEDS(.opcode = 10, .ioprio = 2).fills_buffer && !NEEDS(.opcode = 10).fills_buffer,
        "receives");
    demand(NEEDS(.opcode = POLL_ADD, .op_flags = 0x10005).events == 0x203d &&
               NEEDS(.opcode = READ).events == 1 && NEEDS(.opcode = CONNECT).events == 4 &&
               NEEDS(.opcode = NOP).events == 0,
        "events");
}

/* Which entries of a call may change slots, as each is seen in turn. */
static void see_changes(void)
{
    static const struct {
        uint8_t opcode;
        uint32_t slot;
        bool changes;
    } rows[] = {
        {CLOSE, 1, true},
        {CLOSE, 0, false},
        {FILES_UPDATE, 0, true},
        {READ, 1, false},
        {18, 1, true},
        {28, 1, true},
        {ACCEPT, 1, true},
        {45, 1, true},
        {18, 0, false},
        {40, 1, false},
    };
    for (size_t i = 0; i < sizeof rows / sizeof *rows; i++) {
        struct wulgach_changes changes;
        wulgach_changes_begin(&changes);
        demand(!changes.may_change_slots, "no entry");
        wulgach_changes_see(&changes,
            &(struct wulgach_submission){.opcode = rows[i].opcode, .file_index = rows[i].slot});
        demand(changes.may_change_slots == rows[i].changes, "who changes slots");
        wulgach_changes_see(&changes, &(struct wulgach_submission){.opcode = READ});
        demand(changes.may_change_slots == rows[i].changes, "one before has changed them");
    }
}

static void need_as_told(void)
{
    struct wulgach_submission read = {.opcode = READ, .fd = 3, .buf_index = 4};
    struct wulgach_needs token, cancel, refused;
    wulgach_needs_as(&read, WULGACH_FORM_TOKEN, &token);
    wulgach_needs_as(&read, WULGACH_FORM_CANCEL, &cancel);
    wulgach_needs_as(&read, WULGACH_FORM_REFUSED, &refused);
    demand(token.needs_file && token.is_read && token.sought == 33 && token.fd == 3 &&
               token.buffer == 4,
        "a token");
    demand(!cancel.needs_file && cancel.sought == 0 && !refused.is_read && refused.events == 0 &&
               refused.fd == 0 && refused.second_fd == 0 && cancel.buffer == 0,
        "what is no token needs nothing");
    demand(wulgach_counts_as_ready(1, 1) && !wulgach_counts_as_ready(0, 0) &&
               wulgach_counts_as_ready(-1, 0) && !wulgach_counts_as_ready(2, 0),
        "what a poll tells");
}

static void find_files(void)
{
    struct wulgach_drains drains;
    struct wulgach_chain chain;
    struct wulgach_member first = {.number = 4, .chain = 4},
                          second = {.number = 5, .chain = 4, .is_linked = true};
    wulgach_drains_begin(&drains);
    demand(wulgach_drains_find_file(&drains, &first, false, false, false, false) ==
                   WULGACH_FOUND_BY_CALL &&
               wulgach_drains_find_file(&drains, &second, false, true, true, true) ==
                   WULGACH_FOUND_AT_START,
        "after a link");
    demand(wulgach_drains_find_file(&drains, &first, false, true, false, false) ==
               WULGACH_FOUND_IN_TURN,
        "after a change of slots");
    wulgach_chain_first(&chain, 2);
    wulgach_drains_accept(&drains, &chain);
    demand(wulgach_drains_find_file(&drains, &first, false, false, true, true) ==
                   WULGACH_FOUND_AT_START &&
               wulgach_drains_find_file(&drains, &first, true, false, false, true) ==
                   WULGACH_ASKS_START,
        "after a drain");
    demand(wulgach_drains_find_file(&drains, &first, true, true, true, true) ==
                   WULGACH_FOUND_IN_TURN &&
               wulgach_drains_find_file(&drains, &first, true, true, false, true) ==
                   WULGACH_ASKS_START,
        "after both");
    demand(wulgach_drains_find_file(&drains, &first, true, false, true, true) ==
                   WULGACH_FOUND_BY_CALL &&
               wulgach_drains_find_file(&drains, &first, true, false, true, false) ==
                   WULGACH_FOUND_AT_START,
        "as the core lets it start");
    demand(wulgach_polls(&(struct wulgach_standing){.is_stream = true}) &&
               !wulgach_polls(&(struct wulgach_standing){.has_found_buffer = true}),
        "whom a sleep polls for");
    static const struct wulgach_standing stream = {.is_stream = true}, plain = {0};
    static const struct wulgach_needs splice = {.needs_file = true, .needs_second = true};
    demand(wulgach_keeps_second_open(&stream, &splice, true, 0, false) &&
               !wulgach_keeps_second_open(&stream, &splice, true, 0, true) &&
               !wulgach_keeps_second_open(
                   &stream, &(struct wulgach_needs){.needs_file = true}, true, 0, false) &&
               !wulgach_keeps_second_open(&plain, &splice, true, -9, false),
        "where a splice reads");
    static const struct wulgach_needs file = {.needs_file = true},
                                      slot = {.needs_file = true, .is_registered = true},
                                      none = {0};
    demand(wulgach_keeps_open(&stream, &file, false, 0, false) &&
               wulgach_keeps_open(&stream, &slot, true, -9, false) &&
               !wulgach_keeps_open(&stream, &file, true, 0, true),
        "who waits keeps its file open");
    demand(wulgach_keeps_open(&plain, &file, true, 0, false) &&
               !wulgach_keeps_open(&plain, &file, true, 0, true) &&
               !wulgach_keeps_open(&plain, &file, false, 0, false),
        "and who has found it");
    demand(!wulgach_keeps_open(&plain, &file, true, -9, false) &&
               !wulgach_keeps_open(&plain, &slot, true, 0, false) &&
               !wulgach_keeps_open(&plain, &none, true, 0, false),
        "but not a fault, a slot's or none");
}

/* What a request is on a descriptor of which all is known. */
static uint32_t kind(
    uint8_t code, uint64_t offset, struct wulgach_trial trial, struct wulgach_nature nature)
{
    struct wulgach_submission entry = {.opcode = code, .off = offset};
    struct wulgach_known known = {
        .status = true, .offsets = true, .access = true, .nature = nature};
    return wulgach_find_kind(&entry, &trial, &known);
}

/* What operations are told of, and descriptors; and entries. */
static const struct wulgach_trial plain = {.length = 8}, known = {.length = 8, .was_file = true},
                                  tried = {.length = 8, .was_tried = true, .was_file = true},
                                  asked = {.length = 8, .was_file = true, .is_asked_before = true},
                                  empty = {.was_file = true};
static const struct wulgach_nature
    none = {0},
    file = {.is_open = true, .is_file = true, .has_offsets = true, .can_read = true},
    pipe = {.is_open = true, .can_read = true},
    tty = {.is_open = true, .is_device = true, .has_offsets = true, .can_write = true},
    socket = {.is_open = true, .is_socket = true, .can_read = true, .can_write = true};
static const struct wulgach_nature counter = {.is_open = true,
                                       .is_counter = true,
                                       .can_read = true},
                                   signals = {
                                       .is_open = true, .tells_signals = true, .can_read = true};
static const struct wulgach_submission entry = {.opcode = READ};
static const struct wulgach_submission writing = {.opcode = WRITE};
static const struct wulgach_submission selecting = {.opcode = READ, .flags = 32},
                                       receive = {.opcode = RECV, .flags = 32},
                                       fixed = {.opcode = 4};

/* What a descriptor is to an operation. */
static void look_at_kinds(void)
{
    demand(kind(READ, 0, plain, file) == WULGACH_KIND_TRIED &&
               kind(READ, 0, tried, file) == WULGACH_KIND_NEVER &&
               kind(READ, 0, known, pipe) == WULGACH_KIND_AT_ONCE,
        "a file");
    demand(kind(READ, UINT64_MAX, known, file) == WULGACH_KIND_NEVER &&
               kind(READ, 0, asked, file) == WULGACH_KIND_NEVER &&
               kind(READ, 0, empty, file) == WULGACH_KIND_NEVER &&
               kind(WRITE, 0, known, file) == WULGACH_KIND_TRIED,
        "what is asked before");
    struct wulgach_trial memory = {.length = 8, .was_in_memory = true},
                         alone = {.length = 8, .was_in_memory = true, .has_no_devices = true},
                         again = {.length = 8,
                             .was_tried = true,
                             .was_in_memory = true,
                             .has_no_devices = true},
                         unknown = {.length = 8, .has_no_devices = true};
    demand(kind(READ, 0, alone, pipe) == WULGACH_KIND_TRIED &&
               kind(READ, 0, memory, pipe) == WULGACH_KIND_STREAM &&
               kind(READ, 0, again, pipe) == WULGACH_KIND_STREAM &&
               kind(READ, 0, unknown, pipe) == WULGACH_KIND_STREAM &&
               kind(READ, UINT64_MAX, alone, pipe) == WULGACH_KIND_STREAM &&
               kind(WRITE, 0, alone, socket) == WULGACH_KIND_STREAM,
        "what was in memory");
    demand(kind(READ, 0, plain, pipe) == WULGACH_KIND_STREAM &&
               kind(WRITE, 0, plain, pipe) == WULGACH_KIND_WRONG &&
               kind(WRITE, 0, plain, tty) == WULGACH_KIND_STREAM &&
               kind(READ, 0, plain, none) == WULGACH_KIND_NEVER,
        "streams");
    demand(kind(RECV, 0, plain, socket) == WULGACH_KIND_STREAM &&
               kind(RECV, 0, plain, pipe) == WULGACH_KIND_NEVER &&
               kind(POLL_ADD, 0, plain, none) == WULGACH_KIND_STREAM &&
               kind(FSYNC, 0, plain, pipe) == WULGACH_KIND_NEVER,
        "others");
    demand(
        wulgach_remembered_after_call(WULGACH_REMEMBERED_IN_MEMORY, -29) ==
                WULGACH_REMEMBERED_NOTHING &&
            wulgach_remembered_after_call(WULGACH_REMEMBERED_IN_MEMORY, -22) ==
                WULGACH_REMEMBERED_IN_MEMORY &&
            wulgach_remembered_after_call(WULGACH_REMEMBERED_SLOW, 8) == WULGACH_REMEMBERED_SLOW &&
            wulgach_remembered_after_call(WULGACH_REMEMBERED_FILE, -29) ==
                WULGACH_REMEMBERED_NOTHING,
        "what has no offsets is no file");
    struct wulgach_known nothing = {0}, status = {.status = true, .nature = pipe},
                         offsets = {.status = true, .offsets = true, .nature = pipe};
    demand(wulgach_find_kind(&entry, &plain, &nothing) == WULGACH_ASK_STATUS &&
               wulgach_find_kind(&entry, &plain, &status) == WULGACH_ASK_OFFSETS &&
               wulgach_find_kind(&entry, &plain, &offsets) == WULGACH_ASK_ACCESS,
        "what is asked");
}

/* What the kernel tells of a descriptor. */
static void look_at_statuses(void)
{
    struct wulgach_nature on_disk = {0}, queue = {0}, in_memory = {0}, gone = {.is_open = true};
    wulgach_note_status(&on_disk, false, true, false, 0100644);
    wulgach_note_status(&queue, false, true, true, 0100600);
    wulgach_note_status(&in_memory, true, true, false, 0);
    wulgach_note_status(&gone, false, false, false, 0);
    demand(on_disk.is_open && on_disk.is_file && !on_disk.is_device && on_disk.has_type &&
               queue.is_open && !queue.is_file && queue.is_device && queue.has_type &&
               in_memory.is_file && !gone.is_open && !gone.has_type,
        "what a file is");
    demand(wulgach_asks_polling(0100600, 0) && !wulgach_asks_polling(0100600, 8) &&
               !wulgach_asks_polling(0040755, 0) && !wulgach_asks_polling(0010600, 0),
        "which is asked whether it can be polled");
    struct wulgach_directions one, other, both, neither;
    wulgach_directions_of(0100000, &one);
    wulgach_directions_of(04001, &other);
    wulgach_directions_of(2, &both);
    wulgach_directions_of(UINT32_MAX, &neither);
    demand(one.can_read && !one.can_write && !other.can_read && other.can_write && both.can_read &&
               both.can_write && !neither.can_read && !neither.can_write,
        "directions");
}

static void look_at_buffers(void)
{
    demand(wulgach_no_buffer_fault(&selecting, &none) == -9 &&
               wulgach_no_buffer_fault(&selecting, &pipe) == -105 &&
               wulgach_no_buffer_fault(&receive, &pipe) == -88 &&
               wulgach_no_buffer_fault(&receive, &socket) == -105 &&
               wulgach_no_buffer_fault(&fixed, &none) == -9 &&
               wulgach_no_buffer_fault(&fixed, &file) == -14,
        "no buffer");
    demand(wulgach_buffer_fault(&fixed, &none, -14) == -9 &&
               wulgach_buffer_fault(&fixed, &file, -14) == -14 &&
               wulgach_buffer_fault(&fixed, &file, -105) == -105 &&
               wulgach_buffer_fault(&receive, &pipe, -14) == -88,
        "what is wrong with a buffer");
    demand(wulgach_ends_at_start(&selecting, -9, true, &pipe) == -9 &&
               wulgach_ends_at_start(&selecting, -9, false, &pipe) == -105 &&
               wulgach_ends_at_start(&selecting, -9, false, &none) == -9 &&
               wulgach_ends_at_start(&receive, -11, false, &socket) == -11 &&
               wulgach_ends_at_start(&selecting, -29, false, &socket) == -105 &&
               wulgach_ends_at_start(&selecting, -29, true, &socket) == -29 &&
               wulgach_ends_at_start(&entry, -9, false, &pipe) == -9,
        "a fault as it started");
    demand(wulgach_has_had_buffer(&selecting, -9, true, &pipe) &&
               !wulgach_has_had_buffer(&selecting, -9, false, &pipe) &&
               !wulgach_has_had_buffer(&selecting, -9, true, &(struct wulgach_nature){0}) &&
               !wulgach_has_had_buffer(&entry, -9, true, &pipe),
        "what has had one");
    demand(wulgach_fault_asks_buffer(&selecting, -9) && !wulgach_fault_asks_buffer(&selecting, 0) &&
               !wulgach_fault_asks_buffer(&entry, -9),
        "whether a buffer matters");
}

/* What ends an operation as it starts. */
static void look_at_start_faults(void)
{
    demand(wulgach_start_fault(&writing, false, 0, &counter) == 0 &&
               wulgach_start_fault(&writing, false, 1, &counter) == -22 &&
               wulgach_start_fault(&entry, false, 0, &counter) == -22 &&
               !wulgach_asks_name(&writing, 0, &none),
        "a write of no bytes to what counts");
    demand(wulgach_start_fault(&entry, false, 7, &counter) == -22 &&
               wulgach_start_fault(&entry, false, 8, &counter) == 0 &&
               wulgach_start_fault(&entry, false, 7, &pipe) == 0 &&
               wulgach_start_fault(&selecting, false, 7, &counter) == 0,
        "what counts");
    struct wulgach_submission at = {.opcode = READ, .off = 7},
                              past = {.opcode = READ, .off = (1ull << 63) - 4},
                              negative = {.opcode = READ, .off = UINT64_MAX - 1},
                              anywhere = {.opcode = READ, .off = UINT64_MAX},
                              received = {.opcode = RECV, .off = 7};
    demand(wulgach_start_fault(&at, false, 4, &socket) == -29 &&
               wulgach_start_fault(&at, false, 4, &pipe) == 0 &&
               wulgach_start_fault(&at, false, 4, &file) == 0 &&
               wulgach_start_fault(&at, false, 4, &none) == 0 &&
               wulgach_start_fault(&received, false, 4, &socket) == 0,
        "an offset");
    demand(wulgach_start_fault(&past, false, 3, &pipe) == 0 &&
               wulgach_start_fault(&past, false, 4, &pipe) == -22 &&
               wulgach_start_fault(&past, false, 3, &socket) == -29 &&
               wulgach_start_fault(&past, false, 4, &socket) == -22 &&
               wulgach_start_fault(&past, false, 4, &tty) == 0,
        "one that bytes would pass");
    demand(wulgach_start_fault(&negative, false, 0, &pipe) == -22 &&
               wulgach_start_fault(&negative, false, 4, &socket) == -22 &&
               wulgach_start_fault(&negative, false, 8, &counter) == -22 &&
               wulgach_start_fault(&anywhere, false, 4, &socket) == 0 &&
               wulgach_start_fault(&anywhere, false, 4, &pipe) == 0 &&
               wulgach_start_fault(&entry, false, 4, &socket) == 0,
        "a negative one, and none");
    demand(wulgach_start_fault(&entry, true, 8, &pipe) == -9 &&
               wulgach_start_fault(&negative, false, 8, &none) == -9 &&
               wulgach_start_fault(&negative, false, 8, &file) == 0 &&
               kind(WRITE, 1ull << 63, plain, file) == WULGACH_KIND_WRONG &&
               kind(READ, 1ull << 63, plain, file) == WULGACH_KIND_NEVER,
        "what isn't open for it");
    struct wulgach_submission flagged = {.opcode = READ, .off = 7, .op_flags = 0x1000},
                              appending = {.opcode = WRITE, .op_flags = 0x70},
                              atomic = {.opcode = WRITE, .op_flags = 0x40},
                              polling = {.opcode = READ, .op_flags = 1};
    demand(wulgach_start_fault(&flagged, false, 4, &socket) == -95 &&
               wulgach_start_fault(&flagged, false, 4, &file) == 0 &&
               wulgach_start_fault(&appending, false, 4, &pipe) == -22 &&
               wulgach_start_fault(&atomic, false, 4, &pipe) == -95 &&
               wulgach_start_fault(&polling, false, 4, &pipe) == -22,
        "a flag");
    struct wulgach_submission hasty = {.opcode = RECV, .ioprio = 1, .op_flags = 64, .flags = 32},
                              slow = {.opcode = RECV, .ioprio = 1};
    demand(wulgach_start_fault(&hasty, false, 4, &socket) == -11 &&
               wulgach_start_fault(&hasty, false, 4, &pipe) == 0 &&
               wulgach_start_fault(&slow, false, 4, &socket) == 0 &&
               !wulgach_fault_asks_buffer(&hasty, -11) && wulgach_fault_asks_buffer(&selecting, -9),
        "one that is never polled");
    demand(wulgach_asks_name(&entry, 7, &none) && !wulgach_asks_name(&entry, 8, &none) &&
               !wulgach_asks_name(&selecting, 7, &none) &&
               !wulgach_asks_name(&entry, 7, &(struct wulgach_nature){.has_type = true}),
        "whether a name matters");
    demand(wulgach_asks_name(&entry, 9, &none) && wulgach_asks_name(&entry, 127, &none) &&
               !wulgach_asks_name(&entry, 128, &none) && !wulgach_asks_name(&writing, 9, &none),
        "whether a name matters for signals");
    demand(wulgach_start_fault(&entry, false, 0, &signals) == -22 &&
               wulgach_start_fault(&entry, false, 127, &signals) == -22 &&
               wulgach_start_fault(&entry, false, 128, &signals) == 0 &&
               wulgach_start_fault(&selecting, false, 127, &signals) == 0 &&
               wulgach_start_fault(&writing, false, 127, &signals) == 0,
        "what tells of signals");
}

/* What is told of a request of which nothing was known, by what is known of the moment;
 * `has_waited`: but that it would have waited. */
static uint32_t can_finish(const struct wulgach_standing *standing,
    const struct wulgach_needs *needs, const struct wulgach_course *course,
    const struct wulgach_moment *known, bool has_waited)
{
    struct wulgach_lookout lookout;
    struct wulgach_waiter waiter;
    wulgach_lookout_begin(&lookout);
    wulgach_waiter_begin(&waiter);
    if (has_waited)
        wulgach_waiter_waits(&waiter, &lookout);
    return wulgach_can_finish(&waiter, &lookout, standing, needs, course, known);
}

static void finish(void)
{
    struct wulgach_standing still = {0}, stream = {.is_stream = true},
                            found = {.is_stream = true, .has_found_buffer = true};
    struct wulgach_needs none = {0}, timeout = {.is_timeout = true}, goes_on = {.goes_on = true},
                         selects = {.selects = true}, shot = {.goes_on = true, .selects = true};
    struct wulgach_course runs = {.has_started = true},
                          cancelled = {.has_started = true, .is_cancelled = true};
    struct wulgach_moment unknown = {0}, ready = {.knows_readiness = true, .is_ready = true},
                          not_ready = {.knows_readiness = true},
                          counted = {.knows_count = true, .has_counted = true},
                          no_buffer = {.knows_buffer = true}, no_posting = {.knows_posting = true},
                          posting = {.knows_posting = true, .may_post = true};
    demand(can_finish(&still, &none, &runs, &unknown, false) == WULGACH_LOOK_FINISHES &&
               can_finish(&still, &none, &runs, &unknown, true) == WULGACH_LOOK_WAITS,
        "one that would have waited");
    demand(can_finish(&stream, &timeout, &cancelled, &unknown, false) == WULGACH_LOOK_FINISHES &&
               can_finish(&still, &none, &cancelled, &unknown, true) == WULGACH_LOOK_FINISHES,
        "one that was cancelled");
    demand(can_finish(&still, &timeout, &runs, &unknown, false) == WULGACH_ASK_COUNT &&
               can_finish(&still, &timeout, &runs, &counted, false) == WULGACH_LOOK_FINISHES,
        "a timeout");
    demand(can_finish(&stream, &goes_on, &runs, &unknown, false) == WULGACH_ASK_POSTING &&
               can_finish(&stream, &goes_on, &runs, &no_posting, false) == WULGACH_LOOK_WAITS,
        "one that goes on");
    demand(can_finish(&stream, &selects, &runs, &unknown, false) == WULGACH_ASK_BUFFER &&
               can_finish(&stream, &selects, &runs, &no_buffer, false) == WULGACH_LOOK_FINISHES &&
               can_finish(&stream, &shot, &runs, &posting, false) == WULGACH_ASK_BUFFER,
        "one without a buffer");
    demand(can_finish(&found, &selects, &runs, &no_buffer, false) == WULGACH_ASK_READINESS &&
               can_finish(&found, &selects, &runs, &not_ready, false) == WULGACH_LOOK_WAITS &&
               can_finish(&found, &shot, &runs, &posting, false) == WULGACH_ASK_READINESS,
        "one that has found a buffer");
    demand(can_finish(&stream, &none, &runs, &unknown, false) == WULGACH_ASK_READINESS &&
               can_finish(&stream, &none, &runs, &ready, false) == WULGACH_LOOK_FINISHES &&
               can_finish(&stream, &none, &runs, &not_ready, false) == WULGACH_LOOK_WAITS,
        "a stream");
}

static bool impatient(uint8_t code, uint32_t flags, struct wulgach_patience patience)
{
    struct wulgach_submission entry = {.opcode = code, .op_flags = flags};
    return wulgach_is_impatient(&entry, &patience);
}

static void be_impatient(void)
{
    struct wulgach_patience fresh = {.length = 8}, empty = {0},
                            failed = {.length = 8, .has_failed = true},
                            begun = {.length = 8, .has_begun = true},
                            deaf = {.length = 8, .knows_listening = true},
                            listening = {.length = 8,
                                .knows_listening = true,
                                .is_listening = true},
                            sends_nothing = {.is_socket = true};
    demand(impatient(READ, 0, listening) && impatient(18, 0, fresh) && impatient(28, 0, fresh),
        "what ends whatever its descriptor has");
    demand(impatient(RECV, 0, listening) && impatient(26, 0, listening) &&
               !impatient(ACCEPT, 0, listening) && !impatient(POLL_ADD, 0, listening),
        "by a socket that listens");
    demand(impatient(ACCEPT, 0, deaf) && !impatient(ACCEPT, 0, fresh) &&
               !impatient(RECV, 0, deaf) && !impatient(26, 0, deaf),
        "by one that doesn't");
    demand(impatient(RECV, 1, fresh) && !impatient(RECV, 1, begun) && !impatient(26, 1, fresh),
        "urgent data");
    demand(impatient(RECV, 8192, fresh) && !impatient(RECV, 8192, begun) &&
               !impatient(26, 8192, fresh),
        "what a socket was told of errors");
    struct wulgach_needs plain = {0}, poll = {.is_poll = true}, splice = {.needs_second = true};
    demand(wulgach_asks_listening(&plain, false) && !wulgach_asks_listening(&plain, true) &&
               !wulgach_asks_listening(&poll, false) && !wulgach_asks_listening(&splice, false),
        "whose socket is asked whether it listens");
    struct wulgach_submission write = {.opcode = WRITE}, read = {.opcode = READ, .ioprio = 1},
                              send = {.opcode = SEND}, polled = {.opcode = SEND, .ioprio = 1},
                              receive = {.opcode = RECV}, accept = {.opcode = ACCEPT};
    demand(wulgach_is_tried_first(&write, 0) && wulgach_is_tried_first(&send, 1) &&
               !wulgach_is_tried_first(&polled, 1),
        "a write or a send is tried first");
    struct wulgach_submission urgent = {.opcode = RECV, .op_flags = 1, .ioprio = 1};
    demand(!wulgach_is_impatient(&urgent, &fresh) && !wulgach_is_impatient(&urgent, &listening),
        "what is polled first");
    demand(wulgach_waits_after_search(&receive, true) &&
               !wulgach_waits_after_search(&receive, false) &&
               wulgach_waits_after_search(&polled, false) &&
               !wulgach_waits_after_search(&read, false),
        "who waits without a buffer");
    demand(wulgach_is_tried_first(&read, 2) && wulgach_is_tried_first(&receive, 8) &&
               !wulgach_is_tried_first(&receive, 1) && !wulgach_is_tried_first(&read, 0) &&
               !wulgach_is_tried_first(&accept, 8),
        "a receive, where a byte isn't enough");
    demand(impatient(WRITE, 0, empty) && !impatient(WRITE, 0, sends_nothing) &&
               impatient(WRITE, 8, sends_nothing) && impatient(READ, 0, sends_nothing),
        "a write of no bytes");
    demand(!impatient(READ, 0, fresh) && impatient(READ, 8, fresh) && impatient(READ, 0, empty) &&
               impatient(READ, 0, failed),
        "a read");
    demand(
        impatient(RECV, 64, fresh) && !impatient(RECV, 8, empty) && !impatient(ACCEPT, 64, fresh),
        "a receive");
    demand(impatient(CONNECT, 0, fresh) && !impatient(CONNECT, 0, begun) &&
               impatient(SPLICE, 0, fresh) && !impatient(SPLICE, 0, begun) &&
               !impatient(POLL_ADD, 0, fresh),
        "a connect, a splice");
}

/* What is next of a transfer; what it ends with comes after as itself. */
static int32_t next(struct wulgach_transfer transfer, uint32_t last, int32_t res)
{
    int32_t end = 777;
    uint32_t step = wulgach_transfer_next(&transfer, last, res, &end);
    demand((step == WULGACH_TRY_ENDS) == (end != 777), "what is written");
    return step == WULGACH_TRY_ENDS ? end : 1000 + (int32_t)step;
}

static void transfer(void)
{
    struct wulgach_transfer once = {.length = 8, .is_at_once = true},
                            tried = {.length = 8, .is_tried = true}, file = {.length = 8},
                            stream = {.length = 8, .is_stream = true},
                            hasty = {.is_stream = true, .is_impatient = true},
                            failed = {.length = 8, .fault = -9};
    demand(next(once, 0, 0) == 1000 + WULGACH_CALL_AT_ONCE &&
               next(once, WULGACH_CALL_AT_ONCE, 8) == 8 &&
               next(once, WULGACH_CALL_AT_ONCE, 5) == 1000 + WULGACH_TRY_FINDS,
        "at once");
    demand(next(stream, WULGACH_TRY_FINDS, 5) == 5 &&
               next(file, WULGACH_TRY_FINDS, 5) == 1000 + WULGACH_CALL_PLAIN &&
               next(stream, WULGACH_TRY_FINDS, 0) == 1000 + WULGACH_CALL_NONBLOCKING &&
               next(failed, WULGACH_TRY_FINDS, -11) == -9,
        "after that");
    demand(next(tried, 0, 0) == 1000 + WULGACH_CALL_TRIED &&
               next(tried, WULGACH_CALL_TRIED, 5) == 5 &&
               next(tried, WULGACH_CALL_TRIED, -29) == 1000 + WULGACH_TRY_FINDS,
        "one that is tried");
    demand(next(stream, WULGACH_CALL_NONBLOCKING, -11) == 1000 + WULGACH_TRY_WAITS &&
               next(stream, WULGACH_CALL_NONBLOCKING, -95) == 1000 + WULGACH_TRY_POLLS &&
               next(stream, WULGACH_CALL_NONBLOCKING, -5) == -5,
        "asked not to wait");
    struct wulgach_transfer shut = {
        .length = 8, .is_stream = true, .is_socket = true, .is_shut = true};
    demand(next(shut, WULGACH_CALL_NONBLOCKING, -11) == -11 &&
               next(shut, WULGACH_CALL_UNWILLING, -11) == -11 &&
               next(shut, WULGACH_CALL_NONBLOCKING, -95) == 1000 + WULGACH_TRY_POLLS,
        "of a socket that was shut down");
    demand(next(stream, WULGACH_TRY_POLLS, 0) == 1000 + WULGACH_TRY_WAITS &&
               next(stream, WULGACH_TRY_POLLS, 1) == 1000 + WULGACH_CALL_UNWILLING &&
               next(stream, WULGACH_CALL_UNWILLING, -11) == 1000 + WULGACH_TRY_WAITS &&
               next(stream, WULGACH_CALL_UNWILLING, -95) == -95,
        "polled");
    demand(next(hasty, 0, 0) == 1000 + WULGACH_CALL_PLAIN &&
               next(hasty, WULGACH_CALL_PLAIN, -11) == -11,
        "what doesn't wait");
    demand(next(failed, 0, 0) == -9, "one that failed");
}

/* The same of a call. */
static int32_t turn(
    uint8_t code, uint32_t flags, struct wulgach_call call, uint32_t last, int32_t res)
{
    struct wulgach_submission entry = {.opcode = code, .op_flags = flags};
    int32_t end = 777;
    uint32_t what = wulgach_call_next(&entry, &call, last, res, &end);
    demand((what == WULGACH_TURN_ENDS) == (end != 777), "what is written");
    return what == WULGACH_TURN_ENDS ? end : 1000 + (int32_t)what;
}

static void call(void)
{
    struct wulgach_call fresh = {.length = 8, .is_stream = true},
                        part = {.length = 8, .done = 3, .is_stream = true},
                        begun = {.is_stream = true, .has_begun = true, .done = 1};
    demand(turn(ACCEPT, 0, fresh, 0, 0) == 1000 + WULGACH_TURN_POLLS &&
               turn(ACCEPT, 0, fresh, WULGACH_TURN_POLLS, 1) == 1000 + WULGACH_TURN_CALLS &&
               turn(ACCEPT, 0, fresh, WULGACH_TURN_POLLS, 0) == 1000 + WULGACH_TURN_ASKS_WILL,
        "an accept");
    demand(turn(ACCEPT, 0, (struct wulgach_call){.is_stream = true, .is_impatient = true}, 0, 0) ==
               1000 + WULGACH_TURN_CALLS,
        "one that doesn't wait");
    demand(turn(ACCEPT, 0, fresh, WULGACH_TURN_ASKS_WILL, 1) == -11 &&
               turn(ACCEPT, 0, fresh, WULGACH_TURN_ASKS_WILL, 0) == 1000 + WULGACH_TURN_WAITS &&
               turn(ACCEPT, 0, fresh, WULGACH_TURN_CALLS, 0) == 0,
        "what its socket says");
    struct wulgach_submission accepts_on = {.opcode = ACCEPT, .ioprio = 1};
    int32_t end = 777;
    demand(wulgach_call_next(&accepts_on, &fresh, WULGACH_TURN_ASKS_WILL, 1, &end) ==
                   WULGACH_TURN_WAITS &&
               end == 777,
        "one that goes on");
    demand(turn(CONNECT, 0, fresh, 0, 0) == 1000 + WULGACH_TURN_CALLS &&
               turn(CONNECT, 0, fresh, WULGACH_TURN_CALLS, -115) == 1000 + WULGACH_TURN_WAITS &&
               turn(CONNECT, 0, begun, 0, 0) == 1000 + WULGACH_TURN_POLLS &&
               turn(CONNECT, 0, begun, WULGACH_TURN_POLLS, 1) == 1000 + WULGACH_TURN_ASKS_ERROR &&
               turn(CONNECT, 0, begun, WULGACH_TURN_ASKS_ERROR, -111) == -111 &&
               turn(CONNECT, 0, begun, WULGACH_TURN_ASKS_ERROR, 0) == 1000 + WULGACH_TURN_CALLS &&
               turn(CONNECT, 0, begun, WULGACH_TURN_CALLS, -106) == 0 &&
               turn(CONNECT, 0, fresh, WULGACH_TURN_CALLS, -106) == -106 &&
               turn(CONNECT, 0, fresh, WULGACH_TURN_CALLS, -11) == 1000 + WULGACH_TURN_ASKS_WILL &&
               turn(CONNECT, 0, fresh, WULGACH_TURN_ASKS_WILL, 1) == -11 &&
               turn(CONNECT, 0, begun, WULGACH_TURN_CALLS, -114) == 1000 + WULGACH_TURN_WAITS,
        "a connect");
    struct wulgach_call repeated = {.is_stream = true, .was_repeated = true};
    demand(wulgach_counts_as_begun(1) && !wulgach_counts_as_begun(0), "what has begun");
    demand(wulgach_is_call_repeated(false, WULGACH_TURN_CALLS, WULGACH_TURN_CALLS) &&
               !wulgach_is_call_repeated(false, WULGACH_TURN_POLLS, WULGACH_TURN_CALLS) &&
               !wulgach_is_call_repeated(false, WULGACH_TURN_CALLS, WULGACH_TURN_WAITS) &&
               wulgach_is_call_repeated(true, 0, WULGACH_TURN_CALLS),
        "what was made once more");
    demand(turn(CONNECT, 0, fresh, WULGACH_TURN_CALLS, -103) == 1000 + WULGACH_TURN_CALLS &&
               turn(CONNECT, 0, begun, WULGACH_TURN_CALLS, -103) == 1000 + WULGACH_TURN_CALLS &&
               turn(CONNECT, 0, repeated, WULGACH_TURN_CALLS, -103) == -103 &&
               turn(CONNECT, 0, repeated, WULGACH_TURN_CALLS, 0) == 0,
        "a connect that is made once more");
    demand(turn(RECV, 0, fresh, WULGACH_TURN_CALLS, -11) == 1000 + WULGACH_TURN_POLLS &&
               turn(RECV, 64, fresh, WULGACH_TURN_CALLS, -11) == -11 &&
               turn(RECV, 0, part, WULGACH_TURN_CALLS, 3) == 1000 + WULGACH_TURN_ENDS_WITH_DONE,
        "a receive");
    demand(
        turn(RECV, 256, part, WULGACH_TURN_CALLS, 3) == 1000 + WULGACH_TURN_ASKS_TYPE &&
            turn(RECV, 256, part, WULGACH_TURN_ASKS_TYPE, 1) == 1000 + WULGACH_TURN_WAITS &&
            turn(RECV, 256, part, WULGACH_TURN_CALLS, 0) == 1000 + WULGACH_TURN_ENDS_WITH_DONE &&
            turn(RECV, 256, part, WULGACH_TURN_CALLS, -104) == 1000 + WULGACH_TURN_ENDS_WITH_DONE,
        "of all");
    struct wulgach_call with_control = {.length = 8, .done = 3, .control = 24, .is_stream = true};
    demand(
        turn(10, 256, with_control, WULGACH_TURN_CALLS, 3) == 1000 + WULGACH_TURN_ENDS_WITH_DONE &&
            turn(10, 256, part, WULGACH_TURN_CALLS, 3) == 1000 + WULGACH_TURN_ASKS_TYPE &&
            turn(9, 256, with_control, WULGACH_TURN_CALLS, 3) == 1000 + WULGACH_TURN_ASKS_TYPE,
        "with control data");
    demand(turn(SPLICE, 0, begun, WULGACH_TURN_CALLS, -11) == 1000 + WULGACH_TURN_ASKS_WILL &&
               turn(SPLICE, 0, begun, WULGACH_TURN_ASKS_WILL, 1) == -11 &&
               turn(SPLICE, 2, begun, WULGACH_TURN_CALLS, -11) == 1000 + WULGACH_TURN_ASKS_WILL &&
               turn(SPLICE, 0, begun, WULGACH_TURN_CALLS, 5) == 5,
        "a splice");
    demand(turn(RECV, 0, fresh, WULGACH_TURN_POLLS, 0) == 1000 + WULGACH_TURN_WAITS &&
               turn(RECV, 0, fresh, WULGACH_TURN_POLLS, 1) == 1000 + WULGACH_TURN_WAITS &&
               turn(SEND, 0, fresh, WULGACH_TURN_POLLS, 1) == 1000 + WULGACH_TURN_WAITS,
        "bytes that would have waited");
    demand(turn(9, 0, fresh, WULGACH_TURN_POLLS, 0) == 1000 + WULGACH_TURN_WAITS &&
               turn(9, 0, fresh, WULGACH_TURN_POLLS, 1) == 1000 + WULGACH_TURN_ASKS_WILL &&
               turn(9, 0, fresh, WULGACH_TURN_ASKS_WILL, 1) == -11 &&
               turn(10, 0, part, WULGACH_TURN_ASKS_WILL, 1) == 1000 + WULGACH_TURN_ENDS_WITH_DONE,
        "a message that would have waited");
    demand(turn(RECV, 8192, fresh, WULGACH_TURN_CALLS, -11) == 1000 + WULGACH_TURN_POLLS &&
               turn(RECV, 8192, fresh, WULGACH_TURN_POLLS, 0) == 1000 + WULGACH_TURN_WAITS &&
               turn(RECV, 8192, fresh, WULGACH_TURN_POLLS, 1) == -11,
        "a receive of errors");
}

/* Which splices aren't to wait, with SPLICE_F_NONBLOCK or without. */
static bool is_hasty(bool has_flag, struct wulgach_splice_ends ends)
{
    struct wulgach_submission entry = {.opcode = SPLICE, .op_flags = has_flag ? 2 : 0};
    return wulgach_splice_isnt_to_wait(&entry, &ends);
}

#define LOCAL .domain = 1, .kind = 1
#define TCP .domain = 2, .kind = 1

static void splice_ends(void)
{
    demand(!is_hasty(false,
               (struct wulgach_splice_ends){
                   .is_pipe = true, .other_is_pipe = true, .waits_to_read = true}) &&
               is_hasty(true, (struct wulgach_splice_ends){.is_pipe = true}) &&
               is_hasty(false,
                   (struct wulgach_splice_ends){
                       .is_pipe = true, .other_is_pipe = true, .other_is_unwilling = true}),
        "a pipe");
    demand(!is_hasty(
               false, (struct wulgach_splice_ends){.is_pipe = true, .other_is_unwilling = true}) &&
               is_hasty(false, (struct wulgach_splice_ends){.is_pipe = true, .is_unwilling = true}),
        "a pipe beside a socket");
    demand(is_hasty(true,
               (struct wulgach_splice_ends){LOCAL, .waits_to_read = true, .other_is_pipe = true}) &&
               is_hasty(false, (struct wulgach_splice_ends){LOCAL, .waits_to_read = true,
                                   .other_is_pipe = true, .other_is_unwilling = true}) &&
               !is_hasty(true, (struct wulgach_splice_ends){LOCAL, .other_is_pipe = true}),
        "a local stream");
    demand(!is_hasty(true, (struct wulgach_splice_ends){TCP, .waits_to_read = true,
                               .other_is_pipe = true, .other_is_unwilling = true}) &&
               is_hasty(false, (struct wulgach_splice_ends){TCP, .waits_to_read = true,
                                   .is_unwilling = true}) &&
               !is_hasty(true,
                   (struct wulgach_splice_ends){.domain = 1, .kind = 5, .waits_to_read = true}),
        "another socket");
}

static void refuse_offset(void)
{
    const struct wulgach_directions read = {.can_read = true}, write = {.can_write = true},
                                    both = {true, true};
    demand(wulgach_splice_result(-29, &read, &write) == -29 &&
               wulgach_splice_result(-29, &both, &both) == -29,
        "an offset of a pipe");
    demand(wulgach_splice_result(-29, &write, &write) == -9 &&
               wulgach_splice_result(-29, &read, &read) == -9 &&
               wulgach_splice_result(-22, &write, &read) == -22,
        "what isn't open for it");
    demand(wulgach_splice_asks_directions(-29) && !wulgach_splice_asks_directions(-9) &&
               !wulgach_splice_asks_directions(5),
        "whether that matters");
}

static void seek(void)
{
    const uint32_t file = 1u << WULGACH_NEEDS_FILE, second = 1u << WULGACH_NEEDS_SECOND,
                   is_open = 1u << WULGACH_NEEDS_OPEN, buffer = 1u << WULGACH_NEEDS_BUFFER,
                   polling = 1u << WULGACH_NEEDS_POLLING, kind = 1u << WULGACH_NEEDS_KIND;
    demand(NEEDS(.opcode = NOP).sought == 0 && NEEDS(.opcode = 11).sought == 0 &&
               NEEDS(.opcode = READ).sought == (file | kind) &&
               NEEDS(.opcode = FSYNC).sought == (file | kind),
        "a file");
    demand(NEEDS(.opcode = 55, .off = 1ull << 63).sought == (file | is_open | kind) &&
               NEEDS(.opcode = 55, .off = (1ull << 63) - 1).sought == (file | kind),
        "a cut to a negative length");
    demand(NEEDS(.opcode = SPLICE, .len = 1).sought == (file | second | kind) &&
               NEEDS(.opcode = SPLICE).sought == (file | second | is_open | kind) &&
               NEEDS(.opcode = 4).sought == (file | buffer | kind) &&
               NEEDS(.opcode = 6).sought == (file | is_open | kind) &&
               NEEDS(.opcode = 49).sought == (file | is_open | polling | kind),
        "what else is looked for");
    demand(
        file < second && second < is_open && is_open < buffer && buffer < polling && polling < kind,
        "its order");
}

static void miss(void)
{
    static const int32_t faults[] = {
        -EBADF, -EFAULT, -EFAULT, -ENOMEM, -ENAMETOOLONG, -EFAULT, -ENOBUFS, -ENOENT, 0};
    for (uint32_t what = 0; what < sizeof faults / sizeof *faults; what++)
        demand(wulgach_missing_fault(what) == faults[what], "what isn't found");
    demand(wulgach_found_fault(false, false, 0) == 0 &&
               wulgach_found_fault(false, true, -1) == -EBADF &&
               wulgach_found_fault(false, false, INT32_MIN) == -EBADF,
        "a number");
    demand(
        wulgach_found_fault(true, true, -1) == 0 && wulgach_found_fault(true, false, 3) == -EBADF,
        "a slot");
}

static void copy(void)
{
    const uint32_t process = WULGACH_COPIES_BY_PROCESS, through = WULGACH_COPIES_BY_PIPE,
                   plain = WULGACH_COPIES_PLAINLY;
    demand(wulgach_copying_next(WULGACH_COPYING_BEGINS, 0, 8) == process, "the first way");
    for (uint32_t way = process; way <= plain; way++)
        demand(wulgach_copying_next(way, 8, 8) == WULGACH_COPYING_IS_DONE &&
                   wulgach_copying_next(way, 7, 8) == WULGACH_COPYING_FAILS &&
                   wulgach_copying_next(way, -EFAULT, 8) == WULGACH_COPYING_FAILS,
            "what came of it");
    demand(wulgach_copying_next(process, -EPERM, 8) == through &&
               wulgach_copying_next(process, -ENOSYS, 8) == through &&
               wulgach_copying_next(through, -EMFILE, 8) == plain,
        "the next way");
}

static void poll_one(void)
{
    int32_t res = 7;
    demand(wulgach_present_of(1, 5) == 5 && wulgach_present_of(0, 5) == 0 &&
               wulgach_present_of(-1, 5) == 0,
        "what is there");
    demand(!wulgach_poll_result(5, 0, false, &res) && res == 7, "a poll that waits");
    demand(wulgach_poll_result(5, 4, true, &res) && res == 4 &&
               wulgach_poll_result(5, 32, false, &res) && res == -9 &&
               wulgach_poll_result(5, 0, true, &res) && res == 1,
        "its events");
    struct wulgach_submission urgent = {.opcode = POLL_ADD, .op_flags = 2},
                              readable = {.opcode = POLL_ADD, .op_flags = 1},
                              edges = {.opcode = POLL_ADD, .op_flags = 1, .len = 1};
    demand(wulgach_asks_instance(&urgent) && !wulgach_asks_instance(&readable) &&
               wulgach_asks_instance(&edges),
        "an instance is asked");
    struct wulgach_poll_start start;
    demand(wulgach_instance_events(0x203b) == 0x8000203b, "it tells of edges");
    demand(wulgach_counts_as_polled(0) && !wulgach_counts_as_polled(-EPERM) &&
               !wulgach_counts_as_polled(-EMFILE),
        "a file that can be polled");
    demand(wulgach_polling_fault(0) == 0 && wulgach_polling_fault(-EPERM) == -EBADFD &&
               wulgach_polling_fault(-EMFILE) == -EMFILE,
        "a read that goes on");
    wulgach_poll_starts(0x203b, true, 0, &start);
    demand(start.fault == 0 && start.goes_on, "one that goes on");
    wulgach_poll_starts(0x203b, false, -EBADF, &start);
    demand(start.fault == -EBADF && !start.goes_on, "one that fails");
    wulgach_poll_starts(0x203b, true, -EPERM, &start);
    demand(start.fault == 0 && !start.goes_on, "one of what can't be polled");
    wulgach_poll_starts(0x203a, false, -EPERM, &start);
    demand(start.fault == -EINVAL && !start.goes_on, "and that has nothing of what it is for");
}

/* What counts as open, and as a count. */
static void open_descriptors(void)
{
    struct wulgach_openness closed = {0}, path = {.is_open = true, .is_path = true},
                            file = {.is_open = true};
    struct wulgach_submission read = {.opcode = READ}, of_slot = {.opcode = READ, .flags = 1},
                              no_op = {0};
    demand(!wulgach_counts_as_open(&closed, false) && !wulgach_counts_as_open(&path, false) &&
               wulgach_counts_as_open(&file, false),
        "by number");
    demand(!wulgach_counts_as_open(&closed, true) && wulgach_counts_as_open(&path, true) &&
               wulgach_counts_as_open(&file, true),
        "in a slot");
    demand(wulgach_asks_openness(&read, -9) && !wulgach_asks_openness(&read, -5) &&
               !wulgach_asks_openness(&no_op, -9),
        "what is asked of one");
    demand(wulgach_is_missing(&read, false, -9, &closed) &&
               wulgach_is_missing(&read, false, -9, &path) &&
               !wulgach_is_missing(&read, false, -9, &file),
        "a file that is missing");
    demand(!wulgach_is_missing(&of_slot, false, -9, &path) &&
               wulgach_is_missing(&read, true, -5, &file) &&
               !wulgach_is_missing(&read, false, -5, &closed),
        "another");
    static const uint8_t counts[] = "anon_inode:[eventfd]", signals[] = "anon_inode:[signalfd]",
                         timer[] = "anon_inode:[timerfd]", longer[] = "anon_inode:[eventfd]s",
                         other[] = "anon_inode:[eventpoll]";
    demand(wulgach_is_eventfd_name(counts, 20) && !wulgach_is_eventfd_name(timer, 20) &&
               !wulgach_is_eventfd_name(longer, 21) && !wulgach_is_eventfd_name(counts, 0),
        "an eventfd");
    demand(wulgach_is_counter_name(counts, 20) && wulgach_is_counter_name(timer, 20) &&
               !wulgach_is_counter_name(other, 22) && !wulgach_is_counter_name(timer, 19),
        "what counts by its name");
    demand(wulgach_is_signals_name(signals, 21) && !wulgach_is_signals_name(signals, 20) &&
               !wulgach_is_signals_name(counts, 20) && !wulgach_is_counter_name(signals, 21),
        "what tells of signals by its name");
    struct wulgach_splice_poll source, target;
    wulgach_splice_polls(false, &source);
    wulgach_splice_polls(true, &target);
    demand(source.is_of_source && source.events == 1 && !target.is_of_source && target.events == 4,
        "what a splice is polled for");
}

int main(void)
{
    look_at_needs();
    open_descriptors();
    see_changes();
    need_as_told();
    find_files();
    look_at_kinds();
    look_at_statuses();
    look_at_buffers();
    look_at_start_faults();
    finish();
    be_impatient();
    transfer();
    call();
    splice_ends();
    poll_one();
    refuse_offset();
    seek();
    miss();
    copy();
    printf("waits: as called for\n");
    return 0;
}
