/* What an entry is to the core, and which requests go on: with what the manual page calls for,
 * written by hand. */
#include "demand.h"
#include "wulgach_form.h"

#include <stdio.h>
#include <stdlib.h>

/* The fault of an entry, or 0: it is a token; or 1: a cancel. */
static int32_t form(struct wulgach_submission entry)
{
    int32_t fault;
    uint32_t form = wulgach_form_of(&entry, 0, true, &fault);
    demand((form == WULGACH_FORM_REFUSED) == (fault < 0), "a fault");
    return form == WULGACH_FORM_CANCEL ? 1 : fault;
}

#define FORM(...) form((struct wulgach_submission){__VA_ARGS__})

static void look_at_fields(void)
{
    enum {
        NOP,
        READV,
        WRITEV,
        FSYNC,
        READ_FIXED,
        POLL_ADD = 6,
        POLL_REMOVE,
        TIMEOUT = 11,
        TIMEOUT_REMOVE,
        ACCEPT,
        CANCEL,
        LINK_TIMEOUT
    };
    demand(FORM(.opcode = NOP) == 0 && FORM(.opcode = NOP, .ioprio = 1) == -22, "a no-op");
    demand(FORM(.opcode = 46) == -22 && FORM(.opcode = 49) == -22 &&
               FORM(.opcode = 49, .flags = 32) == 0 &&
               FORM(.opcode = 49, .flags = 32, .len = 1) == -22 &&
               FORM(.opcode = 48, .ioprio = 9) == 0 && FORM(.opcode = 48, .ioprio = 4) == -22 &&
               FORM(.opcode = 47, .file_index = 65535) == 0 &&
               FORM(.opcode = 47, .file_index = 65536) == -22,
        "what is served");
    demand(FORM(.opcode = NOP, .flags = 128) == -22 &&
               FORM(.opcode = NOP, .personality = 1) == -22 &&
               FORM(.opcode = NOP, .flags = 127 - 32) == 0,
        "flags");
    demand(FORM(.opcode = READV, .len = 2, .flags = 32) == -22 &&
               FORM(.opcode = READV, .flags = 32) == -22 &&
               FORM(.opcode = READV, .len = 1, .flags = 32) == 0,
        "one vector beside a provided buffer");
    demand(FORM(.opcode = READV, .len = 1024) == 0 && FORM(.opcode = WRITEV, .len = 1025) == -22 &&
               FORM(.opcode = READ_FIXED, .ioprio = 32767) == 0 &&
               FORM(.opcode = READ_FIXED, .ioprio = 32768) == -22,
        "transfers");
    demand(FORM(.opcode = FSYNC, .op_flags = 1) == 0 &&
               FORM(.opcode = FSYNC, .op_flags = 2) == -22 &&
               FORM(.opcode = FSYNC, .addr = 1) == -22,
        "an fsync");
    demand(FORM(.opcode = POLL_ADD, .len = 1) == 0 &&
               FORM(.opcode = POLL_ADD, .len = 1, .flags = 64) == -22 &&
               FORM(.opcode = POLL_ADD, .len = 2) == -22,
        "a poll");
    demand(FORM(.opcode = POLL_REMOVE) == 0 && FORM(.opcode = POLL_REMOVE, .len = 1) == -22 &&
               FORM(.opcode = POLL_REMOVE, .len = 4, .off = 9) == 0 &&
               FORM(.opcode = POLL_REMOVE, .len = 2, .off = 9) == -22,
        "its removal");
    demand(FORM(.opcode = TIMEOUT, .len = 1, .off = 3, .op_flags = 37) == 0 &&
               FORM(.opcode = TIMEOUT, .len = 1, .op_flags = 12) == -22 &&
               FORM(.opcode = TIMEOUT) == -22,
        "a timeout");
    demand(FORM(.opcode = LINK_TIMEOUT, .len = 1) == 0 &&
               FORM(.opcode = LINK_TIMEOUT, .len = 1, .off = 1) == -22,
        "a linked timeout");
    demand(FORM(.opcode = TIMEOUT_REMOVE) == 0 &&
               FORM(.opcode = TIMEOUT_REMOVE, .op_flags = 1) == -22 &&
               FORM(.opcode = TIMEOUT_REMOVE, .op_flags = 3) == 0 &&
               FORM(.opcode = TIMEOUT_REMOVE, .op_flags = 10) == -22,
        "its removal");
    demand(FORM(.opcode = CANCEL) == 1 && FORM(.opcode = CANCEL, .flags = 4) == 0 &&
               FORM(.opcode = CANCEL, .op_flags = 1) == 0 &&
               FORM(.opcode = CANCEL, .op_flags = 6) == -22 &&
               FORM(.opcode = CANCEL, .op_flags = 16) == -22,
        "a cancel");
}

static void look_at_more_fields(void)
{
    demand(FORM(.opcode = 18, .file_index = 1) == 0 &&
               FORM(.opcode = 18, .file_index = 1, .op_flags = 0x80000) == 0 &&
               FORM(.opcode = 28, .len = 24) == 0 && FORM(.opcode = 28, .len = 23) == -22 &&
               FORM(.opcode = 28, .len = 24, .buf_index = 1, .flags = 1) == 0 &&
               FORM(.opcode = 28, .len = 23, .flags = 1) == -22 &&
               FORM(.opcode = 18, .buf_index = 1, .flags = 1) == -22,
        "opens");
    demand(FORM(.opcode = 19, .fd = 3) == 0 && FORM(.opcode = 19, .file_index = 1) == 0 &&
               FORM(.opcode = 19, .fd = 3, .file_index = 1) == -22,
        "a close");
    demand(FORM(.opcode = 20, .len = 1) == 0 && FORM(.opcode = 20) == -22 &&
               FORM(.opcode = 20, .len = 1, .flags = 1) == -22,
        "an update of files");
    demand(FORM(.opcode = 31, .fd = 65536, .len = 1) == 0 &&
               FORM(.opcode = 31, .fd = 1, .len = 1, .off = 65535) == 0 &&
               FORM(.opcode = 31, .fd = 65537, .len = 1) == -7 &&
               FORM(.opcode = 31, .fd = -1, .op_flags = 1) == -22 &&
               FORM(.opcode = 31, .fd = 1, .len = 1, .off = 65536) == -7,
        "provided buffers");
    demand(FORM(.opcode = 31, .fd = 1) == -22 &&
               FORM(.opcode = 31, .fd = 2, .len = 1, .off = 65535) == -22 &&
               FORM(.opcode = 31, .fd = 1, .len = 4, .addr = UINT64_MAX) == -75 &&
               FORM(.opcode = 31, .fd = 1, .len = 1, .addr = 0x7ffffffff000) == -14,
        "their ends");
    demand(FORM(.opcode = 32, .fd = 1) == 0 && FORM(.opcode = 32, .fd = 0) == -22 &&
               FORM(.opcode = 32, .fd = 1, .len = 1) == -22,
        "their removal");
    demand(FORM(.opcode = 40, .op_flags = 3) == 0 && FORM(.opcode = 40, .op_flags = 4) == -22 &&
               FORM(.opcode = 34, .len = 2) == 0 && FORM(.opcode = 34, .off = 1) == -22,
        "a message, a shutdown");
    demand(FORM(.opcode = 54) == -9 && FORM(.opcode = 54, .flags = 1, .op_flags = 1) == 0 &&
               FORM(.opcode = 54, .op_flags = 2) == -9 &&
               FORM(.opcode = 54, .flags = 1, .op_flags = 2) == -22 &&
               FORM(.opcode = 54, .off = 1) == -22,
        "a descriptor of what is registered");
    demand(FORM(.opcode = 55, .off = 5) == 0 && FORM(.opcode = 55, .len = 5) == -22 &&
               FORM(.opcode = 56, .off = 5, .addr = 5) == 0 &&
               FORM(.opcode = 56, .len = 5) == -22 && FORM(.opcode = 57, .len = 5) == 0 &&
               FORM(.opcode = 57, .off = 5) == -22,
        "a length, a name, a backlog");
    demand(FORM(.opcode = 45, .off = 0x80000) == 0 &&
               FORM(.opcode = 45, .off = 0x80000, .file_index = 1) == -22,
        "a socket");
    demand(FORM(.opcode = 13, .ioprio = 1, .flags = 64) == 0 &&
               FORM(.opcode = 13, .ioprio = 1, .file_index = 1) == -22 &&
               FORM(.opcode = 27, .ioprio = 2, .flags = 32, .len = 4) == 0 &&
               FORM(.opcode = 27, .ioprio = 2, .len = 4) == -22,
        "those that go on");
    demand(FORM(.opcode = 30, .off = 5, .op_flags = 0x8000000f) == 0 &&
               FORM(.opcode = 30, .op_flags = 16) == -22 && FORM(.opcode = 33, .off = 5) == -22,
        "a splice, a tee");
}

/* Fields that must be 0, and those that are free. */
static void look_at_barred_fields(void)
{
    enum {
        FSYNC = 3,
        SYNC_FILE_RANGE = 8,
        FALLOCATE = 17,
        STATX = 21,
        EPOLL_CTL = 29,
        RENAMEAT = 35,
        UNLINKAT,
        MKDIRAT,
        SYMLINKAT,
        LINKAT,
        FSETXATTR = 41,
        SETXATTR,
        FGETXATTR,
        GETXATTR
    };
    static const uint8_t of_two[] = {FSYNC, SYNC_FILE_RANGE, FALLOCATE, STATX, EPOLL_CTL, RENAMEAT,
        UNLINKAT, MKDIRAT, SYMLINKAT, LINKAT};
    for (size_t i = 0; i < sizeof of_two; i++)
        demand(FORM(.opcode = of_two[i], .addr3 = 1, .pad = 1) == 0 &&
                   FORM(.opcode = of_two[i], .buf_index = 1) == -22 &&
                   FORM(.opcode = of_two[i], .file_index = 1) == -22 &&
                   FORM(.opcode = of_two[i], .ioprio = 1) == -22,
            "a buffer and a slot");
    demand(FORM(.opcode = FSYNC, .off = 1ull << 62) == 0 &&
               FORM(.opcode = FSYNC, .off = 1ull << 63) == -22 &&
               FORM(.opcode = SYNC_FILE_RANGE, .addr = 1) == -22,
        "syncs");
    demand(FORM(.opcode = FALLOCATE, .op_flags = 1) == -22 &&
               FORM(.opcode = MKDIRAT, .op_flags = 1) == -22 &&
               FORM(.opcode = SYMLINKAT, .op_flags = 1) == -22 &&
               FORM(.opcode = RENAMEAT, .op_flags = 1) == 0,
        "flags that must be 0");
    demand(FORM(.opcode = UNLINKAT, .op_flags = 512) == 0 &&
               FORM(.opcode = UNLINKAT, .op_flags = 1) == -22 &&
               FORM(.opcode = FSETXATTR, .op_flags = 3) == 0 &&
               FORM(.opcode = SETXATTR, .op_flags = 4) == -22 &&
               FORM(.opcode = FGETXATTR, .op_flags = 1) == -22 &&
               FORM(.opcode = GETXATTR, .op_flags = 1) == -22,
        "flags that are known");
    demand(FORM(.opcode = UNLINKAT, .off = 1) == -22 && FORM(.opcode = UNLINKAT, .len = 1) == -22 &&
               FORM(.opcode = MKDIRAT, .off = 1) == -22 &&
               FORM(.opcode = SYMLINKAT, .len = 1) == -22 && FORM(.opcode = LINKAT, .len = 1) == 0,
        "other fields");
    demand(FORM(.opcode = 30, .ioprio = 1) == -22 && FORM(.opcode = 33, .ioprio = 1) == -22 &&
               FORM(.opcode = 22, .ioprio = 7) == -22 && FORM(.opcode = 22, .ioprio = 8) == 0 &&
               FORM(.opcode = 22, .ioprio = 0x2007) == 0 && FORM(.opcode = 1, .pad = 1) == -22,
        "priorities, an attribute");
    demand(FORM(.opcode = 11, .len = 1, .addr3 = 1) == -22 &&
               FORM(.opcode = 15, .len = 1, .pad = 1) == -22 &&
               FORM(.opcode = 12, .addr3 = 1) == -22 && FORM(.opcode = 12, .flags = 1) == -22 &&
               FORM(.opcode = 14, .len = 5) == 1,
        "timeouts, a cancel");
    demand(FORM(.opcode = 15, .len = 1, .off = 1ull << 32) == 0 &&
               FORM(.opcode = 45, .off = 0x1000) == -22 &&
               FORM(.opcode = 45, .off = 1ull << 32) == 0 &&
               FORM(.opcode = 16, .off = 1ull << 32) == 0,
        "what counts 32 bits");
}

/* A slot where no file is looked for, and what goes before and after. */
static void look_at_slots(void)
{
    static const uint8_t of_paths[] = {18, 19, 21, 35, 36, 37, 38, 39, 42, 44};
    for (size_t i = 0; i < sizeof of_paths; i++)
        demand(FORM(.opcode = of_paths[i]) == 0 && FORM(.opcode = of_paths[i], .flags = 1) == -9 &&
                   FORM(.opcode = of_paths[i], .flags = 1, .ioprio = 1) == -22,
            "a path");
    demand(FORM(.opcode = 28, .len = 24, .flags = 1) == 0 &&
               FORM(.opcode = 44, .flags = 1, .op_flags = 1) == -9 &&
               FORM(.opcode = 19, .flags = 1, .fd = 1, .file_index = 1) == -9,
        "before what else is wrong");
    demand(FORM(.opcode = 29, .flags = 1) == 0 && FORM(.opcode = 41, .flags = 1) == 0 &&
               FORM(.opcode = 3, .flags = 1) == 0,
        "where a slot is taken or passed over");
}

/* Buffers that no program can have. */
static void look_at_buffers(void)
{
    enum { READV = 1, READ_FIXED = 4, READ = 22, WRITE, SEND = 26, RECV, SEND_ZC = 47 };
    static const uint8_t of_one[] = {READ, WRITE, SEND, RECV, SEND_ZC};
    const uint64_t end = 0x7ffffffff000;
    for (size_t i = 0; i < sizeof of_one; i++)
        demand(FORM(.opcode = of_one[i], .addr = end - 16, .len = 16) == 0 &&
                   FORM(.opcode = of_one[i], .addr = end - 16, .len = 17) == -14 &&
                   FORM(.opcode = of_one[i], .addr = UINT64_MAX, .len = 1) == -14,
            "one buffer");
    demand(FORM(.opcode = READ, .addr = end - 0x7ffff000, .len = UINT32_MAX) == 0 &&
               FORM(.opcode = RECV, .len = 1u << 31) == -22 &&
               FORM(.opcode = 9, .len = 1u << 31) == -22,
        "a long one");
    demand(FORM(.opcode = READ_FIXED, .addr = end, .len = 1) == 0 &&
               FORM(.opcode = READ, .flags = 32, .addr = end, .len = 1) == 0 &&
               FORM(.opcode = SEND_ZC, .ioprio = 4, .addr = end, .len = 1) == 0,
        "one that isn't looked at");
    struct wulgach_submission entry = {.opcode = READV}, selects = {.opcode = READV, .flags = 32};
    demand(wulgach_vector_fault(&entry, 0, end - 1, 1, true) == 0 &&
               wulgach_vector_fault(&entry, 0, end - 1, 2, true) == -14 &&
               wulgach_vector_fault(&entry, 0, 0, 1ull << 63, true) == -22,
        "a vector");
    demand(wulgach_vector_fault(&entry, -14, 0, 1ull << 63, false) == -22 &&
               wulgach_vector_fault(&entry, -22, end, 1, false) == -22 &&
               wulgach_vector_fault(&entry, -14, 0, 1, false) == -14 &&
               wulgach_vector_fault(&selects, 0, end, UINT64_MAX, true) == 0,
        "vectors");
    demand(wulgach_vector_fault(&entry, 0, 0, end + 1, true) == 0 &&
               wulgach_vector_fault(&entry, 0, 0, end + 1, false) == -14,
        "a lone one");
    demand(wulgach_length_with(0, 5) == 5 && wulgach_length_with(5, 6) == 11 &&
               wulgach_length_with(0, UINT32_MAX) == 0x7ffff000 &&
               wulgach_length_with(0x7ffff000, UINT64_MAX) == 0x7ffff000,
        "how much is moved");
    struct wulgach_piece piece;
    demand(wulgach_one_buffer(&(struct wulgach_submission){.opcode = WRITE}, &piece) &&
               !wulgach_one_buffer(&(struct wulgach_submission){.opcode = SEND}, &piece) &&
               !wulgach_one_buffer(&entry, &piece),
        "whose buffer is told first");
}

static void look_at_order(void)
{
    int32_t fault;
    struct wulgach_submission selects = {.opcode = 2, .flags = 32, .personality = 1},
                              unknown = {.opcode = 99, .flags = 32},
                              plain = {.opcode = 2, .personality = 1};
    demand(wulgach_form_of(&selects, -22, false, &fault) == WULGACH_FORM_REFUSED && fault == -22,
        "a strict ring");
    demand(wulgach_form_of(&selects, 0, false, &fault) == WULGACH_FORM_REFUSED && fault == -95,
        "a buffer");
    demand(wulgach_form_of(&unknown, 0, false, &fault) == WULGACH_FORM_REFUSED && fault == -22,
        "an operation that isn't served");
    demand(wulgach_form_of(&plain, 0, false, &fault) == WULGACH_FORM_REFUSED && fault == -13,
        "restrictions");
    demand(wulgach_form_of(&plain, 0, true, &fault) == WULGACH_FORM_REFUSED && fault == -22,
        "a personality");
    demand(FORM(.opcode = 22, .flags = 32) == 0 && FORM(.opcode = 27, .flags = 32) == 0,
        "one that may select");
    demand(wulgach_form_copied(WULGACH_FORM_TOKEN, 0) == WULGACH_FORM_TOKEN &&
               wulgach_form_copied(WULGACH_FORM_CANCEL, 0) == WULGACH_FORM_CANCEL &&
               wulgach_form_copied(WULGACH_FORM_TOKEN, -14) == WULGACH_FORM_REFUSED,
        "what can't be copied");
    demand(wulgach_probed_flags(0) == 1 && wulgach_probed_flags(46) == 0 &&
               wulgach_probed_flags(53) == 0 && wulgach_probed_flags(54) == 1 &&
               wulgach_probed_flags(57) == 1 && wulgach_probed_flags(200) == 0,
        "what a probe tells");
    demand(wulgach_is_address_alone(16) && !wulgach_is_address_alone(9) &&
               !wulgach_is_address_alone(26),
        "whose address is copied by itself");
}

static void look_at_links(void)
{
    static const struct {
        uint8_t opcode, flags;
        bool links, is_linked_timeout;
    } rows[] = {{0, 0, false, false}, {0, 4, true, false}, {15, 8, true, true},
        {15, 2, false, true}, {11, 51, false, false}};
    for (size_t i = 0; i < sizeof rows / sizeof *rows; i++) {
        struct wulgach_link link;
        wulgach_link_of(
            &(struct wulgach_submission){.opcode = rows[i].opcode, .flags = rows[i].flags}, &link);
        demand(link.links == rows[i].links && link.is_linked_timeout == rows[i].is_linked_timeout,
            "what an entry says of its chain");
    }
}

static void go_on(void)
{
    struct wulgach_shown shown = {.posted = 3};
    struct wulgach_submission poll = {.opcode = 6, .len = 1}, accept = {.opcode = 13, .ioprio = 1},
                              message = {.opcode = 10, .ioprio = 2}, once = {.opcode = 13},
                              read = {.opcode = 22, .len = 1};
    struct wulgach_posted late = {.call = 1, .ended = 2}, early = {.call = 2, .ended = 2},
                          told = {.is_message = true};
    demand(wulgach_goes_on(&shown, true, &poll, 0, false, 1, 4) &&
               !wulgach_goes_on(&shown, true, &poll, 0, false, 0, 4) &&
               !wulgach_goes_on(&shown, true, &poll, 0, false, -9, 4) &&
               !wulgach_goes_on(&shown, true, &poll, 0, false, 1, 3),
        "a poll");
    demand(wulgach_goes_on(&shown, true, &accept, 0, false, 0, 4) &&
               !wulgach_goes_on(&shown, true, &message, 0, false, 16, 4) &&
               wulgach_goes_on(&shown, true, &message, 1, false, 17, 4),
        "an accept, a message");
    demand(
        !wulgach_goes_on(&shown, false, &poll, 0, false, 1, 4), "one that has started otherwise");
    demand(!wulgach_goes_on(&shown, true, &once, 0, false, 5, 4) &&
               !wulgach_goes_on(&shown, true, &read, 5, false, 5, 4),
        "one that doesn't go on");
    demand(!wulgach_goes_on(&shown, true, &poll, 0, true, 1, 4), "what comes of a ring");
    struct wulgach_ring_poll of_ring, of_eventfd;
    wulgach_ring_poll_begin(&of_ring, true, true, 3);
    wulgach_ring_poll_begin(&of_eventfd, true, false, 3);
    wulgach_ring_poll_looks(&of_ring, true);
    demand(!wulgach_comes_of_ring(&of_ring, 3, false) &&
               !wulgach_ring_poll_asks_eventfd(&of_eventfd, 3) &&
               !wulgach_comes_of_ring(&of_eventfd, 3, true),
        "a poll that has begun");
    wulgach_ring_poll_looks(&of_ring, false);
    wulgach_ring_poll_looks(&of_eventfd, false);
    demand(wulgach_comes_of_ring(&of_ring, 3, false) &&
               !wulgach_comes_of_ring(&of_eventfd, 3, true) &&
               wulgach_ring_poll_asks_eventfd(&of_eventfd, 4) &&
               wulgach_comes_of_ring(&of_eventfd, 4, true) &&
               !wulgach_comes_of_ring(&of_eventfd, 4, false),
        "one that has waited");
    wulgach_ring_poll_begin(&of_ring, true, true, 3);
    wulgach_ring_poll_has_event(&of_ring, 4);
    wulgach_ring_poll_has_event(&of_eventfd, 4);
    demand(
        wulgach_comes_of_ring(&of_ring, 4, false) && !wulgach_comes_of_ring(&of_eventfd, 4, true),
        "one that has had an event");
    wulgach_ring_poll_begin(&of_ring, false, true, 3);
    wulgach_ring_poll_looks(&of_ring, false);
    demand(!wulgach_comes_of_ring(&of_ring, 3, false), "one that doesn't go on");
    demand(wulgach_tells(&late, true) && wulgach_tells(&told, true) &&
               wulgach_tells(&early, false) && !wulgach_tells(&early, true),
        "an eventfd");
}

/* The fault of a message, or its steps. */
static int32_t sending(struct wulgach_submission entry, struct wulgach_receiver to)
{
    int32_t fault;
    uint32_t sending = wulgach_sending_of(&entry, &to, &fault);
    demand((sending == WULGACH_SENDS_NOTHING) == (fault < 0), "a message's fault");
    return sending == WULGACH_SENDS_NOTHING ? fault : (int32_t)sending;
}

enum { DATA = WULGACH_HAS_MESSAGE | WULGACH_TELLS_RING };

#define SENDING(to, ...) sending((struct wulgach_submission){.opcode = 40, __VA_ARGS__}, to)

static void send(void)
{
    struct wulgach_receiver closed = {0}, file = {.is_open = true},
                            ring = {true, true, false, false}, own = {true, true, true, false},
                            disabled = {true, true, false, true};
    demand(wulgach_message_is_by_slot(&(struct wulgach_submission){.opcode = 40, .flags = 5}) &&
               !wulgach_message_is_by_slot(&(struct wulgach_submission){.opcode = 40, .flags = 4}),
        "a ring by a slot");
    demand(wulgach_may_be_ring(&(struct wulgach_submission){.opcode = 40, .flags = 4}) &&
               !wulgach_may_be_ring(&(struct wulgach_submission){.opcode = 40, .flags = 1}),
        "a registered file is no ring");
    demand(SENDING(closed, .addr = 9) == -9 && SENDING(file, .addr = 9) == -77 &&
               SENDING(ring, .addr = 2) == -22,
        "to what it is sent");
    demand(SENDING(ring, .len = 7) == DATA && SENDING(own, .len = 7) == DATA &&
               SENDING(disabled, .len = 7) == -77,
        "data");
    demand(SENDING(ring, .addr = 1L << 32, .addr3 = 1L << 32) == DATA &&
               SENDING(disabled, .addr3 = 1) == -22 && SENDING(ring, .op_flags = 1) == -22,
        "what belongs to files");
    demand(SENDING(ring, .file_index = 1) == -22 &&
               SENDING(ring, .file_index = 1, .op_flags = 2) == DATA,
        "flags that are passed");
    demand(SENDING(ring, .addr = 1, .addr3 = 3, .file_index = 4, .op_flags = 3) ==
                   (DATA | WULGACH_FINDS_FILE | WULGACH_PASSES_FILE) &&
               SENDING(own, .addr = 1) == -22,
        "a file");
    demand(SENDING(disabled, .addr = 1) == -77 && SENDING(disabled, .addr = 1, .len = 1) == -22,
        "its faults");
}

static void tell(void)
{
    struct wulgach_submission data = {.opcode = 40,
                                  .off = 5,
                                  .len = 0x80000000,
                                  .file_index = 3,
                                  .op_flags = 2},
                              file = {.opcode = 40, .addr = 1, .off = 6},
                              silent = {.opcode = 40, .addr = 1, .op_flags = 1};
    struct wulgach_message told = {0};
    demand(wulgach_told_of(&data, 0, &told) && told.user_data == 5 && told.res == INT32_MIN &&
               told.flags == 3,
        "data is told");
    demand(
        wulgach_told_of(&file, 2, &told) && told.user_data == 6 && told.res == 2 && told.flags == 0,
        "a file's slot is told");
    demand(!wulgach_told_of(&file, -23, &told) && !wulgach_told_of(&silent, 2, &told) &&
               told.user_data == 6,
        "nothing is told");
}

static void open_files(void)
{
    struct wulgach_submission slot = {.opcode = 28, .file_index = 1}, none = {.opcode = 28};
    demand(wulgach_how_fault(true) == 0 && wulgach_how_fault(false) == -7, "newer fields");
    demand(wulgach_open_fault(&slot, 0x80000) == -22 && wulgach_open_fault(&slot, 2) == 0 &&
               wulgach_open_fault(&none, 0x80000) == 0,
        "a slot");
    struct wulgach_submission plain = {.opcode = 18, .file_index = 1, .op_flags = 0x80000},
                              status = {.opcode = 21, .file_index = 1, .op_flags = 0x80000};
    demand(wulgach_open_fault(&plain, 0) == -22 && wulgach_open_fault(&status, 0x80000) == 0,
        "an open by its entry's flags, and no open");
}

static void be_strict(void)
{
    struct wulgach_strict strict;
    wulgach_strict_begin(&strict);
    struct wulgach_submission none = {0}, drain = {.flags = 2}, skip = {.flags = 64},
                              both = {.flags = 66}, selects = {.flags = 32 | 66},
                              wrong = {.flags = 128 | 66};
    demand(wulgach_strict_flags_asked(0x60) == 0x40 &&
               wulgach_strict_flags_asked(0xffffffdf) == 0xffffffdf,
        "another ring's workers");
    demand(wulgach_strict_refusal(&strict, &drain, true, false, true, true) == 0 &&
               wulgach_strict_refusal(&strict, &none, true, false, false, true) == -22,
        "a drain, an unknown operation");
    demand(wulgach_strict_refusal(&strict, &skip, true, false, true, false) == -22 &&
               wulgach_strict_refusal(&strict, &drain, true, false, true, true) == 0,
        "a flag that isn't known");
    demand(wulgach_strict_refusal(&strict, &selects, true, false, true, true) == -95 &&
               wulgach_strict_refusal(&strict, &wrong, true, false, true, true) == -22 &&
               wulgach_strict_refusal(&strict, &drain, true, false, true, true) == 0,
        "faults that go before");
    demand(wulgach_strict_refusal(&strict, &both, true, false, true, true) == -95 &&
               wulgach_strict_refusal(&strict, &drain, true, false, true, true) == -95 &&
               wulgach_strict_refusal(&strict, &skip, true, false, true, true) == 0,
        "a drain after a skip");
}

static void have_room(void)
{
    struct wulgach_layout layout = {0};
    demand(wulgach_layout_of(4, 8, 30, &layout) && layout.name == 16 && layout.control == 20 &&
               layout.bytes == 28 && layout.room == 2,
        "a buffer");
    demand(layout.has_name && layout.has_control, "with room for both");
    demand(wulgach_layout_of(4, 0, 30, &layout) && layout.has_name && !layout.has_control,
        "for an address alone");
    demand(wulgach_layout_of(0, 8, 30, &layout) && !layout.has_name && layout.has_control,
        "for control data alone");
    demand(wulgach_layout_of(4, 8, 30, &layout), "again");
    demand(wulgach_layout_filled(&layout, 1) == 29 && wulgach_layout_filled(&layout, 9) == 30,
        "what is filled");
    demand(!wulgach_layout_of(4, 8, 27, &layout) &&
               !wulgach_layout_of(0, UINT64_MAX, 64, &layout) && layout.room == 2,
        "one that is too small");
}

static void do_nothing(void)
{
    struct wulgach_submission plain = {.len = 5}, injects = {.op_flags = 1, .len = 5},
                              fails = {.op_flags = 1, .len = (uint32_t)-5};
    demand(wulgach_no_op_result(&plain) == 0 && wulgach_no_op_result(&injects) == 5 &&
               wulgach_no_op_result(&fails) == -5,
        "no-ops");
    demand(FORM(.opcode = 0, .op_flags = 31) == 0 && FORM(.opcode = 0, .op_flags = 32) == -22 &&
               FORM(.opcode = 0, .ioprio = 1) == -22,
        "their flags");
}

static void visit(void)
{
    struct wulgach_receiver none = {.is_open = true}, ring = {true, true, false, false},
                            own = {true, true, true, false};
    demand(wulgach_copies_pieces(WULGACH_FORM_TOKEN) &&
               wulgach_copies_pieces(WULGACH_FORM_CANCEL) &&
               !wulgach_copies_pieces(WULGACH_FORM_REFUSED),
        "of what is copied");
    demand(wulgach_is_own_fault(-14) && !wulgach_is_own_fault(-12) && !wulgach_is_own_fault(0),
        "whose fault it is");
    demand(wulgach_posts_message(true, true) && !wulgach_posts_message(true, false) &&
               !wulgach_posts_message(false, true),
        "which message is posted");
    demand(wulgach_visits_again(true, false, false) && wulgach_visits_again(true, true, true) &&
               !wulgach_visits_again(true, true, false) &&
               !wulgach_visits_again(false, false, true),
        "how often a ring is visited");
    demand(wulgach_visit_of(&none, 0) == WULGACH_VISITS_NOBODY &&
               wulgach_visit_of(&ring, 0) == WULGACH_VISITS_OTHER &&
               wulgach_visit_of(&own, 0) == WULGACH_POSTS_OWN &&
               wulgach_visit_of(&ring, -9) == WULGACH_VISITS_NOBODY,
        "who posts a message");
}

static void name_fields(void)
{
    const struct wulgach_submission entry = {.fd = 3,
                                        .off = 4,
                                        .addr = 5,
                                        .len = 6,
                                        .user_data = 7,
                                        .file_index = 8,
                                        .addr3 = 9 + (1ull << 32)},
                                    none = {.fd = -1};
    struct wulgach_provided provided;
    struct wulgach_passed passed;
    struct wulgach_offsets offsets;
    wulgach_provided_of(&entry, &provided);
    demand(
        provided.address == 5 && provided.first == 4 && provided.length == 6 && provided.count == 3,
        "buffers that are provided");
    wulgach_passed_of(&entry, &passed);
    demand(passed.slot == 9 && passed.to == 8, "a file that is passed");
    wulgach_offsets_of(&entry, &offsets);
    demand(offsets.from == 5 && offsets.to == 4, "where a splice reads and writes");
    demand(wulgach_removed_of(&entry) == 3 && wulgach_removed_of(&none) == 0 &&
               wulgach_target_of(&entry) == 5,
        "buffers that are removed, and what is looked for");
}

int main(void)
{
    look_at_fields();
    look_at_more_fields();
    look_at_barred_fields();
    look_at_slots();
    look_at_buffers();
    look_at_order();
    look_at_links();
    go_on();
    send();
    tell();
    open_files();
    be_strict();
    have_room();
    do_nothing();
    visit();
    name_fields();
    printf("form: as called for\n");
    return 0;
}
