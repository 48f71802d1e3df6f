/* By what operations are carried out: with the calls that the manual pages say they are like, made
 * by hand, and the numbers of the C library's header. */
#define _GNU_SOURCE
#include "demand.h"
#include "wulgach_calls.h"
#include "wulgach_openings.h"
#include "wulgach_results.h"

#include <fcntl.h>
#include <poll.h>
#include <signal.h>
#include <stddef.h>
#include <stdio.h>
#include <string.h>
#include <sys/socket.h>
#include <sys/syscall.h>

enum {
    NOP,
    READV,
    WRITEV,
    FSYNC,
    READ_FIXED,
    WRITE_FIXED,
    POLL_ADD,
    POLL_REMOVE,
    SYNC_FILE_RANGE,
    SENDMSG,
    RECVMSG,
    TIMEOUT,
    TIMEOUT_REMOVE,
    ACCEPT,
    ASYNC_CANCEL,
    LINK_TIMEOUT,
    CONNECT,
    FALLOCATE,
    OPENAT,
    CLOSE,
    FILES_UPDATE,
    STATX,
    READ,
    WRITE,
    FADVISE,
    MADVISE,
    SEND,
    RECV,
    OPENAT2,
    EPOLL_CTL,
    SPLICE,
    PROVIDE_BUFFERS,
    REMOVE_BUFFERS,
    TEE,
    SHUTDOWN,
    RENAMEAT,
    UNLINKAT,
    MKDIRAT,
    SYMLINKAT,
    LINKAT,
    MSG_RING,
    FSETXATTR,
    SETXATTR,
    FGETXATTR,
    GETXATTR,
    SOCKET,
    SEND_ZC = 47,
    SENDMSG_ZC,
    FIXED_FD_INSTALL = 54,
    FTRUNCATE,
    BIND,
    LISTEN
};

/* Each field of an entry has a number of its own, and so has what is held. */
enum {
    FD = -100,
    OFF = 1001,
    ADDR = 1002,
    LEN = 1003,
    FLAGS = 1004,
    ON = 11,
    FROM = 12,
    PATH = 21,
    SECOND = 22,
    HOW = 23,
    VALUE = 24,
    IN = 25,
    OUT = 26,
    BYTES = 27,
    LEFT = 28,
    TO = 29
};

#define AT_FOLDER ((uint64_t)FD)

static struct wulgach_submission entry_of(uint8_t code)
{
    return (struct wulgach_submission){
        .opcode = code, .fd = FD, .off = OFF, .addr = ADDR, .len = LEN, .op_flags = FLAGS};
}

static struct wulgach_means means_of(struct wulgach_submission entry)
{
    const struct wulgach_held held = {.fd = ON,
        .second_fd = FROM,
        .path = PATH,
        .second_path = SECOND,
        .how = HOW,
        .value = VALUE,
        .offset_in = IN,
        .offset_out = OUT,
        .buffer = BYTES,
        .length = LEFT,
        .address = TO};
    struct wulgach_means means;
    memset(&means, 0xff, sizeof means);
    wulgach_means_of(&entry, &held, &means);
    return means;
}

/* A row of the table: an operation, by what it is carried out, and the call. */
struct row {
    uint8_t code;
    uint32_t kind;
    uint64_t words[7];
};

static const struct row rows[] = {
    {FSYNC, WULGACH_BY_SYNC, {SYS_fsync, ON}},
    {SYNC_FILE_RANGE, WULGACH_BY_CALL, {SYS_sync_file_range, ON, OFF, LEN, FLAGS}},
    {SENDMSG, WULGACH_BY_SEND, {SYS_sendmsg, ON, VALUE, FLAGS | 0x4040}},
    {SEND, WULGACH_BY_SEND, {SYS_sendto, ON, BYTES, LEFT, FLAGS | 0x4040, TO}},
    {SEND_ZC, WULGACH_BY_SEND, {SYS_sendto, ON, BYTES, LEFT, FLAGS | 0x4040, TO}},
    {SENDMSG_ZC, WULGACH_BY_SEND, {SYS_sendmsg, ON, VALUE, FLAGS | 0x4040}},
    {RECVMSG, WULGACH_BY_RECEIVE_MESSAGE, {SYS_recvmsg, ON, VALUE, FLAGS | 0x40}},
    {RECV, WULGACH_BY_RECEIVE, {SYS_recvmsg, ON, VALUE, FLAGS | 0x40}},
    {ACCEPT, WULGACH_BY_CALL, {SYS_accept4, ON, ADDR, OFF, FLAGS}},
    {CONNECT, WULGACH_BY_CONNECT, {SYS_connect, ON, VALUE, OFF}},
    {FALLOCATE, WULGACH_BY_CALL, {SYS_fallocate, ON, LEN, OFF, ADDR}},
    {OPENAT, WULGACH_BY_CALL, {SYS_openat, AT_FOLDER, PATH, FLAGS, LEN}},
    {CLOSE, WULGACH_BY_CLOSE, {SYS_close, AT_FOLDER}},
    {STATX, WULGACH_BY_CALL, {SYS_statx, AT_FOLDER, PATH, FLAGS, LEN, OFF}},
    {FADVISE, WULGACH_BY_CALL, {SYS_fadvise64, ON, OFF, ADDR, FLAGS}},
    {MADVISE, WULGACH_BY_CALL, {SYS_madvise, ADDR, OFF, FLAGS}},
    {OPENAT2, WULGACH_BY_CALL, {SYS_openat2, AT_FOLDER, PATH, HOW, 24}},
    {EPOLL_CTL, WULGACH_BY_CALL, {SYS_epoll_ctl, AT_FOLDER, LEN, OFF, VALUE}},
    {SPLICE, WULGACH_BY_SPLICE, {SYS_splice, FROM, IN, ON, OUT, LEN, FLAGS | 2}},
    {TEE, WULGACH_BY_SPLICE, {SYS_tee, FROM, ON, LEN, FLAGS | 2}},
    {SHUTDOWN, WULGACH_BY_CALL, {SYS_shutdown, ON, LEN}},
    {RENAMEAT, WULGACH_BY_CALL, {SYS_renameat2, AT_FOLDER, PATH, LEN, SECOND, FLAGS}},
    {UNLINKAT, WULGACH_BY_CALL, {SYS_unlinkat, AT_FOLDER, PATH, FLAGS}},
    {MKDIRAT, WULGACH_BY_CALL, {SYS_mkdirat, AT_FOLDER, PATH, LEN}},
    {SYMLINKAT, WULGACH_BY_CALL, {SYS_symlinkat, PATH, AT_FOLDER, SECOND}},
    {LINKAT, WULGACH_BY_CALL, {SYS_linkat, AT_FOLDER, PATH, LEN, SECOND, FLAGS}},
    {FSETXATTR, WULGACH_BY_CALL, {SYS_fsetxattr, ON, SECOND, VALUE, LEN, FLAGS}},
    {SETXATTR, WULGACH_BY_CALL, {SYS_setxattr, PATH, SECOND, VALUE, LEN, FLAGS}},
    {FGETXATTR, WULGACH_BY_CALL, {SYS_fgetxattr, ON, SECOND, OFF, LEN}},
    {GETXATTR, WULGACH_BY_CALL, {SYS_getxattr, PATH, SECOND, OFF, LEN}},
    {SOCKET, WULGACH_BY_CALL, {SYS_socket, AT_FOLDER, OFF, LEN}},
    {FIXED_FD_INSTALL, WULGACH_BY_CALL, {SYS_fcntl, ON, F_DUPFD_CLOEXEC}},
    {FTRUNCATE, WULGACH_BY_CALL, {SYS_ftruncate, ON, OFF}},
    {BIND, WULGACH_BY_CALL, {SYS_bind, ON, VALUE, OFF}},
    {LISTEN, WULGACH_BY_CALL, {SYS_listen, ON, LEN}},
    {NOP, WULGACH_BY_NOTHING, {0}},
    {READ, WULGACH_BY_TRANSFER, {0}},
    {WRITEV, WULGACH_BY_TRANSFER, {0}},
    {POLL_ADD, WULGACH_BY_POLL, {0}},
    {POLL_REMOVE, WULGACH_BY_POLL_REMOVAL, {0}},
    {TIMEOUT_REMOVE, WULGACH_BY_TIMEOUT_REMOVAL, {0}},
    {ASYNC_CANCEL, WULGACH_BY_CANCEL, {0}},
    {TIMEOUT, WULGACH_BY_TIMEOUT, {0}},
    {LINK_TIMEOUT, WULGACH_BY_LINKED_TIMEOUT, {0}},
    {PROVIDE_BUFFERS, WULGACH_BY_PROVISION, {0}},
    {REMOVE_BUFFERS, WULGACH_BY_PROVISION_REMOVAL, {0}},
    {MSG_RING, WULGACH_BY_MESSAGE, {0}},
};

static bool is_call(const struct wulgach_system_call *call, const uint64_t words[7])
{
    return memcmp(call, words, sizeof *call) == 0;
}

#define IS_CALL(call, ...) is_call(&(call), (const uint64_t[7]){__VA_ARGS__})

static void compare_rows(void)
{
    _Static_assert(
        sizeof(struct wulgach_system_call) == sizeof rows->words, "a call has seven words");
    char what[40];
    for (size_t i = 0; i < sizeof rows / sizeof *rows; i++) {
        struct wulgach_means means = means_of(entry_of(rows[i].code));
        snprintf(what, sizeof what, "operation %u", rows[i].code);
        demand(means.kind == rows[i].kind && means.slot == 0 && means.listed.address == 0 &&
                   means.listed.count == 0 && is_call(&means.call, rows[i].words),
            what);
    }
}

static void look_at_slots(void)
{
    struct wulgach_submission open = entry_of(OPENAT), socket = entry_of(SOCKET),
                              accept = entry_of(ACCEPT), close = entry_of(CLOSE),
                              update = entry_of(FILES_UPDATE);
    open.file_index = socket.file_index = close.file_index = 5;
    accept.file_index = UINT32_MAX;
    demand(means_of(open).kind == WULGACH_BY_OPENING && means_of(open).slot == 5 &&
               means_of(open).call.number == SYS_openat,
        "an open into a slot");
    demand(means_of(socket).kind == WULGACH_BY_OPENING && means_of(accept).slot == UINT32_MAX,
        "a socket, any slot");
    demand(means_of(close).kind == WULGACH_BY_SLOT_REMOVAL && means_of(close).slot == 4 &&
               means_of(close).call.number == 0,
        "a close of a slot");
    demand(means_of(update).kind == WULGACH_BY_FILES_UPDATE && means_of(update).slot == OFF &&
               means_of(update).listed.address == ADDR && means_of(update).listed.count == LEN,
        "an update of files");
    update.off = UINT32_MAX;
    demand(means_of(update).kind == WULGACH_BY_FILES_PLACING && means_of(update).slot == 0 &&
               means_of(update).listed.address == ADDR && means_of(update).listed.count == LEN,
        "files where there is room");
}

static void look_at_variants(void)
{
    struct wulgach_submission sync = entry_of(FSYNC), splice = entry_of(SPLICE),
                              socket = entry_of(SOCKET), advice = entry_of(FADVISE),
                              send = entry_of(SEND), elsewhere = entry_of(SEND_ZC),
                              install = entry_of(FIXED_FD_INSTALL);
    sync.op_flags = 1;
    splice.addr = splice.off = UINT64_MAX;
    splice.op_flags = 1u << 31 | 1;
    socket.off = 1ull << 32 | 2;
    advice.addr = send.off = 0;
    elsewhere.file_index = 16;
    install.op_flags = 1;
    demand(means_of(install).call.number == SYS_fcntl && means_of(install).call.second == F_DUPFD,
        "a descriptor for programs that are started");
    demand(means_of(send).call.number == SYS_sendmsg && means_of(send).call.second == VALUE &&
               means_of(elsewhere).call.sixth == 16,
        "a send to nowhere, and how long an address is");
    demand(means_of(sync).call.number == SYS_fdatasync, "a sync of data");
    struct wulgach_means means = means_of(splice);
    demand(IS_CALL(means.call, SYS_splice, FROM, 0, ON, 0, LEN, 3), "a splice without offsets");
    demand(means_of(socket).call.second == 2 && means_of(advice).call.third == LEN,
        "32 bits of a type, a short length");
}

static struct wulgach_system_call transfer(uint8_t code, uint32_t count, uint64_t length,
    uint64_t offset, uint32_t flags, bool is_stream, uint32_t step)
{
    struct wulgach_submission entry = {.opcode = code, .off = offset, .op_flags = flags};
    struct wulgach_vectors vectors = {
        .fd = ON, .count = count, .vectors = VALUE, .buffer = ADDR, .length = length};
    struct wulgach_transfer transfer = {.length = length, .is_stream = is_stream};
    struct wulgach_system_call call;
    wulgach_transfer_call(&entry, &vectors, &transfer, step, &call);
    return call;
}

static void look_at_transfers(void)
{
    struct wulgach_system_call read = transfer(READ, 1, 8, 5, 0, false, WULGACH_CALL_PLAIN),
                               at_once = transfer(READ, 1, 8, 5, 0, false, WULGACH_CALL_AT_ONCE),
                               stream = transfer(READ, 1, 8, 5, 0, true, WULGACH_CALL_UNWILLING),
                               two = transfer(READV, 2, 8, 5, 4, false, WULGACH_CALL_TRIED),
                               write = transfer(WRITE, 1, 8, 5, 2, false, WULGACH_CALL_PLAIN),
                               asked = transfer(
                                   WRITE_FIXED, 1, 8, 5, 2, true, WULGACH_CALL_NONBLOCKING),
                               none = transfer(READ_FIXED, 1, 0, 5, 0, false, WULGACH_CALL_PLAIN);
    demand(IS_CALL(read, SYS_pread64, ON, ADDR, 8, 5), "a read of one buffer");
    demand(IS_CALL(at_once, SYS_preadv2, ON, VALUE, 1, 5, 0, 8), "one that is asked not to wait");
    demand(IS_CALL(stream, SYS_preadv2, ON, VALUE, 1, UINT64_MAX), "one of a stream");
    demand(IS_CALL(two, SYS_preadv2, ON, VALUE, 2, 5, 0, 4) &&
               IS_CALL(none, SYS_preadv2, ON, VALUE, 1, 5),
        "of two vectors, of no bytes");
    struct wulgach_submission writes = {.opcode = WRITE, .off = 5};
    struct wulgach_vectors vectors = {.fd = ON, .count = 1, .vectors = VALUE, .buffer = ADDR};
    struct wulgach_system_call nothing;
    wulgach_transfer_call(&writes, &vectors,
        &(struct wulgach_transfer){.is_stream = true, .is_socket = true}, WULGACH_CALL_PLAIN,
        &nothing);
    demand(IS_CALL(nothing, SYS_sendto, ON, 0, 0, MSG_DONTWAIT), "a write of no bytes to a socket");
    demand(IS_CALL(write, SYS_pwritev2, ON, VALUE, 1, 5, 0, 2) &&
               IS_CALL(asked, SYS_pwritev2, ON, VALUE, 1, UINT64_MAX, 0, 10),
        "writes");
}

static void look_at_faults(void)
{
    demand(wulgach_can_have(READ, true, 0, WULGACH_GIVES_EIO) &&
               wulgach_can_have(FSYNC, false, 0, WULGACH_GIVES_EIO) &&
               !wulgach_can_have(NOP, false, 0, WULGACH_GIVES_EIO),
        "EIO");
    demand(wulgach_can_have(WRITEV, false, 0, WULGACH_GIVES_ENOSPC) &&
               wulgach_can_have(FALLOCATE, false, 0, WULGACH_GIVES_ENOSPC) &&
               !wulgach_can_have(READ, false, 8, WULGACH_GIVES_ENOSPC),
        "ENOSPC");
    demand(wulgach_can_have(READ, false, 2, WULGACH_GIVES_SHORT) &&
               !wulgach_can_have(READ, false, 1, WULGACH_GIVES_SHORT) &&
               !wulgach_can_have(READ, true, 2, WULGACH_GIVES_SHORT) &&
               !wulgach_can_have(READ, false, 2, 4),
        "SHORT, and no fault");
}

static void look_at_sources(void)
{
    int32_t res = 7;
    demand(wulgach_source_of(WRITE, -14, WULGACH_GIVES_EIO, &res) == WULGACH_FROM_START &&
               wulgach_source_of(NOP, -9, 0, &res) == WULGACH_FROM_START,
        "what failed as it started");
    demand(wulgach_source_of(NOP, 0, WULGACH_GIVES_EIO, &res) == WULGACH_FROM_ENTRY, "a no-op");
    demand(wulgach_source_of(WRITE, 0, WULGACH_GIVES_SHORT, &res) == WULGACH_FROM_HALF &&
               wulgach_source_of(WRITE, 0, 0, &res) == WULGACH_FROM_CALLS &&
               wulgach_source_of(WRITE, 0, 4, &res) == WULGACH_FROM_CALLS && res == 7,
        "what is made");
    demand(wulgach_source_of(WRITE, 0, WULGACH_GIVES_EIO, &res) == WULGACH_FROM_FAULT &&
               res == -5 &&
               wulgach_source_of(WRITE, 0, WULGACH_GIVES_ENOSPC, &res) == WULGACH_FROM_FAULT &&
               res == -28,
        "what it is given");
    demand(wulgach_half_in(11, 0, 3) == 3 && wulgach_half_in(11, 3, 4) == 2 &&
               wulgach_half_in(11, 7, 4) == 0 && wulgach_half_in(1, 0, 1) == 0,
        "half of what is moved");
    demand(wulgach_left_of_buffer(11, 11, 11) == 5 && wulgach_left_of_buffer(11, 11, 7) == 9 &&
               wulgach_left_of_buffer(11, 11, 4) == 11 && wulgach_left_of_buffer(1, 1, 1) == 0,
        "what is left of a buffer");
    demand(wulgach_finish_steps(true) == 15 && wulgach_finish_steps(false) == 13,
        "what is done with a result");
}

/* OPENAT has its flags in the entry, and OPENAT2 has others, `how`; each says IOSQE_ASYNC or
 * doesn't. */
static struct wulgach_submission opening(uint8_t code, uint32_t flags, bool is_async)
{
    return (struct wulgach_submission){
        .opcode = code, .op_flags = flags, .flags = is_async ? 16 : 0};
}

static uint32_t opens(uint8_t code, uint32_t flags, uint64_t how, bool names_pipe)
{
    struct wulgach_submission entry = opening(code, flags, false);
    return wulgach_opening_of(&entry, how, names_pipe);
}

static bool looks(uint8_t code, uint32_t flags, uint64_t how, bool is_async)
{
    struct wulgach_submission entry = opening(code, flags, is_async);
    return wulgach_opening_of(&entry, how, true) == WULGACH_OPENS_PIPE;
}

/* Whether this is next of an open of a pipe, which ends with that, or with nothing, 7. */
static bool steps(const struct wulgach_submission *entry, int32_t opened, uint32_t last,
    int32_t res, uint32_t next, int32_t end)
{
    int32_t came = 7;
    return wulgach_opening_next(entry, 0, opened, last, res, &came) == next && came == end;
}

static void look_at_steps(
    const struct wulgach_submission *reads, const struct wulgach_submission *writes)
{
    enum {
        ENDS = WULGACH_OPENING_ENDS,
        WAITS = WULGACH_OPENING_WAITS,
        PATH = WULGACH_OPENING_BY_PATH,
        LINK = WULGACH_OPENING_BY_LINK,
        ASKS = WULGACH_OPENING_ASKS_WRITER
    };
    struct wulgach_submission reads_past = opening(OPENAT, O_DIRECT, true),
                              writes_past = opening(OPENAT, O_DIRECT | O_WRONLY, true);
    demand(steps(reads, -1, 0, 0, PATH, 7) && steps(writes, -1, 0, 0, PATH, 7),
        "its path is opened first");
    demand(steps(reads, -1, PATH, -13, ENDS, -13) && steps(writes, -1, PATH, -11, ENDS, -11) &&
               steps(reads, -1, PATH, -6, ENDS, -6) && steps(reads, -1, PATH, -22, ENDS, -22),
        "what is refused");
    demand(steps(writes, -1, PATH, -6, WAITS, 7) && steps(writes, 3, PATH, 3, ENDS, 3) &&
               steps(reads, 3, PATH, 3, ASKS, 7),
        "what is opened by its path");
    demand(steps(reads, 3, ASKS, 1, ENDS, 3) && steps(reads, 3, ASKS, 0, WAITS, 7) &&
               steps(reads, 3, WAITS, 0, ASKS, 7) && steps(writes, -1, WAITS, 0, LINK, 7),
        "what waits");
    demand(steps(writes, -1, LINK, -6, WAITS, 7) && steps(writes, 4, LINK, 4, ENDS, 4) &&
               steps(writes, -1, LINK, -24, ENDS, -24) && steps(writes, -1, LINK, -2, PATH, 7),
        "what is opened by its link");
    demand(steps(&reads_past, -1, PATH, -22, LINK, 7) && steps(&reads_past, 3, LINK, 3, ASKS, 7) &&
               steps(&reads_past, 3, ASKS, 1, ENDS, -22) &&
               steps(&reads_past, -1, LINK, -2, ENDS, -22) &&
               steps(&reads_past, -1, PATH, 3, ENDS, 3),
        "with O_DIRECT, to read");
    demand(steps(&writes_past, -1, PATH, -22, ENDS, -22) &&
               steps(&writes_past, -1, PATH, -6, WAITS, 7) &&
               steps(&writes_past, 4, LINK, 4, ENDS, -22),
        "and to write");
}

static void look_at_opens(void)
{
    demand(opens(OPENAT, 0, 0, false) == WULGACH_OPENS_AT_ONCE &&
               opens(OPENAT2, O_NONBLOCK, O_RDWR, false) == WULGACH_OPENS_AT_ONCE,
        "which open is asked not to wait");
    demand(opens(OPENAT, O_NONBLOCK, 0, false) == WULGACH_OPENS_PLAINLY &&
               opens(OPENAT, O_DIRECTORY, 0, false) == WULGACH_OPENS_PLAINLY &&
               opens(OPENAT2, 0, O_PATH, false) == WULGACH_OPENS_PLAINLY &&
               opens(CLOSE, 0, 0, false) == WULGACH_OPENS_PLAINLY,
        "and which isn't");
    demand(opens(OPENAT, O_CREAT, 0, true) == WULGACH_OPENS_PIPE &&
               opens(OPENAT2, 0, O_TRUNC | O_WRONLY, true) == WULGACH_OPENS_PIPE &&
               opens(OPENAT, O_CREAT, 0, false) == WULGACH_OPENS_AT_ONCE &&
               opens(OPENAT, 0, O_CREAT, true) == WULGACH_OPENS_AT_ONCE,
        "a pipe that was looked up");
    demand(looks(OPENAT, O_CREAT, 0, false) && looks(OPENAT2, 0, O_TRUNC | O_WRONLY, false) &&
               looks(OPENAT2, O_RDWR, O_WRONLY, true),
        "which path is looked at");
    demand(!looks(OPENAT, 0, O_CREAT, false) && !looks(OPENAT, O_CREAT | O_RDWR, 0, true) &&
               !looks(OPENAT, O_NONBLOCK, 0, true) && !looks(OPENAT2, 0, O_PATH, true) &&
               !looks(CLOSE, 0, 0, true),
        "and which isn't");
    struct wulgach_submission reads = opening(OPENAT, O_NOFOLLOW | O_CLOEXEC, false),
                              writes = opening(OPENAT, O_WRONLY | O_APPEND, false);
    struct wulgach_submission other = opening(OPENAT2, 0, true);
    struct wulgach_how none = {0},
                       how = {.flags = O_WRONLY | O_CREAT | O_DIRECT, .mode = 0600, .resolve = 8},
                       so;
    wulgach_looking_how(&reads, &none, &so);
    demand(so.flags == (O_PATH | O_CLOEXEC | O_NOFOLLOW) && so.mode == 0 && so.resolve == 0,
        "how it is looked up");
    wulgach_looking_how(&other, &how, &so);
    demand(so.flags == (O_PATH | O_CLOEXEC) && so.mode == 0 && so.resolve == 8,
        "and how it is resolved");
    wulgach_found_how(&reads, &none, &so);
    demand(so.flags == (O_NONBLOCK | O_CLOEXEC) && so.mode == 0 && so.resolve == 0,
        "how what was found is opened");
    wulgach_found_how(&other, &how, &so);
    demand(so.flags == (O_WRONLY | O_CREAT | O_NONBLOCK) && so.mode == 0600 && so.resolve == 0,
        "with its mode, and not resolved so");
    look_at_steps(&reads, &writes);
    demand(wulgach_unwilling_flags(O_RDWR | O_CREAT) == (O_RDWR | O_CREAT | O_NONBLOCK) &&
               wulgach_unwilling_flags((uint64_t)1 << 63) == ((uint64_t)1 << 63 | O_NONBLOCK),
        "how an open is asked not to wait");
    struct wulgach_standing file = {.has_found_buffer = true}, stream = {.is_stream = true};
    int32_t polled = wulgach_standing_after_path(&file, 5, false);
    demand(polled == 5 && wulgach_standing_after_path(&stream, -1, false) == -1 &&
               !file.is_stream && stream.is_stream,
        "a path that names no pipe");
    polled = wulgach_standing_after_path(&file, 5, true);
    demand(polled == -1 && file.is_stream && file.has_found_buffer, "one that names a pipe");
    demand(wulgach_has_writer(true, false, 0) && wulgach_has_writer(false, true, -11) &&
               wulgach_has_writer(false, true, 1) && !wulgach_has_writer(false, true, 0) &&
               !wulgach_has_writer(false, false, -11),
        "who has a pipe open to write");
    struct wulgach_told_lock layers = {WULGACH_LOCKED_BYTE, 1, 1, 8, 7, true},
                             whole = {0, 0, 1, -1, 7, true}, own = {0, 0, 0, 7, 7, true},
                             unlocked = {0, 0, 2, 7, 7, true}, untold = {0, 0, 1, 7, 7, false};
    demand(!wulgach_is_lock_of_others(&layers) && wulgach_is_lock_of_others(&whole) &&
               !wulgach_is_lock_of_others(&own) && !wulgach_is_lock_of_others(&unlocked) &&
               !wulgach_is_lock_of_others(&untold),
        "whose lock means something else");
    demand(!wulgach_is_own_lock(&layers) && !wulgach_is_own_lock(&whole) &&
               wulgach_is_own_lock(&own) && !wulgach_is_own_lock(&unlocked) &&
               !wulgach_is_own_lock(&untold),
        "whose lock is one's own");
    demand(wulgach_asks_list_of_locks(&layers) && wulgach_asks_list_of_locks(&whole) &&
               !wulgach_asks_list_of_locks(&own) && !wulgach_asks_list_of_locks(&unlocked) &&
               wulgach_asks_list_of_locks(&untold),
        "when the list of locks is read");
}

static bool is_told(const struct wulgach_received *received, uint32_t after, uint64_t value,
    size_t offset, size_t size)
{
    struct wulgach_field field;
    return wulgach_next_told(received, after, &field) && field.value == value &&
           field.offset == offset && field.size == size;
}

static void look_at_messages(void)
{
    struct wulgach_received named = {.control_size = 24,
                                .name_size = 16,
                                .flags = MSG_TRUNC,
                                .has_name = true},
                            plain = {.control_size = 1ull << 32, .name_size = 16, .flags = 8};
    struct msghdr *at = NULL;
    struct wulgach_field field = {.value = 7};
    demand(is_told(&named, 0, 16, offsetof(struct msghdr, msg_namelen), sizeof at->msg_namelen) &&
               is_told(&named, 1, MSG_TRUNC, offsetof(struct msghdr, msg_flags),
                   sizeof at->msg_flags) &&
               is_told(&named, 2, 24, offsetof(struct msghdr, msg_controllen),
                   sizeof at->msg_controllen),
        "a message with an address");
    demand(is_told(&plain, 0, 8, offsetof(struct msghdr, msg_flags), sizeof at->msg_flags) &&
               is_told(&plain, 1, 1ull << 32, offsetof(struct msghdr, msg_controllen),
                   sizeof at->msg_controllen),
        "and one without");
    demand(!wulgach_next_told(&named, 3, &field) && !wulgach_next_told(&plain, 2, &field) &&
               field.value == 7,
        "nothing more");
    struct wulgach_front front;
    _Static_assert(sizeof front == 16, "four words stand in front of a message");
    wulgach_front_of(&named, 5, &front);
    demand(front.name_size == 16 && front.control_size == 24 && front.size == 5 &&
               front.flags == MSG_TRUNC,
        "what stands in front of a message");
    wulgach_front_of(&plain, 0, &front);
    demand(front.control_size == UINT32_MAX && front.size == 0, "of as much as 32 bits say");
}

static void look_at_parts(void)
{
    struct wulgach_vector vector = {1000, 10};
    struct wulgach_rest rest;
    demand(wulgach_moved_by(5) == 5 && wulgach_moved_by(0) == 0 && wulgach_moved_by(-11) == 0,
        "what a call has moved");
    wulgach_rest_of(&vector, 4, &rest);
    demand(
        rest.vector.from == 1004 && rest.vector.size == 6 && rest.moved == 0, "a part of a vector");
    wulgach_rest_of(&vector, 13, &rest);
    demand(rest.vector.from == 1010 && rest.vector.size == 0 && rest.moved == 3, "and all of it");
    wulgach_rest_of(&vector, 0, &rest);
    demand(rest.vector.from == 1000 && rest.vector.size == 10 && rest.moved == 0, "and nothing");
}

static void look_at_calls(void)
{
    for (unsigned code = 0; code < 64; code++) {
        bool is_transfer = code == 1 || code == 2 || code == 4 || code == 5 || code == 22 ||
                           code == 23 || code == 49,
             is_sockets = code == 9 || code == 10 || code == 13 || code == 16 || code == 26 ||
                          code == 27 || code == 47 || code == 48;
        uint32_t calls = is_transfer                              ? WULGACH_CALLS_OF_TRANSFER
                         : code == 6                              ? WULGACH_CALLS_OF_POLL
                         : is_sockets || code == 30 || code == 33 ? WULGACH_CALLS_IN_TURN
                                                                  : WULGACH_CALLS_ONCE;
        demand(wulgach_calls_of((uint8_t)code) == calls, "by which calls");
    }
}

#define LOCKING(...) wulgach_locking_next(&(struct wulgach_locked){__VA_ARGS__})

static void ask_descriptors(void)
{
    uint32_t flags = 7;
    for (unsigned code = 0; code < 64; code++)
        demand(wulgach_asked_descriptors((uint8_t)code) == (code == 13 || code == 16      ? 1u
                                                               : code == 30 || code == 33 ? 2u
                                                                                          : 0u),
            "of how many descriptors it is asked");
    demand(LOCKING(0) == WULGACH_LOCKING_TRIES &&
               LOCKING(.is_of_application = true) == WULGACH_LOCKING_GOES_WITHOUT &&
               LOCKING(.tries = 1) == WULGACH_LOCKING_HOLDS &&
               LOCKING(.tries = 1, .came_to = -9) == WULGACH_LOCKING_HOLDS,
        "a lock that is had");
    demand(LOCKING(.tries = 20, .came_to = -11) == WULGACH_LOCKING_YIELDS &&
               LOCKING(.tries = 21, .came_to = -13) == WULGACH_LOCKING_PAUSES &&
               LOCKING(.tries = 2000, .came_to = -11) == WULGACH_LOCKING_GOES_WITHOUT &&
               LOCKING(.tries = 1, .came_to = -11, .is_of_others = true) ==
                   WULGACH_LOCKING_GOES_WITHOUT,
        "one that another has");
    demand(!wulgach_asked_flags(false, 2, &flags) &&
               !wulgach_asked_flags(true, O_NONBLOCK | 2, &flags) && flags == 7,
        "what isn't to wait anyway");
    demand(wulgach_asked_flags(true, O_APPEND | 2, &flags) && flags == (O_APPEND | O_NONBLOCK | 2),
        "what is asked");
    demand(!wulgach_flags_after(false, true, O_NONBLOCK, &flags) &&
               !wulgach_flags_after(true, false, O_NONBLOCK, &flags) &&
               !wulgach_flags_after(true, true, 2, &flags) && flags == (O_APPEND | O_NONBLOCK | 2),
        "what isn't taken back");
    demand(wulgach_flags_after(true, true, flags, &flags) && flags == (O_APPEND | 2),
        "what is taken back");
}

/* Whether this is next after a call of an entry, which came to that, or to nothing, 7. */
static bool shuts(
    const struct wulgach_submission *entry, uint32_t last, int32_t res, uint32_t next, int32_t end)
{
    int32_t came = 7;
    return wulgach_shutting_next(entry, last, res, &came) == next && came == end;
}

static void look_at_results(void)
{
    demand(
        wulgach_opens_again(-11) && !wulgach_opens_again(-6) && !wulgach_opens_again(3), "a lease");
    uint32_t flags = 7;
    demand(!wulgach_asks_anew(true, O_WRONLY, &flags) &&
               !wulgach_asks_anew(false, O_RDONLY, &flags) && flags == 7 &&
               wulgach_asks_anew(true, O_RDONLY, &flags) && flags == (O_NONBLOCK | O_CLOEXEC),
        "a pipe's end that is opened once more");
    demand(wulgach_asks_end(false, false) && !wulgach_asks_end(true, false) &&
               !wulgach_asks_end(false, true),
        "an end of a splice");
    demand(wulgach_has_begun(-115) && !wulgach_has_begun(-11) && !wulgach_has_begun(0),
        "a connect that goes on");
    struct wulgach_submission receive = {.opcode = 10}, send = {.opcode = 9};
    demand(wulgach_tells_message(&receive, 0) && !wulgach_tells_message(&receive, -11) &&
               !wulgach_tells_message(&send, 5),
        "what is told of a message");
    demand(wulgach_told_result(5, true) == 5 && wulgach_told_result(5, false) == -14,
        "one that can't be told");
    struct wulgach_submission going_on = {.opcode = 27, .ioprio = 2},
                              hasty = {.opcode = 27, .op_flags = 64}, read = {.opcode = 22},
                              unwilling = {.opcode = 22, .op_flags = 8};
    enum {
        ENDS = WULGACH_SHUTTING_ENDS,
        ASKS = WULGACH_SHUTTING_ASKS,
        AGAIN = WULGACH_SHUTTING_CALLS_AGAIN,
        WILL = WULGACH_SHUTTING_ASKS_WILL,
        LOCAL = WULGACH_SHUTTING_ASKS_LOCAL
    };
    demand(shuts(&receive, 0, -11, ASKS, 7) && shuts(&read, 0, -11, ASKS, 7) &&
               shuts(&receive, 0, -107, ENDS, -107) && shuts(&send, 0, -11, ENDS, -11),
        "whether a socket was shut down");
    demand(shuts(&going_on, 0, -11, ENDS, -11) && shuts(&hasty, 0, -11, ENDS, -11) &&
               shuts(&unwilling, 0, -11, ENDS, -11),
        "where that doesn't matter");
    demand(shuts(&read, ASKS, 0, ENDS, -11) && shuts(&read, ASKS, 1, AGAIN, 7) &&
               shuts(&read, AGAIN, 5, ENDS, 5) && shuts(&read, AGAIN, -11, WILL, 7) &&
               shuts(&read, WILL, 0, ENDS, 0),
        "a socket that was shut down");
    struct wulgach_submission accept = {.opcode = 13}, accepts_on = {.opcode = 13, .ioprio = 1};
    demand(shuts(&accept, 0, -11, ASKS, 7) && shuts(&accept, AGAIN, 5, ENDS, 5) &&
               shuts(&accept, WILL, 0, ENDS, -22) && shuts(&accept, WILL, 1, ENDS, -11) &&
               shuts(&accepts_on, 0, -11, ENDS, -11),
        "an accept by what was shut down");
    struct wulgach_submission of_errors = {.opcode = 27, .op_flags = 8192};
    demand(shuts(&of_errors, 0, -11, LOCAL, 7) && shuts(&of_errors, LOCAL, 0, ENDS, -11) &&
               shuts(&of_errors, LOCAL, 1, ASKS, 7) && shuts(&of_errors, WILL, 1, ENDS, 0),
        "a receive of errors");
    demand(shuts(&read, WILL, 1, ENDS, -11) && shuts(&receive, WILL, 1, ENDS, -11) &&
               shuts(&hasty, WILL, 1, ENDS, 0),
        "one that isn't to wait");
    struct wulgach_system_call sent;
    wulgach_breaking_call(-1, &sent);
    demand(sent.number == 44 && sent.first == UINT64_MAX && sent.second == 0 && sent.third == 0 &&
               sent.fourth == (MSG_DONTWAIT | MSG_NOSIGNAL) && sent.fifth == 0 && sent.sixth == 0,
        "how a socket is asked whether it is broken");
    demand(wulgach_is_broken(-32) && !wulgach_is_broken(-11) && !wulgach_is_broken(0),
        "and whether it is");
    demand(wulgach_is_shut(1, POLLRDHUP | POLLIN) && !wulgach_is_shut(1, POLLIN) &&
               !wulgach_is_shut(0, POLLRDHUP) && !wulgach_is_shut(-22, POLLRDHUP),
        "whether it is shut");
    struct wulgach_submission reads_on = {.opcode = 49, .off = 4096},
                              without_offset = {.opcode = 49, .off = UINT64_MAX};
    demand(wulgach_offset_after(&reads_on, 16) == 4112 &&
               wulgach_offset_after(&reads_on, -11) == 4096 &&
               wulgach_offset_after(&without_offset, 16) == UINT64_MAX &&
               wulgach_offset_after(&read, 16) == 0,
        "where a read that goes on reads next");
    demand(wulgach_takes_for_nothing(22, 0, true, true) &&
               !wulgach_takes_for_nothing(49, 0, true, true) &&
               !wulgach_takes_for_nothing(27, 0, true, true),
        "what takes a buffer at the end of its file");
    demand(wulgach_takes_for_nothing(22, -14, false, true) &&
               wulgach_takes_for_nothing(22, -14, true, false) &&
               !wulgach_takes_for_nothing(22, -14, true, true) &&
               !wulgach_takes_for_nothing(49, -14, false, true) &&
               !wulgach_takes_for_nothing(27, -14, false, true),
        "what takes one as it fails");
    demand(wulgach_placed_result(UINT32_MAX, 7) == 7 && wulgach_placed_result(8, 7) == 0,
        "a file for any slot, and for one");
    struct wulgach_submission sends = {.opcode = 9}, receives = {.opcode = 10},
                              splice = {.opcode = 30};
    demand(wulgach_control_of(&sends, 24, 0) == 24 && wulgach_control_of(&sends, 24, 5) == 0 &&
               wulgach_control_of(&receives, 24, 5) == 24,
        "control data");
    demand(wulgach_moved_so_far(&sends, 5) == 5 &&
               wulgach_moved_so_far(&receives, 1ull << 40) == INT32_MAX &&
               wulgach_moved_so_far(&splice, 1) == 0,
        "what was moved so far");
    demand(wulgach_done_result(&(struct wulgach_submission){.opcode = 10}, 7, 30) == 7 &&
               wulgach_done_result(
                   &(struct wulgach_submission){.opcode = 10, .ioprio = 2}, 7, 30) == 30 &&
               wulgach_done_result(
                   &(struct wulgach_submission){.opcode = 27, .ioprio = 2}, 7, 30) == 7 &&
               wulgach_done_result(&(struct wulgach_submission){.opcode = 26}, 1ull << 40, 0) ==
                   INT32_MAX,
        "what was moved");
    demand(wulgach_signal_after(&(struct wulgach_submission){.opcode = 23}, -27) == SIGXFSZ &&
               wulgach_signal_after(&(struct wulgach_submission){.opcode = 17}, -27) == SIGXFSZ &&
               wulgach_signal_after(&splice, -27) == SIGXFSZ &&
               wulgach_signal_after(&(struct wulgach_submission){.opcode = 22}, -27) == 0 &&
               wulgach_signal_after(&(struct wulgach_submission){.opcode = 23}, -28) == 0,
        "what may bring a signal");
    struct wulgach_submission put_off = {.opcode = 23, .flags = 16}, write = {.opcode = 23};
    demand(wulgach_signal_after(&splice, -32) == SIGPIPE &&
               wulgach_signal_after(&put_off, -32) == SIGPIPE &&
               wulgach_signal_after(&write, -32) == 0,
        "what breaks a pipe unheard");
    demand(wulgach_is_taken_back(SIGXFSZ, true, 0) &&
               wulgach_is_taken_back(SIGXFSZ, true, 1ull << 40) &&
               !wulgach_is_taken_back(SIGXFSZ, true, UINT64_MAX) &&
               !wulgach_is_taken_back(SIGXFSZ, false, 0),
        "where files may get too long");
    demand(wulgach_is_taken_back(SIGPIPE, true, UINT64_MAX) &&
               wulgach_is_taken_back(SIGPIPE, false, 0) && !wulgach_is_taken_back(0, true, 0),
        "where that doesn't matter");
    demand(wulgach_is_signal_of_call(0, true) && !wulgach_is_signal_of_call(0, false) &&
               !wulgach_is_signal_of_call(-6, true),
        "whose signal it is");
    demand(wulgach_is_stream_type(1) && wulgach_is_stream_type(5) && !wulgach_is_stream_type(2) &&
               !wulgach_is_stream_type(0),
        "streams");
}

int main(void)
{
    look_at_results();
    look_at_opens();
    look_at_messages();
    look_at_parts();
    compare_rows();
    look_at_slots();
    look_at_variants();
    look_at_transfers();
    look_at_faults();
    look_at_sources();
    look_at_calls();
    ask_descriptors();
    puts("calls: as called for");
    return 0;
}
