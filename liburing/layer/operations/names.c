/* What is asked for, in words: for choices and traces. */
#include "operations/operations.h"

#include <inttypes.h>

const char *operation_name(uint8_t code)
{
    static const char *const names[] = {
        [IORING_OP_NOP] = "no-op",
        [IORING_OP_READV] = "readv",
        [IORING_OP_WRITEV] = "writev",
        [IORING_OP_FSYNC] = "fsync",
        [IORING_OP_SYNC_FILE_RANGE] = "sync_file_range",
        [IORING_OP_TIMEOUT] = "timeout",
        [IORING_OP_ASYNC_CANCEL] = "cancel",
        [IORING_OP_FALLOCATE] = "fallocate",
        [IORING_OP_OPENAT] = "openat",
        [IORING_OP_CLOSE] = "close",
        [IORING_OP_STATX] = "statx",
        [IORING_OP_READ] = "read",
        [IORING_OP_WRITE] = "write",
        [IORING_OP_FADVISE] = "fadvise",
        [IORING_OP_MADVISE] = "madvise",
        [IORING_OP_OPENAT2] = "openat2",
        [IORING_OP_RENAMEAT] = "renameat",
        [IORING_OP_UNLINKAT] = "unlinkat",
        [IORING_OP_MKDIRAT] = "mkdirat",
        [IORING_OP_SYMLINKAT] = "symlinkat",
        [IORING_OP_LINKAT] = "linkat",
        [IORING_OP_REMOVE_BUFFERS] = "remove_buffers",
        [IORING_OP_PROVIDE_BUFFERS] = "provide_buffers",
        [IORING_OP_MSG_RING] = "msg_ring",
        [IORING_OP_READ_FIXED] = "read_fixed",
        [IORING_OP_WRITE_FIXED] = "write_fixed",
        [IORING_OP_POLL_ADD] = "poll_add",
        [IORING_OP_POLL_REMOVE] = "poll_remove",
        [IORING_OP_SENDMSG] = "sendmsg",
        [IORING_OP_RECVMSG] = "recvmsg",
        [IORING_OP_TIMEOUT_REMOVE] = "timeout_remove",
        [IORING_OP_ACCEPT] = "accept",
        [IORING_OP_LINK_TIMEOUT] = "link_timeout",
        [IORING_OP_CONNECT] = "connect",
        [IORING_OP_FILES_UPDATE] = "files_update",
        [IORING_OP_SEND] = "send",
        [IORING_OP_RECV] = "recv",
        [IORING_OP_EPOLL_CTL] = "epoll_ctl",
        [IORING_OP_SPLICE] = "splice",
        [IORING_OP_TEE] = "tee",
        [IORING_OP_SHUTDOWN] = "shutdown",
        [IORING_OP_SOCKET] = "socket",
        [IORING_OP_FSETXATTR] = "fsetxattr",
        [IORING_OP_SETXATTR] = "setxattr",
        [IORING_OP_FGETXATTR] = "fgetxattr",
        [IORING_OP_GETXATTR] = "getxattr",
        [IORING_OP_SEND_ZC] = "send_zc",
        [IORING_OP_SENDMSG_ZC] = "sendmsg_zc",
        /* (headers that are older than these don't name them) */
        [49] = "read_multishot",
        [54] = "fixed_fd_install",
        [55] = "ftruncate",
        [56] = "bind",
        [57] = "listen",
    };
    return code < sizeof names / sizeof *names && names[code] ? names[code] : "operation";
}

void print_operation(FILE *out, const struct request *request)
{
    const struct io_uring_sqe *entry = &request->entry;
    fprintf(out, "%s", operation_name(entry->opcode));
    if (request->mapping == REFUSED)
        fprintf(out, " (code %u), refused", entry->opcode);
    else if (request->needs.is_read || request->needs.is_write)
        fprintf(out, " of %" PRIu64 " bytes at %" PRId64 ", descriptor %" PRId32, request->length,
            (int64_t)entry->off, entry->fd);
    else if (entry->opcode == IORING_OP_FSYNC || entry->opcode == IORING_OP_CLOSE ||
             entry->opcode == IORING_OP_FALLOCATE)
        fprintf(out, " of descriptor %" PRId32, entry->fd);
    else if (entry->opcode == IORING_OP_ASYNC_CANCEL && !entry->cancel_flags)
        fprintf(out, " of user data %" PRIu64, (uint64_t)entry->addr);
    else if (request->path)
        fprintf(out, " of %s", request->path);
    fprintf(out, ", user data %" PRIu64, (uint64_t)entry->user_data);
}
