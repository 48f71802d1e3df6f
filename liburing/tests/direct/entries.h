/* What entries may name, and an entry of each operation, as it should be. */
#ifndef ENTRIES_H
#define ENTRIES_H

#include "ring.h"

#include <linux/openat2.h>
#include <netinet/in.h>
#include <poll.h>
#include <sys/epoll.h>
#include <sys/socket.h>
#include <sys/stat.h>
#include <sys/uio.h>
#include <sys/un.h>

/* ---- what an entry is about ---- */

/* (these aren't in most headers) */
enum {
    READ_MULTISHOT = 49,
    FIXED_FD_INSTALL = 54,
    FTRUNCATE,
    BIND,
    LISTEN,
    LAST_OPERATION = LISTEN,
    A_DESCRIPTOR = 777777
};

static struct {
    int folder, file, socket, over_network, full_pipe, empty_pipe, waits, listener, unconnected,
        epoll;
    char *bytes, status[512];
    struct iovec vector;
    struct msghdr message;
    struct __kernel_timespec time;
    int files[2];
    struct open_how how;
    struct epoll_event event;
    struct sockaddr_un address;
    struct ring other;
    struct io_uring_buf_ring *cells;
} at;

/* The group of provided buffers that what takes one names. */
enum { AT_CELLS = 9 };

/* A socket that sends without copies: to a port of this machine that another one has. */
static inline int make_network_socket(void)
{
    struct sockaddr_in name = {.sin_family = AF_INET, .sin_addr.s_addr = htonl(INADDR_LOOPBACK)};
    socklen_t size = sizeof name;
    int to = socket(AF_INET, SOCK_DGRAM, 0), from = socket(AF_INET, SOCK_DGRAM, 0);
    check(bind(to, (const void *)&name, sizeof name) == 0 &&
          getsockname(to, (void *)&name, &size) == 0);
    check(connect(from, (const void *)&name, size) == 0);
    return from;
}

static inline void make_sockets(void)
{
    int ends[2], client;
    check(socketpair(AF_UNIX, SOCK_STREAM, 0, ends) == 0 &&
          write(ends[1], "hello world, hello world", 24) == 24);
    at.socket = ends[0];
    at.over_network = make_network_socket();
    at.address = (struct sockaddr_un){.sun_family = AF_UNIX, .sun_path = "socket"};
    at.listener = socket(AF_UNIX, SOCK_STREAM, 0);
    check(bind(at.listener, (const void *)&at.address, sizeof at.address) == 0 &&
          listen(at.listener, 8) == 0);
    client = socket(AF_UNIX, SOCK_STREAM, 0);
    check(connect(client, (const void *)&at.address, sizeof at.address) == 0);
    at.unconnected = socket(AF_UNIX, SOCK_STREAM, 0);
}

static inline void make_pipes(void)
{
    int ends[2];
    check(pipe(ends) == 0 && write(ends[1], "abcdef", 6) == 6);
    at.full_pipe = ends[0];
    check(pipe(ends) == 0);
    at.waits = ends[0];
    at.empty_pipe = ends[1];
}

/* All that an entry may name, in a folder of its own, which becomes the one of this process. */
static inline void make_all(const char *folder)
{
    check(mkdir(folder, 0700) == 0 && chdir(folder) == 0);
    at.folder = open(".", O_DIRECTORY | O_RDONLY);
    at.file = open("file", O_RDWR | O_CREAT, 0600);
    check(at.file >= 0 && write(at.file, "0123456789012345678901234567890123456789", 40) == 40);
    make_sockets();
    make_pipes();
    at.epoll = epoll_create1(0);
    at.event.events = EPOLLIN;
    at.bytes = mmap(NULL, 65536, PROT_READ | PROT_WRITE, MAP_PRIVATE | MAP_ANONYMOUS, -1, 0);
    check(at.bytes != MAP_FAILED);
    memset(at.bytes, 'x', 8192);
    at.vector = (struct iovec){at.bytes, 16};
    at.message = (struct msghdr){.msg_iov = &at.vector, .msg_iovlen = 1};
    at.time.tv_nsec = 1000000;
    at.files[0] = at.files[1] = at.file;
    at.cells = mmap(NULL, 4096, PROT_READ | PROT_WRITE, MAP_PRIVATE | MAP_ANONYMOUS, -1, 0);
    check(at.cells != MAP_FAILED);
    for (uint16_t i = 0; i < 2; i++)
        at.cells->bufs[i] = (struct io_uring_buf){
            .addr = (uintptr_t)at.bytes, .len = 4096, .bid = i};
    at.cells->tail = 2;
}

/* ---- an entry of each operation, as it should be ---- */

#define SQE(...) ((struct io_uring_sqe){.opcode = code, .user_data = 1, __VA_ARGS__})
#define ADDRESS(what) (uintptr_t)(what)

static inline struct io_uring_sqe path_entry(uint8_t code)
{
    switch (code) {
    case IORING_OP_OPENAT:
        return SQE(.fd = at.folder, .addr = ADDRESS("file"));
    case IORING_OP_OPENAT2:
        return SQE(.fd = at.folder, .addr = ADDRESS("file"), .off = ADDRESS(&at.how),
            .len = sizeof at.how);
    case IORING_OP_STATX:
        return SQE(.fd = at.folder, .addr = ADDRESS("file"), .off = ADDRESS(at.status),
            .len = 0xfff);
    case IORING_OP_RENAMEAT:
        return SQE(.fd = at.folder, .addr = ADDRESS("file"), .len = (unsigned)at.folder,
            .off = ADDRESS("new"));
    case IORING_OP_UNLINKAT:
        return SQE(.fd = at.folder, .addr = ADDRESS("file"));
    case IORING_OP_MKDIRAT:
        return SQE(.fd = at.folder, .addr = ADDRESS("made"), .len = 0700);
    case IORING_OP_SYMLINKAT:
        return SQE(.fd = at.folder, .addr = ADDRESS("file"), .off = ADDRESS("link"));
    case IORING_OP_LINKAT:
        return SQE(.fd = at.folder, .addr = ADDRESS("file"), .len = (unsigned)at.folder,
            .off = ADDRESS("link"));
    case IORING_OP_FSETXATTR:
        return SQE(.fd = at.file, .addr = ADDRESS("user.a"), .off = ADDRESS("v"), .len = 1);
    case IORING_OP_SETXATTR:
        return SQE(.addr = ADDRESS("user.a"), .off = ADDRESS("v"), .len = 1,
            .addr3 = ADDRESS("file"));
    case IORING_OP_FGETXATTR:
        return SQE(.fd = at.file, .addr = ADDRESS("user.a"), .off = ADDRESS(at.status), .len = 16);
    case IORING_OP_GETXATTR:
        return SQE(.addr = ADDRESS("user.a"), .off = ADDRESS(at.status), .len = 16,
            .addr3 = ADDRESS("file"));
    default:
        return SQE(.fd = at.file, .len = 16);
    }
}

static inline struct io_uring_sqe socket_entry(uint8_t code)
{
    switch (code) {
    case IORING_OP_SENDMSG:
    case IORING_OP_RECVMSG:
        return SQE(.fd = at.socket, .addr = ADDRESS(&at.message), .len = 1);
    case IORING_OP_SENDMSG_ZC:
        return SQE(.fd = at.over_network, .addr = ADDRESS(&at.message), .len = 1);
    case IORING_OP_SEND:
    case IORING_OP_RECV:
        return SQE(.fd = at.socket, .addr = ADDRESS(at.bytes), .len = 16);
    case IORING_OP_SEND_ZC:
        return SQE(.fd = at.over_network, .addr = ADDRESS(at.bytes), .len = 16);
    case IORING_OP_ACCEPT:
        return SQE(.fd = at.listener);
    case IORING_OP_CONNECT:
        return SQE(.fd = at.unconnected, .addr = ADDRESS(&at.address), .off = sizeof at.address);
    case IORING_OP_SHUTDOWN:
        return SQE(.fd = at.socket, .len = 2);
    case BIND:
        return SQE(.fd = at.unconnected, .addr = ADDRESS(&at.address), .off = sizeof(sa_family_t));
    case LISTEN:
        return SQE(.fd = at.unconnected, .len = 4);
    case IORING_OP_SOCKET:
        return SQE(.fd = AF_UNIX, .off = SOCK_STREAM);
    case IORING_OP_SPLICE:
        return SQE(.splice_fd_in = at.full_pipe, .splice_off_in = UINT64_MAX, .fd = at.empty_pipe,
            .off = UINT64_MAX, .len = 3);
    case IORING_OP_TEE:
        return SQE(.splice_fd_in = at.full_pipe, .fd = at.empty_pipe, .len = 3);
    case IORING_OP_MSG_RING:
        return SQE(.fd = at.other.fd, .len = 5, .off = 9);
    default:
        return path_entry(code);
    }
}

static inline struct io_uring_sqe entry_of(uint8_t code)
{
    switch (code) {
    case IORING_OP_NOP:
        return SQE(.fd = 0);
    case IORING_OP_READV:
    case IORING_OP_WRITEV:
        return SQE(.fd = at.file, .addr = ADDRESS(&at.vector), .len = 1);
    case IORING_OP_READ_FIXED:
    case IORING_OP_WRITE_FIXED:
    case IORING_OP_READ:
    case IORING_OP_WRITE:
        return SQE(.fd = at.file, .addr = ADDRESS(at.bytes), .len = 16);
    case READ_MULTISHOT:
        return SQE(.flags = IOSQE_BUFFER_SELECT, .fd = at.full_pipe, .buf_group = AT_CELLS);
    case IORING_OP_FSYNC:
        return SQE(.fd = at.file);
    case IORING_OP_POLL_ADD:
        return SQE(.fd = at.socket, .poll32_events = POLLIN);
    case IORING_OP_POLL_REMOVE:
    case IORING_OP_ASYNC_CANCEL:
    case IORING_OP_TIMEOUT_REMOVE:
        return SQE(.addr = 77);
    case IORING_OP_TIMEOUT:
    case IORING_OP_LINK_TIMEOUT:
        return SQE(.addr = ADDRESS(&at.time), .len = 1);
    case IORING_OP_FALLOCATE:
        return SQE(.fd = at.file, .addr = 200);
    case FTRUNCATE:
        return SQE(.fd = at.file, .off = 200);
    case FIXED_FD_INSTALL:
        return SQE(.flags = IOSQE_FIXED_FILE);
    case IORING_OP_CLOSE:
        return SQE(.fd = dup(at.file));
    case IORING_OP_FILES_UPDATE:
        return SQE(.addr = ADDRESS(at.files), .len = 1, .off = 2);
    case IORING_OP_MADVISE:
        return SQE(.addr = ADDRESS(at.bytes) + 4096, .len = 4096);
    case IORING_OP_EPOLL_CTL:
        return SQE(.fd = at.epoll, .off = (unsigned)at.socket, .len = EPOLL_CTL_ADD,
            .addr = ADDRESS(&at.event));
    case IORING_OP_PROVIDE_BUFFERS:
        return SQE(.fd = 2, .addr = ADDRESS(at.bytes), .len = 64, .buf_group = 7);
    case IORING_OP_REMOVE_BUFFERS:
        return SQE(.fd = 1, .buf_group = 7);
    default:
        return socket_entry(code);
    }
}

#endif
