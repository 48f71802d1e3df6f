/* Bytes and descriptors that go from one process to another. */
#ifndef HANDING_H
#define HANDING_H

#include "trapped.h"

#include <sys/socket.h>

static inline void send_byte(int socket, char byte)
{
    WANT(write(socket, &byte, 1) == 1);
}

static inline char receive_byte(int socket)
{
    char byte = 0;
    WANT(read(socket, &byte, 1) == 1);
    return byte;
}

union control {
    struct cmsghdr head;
    char bytes[CMSG_SPACE(sizeof(int))];
};

static inline void send_descriptor(int socket, int fd)
{
    char byte = 'd';
    union control control = {
        .head = {
            .cmsg_len = CMSG_LEN(sizeof fd), .cmsg_level = SOL_SOCKET, .cmsg_type = SCM_RIGHTS}};
    struct iovec vector = {&byte, 1};
    struct msghdr message = {.msg_iov = &vector,
        .msg_iovlen = 1,
        .msg_control = &control,
        .msg_controllen = sizeof control};
    memcpy(CMSG_DATA(&control.head), &fd, sizeof fd);
    WANT(sendmsg(socket, &message, 0) == 1);
}

static inline int receive_descriptor(int socket)
{
    char byte;
    int fd = -1;
    union control control;
    struct iovec vector = {&byte, 1};
    struct msghdr message = {.msg_iov = &vector,
        .msg_iovlen = 1,
        .msg_control = &control,
        .msg_controllen = sizeof control};
    WANT(recvmsg(socket, &message, 0) == 1);
    memcpy(&fd, CMSG_DATA(&control.head), sizeof fd);
    return fd;
}

#endif
