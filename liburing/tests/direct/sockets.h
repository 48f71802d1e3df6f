/* Sockets for tests: local ones, and ones of the Internet by the loopback device. */
#ifndef SOCKETS_H
#define SOCKETS_H

#include "ring.h"

#include <arpa/inet.h>
#include <sys/socket.h>

static inline void make_pair(int *ends)
{
    check(socketpair(AF_UNIX, SOCK_STREAM, 0, ends) == 0);
}

/* A local socket with a name of its own, which listens. */
static inline int make_local_listener(int backlog)
{
    int listener = socket(AF_UNIX, SOCK_STREAM, 0);
    check(bind(listener, &(struct sockaddr){.sa_family = AF_UNIX}, sizeof(sa_family_t)) == 0 &&
          listen(listener, backlog) == 0);
    return listener;
}

/* A socket by the loopback device, bound to a port of its own, and the address. */
static inline int bind_here(int type, struct sockaddr_in *address)
{
    socklen_t size = sizeof *address;
    int fd = socket(AF_INET, type, 0);
    *address = (struct sockaddr_in){
        .sin_family = AF_INET, .sin_addr.s_addr = htonl(INADDR_LOOPBACK)};
    check(bind(fd, (void *)address, size) == 0 && getsockname(fd, (void *)address, &size) == 0);
    return fd;
}

static inline int make_listener(struct sockaddr_in *address)
{
    int listener = bind_here(SOCK_STREAM, address);
    check(listen(listener, 8) == 0);
    return listener;
}

static inline int call_at(const struct sockaddr_in *address)
{
    int caller = socket(AF_INET, SOCK_STREAM, 0);
    check(connect(caller, (const void *)address, sizeof *address) == 0);
    return caller;
}

/* Two ends of a connection. */
static inline void make_tcp_pair(int *ends)
{
    struct sockaddr_in address;
    int listener = make_listener(&address);
    ends[0] = call_at(&address);
    ends[1] = accept(listener, NULL, NULL);
    check(ends[1] >= 0 && close(listener) == 0);
}

#endif
