/* Calls that wait for descriptors, processes, semaphores or messages, or move bytes as they come:
 * whoever waits is a candidate once the kernel, asked without waiting, says that it is so. */
#ifndef TURNS_WAITS_H
#define TURNS_WAITS_H

#include "turns.h"

serving serve_poll, serve_ppoll, serve_select, serve_pselect, serve_epoll_wait, serve_epoll_pwait,
    serve_epoll_pwait2, serve_wait4, serve_waitid;

/* Semaphores and queues of messages, System V's and POSIX's (queues.c). */
serving serve_semop, serve_semtimedop, serve_msgsnd, serve_msgrcv, serve_mq_send, serve_mq_receive,
    serve_mq_open;

/* Those that move bytes (transfers.c). */
serving serve_read, serve_receive, serve_accept, serve_write, serve_send, serve_connect,
    serve_splice, serve_tee, serve_sendfile;

/* Whether a descriptor is ready, and waiting until it is. */
bool is_fd_ready(int fd, short events);
enum reason wait_for_fd(int fd, short events, uint64_t limit);

/* A while, before what can't be waited for is asked again: it doubles from one to the next. */
enum { FIRST_WHILE = 100000 };
enum reason wait_a_while(uint64_t *span, uint64_t limit);

#endif
