/* What is known of a descriptor: whether a call on it may wait, and whether what it waits for may
 * come from outside. */
#ifndef TURNS_DESCRIPTORS_H
#define TURNS_DESCRIPTORS_H

#include "turns.h"

/* A file never waits; INSIDE are pipes and the like of which this process made both ends; RANDOM
 * gives bytes by chance. */
enum kind_of_descriptor { UNKNOWN, ON_DISK, OUTSIDE, INSIDE, RANDOM };

enum kind_of_descriptor kind_of(int fd);
void set_kind(long fd, enum kind_of_descriptor kind);
bool is_outside(int fd);
bool is_blocking(int fd);

/* Descriptors may have been closed unheard. */
void forget_closed(void);

/* Closes and copies over others, but for the run's own descriptors. */
serving spare_descriptors;

serving serve_open, serve_openat, serve_pipe, serve_socket, serve_socketpair, serve_made_inside,
    serve_close, serve_close_range, serve_dup, serve_dup_to, serve_fcntl, serve_epoll_ctl;

/* Locks of files, which are tried again as others go on. */
serving serve_flock;

#endif
