/* Serves runs to `explore`: the program is started once, and each run is a fork of it, made before
 * main or at the first set-up of a ring. So a run costs no new process image, and, at a set-up,
 * nothing of what the program did before.
 *
 *   WULGACH_SERVER    SOCKET:OUTPUT:main or SOCKET:OUTPUT:ring, and :fresh after it if each run is
 *                     to find the working folder as it was at the fork. SOCKET is a descriptor of a
 *                     stream to `explore`, OUTPUT one of a file that takes what the program prints.
 *
 * The server says 'ok PID', or 'no', and why a fork wouldn't be the same as a new process. Then it
 * is asked for runs: a length of 32 bits and so many bytes, which are the seconds that the run may
 * take and variables as NAME=VALUE, each with a zero after it. It answers each with a struct
 * told_run and what the run printed.
 */
#ifndef SERVER_H
#define SERVER_H

#include <stdbool.h>
#include <stdint.h>

struct told_run {
    int32_t status; /* as of a shell, or the negative of the signal that ended it */
    uint32_t is_late; /* it took too long, and was ended */
    uint64_t rings, choosers, choices, order; /* its account */
    uint64_t printed; /* bytes that follow */
};

#define SEEN __attribute__((visibility("default"), externally_visible))

/* Whoever begins the layer before the C library has begun says so first, and then that main is
 * about to be called: runs that begin before that begin there. */
SEEN void wulgach_await_main(void);
SEEN void wulgach_serve_before_main(void);

/* A ring is about to be set up: serves here, if this is where runs begin. Returns in each run. */
void serve_at_set_up(void);

/* Whether a descriptor is one of the talk, which a run hasn't. */
bool is_of_server(int descriptor);

#endif
