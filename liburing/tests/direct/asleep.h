/* Waits until a thread or a process sleeps in a call, as the kernel tells of it: on a busy machine
 * that takes as long as it takes. */
#ifndef ASLEEP_H
#define ASLEEP_H

#include <fcntl.h>
#include <pthread.h>
#include <signal.h>
#include <stdbool.h>
#include <stdio.h>
#include <string.h>
#include <sys/wait.h>
#include <unistd.h>

/* (a thread that hasn't begun yet has the number 0; its state stands after its name) */
static inline bool is_asleep(const pid_t *thread)
{
    char path[64], told[256];
    snprintf(path, sizeof path, "/proc/%d/stat", (int)__atomic_load_n(thread, __ATOMIC_ACQUIRE));
    int file = open(path, O_RDONLY | O_CLOEXEC);
    if (file < 0)
        return false;
    ssize_t length = read(file, told, sizeof told - 1);
    close(file);
    told[length > 0 ? length : 0] = 0;
    const char *name_end = strrchr(told, ')');
    return name_end && strncmp(name_end, ") S", 3) == 0;
}

static inline void await_sleep(const pid_t *thread)
{
    while (!is_asleep(thread))
        usleep(1000);
}

/* A child that sends this thread a signal once that sleeps, and doesn't outlive this process long.
 * If the thread is to be cancelled by then, the child isn't. */
static inline pid_t signal_asleep(int number)
{
    int before;
    pid_t parent = getpid(), thread = gettid();
    pthread_setcancelstate(PTHREAD_CANCEL_DISABLE, &before);
    pid_t child = fork();
    if (child == 0) {
        while (getppid() == parent && !is_asleep(&thread))
            usleep(1000);
        _exit(getppid() != parent || tgkill(parent, thread, number) != 0);
    }
    pthread_setcancelstate(before, NULL);
    return child;
}

static inline bool has_signalled(pid_t child)
{
    int status;
    return waitpid(child, &status, 0) == child && status == 0;
}

#endif
