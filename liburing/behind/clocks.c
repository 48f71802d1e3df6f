/* The clocks of a program that is linked with this: they go with the time that the layer moves on,
 * as a timeout ends or a wait whose time is over. So what a program measures is what it waited for.
 * Clocks of processor time stay as they are.
 */
#define _GNU_SOURCE
#include <stdint.h>
#include <sys/syscall.h>
#include <sys/time.h>
#include <time.h>
#include <unistd.h>

enum { SECOND = 1000000000 };

void wulgach_move_clocks(void);
uint64_t wulgach_moved_time(void);

__attribute__((constructor)) static void begin(void)
{
    wulgach_move_clocks();
}

int clock_gettime(clockid_t clock, struct timespec *now)
{
    long result = syscall(SYS_clock_gettime, clock, now);
    if (result == 0 && clock != CLOCK_PROCESS_CPUTIME_ID && clock != CLOCK_THREAD_CPUTIME_ID) {
        uint64_t sum = (uint64_t)now->tv_nsec + wulgach_moved_time();
        now->tv_sec += (time_t)(sum / SECOND);
        now->tv_nsec = (long)(sum % SECOND);
    }
    return (int)result;
}

int gettimeofday(struct timeval *restrict now, void *restrict zone)
{
    struct timespec time;
    int result = clock_gettime(CLOCK_REALTIME, &time);
    (void)zone;
    *now = (struct timeval){time.tv_sec, time.tv_nsec / 1000};
    return result;
}

time_t time(time_t *told)
{
    struct timespec now;
    time_t result = clock_gettime(CLOCK_REALTIME, &now) == 0 ? now.tv_sec : -1;
    if (told)
        *told = result;
    return result;
}
