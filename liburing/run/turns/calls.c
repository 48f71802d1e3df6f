/* How each call is served. What isn't here is carried out by the kernel, and told of by name, since
 * it may wait there. */
#define _GNU_SOURCE
#include "calls.h"
#include "chance.h"
#include "clocks.h"
#include "dates.h"
#include "descriptors.h"
#include "notices.h"
#include "sayings.h"
#include "turns.h"
#include "waits.h"

#include <errno.h>
#include <sched.h>
#include <string.h>
#include <sys/prctl.h>

/* (as `make` has them from the kernel's header) */
static const char *const names[MOST_CALLS] = {
#include "call_names.h"
};

const char *name_of_call(long call)
{
    switch (call) {
    case POINT_AT_LOOK:
        return "a look at the clock";
    case POINT_AT_LOCK:
        return "a lock";
    case GO_ON_AS:
        return "a lock, at which another goes on";
    case YIELD_AT_LOCK:
        return "a lock that is tried";
    default:
        return call >= 0 && call < MOST_CALLS && names[call] ? names[call] : "an unknown call";
    }
}

void tell_unserved(const struct trap *trap, const char *why)
{
    if (trap->call < 0 || trap->call >= MOST_CALLS || world->was_told[trap->call])
        return;
    world->was_told[trap->call] = true;
    say_line("thread %d calls %s, which --threads doesn't serve: %s", slot_of(self) + 1,
        name_of_call(trap->call), why);
}

static long do_nothing(struct trap *trap)
{
    (void)trap;
    return 0;
}

/* Another was chosen already (locks.c). */
static long serve_chosen(struct trap *trap)
{
    go_on_as(world->threads + trap->words[0]);
    return 0;
}

static long refuse(struct trap *trap)
{
    (void)trap;
    return -ENOSYS;
}

static long pass_on_quietly(struct trap *trap)
{
    return pass_on(trap);
}

/* Made by the kernel, and the world has changed: nothing that waits. */
static long carry_out(struct trap *trap)
{
    change_world();
    return pass_on(trap);
}

/* A ring of the kernel's own kind of asynchronous calls would go on by itself. */
static long refuse_aio(struct trap *trap)
{
    tell_unserved(trap, "it is refused with ENOSYS");
    return -ENOSYS;
}

/* All processors are said to be there, though one runs. */
static long serve_affinity(struct trap *trap)
{
    enum { LEAST = sizeof(uint64_t) };
    if ((size_t)trap->words[1] < LEAST)
        return -EINVAL;
    memset((void *)trap->words[2], 0, (size_t)trap->words[1]);
    for (int i = 0; i < world->processors && i < 64; i++)
        CPU_SET_S((size_t)i, (size_t)trap->words[1], (cpu_set_t *)trap->words[2]);
    return LEAST;
}

/* What would take the trap away, or the counter of cycles. */
static long serve_prctl(struct trap *trap)
{
    enum { SECCOMP = 22 };
    if (trap->words[0] == PR_SET_TSC || trap->words[0] == PR_SET_SYSCALL_USER_DISPATCH)
        return -EINVAL;
    if (trap->words[0] == SECCOMP)
        tell_unserved(trap, "a filter of the program's own stops this library's calls too");
    return pass_on(trap);
}

static const struct row rows[MOST_CALLS] = {
    /* threads and processes */
    [SYS_clone] = {serve_clone, false},
    [SYS_clone3] = {serve_clone, false},
    [SYS_fork] = {serve_fork, false},
    [SYS_vfork] = {serve_fork, false},
    [SYS_execve] = {serve_exec, false},
    [SYS_execveat] = {serve_exec, false},
    [SYS_exit] = {serve_exit, false},
    [SYS_exit_group] = {serve_exit_group, false},
    [SYS_set_tid_address] = {serve_tid_address, true},
    [SYS_set_robust_list] = {serve_robust_list, true},
    [SYS_rseq] = {refuse, true},
    [SYS_sched_yield] = {do_nothing, false},
    [SYS_sched_getaffinity] = {serve_affinity, true},
    [SYS_sched_setaffinity] = {do_nothing, true},
    [SYS_wait4] = {serve_wait4, false},
    [SYS_waitid] = {serve_waitid, false},
    [SYS_prctl] = {serve_prctl, true},
    [SYS_futex] = {serve_futex, false},
    [449] = {serve_waitv, false},
    /* memory */
    [SYS_mmap] = {serve_map, true},
    [SYS_munmap] = {serve_unmap, true},
    [SYS_mremap] = {serve_remap, true},
    [SYS_shmat] = {serve_shmat, false},
    /* time and chance */
    [SYS_clock_gettime] = {serve_clock, true},
    [SYS_gettimeofday] = {serve_timeofday, true},
    [SYS_time] = {serve_time, true},
    [SYS_getcpu] = {serve_processor, true},
    [SYS_nanosleep] = {serve_nanosleep, false},
    [SYS_clock_nanosleep] = {serve_clock_nanosleep, false},
    [SYS_getrusage] = {serve_usage, true},
    [SYS_times] = {serve_times, true},
    [SYS_sysinfo] = {serve_system, true},
    [SYS_getrandom] = {serve_getrandom, true},
    [SYS_alarm] = {serve_alarm, false},
    [SYS_setitimer] = {serve_setitimer, false},
    [SYS_getitimer] = {serve_getitimer, false},
    [SYS_timer_create] = {serve_timer_create, false},
    [SYS_timer_settime] = {serve_timer_settime, false},
    [SYS_timer_gettime] = {serve_timer_gettime, false},
    [SYS_timer_delete] = {serve_timer_delete, false},
    [SYS_timer_getoverrun] = {serve_timer_overruns, false},
    [SYS_timerfd_create] = {serve_timerfd_create, false},
    [SYS_timerfd_settime] = {serve_timerfd_settime, false},
    [SYS_timerfd_gettime] = {serve_timerfd_gettime, false},
    /* signals */
    [SYS_rt_sigprocmask] = {serve_mask, true},
    [SYS_rt_sigaction] = {serve_action, true},
    [SYS_sigaltstack] = {serve_signal_stack, true},
    [SYS_rt_sigsuspend] = {serve_suspend, false},
    [SYS_pause] = {serve_pause, false},
    [SYS_rt_sigtimedwait] = {serve_timed_wait, false},
    [SYS_kill] = {serve_kill, false},
    [SYS_tkill] = {serve_thread_kill, false},
    [SYS_tgkill] = {serve_thread_kill, false},
    [SYS_rt_sigqueueinfo] = {serve_queue, false},
    [SYS_rt_tgsigqueueinfo] = {serve_thread_queue, false},
    /* waits */
    [SYS_poll] = {serve_poll, false},
    [SYS_ppoll] = {serve_ppoll, false},
    [SYS_select] = {serve_select, false},
    [SYS_pselect6] = {serve_pselect, false},
    [SYS_epoll_wait] = {serve_epoll_wait, false},
    [SYS_epoll_pwait] = {serve_epoll_pwait, false},
    [441] = {serve_epoll_pwait2, false},
    [SYS_epoll_ctl] = {serve_epoll_ctl, false},
    [SYS_semop] = {serve_semop, false},
    [SYS_semtimedop] = {serve_semtimedop, false},
    [SYS_msgsnd] = {serve_msgsnd, false},
    [SYS_msgrcv] = {serve_msgrcv, false},
    [SYS_mq_timedsend] = {serve_mq_send, false},
    [SYS_mq_timedreceive] = {serve_mq_receive, false},
    [SYS_mq_open] = {serve_mq_open, false},
    /* transfers */
    [SYS_read] = {serve_read, false},
    [SYS_readv] = {serve_read, false},
    [SYS_preadv2] = {serve_read, false},
    [SYS_recvfrom] = {serve_receive, false},
    [SYS_recvmsg] = {serve_receive, false},
    [SYS_recvmmsg] = {serve_receive, false},
    [SYS_accept] = {serve_accept, false},
    [SYS_accept4] = {serve_accept, false},
    [SYS_write] = {serve_write, false},
    [SYS_writev] = {serve_write, false},
    [SYS_pwritev2] = {serve_write, false},
    [SYS_sendto] = {serve_send, false},
    [SYS_sendmsg] = {serve_send, false},
    [SYS_sendmmsg] = {serve_send, false},
    [SYS_connect] = {serve_connect, false},
    [SYS_splice] = {serve_splice, false},
    [SYS_tee] = {serve_tee, false},
    [SYS_vmsplice] = {serve_write, false},
    [SYS_sendfile] = {serve_sendfile, false},
    /* descriptors and what is said of files */
    [SYS_open] = {serve_open, false},
    [SYS_openat] = {serve_openat, false},
    [SYS_close] = {serve_close, false},
    [SYS_close_range] = {serve_close_range, false},
    [SYS_pipe] = {serve_pipe, false},
    [SYS_pipe2] = {serve_pipe, false},
    [SYS_socketpair] = {serve_socketpair, false},
    [SYS_socket] = {serve_socket, false},
    [SYS_eventfd] = {serve_made_inside, false},
    [SYS_eventfd2] = {serve_made_inside, false},
    [SYS_signalfd] = {serve_made_inside, false},
    [SYS_signalfd4] = {serve_made_inside, false},
    [SYS_epoll_create] = {serve_made_inside, false},
    [SYS_epoll_create1] = {serve_made_inside, false},
    [SYS_inotify_init] = {serve_made_inside, false},
    [SYS_inotify_init1] = {serve_made_inside, false},
    [SYS_dup] = {serve_dup, true},
    [SYS_dup2] = {serve_dup_to, false},
    [SYS_dup3] = {serve_dup_to, false},
    [SYS_fcntl] = {serve_fcntl, false},
    [SYS_flock] = {serve_flock, false},
    [SYS_stat] = {serve_stat, true},
    [SYS_lstat] = {serve_stat, true},
    [SYS_fstat] = {serve_stat, true},
    [SYS_newfstatat] = {serve_fstatat, true},
    [SYS_statx] = {serve_statx, true},
    [SYS_getdents64] = {serve_entries, false},
    /* refused */
    [SYS_io_setup] = {refuse_aio, true},
#define QUIET(call) [SYS_##call] = {pass_on_quietly, true}
#define AT_POINT(call) [SYS_##call] = {carry_out, false}
#include "carried_out.h"
};

const struct row *row_of(long call)
{
    static const struct row point = {do_nothing, false}, chosen = {serve_chosen, true};
    if (call == GO_ON_AS)
        return &chosen;
    if (call >= POINT_AT_LOOK && call <= YIELD_AT_LOCK)
        return &point;
    return call >= 0 && call < MOST_CALLS && rows[call].serve ? rows + call : NULL;
}

bool is_made_again(long call)
{
    switch (call) {
    case SYS_futex:
    case SYS_read:
    case SYS_readv:
    case SYS_preadv2:
    case SYS_recvfrom:
    case SYS_recvmsg:
    case SYS_accept:
    case SYS_accept4:
    case SYS_write:
    case SYS_writev:
    case SYS_pwritev2:
    case SYS_sendto:
    case SYS_sendmsg:
    case SYS_wait4:
    case SYS_waitid:
    case SYS_fcntl:
    case SYS_flock:
        return true;
    default:
        return false;
    }
}
