/* A program that is linked with nothing of ours, and has a filter of its own beside uring-run's, or
 * signals of one. It is run by uring-run.
 *
 *   filtered filter | answered
 *
 * Status 0: all was as it is to be. Else a line says what wasn't.
 */
#define _GNU_SOURCE
#include "modes.h"
#include "trapped.h"

#include <linux/filter.h>
#include <linux/seccomp.h>
#include <signal.h>
#include <sys/prctl.h>
#include <sys/wait.h>

/* A filter of its own, by either call, which allows everything. */
static void filtered(void)
{
    struct sock_filter allow = BPF_STMT(BPF_RET | BPF_K, SECCOMP_RET_ALLOW);
    struct sock_fprog program = {.len = 1, .filter = &allow};
    WANT(prctl(PR_SET_NO_NEW_PRIVS, 1, 0, 0, 0) == 0);
    WANT(prctl(PR_SET_SECCOMP, SECCOMP_MODE_FILTER, &program) == 0);
    WANT(syscall(SYS_seccomp, SECCOMP_SET_MODE_FILTER, 0, &program) == 0);
    WANT(syscall(SYS_seccomp, SECCOMP_SET_MODE_FILTER, 99, &program) == -1 && errno == EINVAL);
    no_op();
}

static volatile sig_atomic_t trapped_call, answers;

/* Answers a call in the kernel's place. */
static void answer(int number, siginfo_t *info, void *context)
{
    (void)number;
    trapped_call = info->si_syscall;
    answers++;
    if (info->si_code == 1)
        ((ucontext_t *)context)->uc_mcontext.gregs[REG_RAX] = 4321;
}

/* A child ends by SIGSYS, which isn't caught there: by a call that the program's filter traps, or
 * else by a signal. */
static void ends_child(bool is_by_filter, sighandler_t handler, bool is_ended)
{
    int status = 0;
    pid_t child = fork();
    if (child == 0) {
        signal(SIGSYS, handler);
        is_by_filter ? (void)syscall(SYS_getpgid, 0) : (void)raise(SIGSYS);
        _exit(0);
    }
    WANT(waitpid(child, &status, 0) == child &&
         (is_ended ? WIFSIGNALED(status) && WTERMSIG(status) == SIGSYS : WIFEXITED(status)));
}

/* A SIGSYS that isn't the trap's comes to the program's handler, or does what it does by itself: by
 * a filter of the program's own that traps a call, or by a signal. */
static void answered(void)
{
    struct sigaction action = {.sa_sigaction = answer, .sa_flags = SA_SIGINFO};
    struct sock_filter lines[] = {
        BPF_STMT(BPF_LD | BPF_W | BPF_ABS, offsetof(struct seccomp_data, nr)),
        BPF_JUMP(BPF_JMP | BPF_JEQ | BPF_K, SYS_getpgid, 0, 1),
        BPF_STMT(BPF_RET | BPF_K, SECCOMP_RET_TRAP),
        BPF_STMT(BPF_RET | BPF_K, SECCOMP_RET_ALLOW),
    };
    struct sock_fprog program = {.len = 4, .filter = lines};
    WANT(sigaction(SIGSYS, &action, NULL) == 0 && prctl(PR_SET_NO_NEW_PRIVS, 1, 0, 0, 0) == 0 &&
         prctl(PR_SET_SECCOMP, SECCOMP_MODE_FILTER, &program) == 0);
    WANT(syscall(SYS_getpgid, 0) == 4321 && trapped_call == SYS_getpgid && answers == 1);
    WANT(raise(SIGSYS) == 0 && answers == 2);
    ends_child(true, SIG_DFL, true);
    ends_child(true, SIG_IGN, true);
    ends_child(false, SIG_DFL, true);
    ends_child(false, SIG_IGN, false);
    if (!getenv("WULGACH_TEST_KERNEL"))
        no_op();
}

int main(int argc, char **argv)
{
    static const struct mode modes[] = {{"filter", filtered}, {"answered", answered}};
    return run_mode(modes, sizeof modes / sizeof *modes, argc, argv);
}
