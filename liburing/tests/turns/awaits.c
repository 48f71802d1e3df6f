/* Waits of each kind, between two threads: one waits before the other has done what it waits for.
 * Each has the result that the manual pages say, and no thread sleeps in the kernel meanwhile. A
 * word names the mode; without one all are gone through. */
#define _GNU_SOURCE
#include <errno.h>
#include <fcntl.h>
#include <linux/futex.h>
#include <mqueue.h>
#include <poll.h>
#include <pthread.h>
#include <signal.h>
#include <stdint.h>
#include <stdio.h>
#include <stdlib.h>
#include <string.h>
#include <sys/epoll.h>
#include <sys/eventfd.h>
#include <sys/file.h>
#include <sys/ipc.h>
#include <sys/msg.h>
#include <sys/select.h>
#include <sys/sem.h>
#include <sys/sendfile.h>
#include <sys/socket.h>
#include <sys/stat.h>
#include <sys/syscall.h>
#include <sys/time.h>
#include <sys/timerfd.h>
#include <sys/un.h>
#include <sys/wait.h>
#include <time.h>
#include <unistd.h>

#define DEMAND(it) \
    do { \
        if (!(it)) { \
            printf("%s:%d: %s (%s)\n", __FILE__, __LINE__, #it, strerror(errno)); \
            exit(1); \
        } \
    } while (0)

/* What the other thread does, once the first waits. */
static void (*then)(void);

static void *other(void *unused)
{
    const struct timespec moment = {0, 5000000};
    nanosleep(&moment, NULL);
    then();
    return unused;
}

static pthread_t begin(void (*what)(void))
{
    pthread_t thread;
    then = what;
    DEMAND(pthread_create(&thread, NULL, other, NULL) == 0);
    return thread;
}

static void end(pthread_t thread)
{
    DEMAND(pthread_join(thread, NULL) == 0);
}

static int ends[2], fd;
static const char *path = "turns.of.awaits";

static void write_one(void)
{
    DEMAND(write(ends[1], "x", 1) == 1);
}

static void read_much(void)
{
    static char room[1 << 18];
    size_t done = 0;
    while (done < sizeof room) {
        ssize_t part = read(ends[0], room + done, sizeof room - done);
        DEMAND(part > 0);
        done += (size_t)part;
    }
}

static void of_pipe(void)
{
    static char room[1 << 18];
    char one;
    DEMAND(pipe(ends) == 0);
    pthread_t thread = begin(write_one);
    DEMAND(read(ends[0], &one, 1) == 1 && one == 'x');
    end(thread);
    thread = begin(read_much);
    DEMAND(write(ends[1], room, sizeof room) == sizeof room);
    end(thread);
}

static void of_poll(void)
{
    DEMAND(pipe(ends) == 0);
    struct pollfd polled = {ends[0], POLLIN, 0};
    DEMAND(poll(&polled, 1, 3) == 0);
    pthread_t thread = begin(write_one);
    DEMAND(poll(&polled, 1, -1) == 1 && polled.revents == POLLIN);
    end(thread);
}

static void of_select(void)
{
    fd_set set;
    struct timeval time = {10, 0};
    DEMAND(pipe(ends) == 0);
    FD_ZERO(&set);
    FD_SET(ends[0], &set);
    pthread_t thread = begin(write_one);
    DEMAND(select(ends[0] + 1, &set, NULL, NULL, &time) == 1 && FD_ISSET(ends[0], &set) &&
           time.tv_sec == 9);
    end(thread);
}

static void of_epoll(void)
{
    struct epoll_event event = {.events = EPOLLIN, .data.u32 = 42}, told;
    int instance = epoll_create1(0);
    DEMAND(pipe(ends) == 0 && epoll_ctl(instance, EPOLL_CTL_ADD, ends[0], &event) == 0);
    DEMAND(epoll_wait(instance, &told, 1, 3) == 0);
    pthread_t thread = begin(write_one);
    DEMAND(epoll_wait(instance, &told, 1, -1) == 1 && told.data.u32 == 42);
    end(thread);
}

static int semaphores;

static void post(void)
{
    struct sembuf up = {0, 1, 0};
    DEMAND(semop(semaphores, &up, 1) == 0);
}

static void of_semaphores(void)
{
    struct sembuf down = {0, -1, 0};
    const struct timespec moment = {0, 2000000};
    semaphores = semget(IPC_PRIVATE, 1, 0600);
    DEMAND(semaphores >= 0 && semtimedop(semaphores, &down, 1, &moment) == -1 && errno == EAGAIN);
    pthread_t thread = begin(post);
    DEMAND(semop(semaphores, &down, 1) == 0);
    end(thread);
    semctl(semaphores, 0, IPC_RMID);
}

static int queue;
struct message {
    long type;
    char text[8];
};

static void send_message(void)
{
    struct message message = {3, "seven"};
    DEMAND(msgsnd(queue, &message, sizeof message.text, 0) == 0);
}

static void of_messages(void)
{
    struct message message;
    queue = msgget(IPC_PRIVATE, 0600);
    pthread_t thread = begin(send_message);
    DEMAND(queue >= 0 &&
           msgrcv(queue, &message, sizeof message.text, 3, 0) == sizeof message.text &&
           strcmp(message.text, "seven") == 0);
    end(thread);
    msgctl(queue, IPC_RMID, NULL);
}

static mqd_t posix_queue;

static void send_to_queue(void)
{
    DEMAND(mq_send(posix_queue, "hello", 5, 0) == 0);
}

static void of_queues(void)
{
    char room[16];
    struct mq_attr about = {.mq_maxmsg = 1, .mq_msgsize = sizeof room};
    posix_queue = mq_open("/turns.of.awaits", O_RDWR | O_CREAT, 0600, &about);
    if (posix_queue == (mqd_t)-1)
        return; /* (a container may have none) */
    pthread_t thread = begin(send_to_queue);
    DEMAND(mq_receive(posix_queue, room, sizeof room, NULL) == 5);
    end(thread);
    mq_unlink("/turns.of.awaits");
}

static void open_to_write(void)
{
    int writer = open(path, O_WRONLY);
    DEMAND(writer >= 0 && write(writer, "y", 1) == 1 && close(writer) == 0);
}

static void open_to_read(void)
{
    char one;
    int reader = open(path, O_RDONLY);
    DEMAND(reader >= 0 && read(reader, &one, 1) == 1 && one == 'z' && close(reader) == 0);
}

static void of_fifo(void)
{
    char one;
    unlink(path);
    DEMAND(mkfifo(path, 0600) == 0);
    pthread_t thread = begin(open_to_write);
    fd = open(path, O_RDONLY);
    DEMAND(fd >= 0 && read(fd, &one, 1) == 1 && one == 'y' && read(fd, &one, 1) == 0 &&
           close(fd) == 0);
    end(thread);
    thread = begin(open_to_read);
    fd = open(path, O_WRONLY);
    DEMAND(fd >= 0 && write(fd, "z", 1) == 1 && close(fd) == 0);
    end(thread);
    unlink(path);
}

static void of_splice(void)
{
    int to[2];
    char one;
    DEMAND(pipe(ends) == 0 && pipe(to) == 0);
    pthread_t thread = begin(write_one);
    DEMAND(
        splice(ends[0], NULL, to[1], NULL, 100, 0) == 1 && read(to[0], &one, 1) == 1 && one == 'x');
    end(thread);
}

static void of_sendfile(void)
{
    enum { SIZE = 1 << 18 };
    FILE *file = tmpfile();
    off_t from = 0;
    DEMAND(file && ftruncate(fileno(file), SIZE) == 0 && pipe(ends) == 0);
    pthread_t thread = begin(read_much);
    while (from < SIZE)
        DEMAND(sendfile(ends[1], fileno(file), &from, (size_t)(SIZE - from)) > 0);
    end(thread);
}

static struct sockaddr_un address = {.sun_family = AF_UNIX, .sun_path = "turns.of.socket"};

static void connect_and_write(void)
{
    int socket_of_other = socket(AF_UNIX, SOCK_STREAM, 0);
    DEMAND(connect(socket_of_other, (struct sockaddr *)&address, sizeof address) == 0 &&
           send(socket_of_other, "abc", 3, 0) == 3 && close(socket_of_other) == 0);
}

static void of_socket(void)
{
    char room[8];
    struct timeval time = {0, 2000};
    unlink(address.sun_path);
    fd = socket(AF_UNIX, SOCK_STREAM, 0);
    DEMAND(bind(fd, (struct sockaddr *)&address, sizeof address) == 0 && listen(fd, 1) == 0);
    DEMAND(setsockopt(fd, SOL_SOCKET, SO_RCVTIMEO, &time, sizeof time) == 0 &&
           accept(fd, NULL, NULL) == -1 && errno == EAGAIN);
    memset(&time, 0, sizeof time);
    DEMAND(setsockopt(fd, SOL_SOCKET, SO_RCVTIMEO, &time, sizeof time) == 0);
    pthread_t thread = begin(connect_and_write);
    int accepted = accept(fd, NULL, NULL);
    DEMAND(accepted >= 0 && recv(accepted, room, sizeof room, MSG_WAITALL) == 3 &&
           memcmp(room, "abc", 3) == 0);
    end(thread);
    unlink(address.sun_path);
}

static void unlock_file(void)
{
    DEMAND(flock(fd, LOCK_UN) == 0);
}

static void of_files(void)
{
    fd = open(path, O_RDWR | O_CREAT, 0600);
    int again = open(path, O_RDWR);
    DEMAND(
        flock(fd, LOCK_EX) == 0 && flock(again, LOCK_EX | LOCK_NB) == -1 && errno == EWOULDBLOCK);
    pthread_t thread = begin(unlock_file);
    DEMAND(flock(again, LOCK_EX) == 0);
    end(thread);
    unlink(path);
}

static uint64_t now(void)
{
    struct timespec time;
    clock_gettime(CLOCK_MONOTONIC, &time);
    return (uint64_t)time.tv_sec * 1000000000 + (uint64_t)time.tv_nsec;
}

static void of_time(void)
{
    const struct itimerspec spec = {{1, 0}, {2, 0}};
    const struct timespec hour = {1800, 0};
    uint64_t count, begun = now();
    int timer = timerfd_create(CLOCK_MONOTONIC, 0);
    DEMAND(
        timerfd_settime(timer, 0, &spec, NULL) == 0 && read(timer, &count, 8) == 8 && count == 1);
    DEMAND(now() - begun >= 2000000000 && now() - begun < 2100000000);
    DEMAND(read(timer, &count, 8) == 8 && count == 1 && now() - begun >= 3000000000);
    close(timer);
    DEMAND(nanosleep(&hour, NULL) == 0 && now() - begun >= 1803000000000);
}

static volatile sig_atomic_t signals, at_signal;

static void on_signal(int number)
{
    signals++;
    at_signal = number;
}

static pthread_t first;

static void signal_first(void)
{
    pthread_kill(first, SIGUSR1);
}

static void of_signals(void)
{
    struct sigaction action = {.sa_handler = on_signal};
    const struct timespec long_time = {100, 0};
    struct timespec left;
    char one;
    signals = 0;
    first = pthread_self();
    DEMAND(sigaction(SIGUSR1, &action, NULL) == 0 && sigaction(SIGALRM, &action, NULL) == 0 &&
           pipe(ends) == 0);
    pthread_t thread = begin(signal_first);
    DEMAND(
        nanosleep(&long_time, &left) == -1 && errno == EINTR && signals == 1 && left.tv_sec == 99);
    end(thread);
    thread = begin(signal_first);
    DEMAND(read(ends[0], &one, 1) == -1 && errno == EINTR && signals == 2);
    end(thread);
    alarm(5);
    DEMAND(pause() == -1 && errno == EINTR && signals == 3 && at_signal == SIGALRM);
}

static void of_masks(void)
{
    sigset_t blocked, open;
    struct sigaction action = {.sa_handler = on_signal};
    siginfo_t info;
    const struct timespec moment = {0, 1000000};
    signals = 0;
    first = pthread_self();
    sigemptyset(&open);
    sigemptyset(&blocked);
    sigaddset(&blocked, SIGUSR1);
    DEMAND(sigaction(SIGUSR1, &action, NULL) == 0 &&
           pthread_sigmask(SIG_BLOCK, &blocked, NULL) == 0 && pipe(ends) == 0);
    struct pollfd polled = {ends[0], POLLIN, 0};
    raise(SIGUSR1);
    DEMAND(signals == 0 && sigsuspend(&open) == -1 && errno == EINTR && signals == 1);
    pthread_t thread = begin(signal_first);
    DEMAND(ppoll(&polled, 1, NULL, &open) == -1 && errno == EINTR && signals == 2);
    end(thread);
    DEMAND(sigtimedwait(&blocked, &info, &moment) == -1 && errno == EAGAIN);
    thread = begin(signal_first);
    DEMAND(sigwaitinfo(&blocked, &info) == SIGUSR1 && signals == 2);
    end(thread);
    raise(SIGUSR1);
    DEMAND(pthread_sigmask(SIG_UNBLOCK, &blocked, NULL) == 0 && signals == 3);
}

static void note_expiry(union sigval value)
{
    signals += value.sival_int;
    DEMAND(write(ends[1], "t", 1) == 1);
}

static void of_timers(void)
{
    struct sigevent event = {.sigev_notify = SIGEV_THREAD,
        .sigev_notify_function = note_expiry,
        .sigev_value.sival_int = 7};
    const struct itimerspec spec = {.it_value = {3, 0}};
    timer_t timer;
    char one;
    signals = 0;
    DEMAND(pipe(ends) == 0 && timer_create(CLOCK_MONOTONIC, &event, &timer) == 0 &&
           timer_settime(timer, 0, &spec, NULL) == 0);
    DEMAND(read(ends[0], &one, 1) == 1 && one == 't' && signals == 7 && timer_delete(timer) == 0);
}

static void of_cancels(void)
{
    void *result;
    pthread_t thread;
    DEMAND(pipe(ends) == 0);
    then = (void (*)(void))pause;
    DEMAND(pthread_create(&thread, NULL, other, NULL) == 0);
    const struct timespec moment = {0, 20000000};
    nanosleep(&moment, NULL);
    DEMAND(pthread_cancel(thread) == 0 && pthread_join(thread, &result) == 0 &&
           result == PTHREAD_CANCELED);
}

static pthread_mutex_t lock;

static void *end_with_lock(void *unused)
{
    pthread_mutex_lock(&lock);
    return unused;
}

static void lock_and_wait(void)
{
    const struct timespec moment = {0, 30000000};
    pthread_mutex_lock(&lock);
    nanosleep(&moment, NULL);
    pthread_mutex_unlock(&lock);
}

static void of_locks(void)
{
    static const int protocols[] = {PTHREAD_PRIO_NONE, PTHREAD_PRIO_INHERIT};
    for (int i = 0; i < 2; i++) {
        pthread_mutexattr_t attributes;
        pthread_t thread;
        struct timespec time;
        pthread_mutexattr_init(&attributes);
        DEMAND(pthread_mutexattr_setprotocol(&attributes, protocols[i]) == 0 &&
               pthread_mutexattr_setrobust(&attributes, PTHREAD_MUTEX_ROBUST) == 0);
        DEMAND(pthread_mutex_init(&lock, &attributes) == 0 &&
               pthread_create(&thread, NULL, end_with_lock, NULL) == 0);
        end(thread);
        DEMAND(pthread_mutex_lock(&lock) == EOWNERDEAD && pthread_mutex_consistent(&lock) == 0 &&
               pthread_mutex_unlock(&lock) == 0);
        thread = begin(lock_and_wait);
        while (pthread_mutex_trylock(&lock) == 0) {
            pthread_mutex_unlock(&lock);
            sched_yield();
        }
        clock_gettime(CLOCK_REALTIME, &time);
        time.tv_nsec = (time.tv_nsec + 1000000) % 1000000000;
        time.tv_sec += time.tv_nsec < 1000000;
        DEMAND(
            pthread_mutex_timedlock(&lock, &time) == ETIMEDOUT && pthread_mutex_lock(&lock) == 0);
        pthread_mutex_unlock(&lock);
        end(thread);
        pthread_mutex_destroy(&lock);
    }
}

static uint32_t words[2];

static void change_second(void)
{
    words[1] = 1;
    DEMAND(syscall(SYS_futex, words + 1, FUTEX_WAKE | FUTEX_PRIVATE_FLAG, 1, NULL, NULL, 0) == 1);
}

static void wake_by_bits(void)
{
    DEMAND(
        syscall(SYS_futex, words, FUTEX_WAKE_BITSET | FUTEX_PRIVATE_FLAG, 1, NULL, NULL, 2) == 0);
    DEMAND(
        syscall(SYS_futex, words, FUTEX_WAKE_BITSET | FUTEX_PRIVATE_FLAG, 1, NULL, NULL, 4) == 1);
}

/* FUTEX_WAKE_OP: adds 5 to the second word, and wakes its waiters if it was 1. */
static void wake_by_word(void)
{
    DEMAND(syscall(SYS_futex, words, FUTEX_WAKE_OP | FUTEX_PRIVATE_FLAG, 1, 1L, words + 1,
               FUTEX_OP(FUTEX_OP_ADD, 5, FUTEX_OP_CMP_EQ, 1)) == 1 &&
           words[1] == 6);
}

static void requeue(void)
{
    DEMAND(syscall(SYS_futex, words, FUTEX_CMP_REQUEUE | FUTEX_PRIVATE_FLAG, 0, 1L, words + 1, 7) ==
               -1 &&
           errno == EAGAIN);
    DEMAND(syscall(SYS_futex, words, FUTEX_CMP_REQUEUE | FUTEX_PRIVATE_FLAG, 0, 1L, words + 1, 0) ==
           1);
    DEMAND(syscall(SYS_futex, words, FUTEX_WAKE | FUTEX_PRIVATE_FLAG, 1, NULL, NULL, 0) == 0);
    DEMAND(syscall(SYS_futex, words + 1, FUTEX_WAKE | FUTEX_PRIVATE_FLAG, 1, NULL, NULL, 0) == 1);
}

static void of_futexes(void)
{
    struct futex_waitv waiters[2] = {{0, (uintptr_t)words, 2 | FUTEX_PRIVATE_FLAG, 0},
        {0, (uintptr_t)(words + 1), 2 | FUTEX_PRIVATE_FLAG, 0}};
    const struct timespec moment = {0, 1000000};
    DEMAND(syscall(SYS_futex, words, FUTEX_WAIT | FUTEX_PRIVATE_FLAG, 1, NULL, NULL, 0) == -1 &&
           errno == EAGAIN);
    DEMAND(syscall(SYS_futex, words, FUTEX_WAIT | FUTEX_PRIVATE_FLAG, 0, &moment, NULL, 0) == -1 &&
           errno == ETIMEDOUT);
    pthread_t thread = begin(wake_by_bits);
    DEMAND(
        syscall(SYS_futex, words, FUTEX_WAIT_BITSET | FUTEX_PRIVATE_FLAG, 0, NULL, NULL, 4) == 0);
    end(thread);
    thread = begin(requeue);
    DEMAND(syscall(SYS_futex, words, FUTEX_WAIT | FUTEX_PRIVATE_FLAG, 0, NULL, NULL, 0) == 0);
    end(thread);
    thread = begin(change_second);
    DEMAND(syscall(449, waiters, 2, 0, NULL, 0) == 1);
    end(thread);
    thread = begin(wake_by_word);
    DEMAND(syscall(SYS_futex, words, FUTEX_WAIT | FUTEX_PRIVATE_FLAG, 0, NULL, NULL, 0) == 0 &&
           words[1] == 6);
    end(thread);
    memset(words, 0, sizeof words);
}

static const struct {
    const char *name;
    void (*run)(void);
} modes[] = {
    {"pipe", of_pipe},
    {"poll", of_poll},
    {"select", of_select},
    {"epoll", of_epoll},
    {"semaphores", of_semaphores},
    {"messages", of_messages},
    {"queues", of_queues},
    {"fifo", of_fifo},
    {"splice", of_splice},
    {"sendfile", of_sendfile},
    {"socket", of_socket},
    {"files", of_files},
    {"time", of_time},
    {"signals", of_signals},
    {"masks", of_masks},
    {"timers", of_timers},
    {"cancels", of_cancels},
    {"locks", of_locks},
    {"futexes", of_futexes},
};

int main(int count, char **names)
{
    int runs = 0;
    for (size_t i = 0; i < sizeof modes / sizeof *modes; i++)
        if (count < 2 || strcmp(names[1], modes[i].name) == 0) {
            modes[i].run();
            runs++;
        }
    printf("%d modes are as they should be\n", runs);
    return runs == 0;
}
