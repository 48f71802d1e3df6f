/* Processes that take turns, by mode:
 *
 *   starts    children by fork, vfork, posix_spawn and system, which end or become programs
 *   signals   children that are sent signals, which end them or which they catch; faults; pipes
 *             that nobody reads
 *   shared    memory that children share, with semaphores, a lock and threads of their own
 *   raced     a sum in a file that children read and write anew: one may be lost
 *   stuck     two children wait for each other's pipe
 *   left      the program ends before its child
 *   listens   nobody connects to its socket
 */
#define _GNU_SOURCE
#include <arpa/inet.h>
#include <fcntl.h>
#include <netinet/in.h>
#include <pthread.h>
#include <semaphore.h>
#include <signal.h>
#include <spawn.h>
#include <stdbool.h>
#include <stdio.h>
#include <stdlib.h>
#include <string.h>
#include <sys/mman.h>
#include <sys/socket.h>
#include <sys/wait.h>
#include <unistd.h>

extern char **environ;

enum { CHILDREN = 3, ROUNDS = 5 };

static volatile sig_atomic_t caught;

/* (in one piece) */
static void say(const char *what, int number)
{
    char line[64];
    int length = snprintf(line, sizeof line, "%s %d\n", what, number);
    if (write(STDOUT_FILENO, line, (size_t)length) != length)
        _exit(2);
}

static int status_of(pid_t child)
{
    int status = -1;
    while (waitpid(child, &status, 0) < 0)
        ;
    return WIFSIGNALED(status) ? -WTERMSIG(status) : WEXITSTATUS(status);
}

static void starts(void)
{
    char *const words[] = {"sh", "-c", "exit 5", NULL}, *const none[] = {"none", NULL};
    pid_t child = fork();
    if (child == 0)
        _exit(3);
    say("fork:", status_of(child));
    child = vfork();
    if (child == 0)
        _exit(4);
    say("vfork:", status_of(child));
    child = vfork();
    if (child == 0) {
        execlp("sh", "sh", "-c", "sh -c 'exit 6'", (char *)NULL);
        _exit(9);
    }
    say("a shell of a shell:", status_of(child));
    say("posix_spawn:",
        posix_spawnp(&child, "sh", NULL, NULL, words, environ) == 0 ? status_of(child) : -1);
    say("of none:", posix_spawnp(&child, "/no/such/program", NULL, NULL, none, environ));
    say("system:", WEXITSTATUS(system("echo a shell; echo pipes | cat; exit 7")));
}

static void catch (int signal)
{
    caught = signal;
}

static pid_t child_that(void (*does)(void))
{
    pid_t child = fork();
    if (child == 0) {
        does();
        _exit(caught);
    }
    return child;
}

static void wait_for_ever(void)
{
    pause();
}

static void tell_parent(void)
{
    kill(getppid(), SIGUSR1);
}

static void read_nothing(void)
{
    volatile const int *nothing = NULL;
    _exit(*nothing);
}

static void kill_itself(void)
{
    kill(getpid(), SIGKILL);
}

static void write_for_ever(void)
{
    while (write(STDIN_FILENO, "..", 2) == 2)
        ;
}

/* Of two ends of a pipe the child has one as its input. */
static pid_t child_with(int end, int other, void (*does)(void))
{
    pid_t child = fork();
    if (child == 0) {
        dup2(end, STDIN_FILENO);
        close(end);
        close(other);
        does();
        _exit(0);
    }
    return child;
}

static void signals(void)
{
    int ends[2];
    char bytes[10];
    signal(SIGUSR1, catch);
    pid_t child = child_that(wait_for_ever);
    kill(child, SIGTERM);
    say("ended:", status_of(child));
    child = child_that(wait_for_ever);
    sleep(1);
    kill(child, SIGUSR1);
    say("caught:", status_of(child));
    child = child_that(wait_for_ever);
    kill(child, SIGKILL);
    say("killed:", status_of(child));
    say("told:", status_of(child_that(tell_parent)));
    say("by the child:", caught);
    caught = 0;
    say("abort:", status_of(child_that(abort)));
    say("fault:", status_of(child_that(read_nothing)));
    say("by itself:", status_of(child_that(kill_itself)));
    if (pipe(ends) != 0)
        exit(2);
    child = child_with(ends[1], ends[0], write_for_ever);
    close(ends[1]);
    if (read(ends[0], bytes, sizeof bytes) < 2)
        exit(2);
    close(ends[0]);
    say("nobody reads:", status_of(child));
}

struct shared {
    sem_t begin;
    pthread_mutex_t lock;
    int sum, written;
    char order[CHILDREN * ROUNDS + 1];
};

static void *add(void *argument)
{
    struct shared *shared = argument;
    pthread_mutex_lock(&shared->lock);
    shared->sum++;
    pthread_mutex_unlock(&shared->lock);
    return NULL;
}

static void add_all(struct shared *shared, int child)
{
    pthread_t thread;
    sem_wait(&shared->begin);
    for (int i = 0; i < ROUNDS; i++) {
        pthread_mutex_lock(&shared->lock);
        shared->order[shared->written++] = (char)('a' + child);
        pthread_mutex_unlock(&shared->lock);
    }
    sem_post(&shared->begin);
    if (pthread_create(&thread, NULL, add, shared) != 0 || pthread_join(thread, NULL) != 0)
        _exit(2);
}

/* Who waits for a lock whose owner ends with its process has it then. */
static void inherit(struct shared *shared, bool dies)
{
    pid_t child = fork();
    if (child == 0) {
        pthread_mutex_lock(&shared->lock);
        sem_post(&shared->begin);
        sleep(1);
        if (dies)
            kill(getpid(), SIGKILL);
        _exit(0);
    }
    sem_wait(&shared->begin);
    say("owner ended:", pthread_mutex_lock(&shared->lock));
    pthread_mutex_consistent(&shared->lock);
    pthread_mutex_unlock(&shared->lock);
    say("child:", status_of(child));
}

static void share(void)
{
    pthread_mutexattr_t attributes;
    struct shared *shared = mmap(
        NULL, sizeof *shared, PROT_READ | PROT_WRITE, MAP_SHARED | MAP_ANONYMOUS, -1, 0);
    if (shared == MAP_FAILED)
        exit(2);
    pthread_mutexattr_init(&attributes);
    pthread_mutexattr_setpshared(&attributes, PTHREAD_PROCESS_SHARED);
    pthread_mutexattr_setrobust(&attributes, PTHREAD_MUTEX_ROBUST);
    pthread_mutex_init(&shared->lock, &attributes);
    sem_init(&shared->begin, 1, 0);
    for (int i = 0; i < CHILDREN; i++)
        if (fork() == 0) {
            add_all(shared, i);
            _exit(0);
        }
    sem_post(&shared->begin);
    for (int i = 0; i < CHILDREN; i++)
        say("child:", status_of(-1));
    say(shared->order, shared->sum);
    sem_wait(&shared->begin);
    inherit(shared, false);
    inherit(shared, true);
}

static int number_in(int file)
{
    char text[16] = "";
    return pread(file, text, sizeof text - 1, 0) < 0 ? -1 : atoi(text);
}

static int put_number(int file, int number)
{
    char text[16];
    int length = snprintf(text, sizeof text, "%d", number);
    return pwrite(file, text, (size_t)length, 0) != length;
}

static int race(void)
{
    char path[] = "turns.of.trees";
    int file = open(path, O_RDWR | O_CREAT | O_TRUNC, 0600);
    for (int i = 0; i < CHILDREN; i++)
        if (fork() == 0)
            _exit(put_number(file, number_in(file) + 1));
    while (wait(NULL) > 0)
        ;
    int sum = number_in(file);
    unlink(path);
    say("sum:", sum);
    return sum != CHILDREN;
}

static int get_stuck(void)
{
    int one[2], other[2];
    char byte;
    if (pipe(one) != 0 || pipe(other) != 0)
        return 2;
    if (fork() == 0)
        _exit(read(one[0], &byte, 1) == 1 && write(other[1], &byte, 1) == 1);
    if (fork() == 0)
        _exit(read(other[0], &byte, 1) == 1 && write(one[1], &byte, 1) == 1);
    return wait(NULL) < 0 || wait(NULL) < 0;
}

static int listen_to_nobody(void)
{
    struct sockaddr_in address = {.sin_family = AF_INET, .sin_addr = {htonl(INADDR_LOOPBACK)}};
    int listener = socket(AF_INET, SOCK_STREAM, 0);
    return bind(listener, (const struct sockaddr *)&address, sizeof address) != 0 ||
           listen(listener, 1) != 0 || accept(listener, NULL, NULL) < 0;
}

int main(int count, char **words)
{
    const char *mode = count > 1 ? words[1] : "";
    if (strcmp(mode, "starts") == 0)
        starts();
    else if (strcmp(mode, "signals") == 0)
        signals();
    else if (strcmp(mode, "shared") == 0)
        share();
    else if (strcmp(mode, "raced") == 0)
        return race();
    else if (strcmp(mode, "stuck") == 0)
        return get_stuck();
    else if (strcmp(mode, "listens") == 0)
        return listen_to_nobody();
    else if (strcmp(mode, "left") == 0)
        child_that(wait_for_ever);
    else
        return 2;
    return 0;
}
