/* Races that are planted for `uring-run --threads` to find, by mode:
 *
 *   lost      a wakeup is lost: a flag is looked at outside of the lock that its signal goes with
 *   crossed   three threads take two of three locks in different orders
 *   balance   a balance is looked at under a lock, and taken under it anew
 *   order     none: threads write down in which order they ran, and print it
 *   stacked   the same of threads that have a stack for signals
 *   spinning  none: a thread spins until another has run, without a call
 *   pushed    semaphores that nobody posts: a deadlock at once
 */
#define _GNU_SOURCE
#include <pthread.h>
#include <semaphore.h>
#include <signal.h>
#include <stdatomic.h>
#include <stdio.h>
#include <stdlib.h>
#include <string.h>
#include <time.h>

enum { THREADS = 3, ROUNDS = 5 };

static pthread_mutex_t locks[THREADS] = {
    PTHREAD_MUTEX_INITIALIZER, PTHREAD_MUTEX_INITIALIZER, PTHREAD_MUTEX_INITIALIZER};
static pthread_cond_t condition = PTHREAD_COND_INITIALIZER;
static atomic_int ready;
static long accounts[THREADS] = {100, 100, 100}, balance = 100, lines;
static char order[THREADS * ROUNDS + 1];
static int written;

static void *consume(void *unused)
{
    if (!ready) {
        pthread_mutex_lock(locks);
        pthread_cond_wait(&condition, locks);
        pthread_mutex_unlock(locks);
    }
    return unused;
}

static void *produce(void *unused)
{
    pthread_mutex_lock(locks);
    lines++;
    pthread_mutex_unlock(locks);
    ready = 1;
    pthread_cond_signal(&condition);
    return unused;
}

static void *move(void *number)
{
    long own = (long)number;
    for (int i = 0; i < ROUNDS; i++) {
        int from = (int)((own + i) % THREADS), to = (int)((own * 2 + i + 1) % THREADS);
        if (from == to)
            continue;
        pthread_mutex_lock(locks + (own == 2 ? to : from));
        pthread_mutex_lock(locks + (own == 2 ? from : to));
        accounts[from]--;
        accounts[to]++;
        pthread_mutex_unlock(locks + to);
        pthread_mutex_unlock(locks + from);
    }
    return NULL;
}

static void *take(void *unused)
{
    for (int i = 0; i < ROUNDS; i++) {
        pthread_mutex_lock(locks);
        int has = balance >= 20;
        pthread_mutex_unlock(locks);
        pthread_mutex_lock(locks + 1);
        lines++;
        pthread_mutex_unlock(locks + 1);
        pthread_mutex_lock(locks);
        balance -= has ? 20 : 0;
        pthread_mutex_unlock(locks);
    }
    return unused;
}

static void *write_order(void *number)
{
    const struct timespec moment = {0, 1000000};
    for (int i = 0; i < ROUNDS; i++) {
        pthread_mutex_lock(locks);
        order[written++] = (char)('a' + (long)number);
        pthread_mutex_unlock(locks);
        if (i == 2)
            nanosleep(&moment, NULL);
    }
    return NULL;
}

static void *write_order_stacked(void *number)
{
    static char rooms[THREADS][1 << 15];
    stack_t stack = {.ss_sp = rooms[(long)number], .ss_size = sizeof rooms[0]};
    if (sigaltstack(&stack, NULL) != 0)
        exit(2);
    return write_order(number);
}

static void *spin(void *unused)
{
    while (!ready)
        ;
    return unused;
}

static void *wait_for_nobody(void *semaphore)
{
    sem_wait(semaphore);
    return NULL;
}

static void run(void *(*first)(void *), void *(*others)(void *), void *argument)
{
    pthread_t threads[THREADS];
    for (long i = 0; i < THREADS; i++)
        if (pthread_create(
                threads + i, NULL, i == 0 ? first : others, argument ? argument : (void *)i) != 0)
            exit(2);
    for (int i = 0; i < THREADS; i++)
        pthread_join(threads[i], NULL);
}

int main(int count, char **words)
{
    const char *mode = count > 1 ? words[1] : "";
    sem_t semaphore;
    sem_init(&semaphore, 0, 0);
    if (strcmp(mode, "lost") == 0)
        run(consume, produce, NULL);
    else if (strcmp(mode, "crossed") == 0)
        run(move, move, NULL);
    else if (strcmp(mode, "balance") == 0)
        run(take, take, NULL);
    else if (strcmp(mode, "order") == 0)
        run(write_order, write_order, NULL);
    else if (strcmp(mode, "stacked") == 0)
        run(write_order_stacked, write_order_stacked, NULL);
    else if (strcmp(mode, "spinning") == 0)
        run(spin, produce, NULL);
    else if (strcmp(mode, "pushed") == 0)
        run(wait_for_nobody, wait_for_nobody, &semaphore);
    else
        return 2;
    printf("%s%s\n", balance < 0 ? "FAIL" : "ok ", order);
    return balance < 0;
}
