/* A store with a thread that syncs for others. Each of two threads appends records to `log`, has
 * that one sync them, and prints that a record is committed. By mode:
 *
 *   right    what was written by the time a sync begins is committed as it ends
 *   planted  what has been written by its end: so one that came amid the sync isn't safe
 *
 * With the word `check` it looks whether what was printed, on standard input, is in `log`.
 */
#define _GNU_SOURCE
#include <fcntl.h>
#include <pthread.h>
#include <stdio.h>
#include <stdlib.h>
#include <string.h>
#include <unistd.h>

enum { WRITERS = 2, RECORDS = 3, SIZE = 8 };

static pthread_mutex_t lock = PTHREAD_MUTEX_INITIALIZER;
static pthread_cond_t changed = PTHREAD_COND_INITIALIZER;
static int file, written, synced, ended, is_planted;

static void *sync_for_others(void *unused)
{
    pthread_mutex_lock(&lock);
    while (ended < WRITERS || synced < written) {
        if (synced == written) {
            pthread_cond_wait(&changed, &lock);
            continue;
        }
        int begun = written;
        pthread_mutex_unlock(&lock);
        if (fdatasync(file) != 0)
            exit(2);
        pthread_mutex_lock(&lock);
        synced = is_planted ? written : begun;
        pthread_cond_broadcast(&changed);
    }
    pthread_mutex_unlock(&lock);
    return unused;
}

/* A record is its number, and is committed once so many are synced. */
static void commit(void)
{
    char record[32], line[32];
    pthread_mutex_lock(&lock);
    int own = ++written;
    snprintf(record, sizeof record, "%07d\n", own);
    if (pwrite(file, record, SIZE, (off_t)(own - 1) * SIZE) != SIZE)
        exit(2);
    pthread_cond_broadcast(&changed);
    while (synced < own)
        pthread_cond_wait(&changed, &lock);
    pthread_mutex_unlock(&lock);
    int length = snprintf(line, sizeof line, "%d\n", own);
    if (write(STDOUT_FILENO, line, (size_t)length) != length)
        exit(2);
}

static void *write_records(void *unused)
{
    for (int i = 0; i < RECORDS; i++)
        commit();
    pthread_mutex_lock(&lock);
    ended++;
    pthread_cond_broadcast(&changed);
    pthread_mutex_unlock(&lock);
    return unused;
}

static int run(void)
{
    pthread_t threads[WRITERS + 1];
    int folder = open(".", O_RDONLY | O_DIRECTORY);
    file = open("log", O_RDWR | O_CREAT, 0600);
    if (file < 0 || folder < 0 || fsync(file) != 0 || fsync(folder) != 0)
        return 2;
    for (int i = 0; i <= WRITERS; i++)
        if (pthread_create(threads + i, NULL, i < WRITERS ? write_records : sync_for_others, NULL))
            return 2;
    for (int i = 0; i <= WRITERS; i++)
        pthread_join(threads[i], NULL);
    return 0;
}

static int check(void)
{
    char record[SIZE + 1] = "";
    int own, from = open("log", O_RDONLY), lost = 0;
    while (scanf("%d", &own) == 1) {
        if (pread(from, record, SIZE, (off_t)(own - 1) * SIZE) == SIZE && atoi(record) == own)
            continue;
        printf("record %d is lost\n", own);
        lost = 1;
    }
    return lost;
}

int main(int count, char **words)
{
    const char *mode = count > 1 ? words[1] : "";
    is_planted = strcmp(mode, "planted") == 0;
    if (strcmp(mode, "check") == 0)
        return check();
    return is_planted || strcmp(mode, "right") == 0 ? run() : 2;
}
