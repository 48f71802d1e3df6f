/* Completions that belong to no end of a request: the events of one that goes on, messages of other
 * rings, and the tags of registered resources that are no longer used.
 */
#ifndef EXTRAS_H
#define EXTRAS_H

#include "wulgach_enter.h"
#include "wulgach_taking.h"

#include <linux/io_uring.h>
#include <pthread.h>
#include <stdbool.h>
#include <stddef.h>
#include <stdint.h>

struct request;
struct ring;

struct message {
    struct message *next;
    uint64_t user_data;
    int32_t res;
    uint32_t flags;
};

/* Messages that aren't posted yet, of other rings and of tags: the oldest first. */
struct inbox {
    pthread_mutex_t lock; /* the last lock that is taken */
    struct message *first, **last;
    size_t count; /* how many: looked at without the lock */
};

/* Whether an extra completion can be posted now: by the manual pages' rules no drain is
 * outstanding; and there is memory. */
bool can_post_extra(struct ring *ring);

/* Whose a completion is: that of a request of this number and operation, which this call has
 * submitted; or a message, of no call. */
struct origin {
    uint64_t user_data, call, number;
    uint8_t code;
    bool is_message;
};

struct origin origin_of(const struct request *request);

/* Posts one. It can be posted. False: the core refused memory for it, and it is put off. */
bool post_extra(struct ring *ring, const struct origin *of, int32_t res, uint32_t flags);

/* Where a completion was put off: whether this comes now, after what the library says is posted
 * first. And has that one show this instead. */
bool comes_now(struct ring *ring, enum wulgach_coming what);
void change_unposted(struct ring *ring, int32_t res, uint32_t flags);

/* A message that is yet to be put; NULL if memory was refused. */
struct message *make_message_of(uint64_t user_data, int32_t res);

/* Puts a message: it is posted when its ring next goes on. */
void put_message(struct inbox *inbox, struct message *message);

/* Carries out a request to send a message, or a registered file, to another ring: it is posted
 * there at once, or by the thread that is in a call on it. Returns 0, the file's slot there, or the
 * negative of an error number. */
int32_t send_message(struct ring *ring, const struct io_uring_sqe *entry);

/* Whether messages are there, and posting those that can be. */
bool has_messages(struct ring *ring);
void post_messages(struct ring *ring);

void make_inbox(struct inbox *inbox);
void free_inbox(struct inbox *inbox);

#endif
