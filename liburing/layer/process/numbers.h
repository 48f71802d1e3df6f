/* Descriptors of the layer's own have the last numbers below the program's limit, a few of them;
 * then such past it, where it may raise that, and else high ones: a program that closes a low one
 * twice doesn't close them. The limit is the process's, and the program and its children may see it
 * raised: so it is raised for those alone that find none of the last numbers free. */
#ifndef NUMBERS_H
#define NUMBERS_H

#include <stdbool.h>
#include <stdint.h>
#include <sys/resource.h>

/* Where a program may have more than MANY, there is room for the layer's numbers beside its own;
 * else they are the last, one of SHARE. */
enum { HIGH_NUMBER = 512, MANY = 1 << 15, SHARE = 32 };

/* The lowest of these numbers, by how many descriptors the program may have. */
static inline int lowest_of_own(rlim_t limit)
{
    return limit > MANY ? HIGH_NUMBER : (int)(limit - limit / SHARE);
}

/* A descriptor of the layer's own stands under whatever number is free, from here to there: as it
 * is made, or while it is used. */
void begin_low_number(void);
void end_low_number(void);

/* How often that was over; and whether one has stood so since. */
uint64_t count_low_numbers(void);
bool has_had_low_number(uint64_t before);

/* A descriptor that was made just now, under such a number in the place of its own; or as it is,
 * where there is none to be had, or it is negative. */
int moved_high(int fd);

/* The same of one that is made by this call, which gets one where all below the limit are taken.
 * Negative: none was made, and errno says why. */
int made_high(int (*make)(void));

/* An epoll instance, and an eventfd, that are made so. */
int made_instance(void);
int made_eventfd(void);

/* A copy of a descriptor of the application's, which keeps its file open, under such a number, or
 * under any; or the negative of an error number. */
int kept_copy_of(int fd);

/* A descriptor that is to be the application's later, or that one request is for, has this number
 * already: a child closes it, and a program that is started hasn't it. Returns whether that had it
 * not before either. And now it is the application's, as it was then. */
bool keep_for_later(int fd);
void give_to_application(int fd, bool closes_on_exec);

/* How many descriptors the program may have by its own limit. */
rlim_t limit_of_numbers(void);

/* A child closes the copies that it got by a fork, which holds the lock under which they are made
 * and closed: what they keep open is its parent's. One that the program may have closed isn't such
 * a copy any more. */
void close_parents(void);
void lock_kept(void);
void unlock_kept(void);
void forget_kept(int fd);

/* Closes such a copy, or what was opened for a slot. A process loses its locks on a regular file
 * (fcntl(2)) with the first descriptor that it closes: where it has any, the copy stays until
 * another is closed. */
void close_kept(int fd, bool is_regular);

#endif
