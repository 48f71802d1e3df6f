/* What goes on next, where the core allows more than one thing: the policy that WULGACH_POLICY
 * names, and the record of what was chosen. Choices are counted from 0 over all rings of the
 * process.
 */
#ifndef POLICY_H
#define POLICY_H

#include <stdbool.h>
#include <stdint.h>

enum policy {
    IN_ORDER, /* order: the least request that can go on, until none can */
    LAZY, /* lazy: the same, but nothing goes on before the application waits or peeks */
    SEEDED, /* seed:N: rolled */
    BY_PRIORITY, /* pct:SEED:DEPTH or pct:SEED:DEPTH:CHOICES: by priorities that are drawn
                    (priorities.h) */
    LISTED /* list:ITEMS: given, and 0 where the list says nothing */
};

/* Reads the environment, once. */
void read_policy(void);

enum policy policy(void);

/* What goes on by it while a call is made (enum wulgach_policy). */
uint32_t kind_of_policy(void);

/* Whether issuing and finishing are two choices (WULGACH_CHOOSE=events, the default), or one
 * (ends); and whether they are one by the policy. */
bool is_choosing_events(void);
bool is_one_choice(void);

/* Counts a choice, and returns its number. Only policies that choose make any. */
uint64_t count_choice(void);

/* Which of `count` ways, from 0, choice `at` is. By priorities it is rolled too: that is for
 * choices in which nobody plays, as whether an operation has a fault. */
uint32_t choose(uint64_t at, uint32_t count);

/* A number below `count` that the seed draws as the program begins, apart from its choices; 0 where
 * there is no seed. */
uint32_t drawn_apart(uint32_t count);

/* A turn of the program's threads (turns.h); and the list that it is of, which processes share. */
struct wulgach_one_list;
void share_course(struct wulgach_one_list *shared);
uint32_t choose_turn(uint32_t count, uint32_t rolled, uint64_t *at);
void record_turn(uint64_t at, uint32_t count, uint32_t way, const char *what);

/* A ring was set up: the record of choices is there from now on, if there is to be one. */
void note_ring(void);

/* Records a choice that was made: which of how many ways, and in words. */
void record_choice(uint64_t at, uint32_t count, uint32_t chosen, const char *what);

/* Whether what could go on at each choice is recorded (outlook.h), and a line of that, or a part of
 * one. */
bool is_recording_ways(void);
void record_line(const char *format, ...) __attribute__((format(printf, 1, 2)));

/* Keep others from choosing and recording: over a fork, and while priorities are looked at. */
void lock_choices(void);
void unlock_choices(void);

#endif
