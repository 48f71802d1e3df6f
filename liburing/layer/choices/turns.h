/* Turns of a program's threads (run/turns) are choices of the run's one list, where there are such.
 */
#ifndef LAYER_TURNS_H
#define LAYER_TURNS_H

#include <stdbool.h>
#include <stdint.h>
#include <time.h>

/* What the processes of a run share where it has one list of choices: how many were made, and the
 * state of the generator. It begins as zeros. */
struct wulgach_one_list {
    bool has_begun;
    uint64_t made, random;
};

/* The program's threads take turns from here on: whether these are chosen by the policy. The record
 * and the account are there, as if a ring had been set up. */
bool wulgach_begin_turns(struct wulgach_one_list *shared);

/* Counts a turn: which of so many ways it is, by a list, or else as it was rolled. And records it
 * in words. They take no lock: one thread runs at a time. */
uint32_t wulgach_choose_turn(uint32_t count, uint32_t rolled, uint64_t *at);
void wulgach_record_turn(uint64_t at, uint32_t count, uint32_t way, const char *what);

/* What is met of turns, for `explore --coverage`. */
enum wulgach_kind_of_turn {
    WULGACH_STAYS_AT_LOCK,
    WULGACH_PASSES_AT_LOCK,
    WULGACH_STAYS_AT_RING,
    WULGACH_PASSES_AT_RING,
    WULGACH_STAYS_AT_CALL,
    WULGACH_PASSES_AT_CALL,
    WULGACH_WAIT_ENDS,
    WULGACH_LIMIT_ENDS,
    WULGACH_SIGNAL_ENDS,
    WULGACH_RING_GOES_ON,
    WULGACH_TURN_COUNT
};
void wulgach_note_turn(enum wulgach_kind_of_turn turn);

/* Steps of rings and choices are told, where the run's log is to have them; else these are NULL. */
extern void (*wulgach_hear_step)(uint32_t ring, const char *what);
extern void (*wulgach_hear_choice)(uint64_t at, uint32_t count, uint32_t way, const char *what);

/* Calls that the layer makes for its record and its trace are begun and have ended: no thread hears
 * of them. NULL where none take turns. */
extern void (*wulgach_tell_own_calls)(bool begin);

/* What a clock says, in nanoseconds, amid such calls; 0: the kernel is asked. NULL where none take
 * turns. */
extern uint64_t (*wulgach_tell_time)(clockid_t clock);

static inline void tell_own_calls(bool begin)
{
    if (wulgach_tell_own_calls)
        wulgach_tell_own_calls(begin);
}

#endif
