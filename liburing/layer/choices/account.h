/* What a run did, counted for who looks on from outside: how many rings and choices it made, in
 * which order, and which rules of the core it met. The counts lie in a file that WULGACH_ACCOUNT
 * names, which all processes of a run map; so they stand however a run ends, and rules add up over
 * all runs that name the same file.
 */
#ifndef ACCOUNT_H
#define ACCOUNT_H

#include "choices/turns.h"

#include <stdbool.h>
#include <stdint.h>

/* The rules of the core, each named in account.c. */
enum rule {
    WAITS_IN_GROUP,
    WAITS_FOR_DRAIN,
    WAITS_TO_DRAIN,
    WAITS_DEFERRED,
    DOOMED_BY_OWN_FAULT,
    DOOMED_BY_FAULT,
    DOOMED_BY_FAILURE,
    DOOMED_BY_CANCEL,
    DOOMED_AS_DRAIN,
    CANCEL_DOOMS,
    CANCEL_FINDS_RUNNING,
    CANCEL_FINDS_NOBODY,
    FAILS_BY_SOFT_LINK,
    FAILS_BY_HARD_LINK,
    DRAIN_STARTS,
    SUCCESS_IS_SKIPPED,
    FAILURE_ISNT_SKIPPED,
    COMPLETION_OVERFLOWS,
    OVERFLOW_MOVES,
    WORD_IS_DROPPED,
    CALL_STOPS,
    ENTRY_HAS_FAULT,
    RULE_COUNT
};

/* What is met besides where the program's threads take turns (enum wulgach_kind_of_turn). */
enum { ROW_COUNT = RULE_COUNT + WULGACH_TURN_COUNT };

enum { ACCOUNT_SIZE = 4096, RULE_NAME = 56 };

/* The file, as `explore` reads it. What stands before the rules is of one run, and whoever begins a
 * run sets it to 0. */
struct account {
    _Atomic uint64_t rings; /* that were set up */
    _Atomic uint64_t choosers; /* processes that made a choice */
    _Atomic uint64_t choices;
    _Atomic uint64_t order; /* the sum, over the processes, of a hash of what was chosen */
    uint64_t unused[4];
    struct {
        char name[RULE_NAME];
        _Atomic uint64_t count;
    } rules[ROW_COUNT];
};

/* The account, mapped when it is first asked for; or NULL: none is wanted. */
struct account *account(void);

/* Whether there is one. A ring was made. */
bool has_account(void);

/* Notes a ring, a choice in words, a rule. */
void note_made_ring(void);
void note_choice(const char *what);
void note_one_list(void); /* all processes have one list of choices */
void note_rule(enum rule rule);
void note_rules(enum rule rule, uint64_t count);

/* The program's threads take turns: so there are rows of these; and what was met of them. */
void begin_turn_rules(void);
void note_turn_rule(enum wulgach_kind_of_turn turn);

#endif
