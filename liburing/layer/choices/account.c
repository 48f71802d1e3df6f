/* The account of a run, in memory that its processes share. */
#define _GNU_SOURCE
#include "choices/account.h"
#include "process/fault.h"
#include "process/passing.h"

#include <fcntl.h>
#include <pthread.h>
#include <stdlib.h>
#include <string.h>
#include <sys/mman.h>
#include <unistd.h>

static const char *const names[RULE_COUNT] = {
    [WAITS_IN_GROUP] = "waits: an earlier member of its chain hasn't ended",
    [WAITS_FOR_DRAIN] = "waits: an earlier group drains",
    [WAITS_TO_DRAIN] = "waits: its own group drains",
    [WAITS_DEFERRED] = "waits: its group is deferred",
    [DOOMED_BY_OWN_FAULT] = "doomed: its own entry has a fault",
    [DOOMED_BY_FAULT] = "doomed: a member of its chain has a fault",
    [DOOMED_BY_FAILURE] = "doomed: an earlier member of its chain failed",
    [DOOMED_BY_CANCEL] = "doomed: a cancel chose it",
    [DOOMED_AS_DRAIN] = "doomed: it drains in a ring that has skipped success",
    [CANCEL_DOOMS] = "cancel: dooms its target (0)",
    [CANCEL_FINDS_RUNNING] = "cancel: finds its target running (-114)",
    [CANCEL_FINDS_NOBODY] = "cancel: finds nobody (-2)",
    [FAILS_BY_SOFT_LINK] = "chain: a member with a soft link fails",
    [FAILS_BY_HARD_LINK] = "chain: a member with a hard link fails",
    [DRAIN_STARTS] = "drain: a draining request starts",
    [SUCCESS_IS_SKIPPED] = "completion: a success is skipped",
    [FAILURE_ISNT_SKIPPED] = "completion: a failure isn't skipped",
    [COMPLETION_OVERFLOWS] = "completion: one overflows the ring",
    [OVERFLOW_MOVES] = "completion: one that overflowed moves into the ring",
    [WORD_IS_DROPPED] = "call: an index word names no slot",
    [CALL_STOPS] = "call: ends after an entry with a fault",
    [ENTRY_HAS_FAULT] = "call: takes an entry with a fault",
};

static const char *const names_of_turns[WULGACH_TURN_COUNT] = {
    [WULGACH_STAYS_AT_LOCK] = "turn at a lock: the thread goes on",
    [WULGACH_PASSES_AT_LOCK] = "turn at a lock: another goes on",
    [WULGACH_STAYS_AT_RING] = "turn at a call of a ring: the thread goes on",
    [WULGACH_PASSES_AT_RING] = "turn at a call of a ring: another goes on",
    [WULGACH_STAYS_AT_CALL] = "turn at another call: the thread goes on",
    [WULGACH_PASSES_AT_CALL] = "turn at another call: another goes on",
    [WULGACH_WAIT_ENDS] = "turn: what a thread waits for has come",
    [WULGACH_LIMIT_ENDS] = "turn: the time of a wait is over",
    [WULGACH_SIGNAL_ENDS] = "turn: a signal ends a wait",
    [WULGACH_RING_GOES_ON] = "turn: a ring goes on though nobody calls",
};

static struct account *shared;
static uint64_t hash; /* of this process's choices */
static pid_t hashing_process; /* a forked child has choices of its own, */
static bool has_one_list; /* unless all processes have one list */

/* The names stand in the file, so that they are told in one place. */
static void map_account(void)
{
    const char *path = getenv("WULGACH_ACCOUNT");
    if (!path || !*path)
        return;
    int file = open(path, O_RDWR | O_CLOEXEC);
    demand(file >= 0 && ftruncate(file, ACCOUNT_SIZE) == 0,
        "the file of WULGACH_ACCOUNT can't be written");
    void *at = map_passing(NULL, ACCOUNT_SIZE, PROT_READ | PROT_WRITE, MAP_SHARED, file, 0);
    demand(at != MAP_FAILED, "the file of WULGACH_ACCOUNT can't be mapped");
    close(file);
    struct account *made = at;
    for (int i = 0; i < RULE_COUNT; i++)
        memcpy(made->rules[i].name, names[i], strlen(names[i]));
    shared = made;
}

struct account *account(void)
{
    static pthread_once_t once = PTHREAD_ONCE_INIT;
    pthread_once(&once, map_account);
    return shared;
}

bool has_account(void)
{
    return shared;
}

void note_made_ring(void)
{
    if (account())
        shared->rings++;
}

/* What the process's hash was before is taken out of the sum: so the order in which processes note
 * nothing changes it. */
void note_choice(const char *what)
{
    if (!account())
        return;
    if (hashing_process != getpid()) {
        hashing_process = getpid();
        hash = 0;
        shared->choosers = has_one_list ? 1 : shared->choosers + 1;
    }
    uint64_t before = hash;
    if (hash == 0)
        hash = 14695981039346656037u;
    for (const char *at = what; *at; at++)
        hash = (hash ^ (unsigned char)*at) * 1099511628211u;
    hash = (hash ^ '\n') * 1099511628211u;
    shared->order += hash - before;
    shared->choices++;
}

void note_one_list(void)
{
    has_one_list = true;
}

void note_rules(enum rule rule, uint64_t count)
{
    if (has_account())
        shared->rules[rule].count += count;
}

void note_rule(enum rule rule)
{
    note_rules(rule, 1);
}

void begin_turn_rules(void)
{
    for (int i = 0; account() && i < WULGACH_TURN_COUNT; i++)
        memcpy(shared->rules[RULE_COUNT + i].name, names_of_turns[i], strlen(names_of_turns[i]));
}

void note_turn_rule(enum wulgach_kind_of_turn turn)
{
    if (has_account())
        shared->rules[RULE_COUNT + (int)turn].count++;
}

_Static_assert(sizeof(struct account) <= ACCOUNT_SIZE, "an account fits its file");
