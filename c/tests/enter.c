/* Calls of io_uring_enter(2), each with the commands that the manual page calls for, written by
 * hand: what is replied, and what the call wants then. */
#include "wulgach_enter.h"
#include "wulgach_taking.h"
#include "wulgach_times.h"

#include <stdio.h>
#include <stdlib.h>
#include <string.h>

enum { MOST = 8 };

struct turn {
    uint32_t kind; /* the reply, */
    uint32_t number, ready; /* with what it tells */
    uint64_t expired;
    bool is_due, has_limit;
    uint32_t wanted; /* and what the call wants then, */
    int64_t value; /* with the flag or the result */
};

struct row {
    const char *name;
    struct wulgach_asked asked;
    struct turn turns[MOST];
};

#define GETS(to_submit, min_complete, policy) \
    { \
        to_submit, min_complete, 2, policy, true, true, false \
    }

static const struct row rows[] = {
    {"a call that waits returns with enough", GETS(1, 1, WULGACH_IN_ORDER),
        {{WULGACH_HEARD, .wanted = WULGACH_SUBMIT},
            {WULGACH_WAS_TAKEN, 1, .wanted = WULGACH_GO_ON_FULLY},
            {WULGACH_STUCK, .ready = 1, .wanted = WULGACH_HEAR, .value = 1},
            {WULGACH_HEARD, .ready = 1, .wanted = WULGACH_RETURN, .value = 1}}},
    {"it doesn't wait if a part was submitted", GETS(2, 1, WULGACH_IN_ORDER),
        {{WULGACH_HEARD, .wanted = WULGACH_SUBMIT},
            {WULGACH_WAS_TAKEN, 1, .wanted = WULGACH_GO_ON_FULLY},
            {WULGACH_STUCK, .wanted = WULGACH_RETURN, .value = 1}}},
    {"it waits for no more than the ring can show", GETS(0, 5, WULGACH_IN_ORDER),
        {{WULGACH_HEARD, .wanted = WULGACH_SUBMIT},
            {WULGACH_WAS_TAKEN, 0, .wanted = WULGACH_GO_ON_FULLY},
            {WULGACH_STUCK, .ready = 2, .wanted = WULGACH_HEAR, .value = 1},
            {WULGACH_HEARD, .ready = 2, .wanted = WULGACH_RETURN}}},
    {"a sleep goes on, and a limit is an error without a completion", GETS(0, 1, WULGACH_BY_CHOICE),
        {{WULGACH_HEARD, .wanted = WULGACH_SUBMIT}, {WULGACH_WAS_TAKEN, 0, .wanted = WULGACH_GO_ON},
            {WULGACH_STUCK, .wanted = WULGACH_HEAR, .value = 1},
            {WULGACH_HEARD, .wanted = WULGACH_SLEEP},
            {WULGACH_WOKEN, .wanted = WULGACH_HEAR, .value = 1},
            {WULGACH_HEARD, .wanted = WULGACH_GO_ON},
            {WULGACH_STUCK, .wanted = WULGACH_HEAR, .value = 1}}},
    {"a limit is an error", GETS(0, 1, WULGACH_IN_ORDER),
        {{WULGACH_HEARD, .wanted = WULGACH_SUBMIT},
            {WULGACH_WAS_TAKEN, 0, .wanted = WULGACH_GO_ON_FULLY},
            {WULGACH_STUCK, .wanted = WULGACH_HEAR, .value = 1},
            {WULGACH_HEARD, .wanted = WULGACH_SLEEP},
            {WULGACH_TIMED_OUT, .wanted = WULGACH_RETURN, .value = -62}}},
    {"one is enough once the least time is over", GETS(0, 2, WULGACH_IN_ORDER),
        {{WULGACH_HEARD, .ready = 1, .wanted = WULGACH_SUBMIT},
            {WULGACH_WAS_TAKEN, 0, .ready = 1, .wanted = WULGACH_GO_ON_FULLY},
            {WULGACH_STUCK, .ready = 1, .wanted = WULGACH_HEAR, .value = 1},
            {WULGACH_HEARD, .ready = 1, .wanted = WULGACH_SLEEP},
            {WULGACH_LEAST_OVER, .ready = 1, .has_limit = true, .wanted = WULGACH_RETURN}}},
    {"without a limit the least time is one", GETS(0, 2, WULGACH_IN_ORDER),
        {{WULGACH_HEARD, .wanted = WULGACH_SUBMIT},
            {WULGACH_WAS_TAKEN, 0, .wanted = WULGACH_GO_ON_FULLY},
            {WULGACH_STUCK, .wanted = WULGACH_HEAR, .value = 1},
            {WULGACH_HEARD, .wanted = WULGACH_SLEEP},
            {WULGACH_LEAST_OVER, .wanted = WULGACH_RETURN, .value = -62}}},
    {"with one the call goes on until one comes", GETS(0, 2, WULGACH_LAZY),
        {{WULGACH_HEARD, .wanted = WULGACH_SUBMIT}, {WULGACH_WAS_TAKEN, 0, .wanted = WULGACH_GO_ON},
            {WULGACH_STUCK, .wanted = WULGACH_HEAR, .value = 1},
            {WULGACH_HEARD, .wanted = WULGACH_SLEEP},
            {WULGACH_LEAST_OVER, .has_limit = true, .wanted = WULGACH_HEAR, .value = 1},
            {WULGACH_HEARD, .wanted = WULGACH_GO_ON},
            {WULGACH_WENT_ON, .ready = 1, .wanted = WULGACH_RETURN}}},
    {"a signal is none beside a completion", GETS(0, 2, WULGACH_IN_ORDER),
        {{WULGACH_HEARD, .wanted = WULGACH_SUBMIT},
            {WULGACH_WAS_TAKEN, 0, .wanted = WULGACH_GO_ON_FULLY},
            {WULGACH_STUCK, .wanted = WULGACH_HEAR, .value = 1},
            {WULGACH_HEARD, .wanted = WULGACH_SLEEP},
            {WULGACH_INTERRUPTED, .ready = 1, .wanted = WULGACH_RETURN, .value = 0}}},
    {"nothing can ever come", GETS(0, 1, WULGACH_IN_ORDER),
        {{WULGACH_HEARD, .wanted = WULGACH_SUBMIT},
            {WULGACH_WAS_TAKEN, 0, .wanted = WULGACH_GO_ON_FULLY},
            {WULGACH_STUCK, .wanted = WULGACH_HEAR, .value = 1},
            {WULGACH_HEARD, .wanted = WULGACH_SLEEP},
            {WULGACH_ENDLESS, .wanted = WULGACH_RETURN, .value = -35}}},
    {"a timeout that ends meanwhile is enough, once no other is due", GETS(0, 1, WULGACH_BY_CHOICE),
        {{WULGACH_HEARD, .expired = 3, .wanted = WULGACH_SUBMIT},
            {WULGACH_WAS_TAKEN, 0, .expired = 3, .wanted = WULGACH_GO_ON},
            {WULGACH_WENT_ON, .expired = 4, .is_due = true, .wanted = WULGACH_GO_ON},
            {WULGACH_WENT_ON, .expired = 4, .wanted = WULGACH_GO_ON, .value = 1},
            {WULGACH_CHOSEN, .wanted = WULGACH_RETURN}}},
    {"lazily a call goes on no further than enough", GETS(0, 1, WULGACH_LAZY),
        {{WULGACH_HEARD, .wanted = WULGACH_SUBMIT}, {WULGACH_WAS_TAKEN, 0, .wanted = WULGACH_GO_ON},
            {WULGACH_WENT_ON, .ready = 1, .wanted = WULGACH_RETURN}}},
    {"a look that finds nothing lets time pass", GETS(0, 0, WULGACH_IN_ORDER),
        {{WULGACH_HEARD, .wanted = WULGACH_SUBMIT},
            {WULGACH_WAS_TAKEN, 0, .wanted = WULGACH_GO_ON_FULLY},
            {WULGACH_STUCK, .wanted = WULGACH_PASS_TIME},
            {WULGACH_PASSED, .wanted = WULGACH_RETURN}}},
    {"an error of the submission is returned", GETS(1, 1, WULGACH_LAZY),
        {{WULGACH_HEARD, .wanted = WULGACH_SUBMIT},
            {WULGACH_NOT_TAKEN, 11, .wanted = WULGACH_RETURN, .value = -11}}},
    {"a wrong head submits nothing", GETS(1, 1, WULGACH_IN_ORDER),
        {{WULGACH_WRONG_HEAD, .wanted = WULGACH_RETURN, .value = -77}}},
    {"a call that gets no events doesn't wait", {1, 1, 2, WULGACH_BY_CHOICE, false, false, false},
        {{WULGACH_HEARD, .wanted = WULGACH_SUBMIT}, {WULGACH_WAS_TAKEN, 1, .wanted = WULGACH_GO_ON},
            {WULGACH_WENT_ON, .wanted = WULGACH_GO_ON},
            {WULGACH_STUCK, .wanted = WULGACH_RETURN, .value = 1}}},
};

static const char *running;

static void check(bool is_right, const char *what)
{
    if (!is_right) {
        fprintf(stderr, "enter: %s: %s\n", running, what);
        exit(1);
    }
}

static int64_t value_of(const struct wulgach_command *command)
{
    return command->kind == WULGACH_RETURN ? command->result : command->flag;
}

/* A reply that doesn't fit is refused, and changes nothing. */
static void refuse(const struct wulgach_enter *call, uint32_t kind)
{
    struct wulgach_enter tried = *call;
    struct wulgach_command command = {-1, 99, true};
    const struct wulgach_reply reply = {.kind = kind};
    check(wulgach_enter_next(&tried, &reply, &command) == -22, "a reply is taken that doesn't fit");
    check(command.kind == 99 && command.result == -1, "a refusal writes a command");
    check(tried.before == call->before && tried.submitted == call->submitted &&
              tried.wanted.kind == call->wanted.kind,
        "a refusal changes the call");
}

static void run(const struct row *row)
{
    struct wulgach_enter call;
    struct wulgach_command command;
    running = row->name;
    check(wulgach_enter_begin(&call, &row->asked, &command) == 0, "it doesn't begin");
    check(command.kind == WULGACH_HEAR && command.flag == row->asked.gets,
        "the application isn't heard first");
    for (const struct turn *turn = row->turns;
         turn < row->turns + MOST && (turn->kind || turn->wanted); turn++) {
        const struct wulgach_reply reply = {
            turn->expired, turn->kind, turn->number, turn->ready, turn->is_due, turn->has_limit};
        refuse(&call, command.kind == WULGACH_HEAR ? WULGACH_PASSED : WULGACH_HEARD);
        refuse(&call, WULGACH_LEAST_OVER + 1);
        check(wulgach_enter_next(&call, &reply, &command) == 0, "a reply isn't taken");
        check(command.kind == turn->wanted && value_of(&command) == turn->value,
            "it wants something else");
    }
}

static void read_arguments(void)
{
    running = "last arguments";
    struct wulgach_argument argument = {.size = 24, .is_extended = true, .is_readable = true};
    check(wulgach_reads_argument(true, 2, 2) && !wulgach_reads_argument(true, 2, 1) &&
              !wulgach_reads_argument(false, 2, 2) && !wulgach_reads_argument(true, 0, -11),
        "when it is read");
    check(wulgach_last_argument_fault(&argument) == 0, "one without a time");
    argument.has_time = true;
    check(wulgach_last_argument_fault(&argument) == -14, "a time that can't be read");
    argument.is_readable = false;
    check(wulgach_last_argument_fault(&argument) == -14, "one that can't be read");
    argument.size = 8;
    check(wulgach_last_argument_fault(&argument) == -22, "one of another size");
    argument.is_extended = false;
    check(wulgach_last_argument_fault(&argument) == 0, "a mask");
    struct wulgach_extended_form extended = {
        .sigmask = 3, .sigmask_sz = 8, .min_wait_usec = UINT32_MAX, .ts = 1ull << 32};
    struct wulgach_given given;
    wulgach_argument_gives(&extended, &given);
    check(given.mask_at == 3 && given.mask_size == 8 && given.time_at == 1ull << 32 &&
              given.has_time && given.least == 4294967295000 && given.has_least,
        "a structure with all");
    extended = (struct wulgach_extended_form){.min_wait_usec = 9};
    wulgach_argument_gives(&extended, &given);
    check(given.mask_at == 0 && given.mask_size == 0 && !given.has_time && given.least == 9000 &&
              given.has_least,
        "one with a least time");
    extended = (struct wulgach_extended_form){.ts = 9};
    wulgach_argument_gives(&extended, &given);
    check(given.has_time && !given.has_least, "one with a limit");
    struct wulgach_limit least = {5, true}, limit = {3, true}, none = {0}, until;
    wulgach_sleeps_to(&least, &limit, &until);
    check(until.is_set && until.at == 5, "until its least time");
    wulgach_sleeps_to(&least, &none, &until);
    check(until.is_set && until.at == 5, "without a limit");
    wulgach_sleeps_to(&none, &limit, &until);
    check(until.is_set && until.at == 3, "until its limit");
    wulgach_sleeps_to(&none, &none, &until);
    check(!until.is_set, "without either");
    check(wulgach_asks_mask(true, 0, 0) && !wulgach_asks_mask(true, 0, 1) &&
              !wulgach_asks_mask(true, 0, UINT32_MAX) && !wulgach_asks_mask(false, 0, 0) &&
              !wulgach_asks_mask(true, -14, 0),
        "when a mask is read");
    check(wulgach_sleep_fault(0, true, -14) == -14 && wulgach_sleep_fault(-22, true, -14) == -22 &&
              wulgach_sleep_fault(0, false, -14) == 0,
        "which fault counts");
    check(wulgach_mask_fault(8, true) == 0 && wulgach_mask_fault(8, false) == -14 &&
              wulgach_mask_fault(3, false) == -22,
        "its faults");
    check(wulgach_slept_with(UINT64_MAX, true) == ~(1ull << 30) &&
              wulgach_slept_with(UINT64_MAX, false) == UINT64_MAX &&
              wulgach_slept_with(5, true) == 5,
        "and what it is then");
    check(wulgach_submission_with_fault(0, -14) == -14 &&
              wulgach_submission_with_fault(2, -14) == 2 &&
              wulgach_submission_with_fault(-11, -14) == -11 &&
              wulgach_submission_with_fault(2, 0) == 2,
        "what counts");
}

static void take_in_rounds(void)
{
    running = "rounds";
    struct wulgach_round any = {.positions = 1}, none = {0}, refused = {.is_refused = true};
    struct wulgach_rounds rounds;
    int64_t submitted = 99;
    wulgach_rounds_begin(&rounds, 5);
    check(wulgach_round_takes(&rounds) == UINT32_MAX, "a round takes all that is published");
    check(wulgach_rounds_go_on(&rounds, &any, &submitted) && submitted == 99,
        "after a position there is one more round");
    check(!wulgach_rounds_go_on(&rounds, &none, &submitted) && submitted == 5,
        "after none there isn't");
    submitted = 99;
    check(!wulgach_rounds_go_on(&rounds, &refused, &submitted) && submitted == 5,
        "a refusal after a position");
    wulgach_rounds_begin(&rounds, 5);
    check(!wulgach_rounds_go_on(&rounds, &refused, &submitted) && submitted == -11,
        "a refusal before any");
}

/* The policy of a call that is asked for this. */
static uint32_t policy_of(struct wulgach_asked asked)
{
    struct wulgach_enter call;
    struct wulgach_command command;
    check(wulgach_enter_begin(&call, &asked, &command) == 0, "it doesn't begin");
    return call.asked.policy;
}

static void go_by_policies(void)
{
    running = "policies";
    check(policy_of((struct wulgach_asked){.policy = WULGACH_LAZY, .has_thread = true}) ==
              WULGACH_IN_ORDER,
        "a lazy call that wakes a thread");
    check(policy_of((struct wulgach_asked){
              .policy = WULGACH_LAZY, .has_thread = true, .gets = true}) == WULGACH_LAZY &&
              policy_of((struct wulgach_asked){.policy = WULGACH_LAZY}) == WULGACH_LAZY,
        "another");
    check(policy_of((struct wulgach_asked){.policy = WULGACH_BY_CHOICE, .has_thread = true}) ==
              WULGACH_BY_CHOICE,
        "by choice");
}

enum { PASSES = WULGACH_BEGINS_CALL | WULGACH_MAKES_CALL | WULGACH_RETURNS_CALL };

static void reach_rings(void)
{
    running = "rings";
    check(wulgach_entering_next(1 | 2 | 4 | 8, WULGACH_AT_FIRST, 0) == WULGACH_CHECKS_DESCRIPTOR,
        "a descriptor");
    check(wulgach_entering_next(16 | 1, WULGACH_AT_FIRST, 0) == WULGACH_CHECKS_NUMBER, "a number");
    check(wulgach_entering_next(16 | 32, WULGACH_AT_FIRST, 0) == -22 &&
              wulgach_entering_next(1u << 31, WULGACH_AT_FIRST, 0) == -22,
        "an unknown flag");
    check(wulgach_entering_next(16, WULGACH_CHECKS_NUMBER, 7) == WULGACH_CHECKS_DESCRIPTOR &&
              wulgach_entering_next(0, WULGACH_CHECKS_DESCRIPTOR, 0) == WULGACH_COUNTS_CALL &&
              wulgach_entering_next(0, WULGACH_COUNTS_CALL, 0) == WULGACH_CHECKS_CALLER &&
              wulgach_entering_next(0, WULGACH_CHECKS_CALLER, 0) == PASSES,
        "one after the other");
    check(wulgach_entering_next(8, WULGACH_CHECKS_CALLER, 0) == (PASSES | WULGACH_HAS_STRUCTURE) &&
              wulgach_entering_next(7, WULGACH_CHECKS_CALLER, 0) == PASSES,
        "a structure");
    check(wulgach_entering_next(0, WULGACH_CHECKS_CALLER, -77) == -77, "the first fault");
    check(wulgach_registering_next(false, WULGACH_AT_FIRST, 0) == WULGACH_CHECKS_DESCRIPTOR &&
              wulgach_registering_next(true, WULGACH_CHECKS_DESCRIPTOR, 0) == WULGACH_COUNTS_CALL &&
              wulgach_registering_next(false, WULGACH_CHECKS_DESCRIPTOR, 0) ==
                  WULGACH_CHECKS_CALLER &&
              wulgach_registering_next(true, WULGACH_CHECKS_CALLER, 0) == WULGACH_CHECKS_ARGUMENT &&
              wulgach_registering_next(true, WULGACH_CHECKS_ARGUMENT, 0) == PASSES,
        "a registration");
    check(wulgach_no_ring_fault(false) == -9 && wulgach_no_ring_fault(true) == -95, "no ring");
    check(wulgach_looks_in_vain(true, 0, 0) && !wulgach_looks_in_vain(true, 0, 1) &&
              !wulgach_looks_in_vain(true, 1, 0) && !wulgach_looks_in_vain(false, 0, 0),
        "a look");
}

#define BIT(duty) (1u << (duty))

enum {
    FIRST = BIT(WULGACH_LOOKS_AFRESH) | BIT(WULGACH_HEARS_PIPES),
    TIME = BIT(WULGACH_PASSES_TIME),
    FOUND = BIT(WULGACH_FINDS_FILES),
    NEW = BIT(WULGACH_KEEPS_NEW),
    FILES = BIT(WULGACH_HOLDS_FILES),
    PIPES = BIT(WULGACH_WATCHES_PIPES),
    DORMANT = BIT(WULGACH_LETS_LIE),
    ENDS = BIT(WULGACH_SHOWS_ENDS),
    READINESS = BIT(WULGACH_TELLS_READINESS),
    APPLICATION = BIT(WULGACH_HEARS_APPLICATION),
    LAST = BIT(WULGACH_SHOWS_FLAGS)
};

/* A ring on which nothing is to be done, and one with all that there may be. */
static const struct wulgach_resting quiet = {.waiting = 32, .looked_at = 32};
static const struct wulgach_resting busy = {.waiting = 33,
    .looked_at = 32,
    .has_due = true,
    .runs = true,
    .has_watches = true,
    .has_ends = true,
    .is_polled = true};

static uint32_t at_return(const struct wulgach_resting *at)
{
    return wulgach_duties_at_return(at->waiting, at->looked_at, at->has_due, at->runs, at->has_new,
        at->has_watches, at->has_ends, at->is_polled);
}

static void do_duties(void)
{
    running = "duties";
    check(wulgach_duties_at_begin(false, false) == FIRST &&
              wulgach_duties_at_begin(true, false) == (FIRST | TIME) &&
              wulgach_duties_at_begin(true, true) == FIRST,
        "as it begins");
    check(wulgach_duties_before_sleep(&quiet, false) == 0 &&
              wulgach_duties_before_sleep(&busy, false) == (FOUND | FILES | PIPES) &&
              wulgach_duties_before_sleep(&busy, true) == (FOUND | FILES),
        "before it sleeps");
    check(wulgach_duties_when_stuck(&busy, true, false) == ENDS &&
              wulgach_duties_when_stuck(&busy, false, false) == 0 &&
              wulgach_duties_when_stuck(&busy, true, true) == 0 &&
              wulgach_duties_when_stuck(&quiet, true, false) == 0,
        "where nothing can go on");
    check(wulgach_duties_at_rest(&quiet) == 0 &&
              wulgach_duties_at_rest(&busy) == (DORMANT | ENDS | READINESS),
        "as it rests");
    for (uint32_t kind = WULGACH_HEARD; kind <= WULGACH_LEAST_OVER + 1; kind++) {
        struct wulgach_reply reply = {.kind = kind};
        bool has_sight = kind == WULGACH_HEARD || kind == WULGACH_WAS_TAKEN ||
                         kind == WULGACH_NOT_TAKEN || kind == WULGACH_WENT_ON ||
                         kind == WULGACH_STUCK || kind == WULGACH_TIMED_OUT ||
                         kind == WULGACH_INTERRUPTED || kind == WULGACH_LEAST_OVER;
        check(wulgach_duties_at_reply(&reply, true) == (has_sight ? ENDS : 0) &&
                  wulgach_duties_at_reply(&reply, false) == 0,
            "before a reply");
    }
    check(at_return(&quiet) == LAST &&
              at_return(&busy) == (FOUND | FILES | PIPES | DORMANT | ENDS | READINESS | LAST),
        "as it returns");
    check(wulgach_duties_before(0, true) == APPLICATION &&
              wulgach_duties_before(22, true) == (ENDS | APPLICATION) &&
              wulgach_duties_before(22, false) == APPLICATION,
        "before an operation");
    check(wulgach_duties_before_posting() == APPLICATION &&
              wulgach_duties_after_posting(false, false) == 0 &&
              wulgach_duties_after_posting(true, true) == (ENDS | READINESS),
        "where completions are posted");
    check(wulgach_duties_after_storing(0) == LAST &&
              wulgach_duties_after_storing(3) == (LAST | BIT(WULGACH_TELLS_EVENTFD)) &&
              LAST < BIT(WULGACH_TELLS_EVENTFD),
        "where completions were stored");
    check(FIRST < TIME && BIT(WULGACH_LOOKS_AFRESH) < BIT(WULGACH_HEARS_PIPES) && FOUND < NEW &&
              NEW < FILES && FILES < PIPES && PIPES < DORMANT && DORMANT < ENDS &&
              ENDS < READINESS && ENDS < APPLICATION && READINESS < LAST,
        "their order");
    check(wulgach_polls_writes(1) && !wulgach_polls_writes(0), "a sleep beside pipes");
    check(wulgach_polls_instance(1) && !wulgach_polls_instance(0),
        "a sleep beside those that are dormant");
}

static void take_by_steps(void)
{
    running = "what was taken";
    check(wulgach_taken_steps() == (BIT(WULGACH_TAKEN_STORES_DROPPED) |
                                       BIT(WULGACH_TAKEN_STORES_HEAD) | BIT(WULGACH_TAKEN_NOTES)),
        "it is stored and noted");
}

static void do_some_duties(void)
{
    static const struct {
        struct wulgach_resting resting;
        uint32_t sleep, rest, end;
    } rows[] = {
        {{.waiting = 1}, 0, DORMANT, DORMANT},
        {{.has_due = true}, FOUND, 0, FOUND},
        {{.runs = true}, FILES | PIPES, 0, FILES | PIPES},
        {{.has_new = true}, NEW, 0, NEW},
        {{.has_watches = true}, PIPES, 0, PIPES},
        {{.has_ends = true}, 0, ENDS, ENDS},
        {{.is_polled = true}, 0, READINESS, READINESS},
    };
    running = "some duties";
    for (size_t i = 0; i < sizeof rows / sizeof *rows; i++) {
        check(wulgach_duties_before_sleep(&rows[i].resting, false) == rows[i].sleep,
            "before it sleeps");
        check(wulgach_duties_at_rest(&rows[i].resting) == rows[i].rest, "as it rests");
        check(at_return(&rows[i].resting) == (rows[i].end | LAST), "as it returns");
    }
}

/* Of io_uring_register(2): UNREGISTER_BUFFERS, UNREGISTER_FILES, FILES_UPDATE, FILES_UPDATE2,
 * BUFFERS_UPDATE and SYNC_CANCEL may post. */
static void do_duties_of_registering(void)
{
    static const uint32_t posting = BIT(1) | BIT(3) | BIT(6) | BIT(14) | BIT(16) | BIT(24);
    running = "duties of io_uring_register(2)";
    for (uint32_t code = 0; code < 40; code++) {
        bool posts = code < 32 && posting & BIT(code);
        check(wulgach_duties_at_register_begin(code, false) == (posts ? FIRST | APPLICATION : 0) &&
                  wulgach_duties_at_register_begin(code, true) ==
                      (posts ? FIRST | TIME | APPLICATION : 0),
            "as it begins");
        check(wulgach_duties_at_register_return(code, &busy) ==
                      (posts ? FOUND | FILES | PIPES | DORMANT | ENDS | READINESS | LAST : 0) &&
                  wulgach_duties_at_register_return(code, &quiet) == (posts ? LAST : 0),
            "as it returns");
    }
}

/* Where handlers are quiet signals are open but in a call that may sleep, until something but the
 * read of a file is done. */
static void block_signals(void)
{
    running = "signals";
    check(wulgach_blocks_at_begin(false, false, 0) && wulgach_blocks_at_begin(true, true, 1) &&
              !wulgach_blocks_at_begin(true, true, 0) && !wulgach_blocks_at_begin(true, false, 1),
        "as a call begins");
    check(wulgach_blocks_before(WULGACH_DOES_LOOK, true, false) &&
              wulgach_blocks_before(WULGACH_DOES_LOOK_UP, true, false) &&
              wulgach_blocks_before(WULGACH_DOES_ASK_NOT_TO_WAIT, true, false),
        "before looks");
    check(!wulgach_blocks_before(WULGACH_DOES_OPERATION, true, false) &&
              wulgach_blocks_before(WULGACH_DOES_OPERATION, true, true) &&
              wulgach_blocks_before(WULGACH_DOES_OPERATION, false, false) &&
              wulgach_blocks_before(WULGACH_DOES_OPERATION, false, true),
        "before operations");
    check(wulgach_is_made_again(true, -4) && !wulgach_is_made_again(false, -4) &&
              !wulgach_is_made_again(true, -11),
        "what is made once more");
    check(wulgach_is_dropped(17, false, false) && wulgach_is_dropped(18, false, false) &&
              wulgach_is_dropped(23, false, false) && wulgach_is_dropped(28, false, false) &&
              wulgach_is_dropped(10, false, true),
        "what is dropped");
    check(!wulgach_is_dropped(17, true, false) && !wulgach_is_dropped(10, false, false) &&
              !wulgach_is_dropped(10, true, false),
        "what isn't");
}

/* A SIGSYS that isn't caught ends the process, but one that is ignored and no filter's. */
static void end_by_signals(void)
{
    for (int bits = 0; bits < 8; bits++) {
        bool is_of_filter = bits & 1, is_caught = bits & 2, is_ignored = bits & 4;
        if (wulgach_ends_process(is_of_filter, is_caught, is_ignored) !=
            (bits == 0 || bits == 1 || bits == 5)) {
            fprintf(stderr, "enter: a signal ends the process otherwise, %d\n", bits);
            exit(1);
        }
    }
}

int main(void)
{
    read_arguments();
    end_by_signals();
    do_duties();
    take_by_steps();
    do_some_duties();
    do_duties_of_registering();
    take_in_rounds();
    go_by_policies();
    reach_rings();
    block_signals();
    struct wulgach_enter call = {.before = 7};
    struct wulgach_command command = {.kind = 99};
    const struct wulgach_asked asked = {.policy = 3};
    for (size_t i = 0; i < sizeof rows / sizeof *rows; i++)
        run(&rows[i]);
    running = "a policy that there isn't";
    check(wulgach_enter_begin(&call, &asked, &command) == -22 && call.before == 7 &&
              command.kind == 99,
        "it begins");
    printf("enter: %zu calls\n", sizeof rows / sizeof *rows);
    return 0;
}
