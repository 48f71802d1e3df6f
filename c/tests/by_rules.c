/* Requests by the rules of a set-up, in histories: by each of the two where they differ, and by
 * Linux's what Linux 6.18 was seen to do with drains, faults, cancels and silent members. The
 * answers were written by hand from docs/PROTOCOL.md. */
#include "wulgach.h"

#include <stdio.h>
#include <stdlib.h>
#include <string.h>

static const char *history = "none";
static size_t place;

static void check(bool is_right, const char *what)
{
    if (!is_right) {
        fprintf(stderr, "by_rules: %s, event %zu: %s\n", history, place, what);
        exit(1);
    }
}

enum kind {
    CALL = 1,
    STARTS,
    WAITS,
    ENDS,
    ENDS_SILENTLY,
    FINISH,
    FINISH_SILENTLY,
    STANDS,
    COUNTS,
    NTH,
    FROM,
    LEAST,
    RUNS
};

/* An entry of a call: its operation, user data and flags, and of a cancel whom it is for. */
struct put {
    uint8_t code, user_data, flags, target;
};

/* What is done or asked, and what is wanted. NONE: that there is no such request. */
struct event {
    enum kind kind;
    uint64_t number;
    int32_t res; /* ENDS, FINISH */
    struct wulgach_why why; /* STANDS */
    uint64_t wanted[3]; /* COUNTS: outstanding, running, issuable; NTH, FROM, LEAST: the first */
    struct put puts[3]; /* CALL: as many as have a user data */
};

#define NONE UINT64_MAX
#define NOP(user_data, flags) \
    { \
        WULGACH_OP_NOP, user_data, flags, 0 \
    }
#define FAULTY(user_data, flags) \
    { \
        99, user_data, flags, 0 \
    }
#define ONE_CANCEL(user_data, target) \
    { \
        WULGACH_OP_CANCEL, user_data, 0, target \
    }
#define CALLED(...) \
    { \
        .kind = CALL, .puts = { __VA_ARGS__ } \
    }
#define STARTED(n) \
    { \
        .kind = STARTS, .number = n \
    }
#define NOT_READY(n) \
    { \
        .kind = WAITS, .number = n \
    }
#define ENDED(n, result) \
    { \
        .kind = ENDS, .number = n, .res = result \
    }
#define ENDED_SILENTLY(n, result) \
    { \
        .kind = ENDS_SILENTLY, .number = n, .res = result \
    }
#define FINISHED(n, result) \
    { \
        .kind = FINISH, .number = n, .res = result \
    }
#define FINISHED_SILENTLY(n, result) \
    { \
        .kind = FINISH_SILENTLY, .number = n, .res = result \
    }
#define STOOD(n, ...) \
    { \
        .kind = STANDS, .number = n, .why = { __VA_ARGS__ } \
    }
#define DOOMED(n, why, of, with) \
    STOOD(n, .kind = WULGACH_DOOMED, .reason = why, .number = of, .fault = with)
#define WAITED(n, for_whom, since) \
    STOOD(n, .kind = WULGACH_WAITS, .reason = since, .number = for_whom)
#define COUNTED(outstanding, running, issuable) \
    { \
        .kind = COUNTS, .wanted = { outstanding, running, issuable } \
    }
#define NTH_IS(k, n) \
    { \
        .kind = NTH, .number = k, .wanted = { n } \
    }
#define NEXT_FROM(from, n) \
    { \
        .kind = FROM, .number = from, .wanted = { n } \
    }
#define LEAST_IS(n) \
    { \
        .kind = LEAST, .wanted = { n } \
    }
#define RAN(n) \
    { \
        .kind = RUNS, .number = n \
    }

enum { DRAIN = WULGACH_IO_DRAIN, LINK = WULGACH_IO_LINK, SKIP = WULGACH_CQE_SKIP_SUCCESS };

/* Two linked no-ops and a cancel of the second. The first runs, and the cancel dooms the second. */
#define CANCELLED_CHAIN \
    CALLED(NOP(1, LINK), NOP(2, 0), ONE_CANCEL(9, 2)), STARTED(0), COUNTED(3, 1, 1), LEAST_IS(0), \
        NEXT_FROM(0, 2), NEXT_FROM(1, 2), NTH_IS(0, 2), NTH_IS(1, NONE)
static const struct event cancelled_by_the_manual_pages[] = {CANCELLED_CHAIN, ENDED(2, 0),
    DOOMED(1, WULGACH_CANCELLED, 0, 0), RAN(0), STOOD(2, .kind = WULGACH_HAS_ENDED), FINISHED(0, 0),
    ENDED(1, -125)};

/* The cancel finds nobody, and the second runs later. */
static const struct event cancelled_by_linux[] = {CANCELLED_CHAIN, ENDED(2, -2),
    WAITED(1, 0, WULGACH_SAME_GROUP), RAN(0), STOOD(2, .kind = WULGACH_HAS_ENDED), FINISHED(0, 0),
    STARTED(1)};

/* Of two linked no-ops the first asks to skip. It succeeds and posts nothing; or it fails, and
 * posts, and by the manual pages' rules so does the one after it, and by Linux's that doesn't. */
#define SILENT_CHAIN CALLED(NOP(1, LINK | SKIP), NOP(2, 0)), STARTED(0)
static const struct event silent[] = {
    SILENT_CHAIN, FINISHED_SILENTLY(0, 0), STARTED(1), FINISHED(1, 0)};
static const struct event failed_by_the_manual_pages[] = {
    SILENT_CHAIN, FINISHED(0, -5), ENDED(1, -125)};
static const struct event failed_by_linux[] = {
    SILENT_CHAIN, FINISHED(0, -5), ENDED_SILENTLY(1, -125)};

/* Nobody waits for a group whose draining member has a fault. */
static const struct event faulty_drain[] = {
    CALLED(NOP(5, 0)), STARTED(0), CALLED(FAULTY(1, DRAIN), NOP(2, 0)), STARTED(2), ENDED(1, -22)};

/* If the flag stands on a healthy member of a faulty group, later requests wait for all earlier
 * ones. */
static const struct event drain_of_a_faulty_group[] = {CALLED(NOP(5, 0)), STARTED(0),
    CALLED(NOP(1, DRAIN | LINK), FAULTY(2, 0)), CALLED(NOP(3, 0)), NOT_READY(2), ENDED(1, -125),
    ENDED(2, -22), NOT_READY(3), FINISHED(0, 0), STARTED(3)};

/* If a member that isn't the head of its chain drains, the group after that chain drains too, even
 * in a later call. */
static const struct event owed_drain[] = {CALLED(NOP(5, LINK), NOP(1, DRAIN)), STARTED(0),
    CALLED(NOP(2, 0)), CALLED(NOP(3, 0)), FINISHED(0, 0), STARTED(1), FINISHED(1, 0), NOT_READY(3),
    STARTED(2), FINISHED(2, 0), STARTED(3)};

/* A request of a later call waits for a running request that was accepted after the drain in its
 * own call. */
static const struct event held_by_a_later_one[] = {CALLED(NOP(1, DRAIN), NOP(2, 0)), STARTED(0),
    FINISHED(0, 0), STARTED(1), CALLED(NOP(3, 0)), NOT_READY(2), FINISHED(1, 0), STARTED(2)};

/* A drain fails once the ring has used skipped success. */
static const struct event drain_beside_skip[] = {
    CALLED(NOP(5, SKIP), NOP(1, DRAIN)), ENDED(1, -95)};

/* A cancel finds what runs, and not what is held back, which runs later. */
static const struct event cancels[] = {CALLED(NOP(7, LINK), NOP(8, 0)),
    CALLED(ONE_CANCEL(1, 8), ONE_CANCEL(2, 7)), STARTED(0), ENDED(2, -2), ENDED(3, -114),
    FINISHED(0, 0), STARTED(1)};

/* After a failure that skips nobody posts, also in a chain with a fault whose head skips. */
static const struct event silent_members[] = {CALLED(NOP(1, LINK | SKIP), FAULTY(2, 0)),
    ENDED(0, -125), ENDED_SILENTLY(1, -22), CALLED(NOP(3, LINK | SKIP), NOP(4, 0)), STARTED(2),
    FINISHED(2, -5), ENDED_SILENTLY(3, -125)};

/* Of a chain with a fault the second is told to be doomed in its turn, and not before. After it a
 * drain and one after that are deferred while a request runs, and a drain after skipped success is
 * refused. */
static const struct event reasons[] = {
    CALLED(NOP(5, LINK), FAULTY(1, 0)),
    DOOMED(0, WULGACH_FAULT_OF, 1, 0),
    WAITED(1, 0, WULGACH_SAME_GROUP),
    ENDED(0, -125),
    STOOD(0, .kind = WULGACH_HAS_ENDED),
    DOOMED(1, WULGACH_OWN_FAULT, 0, WULGACH_FAULT_OPCODE),
    ENDED(1, -22),
    STOOD(2, .kind = WULGACH_NEVER_ACCEPTED),
    CALLED(NOP(2, 0)),
    STARTED(2),
    STOOD(2, .kind = WULGACH_RUNS),
    CALLED(NOP(3, DRAIN)),
    CALLED(NOP(4, SKIP), NOP(5, DRAIN)),
    WAITED(3, 2, WULGACH_DEFERRED),
    WAITED(4, 2, WULGACH_DEFERRED),
    DOOMED(5, WULGACH_REFUSED_DRAIN, 0, 0),
    ENDED(5, -95),
    FINISHED(2, 0),
    STOOD(3, .kind = WULGACH_MAY_START),
    WAITED(4, 3, WULGACH_DEFERRED),
};

/* A chain of two, a drain and one after it, each in its turn; then all but the last have been let
 * go. */
static const struct event counts[] = {
    CALLED(NOP(5, LINK), NOP(1, 0)),
    CALLED(NOP(2, DRAIN)),
    CALLED(NOP(3, 0)),
    COUNTED(4, 0, 1),
    NTH_IS(0, 0),
    NTH_IS(1, NONE),
    NEXT_FROM(1, NONE),
    STARTED(0),
    COUNTED(4, 1, 0),
    RAN(0),
    WAITED(1, 0, WULGACH_SAME_GROUP),
    FINISHED(0, 0),
    NEXT_FROM(0, 1),
    STARTED(1),
    FINISHED(1, 0),
    COUNTED(2, 0, 1),
    STARTED(2),
    FINISHED(2, 0),
    COUNTED(1, 0, 1),
    CALLED(NOP(4, 0)),
    NTH_IS(0, 3),
    NEXT_FROM(4, NONE),
    STOOD(2, .kind = WULGACH_HAS_ENDED),
    LEAST_IS(3),
    STARTED(3),
    FINISHED(3, 0),
    NEXT_FROM(4, 4),
};

#define HISTORY(of, by_linux) \
    { \
#of, by_linux, of, sizeof of / sizeof *of \
    }
static const struct {
    const char *name;
    bool is_linux;
    const struct event *events;
    size_t count;
} histories[] = {
    HISTORY(cancelled_by_the_manual_pages, false),
    HISTORY(cancelled_by_linux, true),
    HISTORY(silent, false),
    HISTORY(silent, true),
    HISTORY(failed_by_the_manual_pages, false),
    HISTORY(failed_by_linux, true),
    HISTORY(faulty_drain, true),
    HISTORY(drain_of_a_faulty_group, true),
    HISTORY(owed_drain, true),
    HISTORY(held_by_a_later_one, true),
    HISTORY(drain_beside_skip, true),
    HISTORY(cancels, true),
    HISTORY(silent_members, true),
    HISTORY(reasons, true),
    HISTORY(counts, true),
};

static void call(struct wulgach_core *core, const struct put *puts)
{
    struct wulgach_entry entries[3];
    struct wulgach_answer answer;
    uint32_t count = 0;
    for (; count < 3 && puts[count].user_data != 0; count++) {
        wulgach_entry_of(
            entries[count].words, puts[count].code, puts[count].user_data, puts[count].flags, 0);
        entries[count].words[2] = puts[count].target;
    }
    check(wulgach_core_submit(core, entries, count, &answer) == 0 && answer.kind == WULGACH_TAKEN &&
              answer.word == count,
        "a call");
}

static uint64_t posted(struct wulgach_core *core)
{
    struct wulgach_counts told;
    check(wulgach_core_counts(core, &told) == 0, "counts");
    return told.posted;
}

/* Issues or finishes a request. Whether it ends with this result, and posts so many completions,
 * the last of which has the result. */
static void end(struct wulgach_core *core, bool is_issue, const struct event *event, uint64_t posts)
{
    uint64_t before = posted(core);
    uint32_t kind;
    int32_t res;
    struct wulgach_completion completion;
    if (is_issue)
        check(wulgach_core_issue(core, event->number, &kind, &res) == 0, "an issue");
    else
        check(wulgach_core_end(core, event->number, event->res, &kind, &res) == 0, "a finish");
    check(kind == WULGACH_ENDED && res == event->res, "how it ends");
    check(posted(core) == before + posts, "whether it posts");
    if (posts == 1)
        check(wulgach_core_rest(core, before, &completion) == 0 && completion.res == event->res,
            "what it posts");
}

static void issue(struct wulgach_core *core, uint64_t number, uint32_t wanted)
{
    uint32_t kind;
    int32_t res;
    check(wulgach_core_issue(core, number, &kind, &res) == 0 && kind == wanted, "an issue");
}

static void count(struct wulgach_core *core, const uint64_t wanted[3])
{
    struct wulgach_counts told;
    uint64_t issuable;
    check(wulgach_core_counts(core, &told) == 0 && wulgach_core_issuable(core, &issuable) == 0,
        "counts");
    check(told.outstanding == wanted[0] && told.running == wanted[1] && issuable == wanted[2],
        "how many there are");
}

/* A call returned so, and named this request: the one that is wanted. */
static void names(int32_t result, uint64_t told, uint64_t wanted)
{
    check(result == (wanted == NONE ? -2 : 0) && told == wanted, "which request is named");
}

static void happen(struct wulgach_core *core, const struct event *event)
{
    struct wulgach_operation operation;
    struct wulgach_why why;
    uint64_t told = NONE;
    int32_t result;
    switch (event->kind) {
    case CALL:
        call(core, event->puts);
        break;
    case STARTS:
        issue(core, event->number, WULGACH_RUN);
        break;
    case WAITS:
        issue(core, event->number, WULGACH_NOT_READY);
        break;
    case ENDS:
    case ENDS_SILENTLY:
        end(core, true, event, event->kind == ENDS);
        break;
    case FINISH:
    case FINISH_SILENTLY:
        end(core, false, event, event->kind == FINISH);
        break;
    case STANDS:
        check(wulgach_core_why(core, event->number, &why) == 0, "why");
        check(why.kind == event->why.kind && why.reason == event->why.reason &&
                  why.number == event->why.number && why.fault == event->why.fault,
            "how it stands");
        break;
    case COUNTS:
        count(core, event->wanted);
        break;
    case NTH:
        result = wulgach_core_nth_issuable(core, event->number, &told);
        names(result, told, event->wanted[0]);
        break;
    case FROM:
        result = wulgach_core_next_issuable(core, event->number, &told);
        names(result, told, event->wanted[0]);
        break;
    case LEAST:
        result = wulgach_core_least(core, &told);
        names(result, told, event->wanted[0]);
        break;
    case RUNS:
        check(wulgach_core_running_op(core, event->number, &operation) == 0 &&
                  operation.code == WULGACH_OP_NOP,
            "a no-op runs");
        break;
    }
}

int main(void)
{
    for (size_t i = 0; i < sizeof histories / sizeof *histories; i++) {
        struct wulgach_setup setup = {.sq = 4, .linux_rules = histories[i].is_linux};
        struct wulgach_core core = {0};
        history = histories[i].name;
        check(wulgach_core_new(&core, &setup) == 0, "new");
        for (place = 0; place < histories[i].count; place++)
            happen(&core, &histories[i].events[place]);
        check(wulgach_core_free(&core) == 0, "free");
    }
    puts("by_rules: requests go by the rules of their set-up");
    return 0;
}
