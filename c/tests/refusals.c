/* What is refused: empty places, words that give no step, set-ups, and memory. Memory is refused as
 * refusing.h says. */
#define TEST "refusals"

#include "refusing.h"
#include "wulgach.h"

#include <stdio.h>
#include <stdlib.h>

static const struct wulgach_setup small = {.sq = 4, .files = 2};

/* Every call at an empty place returns -9, and leaves what it was given. */
static void empty_places(void)
{
    struct wulgach_core core = {0};
    struct wulgach_machine machine = {0};
    struct wulgach_step step = {.kind = WULGACH_STORE_TAIL};
    struct wulgach_answer answer = {.kind = 99};
    struct wulgach_bytes bytes = {{0}};
    struct wulgach_counts counts = {.accepted = 99};
    struct wulgach_completion completion = {.user_data = 99};
    struct wulgach_operation operation = {.code = 99};
    struct wulgach_file file = {.len = 99};
    uint8_t byte = 99;
    check(wulgach_core_step(&core, &step, &answer) == -9, "step of an empty place");
    check(wulgach_core_finish(&core, 0, 0, &bytes, &answer) == -9, "finish of an empty place");
    check(wulgach_core_counts(&core, &counts) == -9, "counts of an empty place");
    check(wulgach_core_rest(&core, 0, &completion) == -9, "rest of an empty place");
    check(
        wulgach_core_running_op(&core, 0, &operation) == -9, "running operation of an empty place");
    uint64_t number = 99;
    check(wulgach_core_least(&core, &number) == -9 && number == 99, "least of an empty place");
    check(wulgach_core_next_issuable(&core, 0, &number) == -9 && number == 99,
        "next request of an empty place");
    check(wulgach_core_issuable(&core, &number) == -9 && number == 99, "count of an empty place");
    check(wulgach_core_nth_issuable(&core, 0, &number) == -9 && number == 99,
        "request at a place of an empty place");
    struct wulgach_why why = {.number = 99};
    check(wulgach_core_why(&core, 0, &why) == -9 && why.number == 99, "why of an empty place");
    check(wulgach_core_free(&core) == -9, "free of an empty place");
    check(wulgach_machine_step(&machine, &step, &answer) == -9, "step of an empty machine");
    check(wulgach_machine_counts(&machine, &counts) == -9, "counts of an empty machine");
    check(wulgach_machine_rest(&machine, 0, &completion) == -9, "rest of an empty machine");
    check(wulgach_machine_running_op(&machine, 0, &operation) == -9,
        "running operation of an empty machine");
    check(wulgach_machine_least(&machine, &number) == -9 && number == 99,
        "least of an empty machine");
    check(wulgach_machine_next_issuable(&machine, 0, &number) == -9 && number == 99,
        "next request of an empty machine");
    check(wulgach_machine_issuable(&machine, &number) == -9 && number == 99,
        "count of an empty machine");
    check(wulgach_machine_nth_issuable(&machine, 0, &number) == -9 && number == 99,
        "request at a place of an empty machine");
    check(wulgach_machine_why(&machine, 0, &why) == -9 && why.number == 99,
        "why of an empty machine");
    check(wulgach_machine_state(&machine, 0, &file) == -9, "state of an empty machine");
    check(wulgach_machine_byte(&machine, 0, 0, &byte) == -9, "byte of an empty machine");
    check(wulgach_machine_free(&machine) == -9, "free of an empty machine");
    check(answer.kind == 99 && counts.accepted == 99 && completion.user_data == 99 &&
              operation.code == 99 && file.len == 99 && byte == 99,
        "a refusal writes");
    check(wulgach_core_new(&core, &small) == 0 && wulgach_core_free(&core) == 0 &&
              wulgach_core_free(&core) == -9,
        "a second free");
}

/* Words that give no step return -22, and the core is as it was. */
static void no_steps(void)
{
    struct wulgach_core core = {0};
    struct wulgach_machine machine = {0};
    check(
        wulgach_core_new(&core, &small) == 0 && wulgach_machine_new(&machine, &small) == 0, "new");
    for (uint32_t kind = 0; kind < 70; kind++) {
        struct wulgach_step step = {.kind = kind == 69 ? UINT32_MAX : kind};
        struct wulgach_answer answer = {.kind = 99};
        int32_t result = wulgach_machine_step(&machine, &step, &answer);
        check(result == (kind < 15 ? 0 : -22), "a machine's steps are of the kinds 0 to 14");
        check((answer.kind == 99) == (result != 0), "an answer comes exactly with a step");
        answer.kind = 99;
        result = wulgach_core_step(&core, &step, &answer);
        check(result == (kind < 15 && kind != 8 ? 0 : -22),
            "a core's steps are of the kinds 0 to 14 but 8");
        check((answer.kind == 99) == (result != 0), "an answer comes exactly with a step");
    }
    wulgach_core_free(&core);
    wulgach_machine_free(&machine);
}

/* Numbers of set-ups at and past their limits, and which is told to be out of its range. A core has
 * no files. */
static void set_ups(void)
{
    static const struct {
        struct wulgach_setup setup;
        int32_t fault;
    } cases[] = {
        {{.sq = 1, .files = 1}, 0},
        {{.sq = 4096, .files = 64, .start = UINT32_MAX}, 0},
        {{.sq = 4096, .cq = 8192, .has_cq = true, .files = 1}, 0},
        {{.sq = 5, .cq = 7, .has_cq = true, .files = 1}, 0},
        {{.sq = 1, .cq = UINT32_MAX, .files = 1}, 0},
        {{.sq = 4, .files = 2, .stops = true}, 0},
        {{.sq = 0, .files = 1}, WULGACH_SETUP_SQ},
        {{.sq = 0, .files = 1, .stops = true}, WULGACH_SETUP_SQ},
        {{.sq = 4097, .files = 1}, WULGACH_SETUP_SQ},
        {{.sq = 4097, .cq = 0, .has_cq = true, .files = 0}, WULGACH_SETUP_SQ},
        {{.sq = 4, .cq = 0, .has_cq = true, .files = 1}, WULGACH_SETUP_CQ},
        {{.sq = 4, .cq = 2, .has_cq = true, .files = 1}, WULGACH_SETUP_CQ},
        {{.sq = 5, .cq = 4, .has_cq = true, .files = 1}, WULGACH_SETUP_CQ},
        {{.sq = 4, .cq = 8193, .has_cq = true, .files = 1}, WULGACH_SETUP_CQ},
        {{.sq = 4096, .cq = 8193, .has_cq = true, .files = 1}, WULGACH_SETUP_CQ},
        {{.sq = 4, .cq = 2, .has_cq = true, .files = 0}, WULGACH_SETUP_CQ},
        {{.sq = 4, .files = 0}, WULGACH_SETUP_FILES},
        {{.sq = 4, .files = 65}, WULGACH_SETUP_FILES},
        {{.sq = 4, .files = UINT32_MAX}, WULGACH_SETUP_FILES},
    };
    for (size_t i = 0; i < sizeof cases / sizeof *cases; i++) {
        int32_t fault = cases[i].fault;
        int32_t of_core = fault == 0 || fault == WULGACH_SETUP_FILES ? 0 : -22;
        int32_t of_machine = fault == 0 ? 0 : -22;
        struct wulgach_core core = {0};
        struct wulgach_machine machine = {0};
        check(wulgach_setup_fault(&cases[i].setup) == fault, "what is wrong with a set-up");
        check(wulgach_core_new(&core, &cases[i].setup) == of_core, "the set-up of a core");
        check(wulgach_machine_new(&machine, &cases[i].setup) == of_machine,
            "the set-up of a machine");
        check(wulgach_core_free(&core) == (of_core == 0 ? 0 : -9), "a core's place after a set-up");
        check(wulgach_machine_free(&machine) == (of_machine == 0 ? 0 : -9),
            "a machine's place after a set-up");
    }
}

static struct wulgach_answer make(
    struct wulgach_machine *machine, uint32_t kind, uint32_t word, uint64_t number)
{
    struct wulgach_step step = {.kind = kind, .word = word, .number = number};
    struct wulgach_answer answer;
    check(wulgach_machine_step(machine, &step, &answer) == 0, "a step");
    return answer;
}

/* A full place that is made anew, or isn't since memory is refused: what it had is freed, or kept.
 */
static void made_anew(void)
{
    struct wulgach_machine machine = {0};
    struct wulgach_core core = {0};
    check(wulgach_core_new(&core, &small) == 0 && wulgach_core_new(&core, &small) == 0,
        "a core made anew");
    check(wulgach_machine_new(&machine, &small) == 0, "new");
    make(&machine, WULGACH_CLOSE, 0, 0);
    long refusals = 0;
    for (;; refusals++) {
        served = refusals;
        int32_t result = wulgach_machine_new(&machine, &small);
        bool is_made = served >= 0;
        served = -1;
        check(result == (is_made ? 0 : -12), "-12 exactly if memory was refused");
        uint32_t kind = make(&machine, WULGACH_BEGIN, 0, 0).kind;
        check(kind == (is_made ? WULGACH_CALL : WULGACH_CLOSED),
            "a place keeps its machine until another is made");
        if (is_made)
            break;
    }
    check(refusals > 3, "a machine takes memory several times");
    for (served = 0; wulgach_core_new(&core, &small) != 0; served = ++refusals)
        ;
    served = -1;
    check(wulgach_core_free(&core) == 0 && wulgach_machine_free(&machine) == 0, "free");
}

/* Begin answers AGAIN and a write ends with -12, each only if memory is refused. */
static void refused_steps(void)
{
    struct wulgach_machine machine = {0};
    check(wulgach_machine_new(&machine, &small) == 0, "new");
    struct wulgach_step fill = {.kind = WULGACH_FILL};
    struct wulgach_answer answer;
    wulgach_write(fill.entry, 7, 0, 0, 0, (const uint8_t *)"abc", 3);
    check(wulgach_machine_step(&machine, &fill, &answer) == 0 && answer.kind == WULGACH_FILLED,
        "fill");
    check(make(&machine, WULGACH_INDEX, 0, 0).kind == WULGACH_STAGED, "index");
    check(make(&machine, WULGACH_STORE_TAIL, 0, 0).kind == WULGACH_TAIL, "tail");
    served = 0;
    answer = make(&machine, WULGACH_BEGIN, 1, 0);
    check(answer.kind == WULGACH_AGAIN && served < 0, "begin without memory");
    served = -1;
    check(make(&machine, WULGACH_BEGIN, 1, 0).kind == WULGACH_CALL, "begin with memory");
    check(make(&machine, WULGACH_TAKE, 0, 0).kind == WULGACH_ENTRY, "take");
    check(make(&machine, WULGACH_END, 0, 0).kind == WULGACH_TAKEN, "end");
    check(make(&machine, WULGACH_ISSUE, 0, 0).kind == WULGACH_RUN, "issue");
    served = 0;
    answer = make(&machine, WULGACH_FINISH, 0, 0);
    check(
        answer.kind == WULGACH_ENDED && answer.res == -12 && served < 0, "a write without memory");
    served = -1;
    struct wulgach_file file;
    check(wulgach_machine_state(&machine, 0, &file) == 0 && file.len == 0 && file.writes == 0,
        "the file is as it was");
    check(wulgach_machine_free(&machine) == 0, "free");
}

int main(void)
{
    empty_places();
    no_steps();
    set_ups();
    made_anew();
    refused_steps();
    printf("refusals: as they should be\n");
    return 0;
}
