/* Runs random programs on the layer, and judges what they see.
 *
 *   random [--alone] FIRST COUNT     runs the programs of these seeds, those that are plain on a
 *                                    real ring too, if there is one; with --alone on the layer
 *                                    alone. Of one that fails it prints what was seen, the program
 *                                    made short, and the words that run it again. Status 1: one
 *                                    failed
 *   random --threads FIRST COUNT    the same on the layer alone, and of these programs only those
 *                                    whose rings have a thread each: for the thread sanitizer,
 *                                    whose own thread the layer would take for another
 *   random --until-failed FIRST COUNT    the same on the layer alone, but ends with the first that
 *                                        fails
 *   random --show SEED               prints a program
 *   random --again SEED POLICY FAULTS NUMBERS    runs the actions of these numbers alone, separated
 *                                    by commas, under this policy ("-" for the seed's own), with
 *                                    what the seed has of faults ("faults"), of time that passes by
 *                                    choice ("times"), of both ("faults,times") or of none ("-")
 */
#define _GNU_SOURCE
#include "children.h"
#include "shrink.h"

#include <inttypes.h>
#include <stdlib.h>
#include <string.h>

enum { SECONDS = 10 };

static void print_again(const struct program *program, const char *name)
{
    struct program whole;
    generate(&whole, program->seed);
    bool is_same_policy = strcmp(whole.policy, program->policy) == 0;
    bool has_faults = program->fault_rate || program->fault_count;
    const char *parts = !program->timeout_rate ? has_faults ? "faults" : "-"
                        : has_faults           ? "faults,times"
                                               : "times";
    printf("again: %s --again %" PRIu64 " %s %s ", name, program->seed,
        is_same_policy ? "-" : program->policy, parts);
    const char *comma = "";
    for (unsigned i = 0; i < program->count; i++)
        if (program->actions[i].kind != NOTHING) {
            printf("%s%u", comma, i);
            comma = ",";
        }
    printf("%s\n\n", *comma ? "" : "-");
    fflush(stdout);
}

static void report(struct program *program, const char *name)
{
    printf("%s", last_said());
    fflush(stdout);
    shrink(program);
    printf("made short: %s", last_said());
    print_program(stdout, program);
    print_again(program, name);
}

enum manner { BESIDE_KERNEL, ALONE, THREADS, UNTIL_FAILED };

static int run_many(const char *name, uint64_t first, uint64_t count, enum manner manner)
{
    static struct program program;
    uint64_t failed = 0, run = 0, entries = 0;
    while (run < count) {
        generate(&program, first + run++);
        if (manner == THREADS && !program.is_threaded)
            continue;
        for (unsigned i = 0; i < program.count; i++)
            entries += program.actions[i].kind == PUT;
        if (is_right(&program, SECONDS))
            continue;
        failed++;
        if (manner == UNTIL_FAILED) {
            printf("program %" PRIu64 ": %s", run, last_said());
            break;
        }
        report(&program, name);
    }
    printf("random: %" PRIu64 " programs with %" PRIu64 " entries, %" PRIu64
           " failed; %u of them on a real ring too\n",
        run, entries, failed, compared_with_kernel);
    return failed > 0;
}

static void keep_only(struct program *program, const char *numbers)
{
    bool is_kept[MOST_ACTIONS] = {false};
    for (const char *at = numbers; *at;) {
        char *end;
        unsigned long number = strtoul(at, &end, 10);
        if (end != at && number < MOST_ACTIONS)
            is_kept[number] = true;
        at = *end ? end + 1 : end;
    }
    for (unsigned i = 0; i < program->count; i++)
        if (!is_kept[i])
            program->actions[i].kind = NOTHING;
}

static int run_again(char **words)
{
    static struct program program;
    has_kernel_rings = look_for_kernel_rings();
    generate(&program, strtoull(words[0], NULL, 10));
    if (strcmp(words[1], "-") != 0)
        snprintf(program.policy, sizeof program.policy, "%s", words[1]);
    if (!strstr(words[2], "faults"))
        program.fault_rate = program.fault_count = 0;
    if (!strstr(words[2], "times"))
        program.timeout_rate = 0;
    keep_only(&program, words[3]);
    print_program(stdout, &program);
    bool is_so = is_right(&program, SECONDS);
    printf("%s", is_so ? "it is right\n" : last_said());
    return !is_so;
}

static bool is_word(char **words, int at, const char *word)
{
    return strcmp(words[at], word) == 0;
}

int main(int argc, char **argv)
{
    static struct program program;
    if (argc == 3 && is_word(argv, 1, "--show")) {
        generate(&program, strtoull(argv[2], NULL, 10));
        print_program(stdout, &program);
        return 0;
    }
    if (argc == 6 && is_word(argv, 1, "--again"))
        return run_again(argv + 2);
    static const char *const manners[] = {
        [ALONE] = "--alone", [THREADS] = "--threads", [UNTIL_FAILED] = "--until-failed"};
    enum manner manner = BESIDE_KERNEL;
    for (int i = ALONE; argc == 4 && i <= UNTIL_FAILED; i++)
        manner = is_word(argv, 1, manners[i]) ? (enum manner)i : manner;
    if (argc != 3 && manner == BESIDE_KERNEL) {
        fprintf(stderr,
            "random: [--alone | --threads] FIRST COUNT, --until-failed FIRST COUNT, --show SEED, or --again SEED POLICY FAULTS NUMBERS\n");
        return 2;
    }
    has_kernel_rings = manner == BESIDE_KERNEL && look_for_kernel_rings();
    return run_many(
        argv[0], strtoull(argv[argc - 2], NULL, 10), strtoull(argv[argc - 1], NULL, 10), manner);
}
