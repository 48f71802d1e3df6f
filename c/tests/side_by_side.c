/* Plays random steps on a machine and on a core of the library, and writes them as lines of the
 * trace language. Compares
 *   - the answers of machine and core, field by field;
 *   - both answers, as text, with those of a program that has the trace language;
 *   - counts, completions that wait, running operations, files and bytes with what the answers so
 *     far say.
 * At the end every kind of step and of answer must have come, but for those that need memory to be
 * refused or 2^63 requests.
 *
 *   side_by_side TRACE FIRST_SEED SEEDS STEPS
 *
 * If TRACE is a folder, nothing is run: each trace, its options and its answers are written there,
 * as `rt try --cases` takes them.
 */
#define _POSIX_C_SOURCE 200809L
#include "model.h"

#include <sys/stat.h>
#include <unistd.h>

static int32_t core_step(struct wulgach_core *core, const struct wulgach_step *step,
    const struct wulgach_answer *by_machine, struct wulgach_answer *answer)
{
    if (step->kind != WULGACH_FINISH)
        return wulgach_core_step(core, step, answer);
    check(wulgach_core_step(core, step, answer) == -22, "a core takes a finish as a step");
    struct wulgach_bytes bytes;
    memcpy(bytes.bytes, by_machine->bytes, sizeof bytes.bytes);
    return wulgach_core_finish(core, step->number, by_machine->res, &bytes, answer);
}

static struct wulgach_setup random_setup(void)
{
    struct wulgach_setup setup = {
        .sq = 1u << below(4), .files = 1 + below(3), .has_cq = is_one_in(2), .stops = is_one_in(3)};
    setup.cq = setup.has_cq ? setup.sq << below(3) : (uint32_t)roll();
    setup.start = is_one_in(2) ? below(5) : UINT32_MAX - below(20);
    return setup;
}

/* The options of a set-up, with this between two words. */
static void print_options(char *out, size_t size, const struct wulgach_setup *setup, char between)
{
    char cq[32] = "";
    if (setup->has_cq)
        snprintf(cq, sizeof cq, "--cq%c%" PRIu32 "%c", between, setup->cq, between);
    char stop[32] = "";
    if (setup->stops)
        snprintf(stop, sizeof stop, "--stop%c", between);
    snprintf(out, size, "--sq%c%" PRIu32 "%c%s%s--files%c%" PRIu32 "%c--start%c%" PRIu32, between,
        setup->sq, between, cq, stop, between, setup->files, between, between, setup->start);
}

/* The answers of the program to these lines are this text. */
static void compare(
    const char *trace, const char *lines, const struct wulgach_setup *setup, const char *text)
{
    char command[1024], options[128];
    print_options(options, sizeof options, setup, ' ');
    snprintf(command, sizeof command, "'%s' trace %s < '%s'", trace, options, lines);
    FILE *out = popen(command, "r");
    check(out != NULL, "the trace program doesn't start");
    size_t at = 0;
    for (int c; (c = fgetc(out)) != EOF; at++) {
        if (text[at] != (char)c) {
            fprintf(stderr, "side_by_side: %s\n", command);
            fail("the trace program answers something else");
        }
    }
    check(text[at] == '\0', "the trace program answers less");
    check(pclose(out) == 0, "the trace program fails");
}

static void write_file(const char *path, const char *end, const char *head, const char *text)
{
    char name[1024];
    snprintf(name, sizeof name, "%s%s", path, end);
    FILE *file = fopen(name, "w");
    check(file && fprintf(file, "%s%s", head, text) >= 0 && fclose(file) == 0,
        "a file can't be written");
}

/* Writes what the program is to be given and is to answer beside these lines. */
static void write_case(const char *lines, const struct wulgach_setup *setup, const char *text)
{
    char options[128];
    print_options(options, sizeof options, setup, '\n');
    write_file(lines, ".args", "trace\n", options);
    write_file(lines, ".stdout", "", text);
}

static void play(const char *trace, bool is_folder, const char *path, uint32_t steps)
{
    struct wulgach_setup setup = random_setup();
    struct wulgach_machine machine = {0};
    struct wulgach_core core = {0};
    check(wulgach_machine_new(&machine, &setup) == 0 && wulgach_core_new(&core, &setup) == 0,
        "a set-up is refused");
    uint64_t most = (uint64_t)steps * 8 + 8;
    struct model m = {.requests = room(most, sizeof *m.requests),
        .taken = room(4096, sizeof *m.taken),
        .posted = room(most, sizeof *m.posted),
        .bytes = room(MAX_FILES, FILE_SIZE)};
    char *text = NULL;
    size_t size = 0;
    FILE *answers = open_memstream(&text, &size), *lines = fopen(path, "w");
    check(answers && lines, "a file can't be opened");
    for (uint32_t i = 0; i < steps; i++) {
        struct wulgach_step step = random_step(lines, &m, &setup);
        struct wulgach_answer answer, by_core;
        memset(&answer, 0xa5, sizeof answer);
        memset(&by_core, 0x5a, sizeof by_core);
        check(wulgach_machine_step(&machine, &step, &answer) == 0, "a machine refuses a step");
        check(core_step(&core, &step, &answer, &by_core) == 0, "a core refuses a step");
        check(is_same(&answer, &by_core), "core and machine answer differently");
        check_zeros(&answer);
        steps_seen[step.kind]++;
        answers_seen[answer.kind]++;
        print_answer(answers, &answer);
        note(&m, &step, &answer);
        check_readers(&machine, &core, &m, &setup);
    }
    fclose(lines);
    fclose(answers);
    if (is_folder)
        write_case(path, &setup, text);
    else
        compare(trace, path, &setup, text);
    free(text);
    check(wulgach_machine_free(&machine) == 0 && wulgach_core_free(&core) == 0, "free");
    free(m.requests);
    free(m.taken);
    free(m.posted);
    free(m.bytes);
}

int main(int argc, char **argv)
{
    if (argc != 5) {
        fprintf(stderr, "side_by_side TRACE FIRST_SEED SEEDS STEPS\n");
        return 2;
    }
    uint64_t first = strtoull(argv[2], NULL, 10), seeds = strtoull(argv[3], NULL, 10);
    uint32_t steps = (uint32_t)strtoul(argv[4], NULL, 10);
    struct stat stat_of;
    bool is_folder = stat(argv[1], &stat_of) == 0 && S_ISDIR(stat_of.st_mode);
    char path[1024] = "/tmp/side_by_side.XXXXXX";
    int fd = is_folder ? -1 : mkstemp(path);
    if (fd >= 0)
        close(fd);
    for (seed = first; seed < first + seeds; seed++) {
        rng_state = seed * 0x9e3779b97f4a7c15u | 1;
        for (int i = 0; i < 8; i++)
            roll();
        if (is_folder)
            snprintf(path, sizeof path, "%s/seed_%" PRIu64, argv[1], seed);
        play(argv[1], is_folder, path, steps);
    }
    if (!is_folder)
        unlink(path);
    for (int kind = 0; kind < 15; kind++)
        check(steps_seen[kind] > 0, words[kind]);
    for (int kind = 0; kind < 29; kind++)
        if (kind != WULGACH_SPENT && kind != WULGACH_AGAIN && answers_seen[kind] == 0) {
            fprintf(stderr, "side_by_side: no answer of kind %d\n", kind);
            return 1;
        }
    printf("%" PRIu64 " traces of %" PRIu32 " steps: %s\n", seeds, steps,
        is_folder ? "written" : "the same answers");
    return 0;
}
