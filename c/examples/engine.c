/* An engine with storage of its own, whose log is a trace: a core of wulgach over a disk in memory
 * that isn't empty at first.
 *
 * A core's own entries have up to 64 bytes, which it copies. Pages of 4,096 bytes are kept outside
 * of it: the entry of one is an fsync of no file, whose user data names a row, and the row names
 * the page's buffer by a number, not by an address. The buffers may move between submission and
 * end, as they do here: nothing in the core points to them.
 *
 * Each round writes a page, links a header of 16 bytes to it, and reads an older header beside
 * both. Some writes fail. Requests go on in an order that a seed chooses.
 *
 *   cc engine.c $(pkg-config --cflags --libs wulgach) && ./a.out 150 | uring check --results
 */
#include <stdio.h>
#include <stdlib.h>
#include <string.h>

#include "wulgach.h"

enum { PAGE = 4096, PAGES = 32, HEADER = 16, ENTRIES = 4, A_ROUND = 3, NO_FILE = -1, FAILED = -5 };

/* What a page's request asks for, and what it came to. */
struct row {
    uint32_t page, buffer;
    int32_t told;
};

struct engine {
    struct wulgach_core core;
    uint8_t disk[PAGES * PAGE], headers[PAGES * HEADER];
    uint8_t *buffers;
    struct row *rows;
    uint64_t seed, written, failed, cancelled, read;
};

static uint32_t below(struct engine *engine, uint32_t n)
{
    engine->seed = engine->seed * 6364136223846793005u + 1442695040888963407u;
    return (uint32_t)(engine->seed >> 33) % n;
}

static void must(int32_t result)
{
    if (result != 0) {
        fprintf(stderr, "a call was refused: %d\n", result);
        exit(1);
    }
}

/* Logs a step with its answer. */
static void log_step(const struct wulgach_step *step, const struct wulgach_answer *answer)
{
    uint8_t line[WULGACH_MOST_OF_LINE];
    uint64_t len;
    must(wulgach_trace_line(step, answer, line, sizeof line, &len));
    printf("%.*s\n", (int)len, (const char *)line);
}

static struct wulgach_answer make(struct engine *engine, const struct wulgach_step *step)
{
    struct wulgach_answer answer;
    must(wulgach_core_step(&engine->core, step, &answer));
    log_step(step, &answer);
    return answer;
}

static struct wulgach_answer simple(struct engine *engine, uint32_t kind, uint32_t word)
{
    return make(engine, &(struct wulgach_step){.kind = kind, .word = word});
}

/* The buffers move: whoever has an address of one has it no longer. */
static void move_buffers(struct engine *engine)
{
    uint8_t *moved = malloc((size_t)PAGES * PAGE);
    if (!moved)
        must(-12);
    memcpy(moved, engine->buffers, (size_t)PAGES * PAGE);
    free(engine->buffers);
    engine->buffers = moved;
}

/* Submits a page, its header, and a read of an older header. User data is the row, with the place
 * in the round below it. */
static void submit(struct engine *engine, uint32_t round)
{
    uint32_t page = round % PAGES;
    uint64_t user_data = (uint64_t)round * A_ROUND;
    struct wulgach_step fills[A_ROUND] = {{.kind = WULGACH_FILL}, {.kind = WULGACH_FILL, .word = 1},
        {.kind = WULGACH_FILL, .word = 2}};
    uint8_t header[HEADER];
    memset(header, 'a' + (int)(round % 26), HEADER);
    memset(engine->buffers + (size_t)page * PAGE, 'A' + (int)(round % 26), PAGE);
    engine->rows[round] = (struct row){.page = page, .buffer = page};
    wulgach_fsync(fills[0].entry, user_data, WULGACH_IO_LINK, NO_FILE);
    wulgach_write(fills[1].entry, user_data + 1, 0, 0, (uint64_t)page * HEADER, header, HEADER);
    wulgach_read(fills[2].entry, user_data + 2, 0, 0, below(engine, PAGES * HEADER), HEADER);
    for (uint32_t i = 0; i < A_ROUND; i++) {
        make(engine, &fills[i]);
        simple(engine, WULGACH_INDEX, i);
    }
    simple(engine, WULGACH_STORE_TAIL, 0);
    simple(engine, WULGACH_BEGIN, A_ROUND);
    for (uint32_t i = 0; i < A_ROUND; i++)
        simple(engine, WULGACH_TAKE, 0);
    simple(engine, WULGACH_END, 0);
    simple(engine, WULGACH_LOAD_HEAD, 0);
}

/* Carries a running request out, and returns its result, with the bytes that a read gives. */
static int32_t carry_out(struct engine *engine, uint64_t number, const struct wulgach_operation *op,
    struct wulgach_bytes *bytes)
{
    struct row *row = &engine->rows[number / A_ROUND];
    if (op->code == WULGACH_OP_READ) {
        uint64_t end = op->off + op->len < sizeof engine->headers ? op->off + op->len
                                                                  : sizeof engine->headers;
        memcpy(bytes->bytes, engine->headers + op->off, end - op->off);
        return (int32_t)(end - op->off);
    }
    bool has_failed = below(engine, 10) == 0;
    if (op->code == WULGACH_OP_WRITE) {
        if (!has_failed)
            memcpy(engine->headers + op->off, op->bytes, op->len);
        return has_failed ? FAILED : (int32_t)op->len;
    }
    if (!has_failed)
        memcpy(engine->disk + (size_t)row->page * PAGE,
            engine->buffers + (size_t)row->buffer * PAGE, PAGE);
    row->told = has_failed ? FAILED : PAGE;
    return has_failed ? FAILED : 0;
}

/* Lets a request that the seed chooses go on. Returns whether one ended. */
static bool go_on(struct engine *engine, uint64_t first)
{
    uint64_t number = first + below(engine, A_ROUND);
    struct wulgach_operation op;
    if (wulgach_core_running_op(&engine->core, number, &op) != 0) {
        struct wulgach_step issue = {.kind = WULGACH_ISSUE, .number = number};
        return make(engine, &issue).kind == WULGACH_ENDED;
    }
    struct wulgach_bytes bytes = {{0}};
    struct wulgach_answer answer;
    must(wulgach_core_finish(
        &engine->core, number, carry_out(engine, number, &op, &bytes), &bytes, &answer));
    log_step(&(struct wulgach_step){.kind = WULGACH_FINISH, .number = number}, &answer);
    return true;
}

/* Reaps a round. What a page's completion tells the application is its row's. */
static void reap(struct engine *engine)
{
    simple(engine, WULGACH_LOAD_CQ_TAIL, 0);
    for (struct wulgach_answer a = simple(engine, WULGACH_REAP, 0); a.kind == WULGACH_REAPED;
         a = simple(engine, WULGACH_REAP, 0)) {
        bool is_page = a.number % A_ROUND == 0;
        int32_t told = is_page ? engine->rows[a.number / A_ROUND].told : a.res;
        engine->written += is_page && told == PAGE;
        engine->read += a.number % A_ROUND == 2 && told > 0;
        engine->failed += told == FAILED;
        engine->cancelled += told == -125;
    }
    simple(engine, WULGACH_STORE_CQ_HEAD, 0);
    simple(engine, WULGACH_FLUSH, 0);
}

int main(int count, char **words)
{
    static struct engine engine;
    uint32_t rounds = count > 1 ? (uint32_t)strtoul(words[1], NULL, 10) : 3;
    const struct wulgach_setup setup = {.sq = ENTRIES, .linux_rules = true};
    uint8_t line[WULGACH_MOST_OF_LINE];
    uint64_t len;
    engine.buffers = calloc(PAGES, PAGE);
    engine.rows = calloc(rounds + 1, sizeof *engine.rows);
    if (!engine.buffers || !engine.rows)
        must(-12);
    memset(engine.headers, '.', sizeof engine.headers);
    must(wulgach_core_new(&engine.core, &setup));
    must(wulgach_trace_setup(&setup, line, sizeof line, &len));
    printf("# %.*s\n", (int)len, (const char *)line);
    for (uint32_t round = 0; round < rounds; round++) {
        submit(&engine, round);
        move_buffers(&engine);
        for (uint32_t ended = 0; ended < A_ROUND;)
            ended += go_on(&engine, (uint64_t)round * A_ROUND);
        reap(&engine);
    }
    printf("# %u rounds: %u pages written, %u headers read, %u writes failed, %u were cancelled\n",
        rounds, (unsigned)engine.written, (unsigned)engine.read, (unsigned)engine.failed,
        (unsigned)engine.cancelled);
    must(wulgach_core_free(&engine.core));
    free(engine.buffers);
    free(engine.rows);
    return 0;
}
