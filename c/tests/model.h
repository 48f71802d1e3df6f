/* For side_by_side.c: answers as text, and what they say, compared with what a machine and a core
 * tell of themselves. */
#ifndef MODEL_H
#define MODEL_H

#include "random_steps.h"

/* ---- answers ---- */

static void print_data(FILE *out, const uint8_t bytes[64])
{
    int len = 64;
    while (len > 0 && bytes[len - 1] == 0)
        len--;
    for (int i = 0; i < len; i++)
        fprintf(out, "%02x", bytes[i]);
    if (len == 0)
        fputc('-', out);
}

static void print_answer(FILE *out, const struct wulgach_answer *a)
{
    static const char *const texts[29] = {"ok", "no slot", "busy", "ok", "full", "tail", "head",
        "call", "closed", "in call", "spent", "again", "entry", "dropped", "no more", "no call",
        "taken", "not all", "run", "ended", "not ready", "running", "unknown", "not running",
        "moved", "cqe", "none", "ok", "next"};
    check(a->kind < 29, "an answer of no kind");
    fputs(texts[a->kind], out);
    switch (a->kind) {
    case WULGACH_TAIL:
    case WULGACH_HEAD:
    case WULGACH_CALL:
        fprintf(out, " %" PRIu32, a->word);
        break;
    case WULGACH_ENTRY:
        fprintf(out, " %" PRIu64, a->entry[4]);
        break;
    case WULGACH_TAKEN:
        fprintf(
            out, " %" PRIu32 " dropped %" PRIu32 " head %" PRIu32, a->word, a->dropped, a->head);
        break;
    case WULGACH_ENDED:
        fprintf(out, " %" PRId32, a->res);
        break;
    case WULGACH_MOVED:
    case WULGACH_NEXT_IS:
        fprintf(out, " %" PRIu64, a->number);
        break;
    case WULGACH_REAPED:
        fprintf(out, " %" PRIu64 " %" PRId32 " ", a->number, a->res);
        print_data(out, a->bytes);
        break;
    default:
        break;
    }
    fputc('\n', out);
}

static bool is_same(const struct wulgach_answer *a, const struct wulgach_answer *b)
{
    return a->kind == b->kind && a->word == b->word && a->dropped == b->dropped &&
           a->head == b->head && a->number == b->number &&
           memcmp(a->entry, b->entry, sizeof a->entry) == 0 && a->res == b->res &&
           memcmp(a->bytes, b->bytes, sizeof a->bytes) == 0;
}

/* Fields that a kind doesn't use are 0. */
static void check_zeros(const struct wulgach_answer *a)
{
    struct wulgach_answer used = {.kind = a->kind};
    switch (a->kind) {
    case WULGACH_TAKEN:
        used.dropped = a->dropped;
        used.head = a->head;
        used.word = a->word;
        break;
    case WULGACH_TAIL:
    case WULGACH_HEAD:
    case WULGACH_CALL:
        used.word = a->word;
        break;
    case WULGACH_REAPED:
        used.number = a->number;
        used.res = a->res;
        memcpy(used.bytes, a->bytes, sizeof used.bytes);
        break;
    case WULGACH_ENDED:
        used.res = a->res;
        memcpy(used.bytes, a->bytes, sizeof used.bytes);
        break;
    case WULGACH_MOVED:
    case WULGACH_NEXT_IS:
        used.number = a->number;
        break;
    case WULGACH_ENTRY:
        memcpy(used.entry, a->entry, sizeof used.entry);
        break;
    default:
        break;
    }
    check(is_same(a, &used), "a field that the answer doesn't use isn't 0");
}

/* ---- the model ---- */

static uint8_t code_of(const uint64_t entry[16])
{
    return (uint8_t)entry[0];
}

static int32_t fd_of(const uint64_t entry[16])
{
    return (int32_t)(uint32_t)(entry[0] >> 32);
}

static bool is_transfer(const uint64_t entry[16])
{
    return code_of(entry) == WULGACH_OP_READ || code_of(entry) == WULGACH_OP_WRITE;
}

static uint32_t len_of(const uint64_t entry[16])
{
    return (uint32_t)entry[3];
}

static bool is_success(const uint64_t entry[16], int32_t res)
{
    if (code_of(entry) == WULGACH_OP_CANCEL && entry[3] >> 32 == WULGACH_CANCEL_ALL)
        return res >= 0;
    return res >= 0 && (uint32_t)res == (is_transfer(entry) ? len_of(entry) : 0);
}

static void end_request(struct model *m, uint64_t number, const struct wulgach_answer *a)
{
    check(number < m->accepted, "the end of a request that there isn't");
    struct request *r = &m->requests[number];
    check(r->state != ENDED, "a second end");
    if (r->state == RUNS) {
        m->running--;
        int32_t fd = fd_of(r->entry);
        if (code_of(r->entry) == WULGACH_OP_WRITE && a->res >= 0) {
            struct wulgach_file *file = &m->files[fd];
            for (uint32_t i = 0; i < (uint32_t)a->res; i++)
                m->bytes[(uint64_t)fd * FILE_SIZE + r->entry[1] + i] =
                    (uint8_t)(r->entry[8 + i / 8] >> i % 8 * 8);
            if (a->res > 0 && r->entry[1] + (uint32_t)a->res > file->len)
                file->len = (uint32_t)(r->entry[1] + (uint32_t)a->res);
            file->writes++;
        }
        if (code_of(r->entry) == WULGACH_OP_FSYNC && a->res == 0)
            m->files[fd].synced = m->files[fd].writes;
    }
    r->state = ENDED;
    m->ended++;
    if (is_success(r->entry, a->res) && (r->entry[0] >> 8 & WULGACH_CQE_SKIP_SUCCESS))
        return;
    struct wulgach_completion *c = &m->posted[m->posted_count++];
    c->user_data = r->entry[4];
    c->res = a->res;
    memcpy(c->bytes, a->bytes, sizeof c->bytes);
}

static void note(struct model *m, const struct wulgach_step *step, const struct wulgach_answer *a)
{
    switch (a->kind) {
    case WULGACH_CALL:
        m->taken_count = 0;
        break;
    case WULGACH_ENTRY:
        memcpy(m->taken[m->taken_count++], a->entry, sizeof a->entry);
        break;
    case WULGACH_TAKEN:
        check(a->word == m->taken_count, "a call accepts what it took");
        for (uint32_t i = 0; i < m->taken_count; i++)
            memcpy(m->requests[m->accepted++].entry, m->taken[i], sizeof m->taken[i]);
        break;
    case WULGACH_RUN:
        m->requests[step->number].state = RUNS;
        m->running++;
        break;
    case WULGACH_ENDED:
        end_request(m, step->number, a);
        break;
    case WULGACH_REAPED: {
        check(m->reaped < m->posted_count, "a completion that wasn't posted");
        struct wulgach_completion *c = &m->posted[m->reaped++];
        check(c->user_data == a->number && c->res == a->res &&
                  memcmp(c->bytes, a->bytes, sizeof c->bytes) == 0,
            "another completion is reaped");
        break;
    }
    default:
        break;
    }
}

static void check_operation(
    const struct request *r, int32_t result, const struct wulgach_operation *op)
{
    check(result == (r->state == RUNS ? 0 : -2), "whether a request runs");
    if (result != 0)
        return;
    struct wulgach_operation right = {.code = code_of(r->entry)};
    if (is_transfer(r->entry)) {
        right.off = r->entry[1];
        right.len = len_of(r->entry);
    }
    if (is_transfer(r->entry) || right.code == WULGACH_OP_FSYNC)
        right.fd = fd_of(r->entry);
    if (right.code == WULGACH_OP_WRITE)
        for (int i = 0; i < 64; i++)
            right.bytes[i] = (uint8_t)(r->entry[8 + i / 8] >> i % 8 * 8);
    check(op->code == right.code && op->fd == right.fd && op->off == right.off &&
              op->target == right.target && op->len == right.len && op->all == right.all &&
              memcmp(op->bytes, right.bytes, sizeof op->bytes) == 0,
        "what a request asks for");
}

static void check_counts(const struct model *m, int32_t result, const struct wulgach_counts *c)
{
    check(result == 0 && c->accepted == m->accepted && c->outstanding == m->accepted - m->ended &&
              c->running == m->running && c->posted == m->posted_count && c->reaped == m->reaped,
        "counts");
}

static void check_least(const struct model *m, int32_t result, const uint64_t *number)
{
    uint64_t least = 0;
    while (least < m->accepted && m->requests[least].state == ENDED)
        least++;
    check(result == (least < m->accepted ? 0 : -2) && (result != 0 || *number == least),
        "the least outstanding request");
}

static void check_rest(
    const struct model *m, uint64_t index, int32_t result, const struct wulgach_completion *c)
{
    if (m->reaped + index >= m->posted_count) {
        check(result == -2, "a completion that waits past the last");
        return;
    }
    const struct wulgach_completion *right = &m->posted[m->reaped + index];
    check(result == 0 && c->user_data == right->user_data && c->res == right->res &&
              memcmp(c->bytes, right->bytes, sizeof c->bytes) == 0,
        "a completion that waits");
}

static void check_file(
    struct wulgach_machine *machine, const struct model *m, const struct wulgach_setup *setup)
{
    int32_t fd = is_one_in(20) ? -1 : (int32_t)below(setup->files + 1);
    bool is_file = fd >= 0 && (uint32_t)fd < setup->files;
    struct wulgach_file file = {1, 2, 3};
    int32_t result = wulgach_machine_state(machine, fd, &file);
    check(result == (is_file ? 0 : -2), "whether there is a file");
    struct wulgach_file right = {1, 2, 3};
    if (is_file)
        right = m->files[fd];
    check(file.writes == right.writes && file.synced == right.synced && file.len == right.len,
        "how a file stands");
    uint64_t at = is_one_in(20) ? roll() : below(220);
    uint8_t byte = 77;
    result = wulgach_machine_byte(machine, fd, at, &byte);
    bool is_byte = is_file && at < right.len;
    check(result == (is_byte ? 0 : -2), "whether there is a byte");
    check(byte == (is_byte ? m->bytes[(uint64_t)fd * FILE_SIZE + at] : 77), "a byte");
}

/* Why a request stands as it does agrees with what became of it, and names an earlier request that
 * hasn't ended if it waits. */
static void check_why(
    const struct model *m, uint64_t number, int32_t result, const struct wulgach_why *why)
{
    check(result == 0, "why");
    if (number >= m->accepted) {
        check(why->kind == WULGACH_NEVER_ACCEPTED, "why of no request");
    } else if (m->requests[number].state == ENDED) {
        check(why->kind == WULGACH_HAS_ENDED, "why of an ended request");
    } else if (m->requests[number].state == RUNS) {
        check(why->kind == WULGACH_RUNS, "why of a running request");
    } else if (why->kind == WULGACH_WAITS) {
        check(why->number < number && m->requests[why->number].state != ENDED,
            "why of a waiting request");
    } else {
        check(why->kind == WULGACH_DOOMED || why->kind == WULGACH_MAY_START,
            "why of a request to be issued");
    }
}

/* The requests that can be issued are those of which why says so: all of them, in order, from any
 * number on and at each place. */
static void check_issuable(
    struct wulgach_machine *machine, struct wulgach_core *core, const struct model *m)
{
    uint64_t count = 0;
    uint64_t next = 0;
    for (uint64_t n = 0; n < m->accepted; n++) {
        struct wulgach_why why = {0};
        check(wulgach_core_why(core, n, &why) == 0, "why");
        if (why.kind != WULGACH_DOOMED && why.kind != WULGACH_MAY_START)
            continue;
        for (; next <= n; next++) {
            uint64_t by_core = UINT64_MAX, by_machine = UINT64_MAX;
            check(wulgach_core_next_issuable(core, next, &by_core) == 0 && by_core == n,
                "the next that a core can issue");
            check(wulgach_machine_next_issuable(machine, next, &by_machine) == 0 && by_machine == n,
                "the next that a machine can issue");
        }
        uint64_t by_core = UINT64_MAX, by_machine = UINT64_MAX;
        check(wulgach_core_nth_issuable(core, count, &by_core) == 0 && by_core == n,
            "the one at a place that a core can issue");
        check(wulgach_machine_nth_issuable(machine, count, &by_machine) == 0 && by_machine == n,
            "the one at a place that a machine can issue");
        count++;
    }
    uint64_t told = UINT64_MAX;
    check(wulgach_core_issuable(core, &told) == 0 && told == count, "how many a core can issue");
    check(wulgach_machine_issuable(machine, &told) == 0 && told == count,
        "how many a machine can issue");
    const uint64_t past[] = {next, m->accepted, UINT64_MAX};
    for (int i = 0; i < 3; i++) {
        uint64_t number = 99;
        check(wulgach_core_next_issuable(core, past[i], &number) == -2 && number == 99,
            "none after the last of a core");
        check(wulgach_machine_next_issuable(machine, past[i], &number) == -2 && number == 99,
            "none after the last of a machine");
    }
    const uint64_t places[] = {count, count + 1, UINT64_MAX};
    for (int i = 0; i < 3; i++) {
        uint64_t number = 99;
        check(wulgach_core_nth_issuable(core, places[i], &number) == -2 && number == 99,
            "none at a place past the last of a core");
        check(wulgach_machine_nth_issuable(machine, places[i], &number) == -2 && number == 99,
            "none at a place past the last of a machine");
    }
}

static void check_readers(struct wulgach_machine *machine, struct wulgach_core *core,
    const struct model *m, const struct wulgach_setup *setup)
{
    struct wulgach_counts counts = {9, 9, 9, 9, 9};
    check_counts(m, wulgach_machine_counts(machine, &counts), &counts);
    check_counts(m, wulgach_core_counts(core, &counts), &counts);
    uint64_t index = below((uint32_t)(m->posted_count - m->reaped) + 2);
    struct wulgach_completion c = {0};
    check_rest(m, index, wulgach_machine_rest(machine, index, &c), &c);
    check_rest(m, index, wulgach_core_rest(core, index, &c), &c);
    uint64_t number = random_number(m);
    static const struct request none = {{0}, ENDED};
    const struct request *r = number < m->accepted ? &m->requests[number] : &none;
    struct wulgach_operation op = {0};
    check_operation(r, wulgach_machine_running_op(machine, number, &op), &op);
    check_operation(r, wulgach_core_running_op(core, number, &op), &op);
    struct wulgach_why why = {0};
    check_why(m, number, wulgach_machine_why(machine, number, &why), &why);
    check_why(m, number, wulgach_core_why(core, number, &why), &why);
    check_least(m, wulgach_machine_least(machine, &number), &number);
    check_least(m, wulgach_core_least(core, &number), &number);
    check_issuable(machine, core, m);
    check_file(machine, m, setup);
}

#endif
