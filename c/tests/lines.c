/* Set-ups, and steps with their answers, as lines of a trace, beside lines written by hand; and
 * each refusal, with what it leaves. Memory is refused as refusing.h says. */
#define TEST "lines"

#include "refusing.h"
#include "wulgach.h"

#include <string.h>

/* Words of an entry, and the first that has its data. */
enum { OP = 0, OFF = 1, ADDR = 2, LEN = 3, USER_DATA = 4, DATA = 8 };

static const struct {
    const char *line;
    struct wulgach_step step;
    struct wulgach_answer answer;
} lines[] = {
    {"fill 3 nop 7 DS = ok",
        {.kind = WULGACH_FILL, .word = 3, .entry = {[OP] = 0x4200, [USER_DATA] = 7}},
        {.kind = WULGACH_FILLED}},
    {"fill 0 nop 0 - = ok", {.kind = WULGACH_FILL}, {.kind = WULGACH_FILLED}},
    {"fill 0 nop 18446744073709551615 DLHAS = ok",
        {.kind = WULGACH_FILL, .entry = {[OP] = 0x5e00, [USER_DATA] = UINT64_MAX}},
        {.kind = WULGACH_FILLED}},
    {"fill 0 read 7 L 1 3 4 = ok",
        {.kind = WULGACH_FILL, .entry = {[OP] = 4294968342, [OFF] = 3, [LEN] = 4, [USER_DATA] = 7}},
        {.kind = WULGACH_FILLED}},
    {"fill 0 fsync 2 D -1 = ok",
        {.kind = WULGACH_FILL, .entry = {[OP] = 0xffffffff00000203, [USER_DATA] = 2}},
        {.kind = WULGACH_FILLED}},
    {"fill 0 cancelall 8 - 5 = ok",
        {.kind = WULGACH_FILL,
            .entry = {[OP] = 14, [ADDR] = 5, [LEN] = 4294967296, [USER_DATA] = 8}},
        {.kind = WULGACH_FILLED}},
    {"fill 0 op 99 5 S = ok", {.kind = WULGACH_FILL, .entry = {[OP] = 0x4063, [USER_DATA] = 5}},
        {.kind = WULGACH_FILLED}},
    {"fill 0 cancel 1 - 9 = no slot",
        {.kind = WULGACH_FILL, .entry = {[OP] = 14, [ADDR] = 9, [USER_DATA] = 1}},
        {.kind = WULGACH_NO_SLOT}},
    {"fill 0 write 1 - 0 0 61626364 = ok",
        {.kind = WULGACH_FILL,
            .entry = {[OP] = 23, [LEN] = 4, [USER_DATA] = 1, [DATA] = 1684234849}},
        {.kind = WULGACH_FILLED}},
    {"fill 0 write 1 - 0 0 6100 = ok",
        {.kind = WULGACH_FILL, .entry = {[OP] = 23, [LEN] = 2, [USER_DATA] = 1, [DATA] = 97}},
        {.kind = WULGACH_FILLED}},
    {"fill 0 write 1 D 1 9 - = ok",
        {.kind = WULGACH_FILL, .entry = {[OP] = 4294967831, [OFF] = 9, [USER_DATA] = 1}},
        {.kind = WULGACH_FILLED}},
    {"fill 0 read 1 LHA 0 0 65 = busy",
        {.kind = WULGACH_FILL, .entry = {[OP] = 0x1c16, [LEN] = 65, [USER_DATA] = 1}},
        {.kind = WULGACH_BUSY}},
    {"index 4294967295 = full", {.kind = WULGACH_INDEX, .word = UINT32_MAX},
        {.kind = WULGACH_FULL}},
    {"tail = tail 5", {.kind = WULGACH_STORE_TAIL}, {.kind = WULGACH_TAIL, .word = 5}},
    {"begin 2 = call 1", {.kind = WULGACH_BEGIN, .word = 2}, {.kind = WULGACH_CALL, .word = 1}},
    {"take = entry 7", {.kind = WULGACH_TAKE}, {.kind = WULGACH_ENTRY, .entry = {[USER_DATA] = 7}}},
    {"end = taken 1 dropped 2 head 3", {.kind = WULGACH_END},
        {.kind = WULGACH_TAKEN, .word = 1, .dropped = 2, .head = 3}},
    {"issue 9 = not ready", {.kind = WULGACH_ISSUE, .number = 9}, {.kind = WULGACH_NOT_READY}},
    {"finish 9 = ended -125", {.kind = WULGACH_FINISH, .number = 9},
        {.kind = WULGACH_ENDED, .res = -125}},
    {"flush = moved 8", {.kind = WULGACH_FLUSH}, {.kind = WULGACH_MOVED, .number = 8}},
    {"reap = cqe 7 2 6162", {.kind = WULGACH_REAP},
        {.kind = WULGACH_REAPED, .number = 7, .res = 2, .bytes = {97, 98}}},
    {"reap = cqe 7 -22 -", {.kind = WULGACH_REAP},
        {.kind = WULGACH_REAPED, .number = 7, .res = -22}},
    {"close = ok", {.kind = WULGACH_CLOSE}, {.kind = WULGACH_SHUT}},
    {"next = next 4", {.kind = WULGACH_NEXT}, {.kind = WULGACH_NEXT_IS, .number = 4}},
};

static void lines_are_written(void)
{
    for (size_t i = 0; i < sizeof lines / sizeof *lines; i++) {
        uint8_t line[WULGACH_MOST_OF_LINE];
        uint64_t length = 0;
        check(wulgach_trace_line(&lines[i].step, &lines[i].answer, line, sizeof line, &length) == 0,
            lines[i].line);
        check(length == strlen(lines[i].line) && memcmp(line, lines[i].line, length) == 0,
            lines[i].line);
    }
}

static const struct {
    const char *line;
    struct wulgach_setup setup;
} setups[] = {
    {"setup --sq 1 --cq 2 --files 1 --start 0", {.sq = 1, .files = 1}},
    {"setup --sq 4 --cq 8 --files 2 --start 0", {.sq = 3, .files = 2}},
    {"setup --sq 4 --cq 8 --files 1 --start 0", {.sq = 4}},
    {"setup --sq 4 --cq 8 --files 1 --start 9 --linux",
        {.sq = 4, .files = 65, .start = 9, .linux_rules = true}},
    {"setup --sq 8 --cq 8 --files 1 --start 0", {.sq = 5, .cq = 5, .files = 1, .has_cq = true}},
    {"setup --sq 8 --cq 16 --files 1 --start 0 --linux",
        {.sq = 5, .cq = 9, .files = 1, .has_cq = true, .linux_rules = true}},
    {"setup --sq 4096 --cq 8192 --files 64 --start 4294967295 --stop",
        {.sq = 4096, .cq = 8192, .files = 64, .start = UINT32_MAX, .has_cq = true, .stops = true}},
    {"setup --sq 2 --cq 2 --files 3 --start 7 --stop --linux", {.sq = 2,
                                                                   .cq = 2,
                                                                   .files = 3,
                                                                   .start = 7,
                                                                   .has_cq = true,
                                                                   .stops = true,
                                                                   .linux_rules = true}},
};

static void setups_are_written(void)
{
    for (size_t i = 0; i < sizeof setups / sizeof *setups; i++) {
        uint8_t line[WULGACH_MOST_OF_LINE];
        uint64_t length = 0;
        check(
            wulgach_trace_setup(&setups[i].setup, line, sizeof line, &length) == 0, setups[i].line);
        check(length == strlen(setups[i].line) && memcmp(line, setups[i].line, length) == 0,
            setups[i].line);
    }
}

static void want_no_setup(struct wulgach_setup setup, int32_t fault, const char *what)
{
    uint8_t line[8] = "as it is";
    uint64_t length = 77;
    check(wulgach_trace_setup(&setup, line, sizeof line, &length) == fault, what);
    check(length == 77 && memcmp(line, "as it is", 8) == 0, what);
}

/* Each flag has its bit in <linux/io_uring.h>; a registered file (1), a buffer that is selected
 * (32) and 128 have no letter. */
static const struct {
    const char *letters;
    uint8_t flags;
} flags[] = {{"-", 0}, {"D", 2}, {"L", 4}, {"H", 8}, {"A", 16}, {"S", 64}, {"DLHAS", 0x5e},
    {"-", 0xa1}, {"DLHAS", 0xff}, {"LS", 0x45}};

static void flags_are_written(void)
{
    for (size_t i = 0; i < sizeof flags / sizeof *flags; i++) {
        uint8_t letters[8];
        uint64_t length = 0;
        check(wulgach_trace_flags(flags[i].flags, letters, sizeof letters, &length) == 0,
            flags[i].letters);
        check(length == strlen(flags[i].letters) && memcmp(letters, flags[i].letters, length) == 0,
            flags[i].letters);
    }
}

static void want_refused(
    struct wulgach_step step, struct wulgach_answer answer, int32_t fault, const char *what)
{
    uint8_t line[8] = "as it is";
    uint64_t length = 77;
    check(wulgach_trace_line(&step, &answer, line, sizeof line, &length) == fault, what);
    check(length == 77 && memcmp(line, "as it is", 8) == 0, what);
}

static void refusals(void)
{
    const struct wulgach_step tail = {.kind = WULGACH_STORE_TAIL};
    const struct wulgach_answer ok = {.kind = WULGACH_TAIL};
    want_refused((struct wulgach_step){.kind = 15}, ok, -22, "no step");
    want_refused(tail, (struct wulgach_answer){.kind = 29}, -22, "no answer");
    want_refused((struct wulgach_step){.kind = WULGACH_FILL, .entry = {[5] = 1}}, ok, -22,
        "a no-op with another field");
    want_refused((struct wulgach_step){.kind = WULGACH_FILL,
                     .entry = {[OP] = 23, [LEN] = 1, [USER_DATA] = 1, [DATA] = 1684234849}},
        ok, -22, "a write with more data than its length");
    want_refused((struct wulgach_step){.kind = WULGACH_FILL,
                     .entry = {[OP] = 23, [LEN] = 65, [USER_DATA] = 1}},
        ok, -22, "a write of more than 64 bytes");
    want_no_setup((struct wulgach_setup){.sq = 0, .files = 1}, -22, "no set-up");
    want_no_setup((struct wulgach_setup){.sq = 4, .cq = 2, .files = 1, .has_cq = true}, -22,
        "a completion ring that is too small");
    served = 0;
    want_refused(tail, ok, -12, "memory is refused");
    served = 0;
    want_no_setup(
        (struct wulgach_setup){.sq = 4, .files = 1}, -12, "memory is refused for a set-up");
    served = 0;
    uint8_t letters[4] = "asis";
    uint64_t length = 77;
    check(wulgach_trace_flags(2, letters, sizeof letters, &length) == -12 && length == 77 &&
              memcmp(letters, "asis", 4) == 0,
        "memory is refused for flags");
    served = -1;
}

static void room(void)
{
    const struct wulgach_step step = {.kind = WULGACH_STORE_TAIL};
    const struct wulgach_answer answer = {.kind = WULGACH_TAIL, .word = 5};
    uint8_t line[4] = "....";
    uint64_t length = 0;
    check(wulgach_trace_line(&step, &answer, line, 3, &length) == 0, "less room");
    check(length == strlen("tail = tail 5") && memcmp(line, "tai.", 4) == 0,
        "what there is room for");
    check(wulgach_trace_setup(&setups[0].setup, line, 2, &length) == 0 &&
              length == strlen(setups[0].line) && memcmp(line, "sei.", 4) == 0,
        "a set-up with less room");
}

int main(void)
{
    setups_are_written();
    flags_are_written();
    lines_are_written();
    refusals();
    room();
    puts("lines: each is as written by hand");
    return 0;
}
