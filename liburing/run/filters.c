/* Filters of seccomp: rows become lines of the kernel's filters, whose jumps are counted here. */
#define _GNU_SOURCE
#include "filters.h"
#include "run.h"

#include <linux/audit.h>
#include <sys/syscall.h>
#include <unistd.h>

/* (one line too many is counted: the filter isn't set) */
void put_line(struct filter *filter, struct sock_filter line)
{
    if (filter->count < MOST_LINES)
        filter->lines[filter->count] = line;
    filter->count++;
}

static void put_load(struct filter *filter, size_t at)
{
    put_line(filter, (struct sock_filter)BPF_STMT(BPF_LD | BPF_W | BPF_ABS, (uint32_t)at));
}

static void put_result(struct filter *filter, uint32_t result)
{
    put_line(filter, (struct sock_filter)BPF_STMT(BPF_RET | BPF_K, result));
}

/* Compares what was loaded, and goes on at one line or the other. */
static void put_jump(
    struct filter *filter, uint16_t test, uint64_t value, size_t if_so, size_t if_not)
{
    size_t next = filter->count + 1;
    put_line(filter, (struct sock_filter)BPF_JUMP((uint16_t)(BPF_JMP | BPF_K | test),
                         (uint32_t)value, (uint8_t)(if_so - next), (uint8_t)(if_not - next)));
}

static size_t lines_of(enum comparison comparison)
{
    return comparison == NOTHING ? 0 : comparison == IS_NOT_WHOLE ? 4 : 2;
}

/* If it doesn't hold the filter goes on at the line `otherwise`. */
static void put_condition(
    struct filter *filter, const struct condition *condition, size_t otherwise)
{
    size_t next = filter->count + lines_of(condition->comparison), at = condition->at;
    uint64_t value = condition->value;
    uint16_t test = condition->comparison == HAS || condition->comparison == LACKS ? BPF_JSET
                                                                                   : BPF_JEQ;
    bool holds_if_so = condition->comparison == IS || condition->comparison == HAS;
    if (condition->comparison == IS_NOT_WHOLE) {
        put_load(filter, at);
        put_jump(filter, BPF_JEQ, value, filter->count + 1, next);
        at += 4;
        value >>= 32;
    }
    put_load(filter, at);
    put_jump(filter, test, value, holds_if_so ? next : otherwise, holds_if_so ? otherwise : next);
}

/* Where the conditions don't hold the filter goes on after the result: the call's number is loaded
 * again, for the next row. */
static void put_row(struct filter *filter, const struct filter_row *row)
{
    size_t lines = 0;
    for (int i = 0; i < MOST_CONDITIONS; i++)
        lines += lines_of(row->conditions[i].comparison);
    size_t otherwise = filter->count + (row->call != ANY_CALL) + lines + 1;
    if (row->call != ANY_CALL)
        put_jump(filter, BPF_JEQ, (uint32_t)row->call, filter->count + 1, otherwise);
    for (int i = 0; i < MOST_CONDITIONS && row->conditions[i].comparison != NOTHING; i++)
        put_condition(filter, row->conditions + i, otherwise);
    put_result(filter, row->result);
    if (lines > 0)
        put_load(filter, offsetof(struct seccomp_data, nr));
}

/* Calls of another processor's pass. */
void begin_filter(struct filter *filter)
{
    filter->count = 0;
    put_load(filter, offsetof(struct seccomp_data, arch));
    put_jump(filter, BPF_JEQ, AUDIT_ARCH_X86_64, filter->count + 2, filter->count + 1);
    put_result(filter, SECCOMP_RET_ALLOW);
    put_load(filter, offsetof(struct seccomp_data, nr));
}

void put_rows(struct filter *filter, const struct filter_row *rows, size_t count)
{
    for (size_t i = 0; i < count; i++)
        put_row(filter, rows + i);
}

/* (a filter that stands already traps the setting of another, but ours) */
static bool set_filter(struct filter *filter, unsigned flags)
{
    put_result(filter, SECCOMP_RET_ALLOW);
    struct sock_fprog program = {.len = (unsigned short)filter->count, .filter = filter->lines};
    return has_room(filter) &&
           syscall(SYS_seccomp, SECCOMP_SET_MODE_FILTER, flags, &program, 0, 0, ASKS_KERNEL) == 0;
}

bool has_room(const struct filter *filter)
{
    return filter->count <= MOST_LINES;
}

bool add_filter(struct filter *filter)
{
    return set_filter(filter, 0);
}

bool add_filter_for_all(struct filter *filter)
{
    return set_filter(filter, SECCOMP_FILTER_FLAG_TSYNC);
}
