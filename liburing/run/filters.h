/* Filters of seccomp for system calls, as rows say: the first row that fits a call decides of it,
 * and a call that none fits passes. */
#ifndef FILTERS_H
#define FILTERS_H

#include <linux/filter.h>
#include <linux/seccomp.h>
#include <stdbool.h>
#include <stddef.h>
#include <stdint.h>

#define COUNT(rows) (sizeof(rows) / sizeof *(rows))

/* Where an argument stands, of those that are counted from 0, and its upper half. */
#define ARGUMENT(number) (offsetof(struct seccomp_data, args) + 8 * (number))
#define UPPER(number) (ARGUMENT(number) + 4)

/* Whether half an argument is the value, or has one of its bits; the lower half but for UPPER. Of
 * both halves is only IS_NOT_WHOLE. */
enum comparison { NOTHING, IS, IS_NOT, HAS, LACKS, IS_NOT_WHOLE };

struct condition {
    enum comparison comparison;
    uint32_t at;
    uint64_t value;
};

enum { ANY_CALL = -1, MOST_CONDITIONS = 3, MOST_LINES = BPF_MAXINSNS };

/* What becomes of a call, as SECCOMP_RET_TRAP, where all conditions hold. */
struct filter_row {
    int call;
    uint32_t result;
    struct condition conditions[MOST_CONDITIONS];
};

struct filter {
    struct sock_filter lines[MOST_LINES];
    size_t count;
};

void begin_filter(struct filter *filter);
void put_rows(struct filter *filter, const struct filter_row *rows, size_t count);
void put_line(struct filter *filter, struct sock_filter line);
bool has_room(const struct filter *filter);

/* Adds it to the filters that stand, of this thread or of all. False: the kernel refuses it, as
 * where another thread has others; or it has too many lines. The kernel was told before that the
 * process takes no new privileges. */
bool add_filter(struct filter *filter);
bool add_filter_for_all(struct filter *filter);

#endif
