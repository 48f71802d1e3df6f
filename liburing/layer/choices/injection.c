/* Chooses the faults to inject.
 *
 *   WULGACH_FAULTS      ITEMS, separated by commas: [RING:]NUMBER=KIND, for request NUMBER of ring
 *                       RING (0 if it isn't given); KIND is EIO, ENOSPC or SHORT
 *   WULGACH_FAULT_RATE  N: each request that can have a fault is given one with a chance of one in
 *                       N under a seed, of those that it can have. That is a choice, so a list
 *                       replays it.
 */
#include "choices/injection.h"
#include "choices/outlook.h"
#include "choices/policy.h"
#include "operations/operations.h"
#include "process/fault.h"
#include "rings/ring.h"
#include "traces/trace.h"

#include <inttypes.h>
#include <pthread.h>
#include <stdlib.h>
#include <string.h>

struct item {
    uint64_t ring, number;
    enum injection fault;
};

static struct item *items;
static size_t item_count;
static uint32_t rate;

static const char *const names[] = {"none", "EIO", "ENOSPC", "SHORT"};

static enum injection kind_of(const char **at)
{
    for (int kind = FAULT_EIO; kind <= FAULT_SHORT; kind++) {
        size_t length = strlen(names[kind]);
        if (strncmp(*at, names[kind], length) == 0) {
            *at += length;
            return (enum injection)kind;
        }
    }
    stop_program("WULGACH_FAULTS: a fault is EIO, ENOSPC or SHORT");
}

static void read_item(struct item *item, const char **at)
{
    char *end;
    item->number = strtoull(*at, &end, 10);
    if (*end == ':') {
        item->ring = item->number;
        item->number = strtoull(end + 1, &end, 10);
    }
    demand(end != *at && *end == '=', "WULGACH_FAULTS: an item is [RING:]NUMBER=KIND");
    *at = end + 1;
    item->fault = kind_of(at);
    demand(**at == ',' || **at == '\0', "WULGACH_FAULTS: a comma is missing");
    if (**at == ',')
        (*at)++;
}

/* 0 to 1,000,000,000, in digits alone; 0 is no fault. */
static uint32_t read_rate(const char *text)
{
    size_t length = strspn(text, "0123456789");
    unsigned long number = strtoul(text, NULL, 10);
    demand(length > 0 && !text[length] && number <= 1000000000,
        "WULGACH_FAULT_RATE: a number is wanted, at most 1000000000");
    return (uint32_t)number;
}

static void read_environment(void)
{
    const char *at = getenv("WULGACH_FAULTS"), *number = getenv("WULGACH_FAULT_RATE");
    rate = number && *number ? read_rate(number) : 0;
    if (!at || !*at)
        return;
    items = need_room(strlen(at), sizeof *items);
    while (*at)
        read_item(&items[item_count++], &at);
}

void read_injection(void)
{
    static pthread_once_t once = PTHREAD_ONCE_INIT;
    pthread_once(&once, read_environment);
}

bool has_listed_faults(void)
{
    return item_count > 0;
}

/* Writes the faults that a request can have behind `faults`, and returns how many they are. */
static uint32_t list_faults(const struct request *request, enum injection *faults)
{
    uint32_t count = 0;
    for (int fault = FAULT_EIO; fault <= FAULT_SHORT; fault++)
        if (can_have(request, (enum injection)fault))
            faults[count++] = (enum injection)fault;
    return count;
}

/* A choice: way 0 is no fault, and the others are those that the request can have. Each of these is
 * one of `rate` times as many. */
static enum injection roll_fault(struct ring *ring, const struct request *request)
{
    enum injection faults[FAULT_SHORT + 1] = {NO_FAULT};
    uint32_t ways = 1 + list_faults(request, faults + 1);
    if (ways == 1)
        return NO_FAULT;
    uint64_t at = count_choice();
    record_faults(ring, request, at, faults + 1, ways - 1);
    uint32_t count = (ways - 1) * rate < ways ? ways : (ways - 1) * rate,
             rolled = choose(at, count), chosen = rolled < ways ? rolled : 0;
    char what[64];
    snprintf(what, sizeof what, "fault %s", names[faults[chosen]]);
    if (chosen)
        trace_note(
            ring, "choice %" PRIu64 " is %" PRIu32 " of %" PRIu32 ": %s", at, chosen, ways, what);
    record_choice(at, ways, chosen, what);
    return faults[chosen];
}

static bool is_rolling(void)
{
    return rate && policy() != IN_ORDER && policy() != LAZY;
}

__attribute__((noinline)) static enum injection find_fault(
    struct ring *ring, const struct request *request)
{
    enum injection fault = NO_FAULT;
    for (size_t i = 0; i < item_count; i++)
        if (items[i].ring == ring->index && items[i].number == request->number)
            fault = items[i].fault;
    if (!can_have(request, fault))
        fault = NO_FAULT;
    if (!fault && is_rolling())
        fault = roll_fault(ring, request);
    if (fault)
        trace_note(ring, "request %" PRIu64 " has fault %s", request->number, names[fault]);
    return fault;
}

enum injection injected(struct ring *ring, const struct request *request)
{
    return item_count == 0 && rate == 0 ? NO_FAULT : find_fault(ring, request);
}
