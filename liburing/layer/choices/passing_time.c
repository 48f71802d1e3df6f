/* Chooses whether time passes before anything else goes on, until the first of the timeouts that
 * run, or the limit of a call that waits, is over.
 *
 *   WULGACH_TIMEOUTS    RATE or RATE:MOST. Under a seed, and by priorities, time passes so at one
 *                       in RATE of the moments at which a ring goes on; roll: RATE is drawn once of
 *                       a seed, of 4, 16, 64 and 256. MOST: so often at most in a run. It is a
 *                       choice of its own, of which way 0 is that no time passes: so a list replays
 *                       it.
 *
 * What isn't over within a minute is taken for what says that a program is stuck: it is over only
 * where nothing else can go on.
 */
#define _GNU_SOURCE
#include "choices/passing_time.h"
#include "choices/outlook.h"
#include "choices/policy.h"
#include "process/fault.h"
#include "traces/trace.h"
#include "waiting/clock.h"
#include "waiting/waiting.h"

#include <inttypes.h>
#include <pthread.h>
#include <stdlib.h>
#include <string.h>

enum { LEAST_RATE = 4, RATES = 4 };
static const uint64_t LONGEST = 60000000000; /* nanoseconds */

static uint32_t rate, most;
static _Atomic uint32_t passed;

static uint32_t read_number(const char *word, const char *end)
{
    size_t length = strspn(word, "0123456789");
    unsigned long number = strtoul(word, NULL, 10);
    demand(length > 0 && word + length == end && number >= 1 && number <= 1000000000,
        "WULGACH_TIMEOUTS is N or roll, and then maybe :MOST, of numbers from 1 to 1000000000");
    return (uint32_t)number;
}

static void read_environment(void)
{
    const char *word = getenv("WULGACH_TIMEOUTS");
    if (!word || !*word)
        return;
    const char *end = strchrnul(word, ':');
    bool is_rolled = end - word == 4 && strncmp(word, "roll", 4) == 0;
    rate = is_rolled ? (uint32_t)LEAST_RATE << 2 * drawn_apart(RATES) : read_number(word, end);
    most = *end ? read_number(end + 1, strchr(end, '\0')) : UINT32_MAX;
}

void read_passing_time(void)
{
    static pthread_once_t once = PTHREAD_ONCE_INIT;
    pthread_once(&once, read_environment);
}

static bool is_soon(const struct ring *ring, uint64_t at)
{
    return at <= ring->times.time || at - ring->times.time <= LONGEST;
}

/* What passes if time does, with what is told of it: the wait's time, if that is over before any
 * timeout's. A ring goes on, whatever waits, that has an eventfd on which its application may
 * sleep. */
static enum passing next_passing(const struct ring *ring, bool may_return, char *what, size_t size)
{
    struct wulgach_timeout timeout;
    bool has_timeout = find_next_timeout(ring, &timeout),
         has_limit = ring->waits_until.is_set && !may_return &&
                     wulgach_eventfd_may_leave(&ring->telling, ring->has_thread);
    bool is_wait = has_limit && (!has_timeout || ring->waits_until.at < timeout.expiry);
    if ((!has_timeout && !has_limit) ||
        !is_soon(ring, is_wait ? ring->waits_until.at : timeout.expiry))
        return NO_TIME_PASSES;
    if (is_wait)
        snprintf(what, size, "the wait's time is over");
    else
        snprintf(what, size, "time passes for request %" PRIu64, timeout.number);
    return is_wait ? THE_WAIT_ENDS : A_TIMEOUT_ENDS;
}

enum passing choose_passing(struct ring *ring, bool may_return)
{
    char what[64];
    if (!rate || is_time_real() || passed >= most)
        return NO_TIME_PASSES;
    enum passing passing = next_passing(ring, may_return, what, sizeof what);
    if (passing == NO_TIME_PASSES)
        return NO_TIME_PASSES;
    uint64_t at = count_choice();
    record_passing(ring, at);
    bool passes = choose(at, rate < 2 ? 2 : rate) == 1;
    if (passes)
        trace_note(ring, "choice %" PRIu64 " is 1 of 2: %s", at, what);
    record_choice(at, 2, passes, passes ? what : "no time passes");
    passed += passes;
    return passes ? passing : NO_TIME_PASSES;
}
