/* The policy pct: each chain, each loose request and the application draw a priority, and of those
 * that can go on the highest goes. At DEPTH - 1 choices, which are rolled too, the one that would
 * go falls below all others. If a bug needs DEPTH orders to be as they are, a run with n that draw
 * and k choices shows it with a chance of 1 / (n * k^(DEPTH - 1)) at least: Burckhardt, Kothari,
 * Musuvathi, Nagarakatte, A randomized scheduler with probabilistic guarantees of finding bugs,
 * 2010.
 */
#ifndef PRIORITIES_H
#define PRIORITIES_H

#include <stdbool.h>
#include <stdint.h>

/* Who draws a priority: the application, or a chain by its ring and its first member. A loose
 * request is a chain of one. */
struct player {
    bool is_application;
    uint32_t ring;
    uint64_t chain;
};

/* Draws by this seed; `choices` is about how many the run will make. Both are 1 at least. */
void draw_priorities(uint64_t seed, uint64_t depth, uint64_t choices);

/* What follows is called with choices locked (policy.h). */

/* The higher goes first. No two that play have the same, but for a chance of 2^-63. */
uint64_t priority_of(struct player player);

/* Whether the one that would go at this choice falls. */
bool falls_at(uint64_t choice);
void let_fall(uint64_t choice, struct player player);

#endif
