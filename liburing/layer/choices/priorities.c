/* Priorities are drawn when they are asked for: a hash of the seed and of who plays, so nothing is
 * kept of those that never fall.
 */
#include "choices/priorities.h"
#include "process/fault.h"

#include <stdlib.h>

/* One that falls: at which choice, and who, once it has. Its priority is its place, from 1, as in
 * the paper. */
struct fall {
    uint64_t choice;
    bool has_fallen;
    struct player player;
};

static struct {
    uint64_t seed;
    struct fall *falls;
    uint64_t count;
} drawn;

/* The output of splitmix64 for a state. */
static uint64_t mixed(uint64_t z)
{
    z += 0x9e3779b97f4a7c15u;
    z = (z ^ z >> 30) * 0xbf58476d1ce4e5b9u;
    z = (z ^ z >> 27) * 0x94d049bb133111ebu;
    return z ^ z >> 31;
}

void draw_priorities(uint64_t seed, uint64_t depth, uint64_t choices)
{
    drawn.seed = mixed(seed);
    drawn.count = depth - 1;
    drawn.falls = need_room(depth, sizeof *drawn.falls);
    for (uint64_t i = 0; i < drawn.count; i++)
        drawn.falls[i] = (struct fall){.choice = mixed(drawn.seed + i + 1) % choices};
}

static bool is_same(struct player one, struct player other)
{
    if (one.is_application || other.is_application)
        return one.is_application && other.is_application;
    return one.ring == other.ring && one.chain == other.chain;
}

uint64_t priority_of(struct player player)
{
    uint64_t place = 0;
    for (uint64_t i = 0; i < drawn.count; i++) {
        const struct fall *fall = &drawn.falls[i];
        /* (its last fall counts) */
        if (fall->has_fallen && is_same(fall->player, player) &&
            (place == 0 || fall->choice >= drawn.falls[place - 1].choice))
            place = i + 1;
    }
    if (place > 0)
        return place;
    uint64_t who = player.is_application ? 0 : mixed(player.ring + 1) ^ mixed(player.chain);
    return mixed(drawn.seed ^ who) | (uint64_t)1 << 63;
}

bool falls_at(uint64_t choice)
{
    for (uint64_t i = 0; i < drawn.count; i++)
        if (drawn.falls[i].choice == choice && !drawn.falls[i].has_fallen)
            return true;
    return false;
}

void let_fall(uint64_t choice, struct player player)
{
    for (uint64_t i = 0; i < drawn.count; i++) {
        struct fall *fall = &drawn.falls[i];
        if (fall->choice == choice && !fall->has_fallen) {
            fall->has_fallen = true;
            fall->player = player;
            return;
        }
    }
}
