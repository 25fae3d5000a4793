#include "chance.h"

#include <sched.h>

/* The generator is splitmix64: one addition and three mixings, and any state is a good one. */
static uint64_t next(struct chance *chance)
{
    chance->state += UINT64_C(0x9E3779B97F4A7C15);
    uint64_t mixed = chance->state;
    mixed = (mixed ^ (mixed >> 30)) * UINT64_C(0xBF58476D1CE4E5B9);
    mixed = (mixed ^ (mixed >> 27)) * UINT64_C(0x94D049BB133111EB);
    return mixed ^ (mixed >> 31);
}

void chance_start(struct chance *chance, uint64_t seed, unsigned number)
{
    chance->state = seed;
    chance->state = next(chance) + number;
    chance->state = next(chance);
}

uint32_t chance_below(struct chance *chance, uint32_t bound)
{
    return (uint32_t)((next(chance) >> 32) % bound);
}

bool chance_one_in(struct chance *chance, uint32_t count)
{
    return chance_below(chance, count) == 0;
}

void chance_doze(struct chance *chance)
{
    for (uint32_t yields = chance_below(chance, 3); yields > 0; yields--)
        sched_yield();
}
