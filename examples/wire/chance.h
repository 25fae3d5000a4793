/* Random numbers from a seed. Every process has its own sequence, derived from the seed of the run and the process's number, so that what
 * a process would choose does not depend on how the processes interleave. */
#ifndef CHANCE_H
#define CHANCE_H

#include <stdbool.h>
#include <stdint.h>

struct chance {
    uint64_t state;
};

void chance_start(struct chance *chance, uint64_t seed, unsigned number);

/* A number from 0 to below bound; bound is not 0. */
uint32_t chance_below(struct chance *chance, uint32_t bound);

bool chance_one_in(struct chance *chance, uint32_t count);

/* Gives up the processor a random number of times: a device wakes when it likes. */
void chance_doze(struct chance *chance);

#endif
