/* The plans: the two-valve plan of docs/two-valve.hex, an orchard of 16 modules, and one that fills the image. */
#ifndef PLAN_H
#define PLAN_H

#include <stdbool.h>
#include <stddef.h>
#include <stdint.h>

#include "pewterslug.h"

struct plan {
    const char *name;
    uint8_t image[PEWTERSLUG_IMAGE_LIMIT];
    size_t length;
    uint8_t modules;
    uint8_t supervisors;
    uint8_t events;
};

/* Builds the plan of that name. False, with the reason printed, if there is none or the engine does not accept it. */
bool plan_build(struct plan *plan, const char *name);

/* Appends one record; plan_build tells in the end whether one of them was refused. */
void plan_add(struct plan *plan, uint8_t kind, uint8_t first, uint8_t second, uint8_t third, uint8_t fourth, uint64_t word);

/* Appends the records of the orchard, and of the full plan. */
void orchard_add(struct plan *plan);
void full_add(struct plan *plan);

#endif
