/* The plant beside one module: what it may report, and the flow readings. */
#ifndef PLANT_H
#define PLANT_H

#include "chance.h"
#include "plan.h"

struct plant {
    uint64_t uncontrollable, controllable; /* the module's own events */
    uint64_t listed[32];                   /* the uncontrollable ones with a move, by state of the module */
    uint64_t soon[32];                     /* those without one, but with one in a state that a move leads to */
    bool procedures;                       /* some command of the module has steps */
};

enum plant_act { PLANT_RESPONDS, PLANT_TICKS };

struct happening {
    enum plant_act act;
    unsigned times; /* how often in a row */
    uint8_t event;
    uint8_t sensor;
    double litres;
};

/* Reads the module's uncontrollable events and moves from the image. */
void plant_start(struct plant *plant, const struct plan *plan, uint8_t module);

/* What the plant sees of its module. */
struct view {
    uint8_t state;
    uint64_t waiting; /* the responses that are queued */
    bool running;     /* a procedure runs */
};

/* What happens next, at random: mostly what can happen there, now and then what can only happen soon, or not at all. */
struct happening plant_happens(const struct plant *plant, struct view view, struct chance *chance);

#endif
