#include "plant.h"

#include <string.h>

static void note_event(struct plant *plant, uint8_t event, uint8_t class)
{
    *(class == PEWTERSLUG_CLASS_CONTROLLABLE ? &plant->controllable : &plant->uncontrollable) |= UINT64_C(1) << event;
}

/* Notes a record; `leads` has the states that a move leads to, by the state that it starts from. */
static void note(struct plant *plant, uint32_t leads[32], const uint8_t *record, uint8_t module)
{
    if (record[0] == PEWTERSLUG_RECORD_EVENT && record[2] == module)
        note_event(plant, record[1], record[3]);
    if (record[0] == PEWTERSLUG_RECORD_MODULE_MOVE && record[1] == module) {
        plant->listed[record[2]] |= plant->uncontrollable & UINT64_C(1) << record[3];
        leads[record[2]] |= UINT32_C(1) << record[4];
    }
    if (record[0] == PEWTERSLUG_RECORD_STEP && (plant->controllable >> record[1] & 1) != 0)
        plant->procedures = true;
}

static void note_soon(struct plant *plant, const uint32_t leads[32])
{
    for (unsigned state = 0; state < 32; state++) {
        for (unsigned next = 0; next < 32; next++)
            if ((leads[state] >> next & 1) != 0)
                plant->soon[state] |= plant->listed[next];
        plant->soon[state] &= ~plant->listed[state];
    }
}

/* The plan is accepted, so that events stand before moves and every number is in its range. */
void plant_start(struct plant *plant, const struct plan *plan, uint8_t module)
{
    size_t place = 0;
    uint32_t leads[32] = {0};
    memset(plant, 0, sizeof *plant);
    while (place < plan->length) {
        uint64_t answer = pewterslug_read_record(plan->image, plan->length, place);
        if (pewterslug_number(answer) != 0)
            return;
        note(plant, leads, plan->image + place, module);
        place += pewterslug_length(answer);
    }
    note_soon(plant, leads);
}

/* One of a mask's events at random; the mask is not 0. */
static uint8_t one_of(uint64_t mask, struct chance *chance)
{
    uint8_t event;
    do
        event = (uint8_t)chance_below(chance, PEWTERSLUG_EVENT_LIMIT);
    while ((mask >> event & 1) == 0);
    return event;
}

/* Mostly a few eighths of a litre, at times the sensor's full range, a missing sensor, or a reading that must be refused. */
static struct happening tick(struct chance *chance)
{
    struct happening tick = {.act = PLANT_TICKS, .times = 1, .sensor = 1};
    switch (chance_below(chance, 64)) {
    case 0:
        tick.litres = 0.1;
        break;
    case 1:
        tick.litres = 64.125;
        break;
    case 2:
        tick.litres = chance_below(chance, 513) / 8.0;
        break;
    case 3:
    case 4:
    case 5:
        tick.sensor = 0;
        break;
    default:
        tick.litres = chance_below(chance, 17) / 8.0;
    }
    return tick;
}

/* While a procedure runs, the response that it waits for is mostly its own; at other times the plant reports by itself.
 *
 * A contact that closes early reports what the module will expect after one move more, and once: it waits in the queue until then. Reports at
 * random would not do. What the module never expects waits for ever, and eight of those fill the queue: what it does expect is then refused,
 * and a procedure at a respond step goes no further. So a contact chatters only where the module has no procedure, and with
 * what the module expects here or after one move more. */
struct happening plant_happens(const struct plant *plant, struct view view, struct chance *chance)
{
    struct happening response = {.act = PLANT_RESPONDS, .times = 1};
    uint64_t here = plant->listed[view.state], soon = plant->soon[view.state];
    uint32_t often = (here & view.waiting) != 0 ? 0 : view.running ? 10 : 80;
    uint32_t kind = chance_below(chance, 512);
    if (kind < often && here != 0) {
        response.event = one_of(here, chance);
    } else if (kind >= 480 && soon != 0 && view.waiting == 0) { /* early */
        response.event = one_of(soon, chance);
    } else if (kind == 479 && (here | soon) != 0 && !plant->procedures) { /* chatters: more than the queue holds */
        response.event = one_of(here | soon, chance);
        response.times = 10;
    } else if (kind == 478) { /* mostly not an event of this module: refused */
        response.event = (uint8_t)chance_below(chance, 256);
    } else {
        return tick(chance);
    }
    return response;
}
