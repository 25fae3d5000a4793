/* A plan that fills the image as far as whole records go. Two modules have all 32 supervisors as neighbours, so that a turn releases the
 * longest answer; every supervisor has all 64 states and events. It stands for no plant: it shows what the calls need at most. */
#include "plan.h"

enum { MODULES = 2, SUPERVISORS = PEWTERSLUG_SUPERVISOR_LIMIT, EVENTS = PEWTERSLUG_EVENT_LIMIT, MODULE_STATES = 32, SUPERVISOR_STATES = 64 };
enum { MOVE_BYTES = 5, END_BYTES = 1 };

/* Of each module, even events are controllable and odd ones not. */
static void add_modules(struct plan *plan)
{
    for (unsigned event = 0; event < EVENTS; event++)
        plan_add(plan, PEWTERSLUG_RECORD_EVENT, (uint8_t)event, (uint8_t)(event * MODULES / EVENTS), event % 2 == 0, 0, 0);
    for (unsigned module = 0; module < MODULES; module++)
        plan_add(plan, PEWTERSLUG_RECORD_MODULE, (uint8_t)module, MODULE_STATES, 0, 0, 0);
    for (unsigned module = 0; module < MODULES; module++)
        for (unsigned state = 0; state < MODULE_STATES; state++)
            for (unsigned event = 0; event < 2; event++)
                plan_add(plan, PEWTERSLUG_RECORD_MODULE_MOVE, (uint8_t)module, (uint8_t)state, (uint8_t)(module * EVENTS / MODULES + event),
                         (uint8_t)((state + 1) % MODULE_STATES), 0);
}

/* Moves of every state and event, until the image has room only for what follows them. */
static void add_moves(struct plan *plan, size_t reserved)
{
    for (unsigned number = 0; number < SUPERVISORS; number++)
        for (unsigned state = 0; state < SUPERVISOR_STATES; state++)
            for (unsigned event = 0; event < EVENTS; event++)
                if (plan->length + MOVE_BYTES + reserved <= sizeof plan->image)
                    plan_add(plan, PEWTERSLUG_RECORD_SUPERVISOR_MOVE, (uint8_t)number, (uint8_t)state, (uint8_t)event,
                             (uint8_t)((state + 1) % SUPERVISOR_STATES), 0);
}

void full_add(struct plan *plan)
{
    plan_add(plan, PEWTERSLUG_RECORD_HEAD, MODULES, SUPERVISORS, EVENTS, 0, 0);
    add_modules(plan);
    for (unsigned number = 0; number < SUPERVISORS; number++)
        plan_add(plan, PEWTERSLUG_RECORD_SUPERVISOR, (uint8_t)number, SUPERVISOR_STATES, 0, 0, UINT64_MAX);
    add_moves(plan, 2 * PEWTERSLUG_RECORD_BYTES + END_BYTES);
    plan_add(plan, PEWTERSLUG_RECORD_STEP, 0, 0, PEWTERSLUG_OPERATION_WAIT_LITRES, 0, pewterslug_litres_word(2.5));
    plan_add(plan, PEWTERSLUG_RECORD_STEP, 0, 1, PEWTERSLUG_OPERATION_RESPOND, 0, 1);
    plan_add(plan, PEWTERSLUG_RECORD_END, 0, 0, 0, 0, 0);
}
