/* The orchard plan, written record by record.
 *
 * Modules 0 and 1 are the pumps of two headers, 2 to 4 filters, 5 to 15 valves: 5 to 9 on the first header, 10 to 15 on the second.
 * Modules of one type have the same automaton and procedures, so that a type is a table and a module's events are the type's, counted from
 * a base of its own. Supervisors are described by what they count and become moves and disablings by walking all their states and events;
 * this gives the records in the ascending order that a plan must have.
 */
#include "plan.h"

enum { PUMPS = 2, FILTERS = 3, VALVES = 11, FIRST_HEADER_VALVES = 5, MODULES = PUMPS + FILTERS + VALVES };

/* Events, counted from the module's base. */
enum { PUMP_START, PUMP_DONE, PUMP_STOP, PUMP_TRIP, PUMP_EVENTS };
enum { FILTER_CLOGGED, FILTER_FLUSH, FILTER_FLUSHED, FILTER_EVENTS };
enum { VALVE_OPEN, VALVE_WATERED, VALVE_CLOSE, VALVE_BY_HAND, VALVE_EVENTS };
enum { FILTER_BASE = PUMPS * PUMP_EVENTS, VALVE_BASE = FILTER_BASE + FILTERS * FILTER_EVENTS, EVENTS = VALVE_BASE + VALVES * VALVE_EVENTS };

/* Operations, by names that are short enough for a table. */
enum {
    OUTPUT_ON = PEWTERSLUG_OPERATION_OUTPUT_ON,
    OUTPUT_OFF = PEWTERSLUG_OPERATION_OUTPUT_OFF,
    WAIT_TICKS = PEWTERSLUG_OPERATION_WAIT_TICKS,
    WAIT_LITRES = PEWTERSLUG_OPERATION_WAIT_LITRES,
    RESPOND = PEWTERSLUG_OPERATION_RESPOND
};

struct move {
    uint8_t from, event, to;
};

struct step {
    uint8_t event, operation;
    double amount; /* an output's number, ticks, litres, or the event that is responded */
};

struct type {
    uint8_t events, controllable; /* how many, and a bit for each that is controllable */
    uint8_t states, moves, steps;
    struct move move[5]; /* ascending by state, then event */
    struct step step[6]; /* ascending by event, in order of execution */
};

/* A pump is stopped (0), running (1), or has delivered (2). */
static const struct type pump = {
    PUMP_EVENTS, 1 << PUMP_START | 1 << PUMP_STOP, 3, 5, 6,
    {{0, PUMP_START, 1}, {1, PUMP_DONE, 2}, {1, PUMP_TRIP, 0}, {2, PUMP_STOP, 0}, {2, PUMP_TRIP, 0}},
    {{PUMP_START, OUTPUT_ON, 0}, {PUMP_START, WAIT_TICKS, 2}, {PUMP_START, WAIT_LITRES, 6.5}, {PUMP_START, RESPOND, PUMP_DONE},
     {PUMP_STOP, OUTPUT_OFF, 0}, {PUMP_STOP, WAIT_TICKS, 3}},
};

/* A filter is clean (0), being flushed (1), or clogged (2). */
static const struct type filter = {
    FILTER_EVENTS, 1 << FILTER_FLUSH, 3, 3, 4,
    {{0, FILTER_CLOGGED, 2}, {1, FILTER_FLUSHED, 0}, {2, FILTER_FLUSH, 1}},
    {{FILTER_FLUSH, OUTPUT_ON, 1}, {FILTER_FLUSH, WAIT_TICKS, 4}, {FILTER_FLUSH, OUTPUT_OFF, 1}, {FILTER_FLUSH, RESPOND, FILTER_FLUSHED}},
};

/* A valve is shut (0), open (1), or open with its row watered (2). It may be shut by hand at any time. */
static const struct type valve = {
    VALVE_EVENTS, 1 << VALVE_OPEN | 1 << VALVE_CLOSE, 3, 5, 5,
    {{0, VALVE_OPEN, 1}, {1, VALVE_WATERED, 2}, {1, VALVE_BY_HAND, 0}, {2, VALVE_CLOSE, 0}, {2, VALVE_BY_HAND, 0}},
    {{VALVE_OPEN, OUTPUT_ON, 0}, {VALVE_OPEN, WAIT_LITRES, 2.5}, {VALVE_OPEN, RESPOND, VALVE_WATERED},
     {VALVE_CLOSE, OUTPUT_OFF, 0}, {VALVE_CLOSE, WAIT_TICKS, 1}},
};

static const struct type *type_of(unsigned module)
{
    return module < PUMPS ? &pump : module < PUMPS + FILTERS ? &filter : &valve;
}

static unsigned base_of(unsigned module)
{
    if (module < PUMPS)
        return module * PUMP_EVENTS;
    if (module < PUMPS + FILTERS)
        return FILTER_BASE + (module - PUMPS) * FILTER_EVENTS;
    return VALVE_BASE + (module - PUMPS - FILTERS) * VALVE_EVENTS;
}

/* The mask of one event of the modules from first to below last. */
static uint64_t events_of(unsigned first, unsigned last, unsigned event)
{
    uint64_t mask = 0;
    for (unsigned module = first; module < last; module++)
        mask |= UINT64_C(1) << (base_of(module) + event);
    return mask;
}

/* A supervisor that counts. Its state is the count, twice that and a bit for whether the pump runs where it watches one. */
struct rule {
    unsigned most;            /* the highest count; there the events of up are disabled */
    uint64_t up, down;        /* what raises the count and what lowers it */
    uint64_t start, stop;     /* what starts the pump it watches and what stops it; 0 where it watches none */
    uint64_t needs_some;      /* disabled while the count is 0 */
    uint64_t needs_none;      /* disabled while the count is not 0 */
    uint64_t not_the_last;    /* disabled while the count is 1 and the pump runs */
};

/* A pump starts only while a valve of its header is open; the last open one does not close while the pump runs; at most two are open. */
static struct rule header_rule(unsigned which)
{
    unsigned first = PUMPS + FILTERS + (which == 0 ? 0 : FIRST_HEADER_VALVES);
    unsigned last = which == 0 ? PUMPS + FILTERS + FIRST_HEADER_VALVES : MODULES;
    struct rule rule = {.most = 2};
    rule.up = events_of(first, last, VALVE_OPEN);
    rule.down = events_of(first, last, VALVE_CLOSE) | events_of(first, last, VALVE_BY_HAND);
    rule.start = events_of(which, which + 1, PUMP_START);
    rule.stop = events_of(which, which + 1, PUMP_STOP) | events_of(which, which + 1, PUMP_TRIP);
    rule.needs_some = rule.start;
    rule.not_the_last = events_of(first, last, VALVE_CLOSE);
    return rule;
}

/* At most so many of some filters are flushed at a time; a pump that they serve does not start meanwhile. */
static struct rule flush_rule(unsigned first, unsigned last, unsigned most, uint64_t pump_start)
{
    struct rule rule = {.most = most, .needs_none = pump_start};
    rule.up = events_of(first, last, FILTER_FLUSH);
    rule.down = events_of(first, last, FILTER_FLUSHED);
    return rule;
}

/* At most so many of some valves are open at a time. */
static struct rule valves_rule(unsigned first, unsigned last, unsigned most)
{
    struct rule rule = {.most = most};
    rule.up = events_of(first, last, VALVE_OPEN);
    rule.down = events_of(first, last, VALVE_CLOSE) | events_of(first, last, VALVE_BY_HAND);
    return rule;
}

/* The well feeds one pump at a time. */
static struct rule well_rule(void)
{
    struct rule rule = {.most = 1};
    rule.up = events_of(0, PUMPS, PUMP_START);
    rule.down = events_of(0, PUMPS, PUMP_STOP) | events_of(0, PUMPS, PUMP_TRIP);
    return rule;
}

enum { HEADER_RULES = 2, PAIRS = 5, SUPERVISORS = HEADER_RULES + 5 + PAIRS };

static struct rule rule_of(unsigned supervisor)
{
    const unsigned filters = PUMPS, valves = PUMPS + FILTERS;
    switch (supervisor) {
    case 0:
    case 1:
        return header_rule(supervisor);
    case 2: /* only one filter is flushed at a time */
        return flush_rule(filters, filters + 3, 1, 0);
    case 3:
        return flush_rule(filters, filters + 2, 2, events_of(0, 1, PUMP_START));
    case 4:
        return flush_rule(filters + 1, filters + 3, 2, events_of(1, 2, PUMP_START));
    case 5:
        return well_rule();
    case 6: /* the main feeds three rows */
        return valves_rule(valves, MODULES, 3);
    default: /* two rows side by side are not watered together */
        return valves_rule(valves + 2 * (supervisor - 7), valves + 2 * (supervisor - 7) + 2, 1);
    }
}

static uint64_t alphabet(const struct rule *rule)
{
    return rule->up | rule->down | rule->start | rule->stop | rule->needs_some | rule->needs_none | rule->not_the_last;
}

static unsigned states(const struct rule *rule)
{
    return (rule->most + 1) * (rule->start != 0 ? 2 : 1);
}

/* The state after an event; the same state where the supervisor has no move by it and so needs no record. */
static unsigned after(const struct rule *rule, unsigned state, unsigned event)
{
    uint64_t bit = UINT64_C(1) << event;
    unsigned pumps = rule->start != 0 ? 2 : 1;
    unsigned count = state / pumps;
    unsigned running = state % pumps;
    if ((rule->up & bit) != 0 && count < rule->most)
        count++;
    if ((rule->down & bit) != 0 && count > 0)
        count--;
    if ((rule->start & bit) != 0)
        running = 1;
    if ((rule->stop & bit) != 0)
        running = 0;
    return count * pumps + running;
}

static uint64_t disabled(const struct rule *rule, unsigned state)
{
    unsigned pumps = rule->start != 0 ? 2 : 1;
    unsigned count = state / pumps;
    uint64_t mask = 0;
    if (count == rule->most)
        mask |= rule->up;
    mask |= count == 0 ? rule->needs_some : rule->needs_none;
    if (count == 1 && state % pumps == 1)
        mask |= rule->not_the_last;
    return mask;
}

static void add_modules(struct plan *plan)
{
    for (unsigned module = 0; module < MODULES; module++)
        for (unsigned event = 0; event < type_of(module)->events; event++)
            plan_add(plan, PEWTERSLUG_RECORD_EVENT, (uint8_t)(base_of(module) + event), (uint8_t)module,
                     type_of(module)->controllable >> event & 1, 0, 0);
    for (unsigned module = 0; module < MODULES; module++)
        plan_add(plan, PEWTERSLUG_RECORD_MODULE, (uint8_t)module, type_of(module)->states, 0, 0, 0);
    for (unsigned module = 0; module < MODULES; module++)
        for (unsigned i = 0; i < type_of(module)->moves; i++) {
            const struct move *move = &type_of(module)->move[i];
            plan_add(plan, PEWTERSLUG_RECORD_MODULE_MOVE, (uint8_t)module, move->from, (uint8_t)(base_of(module) + move->event), move->to, 0);
        }
}

static void add_supervisors(struct plan *plan)
{
    struct rule rules[SUPERVISORS];
    for (unsigned number = 0; number < SUPERVISORS; number++) {
        rules[number] = rule_of(number);
        plan_add(plan, PEWTERSLUG_RECORD_SUPERVISOR, (uint8_t)number, (uint8_t)states(&rules[number]), 0, 0, alphabet(&rules[number]));
    }
    for (unsigned number = 0; number < SUPERVISORS; number++)
        for (unsigned state = 0; state < states(&rules[number]); state++)
            for (unsigned event = 0; event < EVENTS; event++) {
                unsigned next = after(&rules[number], state, event);
                if (next != state)
                    plan_add(plan, PEWTERSLUG_RECORD_SUPERVISOR_MOVE, (uint8_t)number, (uint8_t)state, (uint8_t)event, (uint8_t)next, 0);
            }
    for (unsigned number = 0; number < SUPERVISORS; number++)
        for (unsigned state = 0; state < states(&rules[number]); state++)
            if (disabled(&rules[number], state) != 0)
                plan_add(plan, PEWTERSLUG_RECORD_DISABLING, (uint8_t)number, (uint8_t)state, 0, 0, disabled(&rules[number], state));
}

/* The operand of a step: litres as their word, an event by its number in the plan, anything else as it stands. */
static uint64_t operand(const struct step *step, unsigned base)
{
    if (step->operation == WAIT_LITRES)
        return pewterslug_litres_word(step->amount);
    return (uint64_t)step->amount + (step->operation == RESPOND ? base : 0);
}

static void add_procedures(struct plan *plan)
{
    for (unsigned module = 0; module < MODULES; module++) {
        const struct type *type = type_of(module);
        uint8_t index = 0;
        for (unsigned i = 0; i < type->steps; i++) {
            const struct step *step = &type->step[i];
            index = i > 0 && type->step[i - 1].event == step->event ? (uint8_t)(index + 1) : 0;
            plan_add(plan, PEWTERSLUG_RECORD_STEP, (uint8_t)(base_of(module) + step->event), index, step->operation, 0,
                     operand(step, base_of(module)));
        }
    }
}

void orchard_add(struct plan *plan)
{
    plan_add(plan, PEWTERSLUG_RECORD_HEAD, MODULES, SUPERVISORS, EVENTS, 0, 0);
    add_modules(plan);
    add_supervisors(plan);
    add_procedures(plan);
    plan_add(plan, PEWTERSLUG_RECORD_END, 0, 0, 0, 0, 0);
}
