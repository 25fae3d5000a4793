/* A module's device. It keeps the module's state bytes and nothing else of the engine's. */
#include <stdlib.h>
#include <string.h>
#include <sys/socket.h>

#include "chance.h"
#include "link.h"
#include "plant.h"
#include "run.h"

struct module {
    const struct run *run;
    uint8_t number;
    int wire, recorder;
    struct chance chance;
    struct plant plant;
    uint8_t state[PEWTERSLUG_MODULE_BYTES];
    uint64_t sent, delivered;
    bool stopping;
    /* for a module made wrong */
    uint8_t earlier[PEWTERSLUG_SUPERVISOR_LIMIT][8]; /* the masks of the permits before, by supervisor */
    uint32_t permitted; /* the supervisors that it had a permit of */
    bool turned; /* it has taken a turn */
};

static void report(struct module *module, struct report *report, enum call call, uint64_t answer)
{
    report->call = call;
    report->answer = answer;
    report->sent = module->sent;
    report->delivered = module->delivered;
    memcpy(report->state, module->state, sizeof module->state);
    if (report_to(module->recorder, report) == STOP)
        module->stopping = true;
}

static _Noreturn void refused(struct module *module, uint64_t answer)
{
    struct report fault = {0};
    report(module, &fault, CALL_REFUSED, answer);
    exit(EXIT_FAILURE);
}

static void put_on_wire(struct module *module, const uint8_t *message, size_t length)
{
    if (!link_send(module->wire, message, length))
        exit(EXIT_FAILURE);
    module->sent++;
}

static void deliver(struct module *module, const uint8_t *message, size_t length)
{
    const struct plan *plan = &module->run->plan;
    uint64_t answer = pewterslug_module_deliver(plan->image, plan->length, module->state, sizeof module->state, module->number, message,
                                                length);
    if (pewterslug_number(answer) != 0)
        refused(module, answer);
}

/* A module that keeps the mask of the permit before: only made so on purpose. */
static void use_old_mask(struct module *module, uint8_t *message)
{
    uint8_t mask[8];
    unsigned supervisor = message[1] % PEWTERSLUG_SUPERVISOR_LIMIT;
    memcpy(mask, message + 3, sizeof mask);
    if ((module->permitted >> supervisor & 1) != 0)
        memcpy(message + 3, module->earlier[supervisor], sizeof mask);
    memcpy(module->earlier[supervisor], mask, sizeof mask);
    module->permitted |= UINT32_C(1) << supervisor;
}

static void take_message(struct module *module)
{
    uint8_t message[PEWTERSLUG_MESSAGE_BYTES];
    size_t length = link_receive(module->wire, message);
    if (length == 0)
        exit(EXIT_FAILURE); /* the wire has left before this module did */
    if (module->run->broken == BREAK_OLD_MASK && length == PEWTERSLUG_MESSAGE_BYTES)
        use_old_mask(module, message);
    deliver(module, message, length);
    module->delivered++;
}

/* A module whose first turn is real and whose later turns only acknowledge: only made so on purpose. */
static uint64_t acknowledge(struct module *module, const uint8_t *before, uint64_t answer, uint8_t *releases)
{
    memcpy(module->state, before, PEWTERSLUG_OWN_BYTES);
    for (size_t place = 0; place < pewterslug_length(answer); place += PEWTERSLUG_RELEASE_BYTES)
        releases[place + 3] = PEWTERSLUG_NO_EVENT;
    return (answer & ~UINT64_C(0xFFFFFF00)) | PEWTERSLUG_NONE << 8;
}

/* A module that loses the head of its queue where it has no move by it: only made so on purpose. */
static void lose_early(struct module *module, const uint8_t *before)
{
    uint8_t queued = pewterslug_own_queued(before), *queue = module->state + 2;
    if (queued == 0 || pewterslug_own_queued(module->state) < queued)
        return;
    memmove(queue, queue + 1, PEWTERSLUG_QUEUE_LIMIT - 1);
    queue[PEWTERSLUG_QUEUE_LIMIT - 1] = 0;
    module->state[1]--;
}

/* The turn is reported and answered before the first release goes on the wire: see recorder.c for why this makes the record's order. */
static void took_turn(struct module *module, uint64_t answer, uint8_t *releases)
{
    struct report turn = {0};
    report(module, &turn, CALL_TURN, answer);
    for (size_t place = 0; place < pewterslug_length(answer); place += PEWTERSLUG_RELEASE_BYTES) {
        if (module->run->broken == BREAK_RELEASE_NONE)
            releases[place + 3] = PEWTERSLUG_NO_EVENT;
        put_on_wire(module, releases + place, PEWTERSLUG_RELEASE_BYTES); /* each release is a message by itself */
    }
}

/* A module that does not bid but writes the permit for itself: only made so on purpose. */
static void permit_itself(struct module *module, uint8_t supervisor)
{
    uint8_t permit[PEWTERSLUG_MESSAGE_BYTES];
    uint64_t answer = pewterslug_write_message(PEWTERSLUG_MESSAGE_PERMIT, supervisor, module->number, 0, 0, permit, sizeof permit);
    deliver(module, permit, pewterslug_length(answer));
}

static void step(struct module *module)
{
    const struct plan *plan = &module->run->plan;
    uint8_t buffer[PEWTERSLUG_STEP_BYTES], before[PEWTERSLUG_OWN_BYTES];
    uint64_t answer;
    memcpy(before, module->state, sizeof before);
    answer = pewterslug_module_step(plan->image, plan->length, module->state, sizeof module->state, module->number, buffer, sizeof buffer);
    if (pewterslug_number(answer) != 0)
        refused(module, answer);
    switch (pewterslug_did(answer)) {
    case PEWTERSLUG_EVENT:
    case PEWTERSLUG_NONE:
        if (module->run->broken == BREAK_ACKNOWLEDGE && module->turned)
            answer = acknowledge(module, before, answer, buffer);
        if (module->run->broken == BREAK_LOSE_EARLY)
            lose_early(module, before);
        module->turned = true;
        took_turn(module, answer, buffer);
        break;
    case PEWTERSLUG_BIDS:
        if (module->run->broken == BREAK_OWN_PERMIT && module->number == 0)
            permit_itself(module, pewterslug_value(answer));
        else
            put_on_wire(module, buffer, pewterslug_length(answer));
        break;
    default: /* waits */
        break;
    }
}

static void respond(struct module *module, const struct happening *happening)
{
    const struct plan *plan = &module->run->plan;
    struct report told = {.event = happening->event};
    uint64_t answer = pewterslug_module_respond(plan->image, plan->length, module->state, sizeof module->state, module->number,
                                                happening->event);
    report(module, &told, CALL_RESPONSE, answer);
}

static void tick(struct module *module, const struct happening *happening)
{
    const struct plan *plan = &module->run->plan;
    struct report told = {.sensor = happening->sensor, .litres = happening->litres};
    uint64_t answer = pewterslug_module_tick(plan->image, plan->length, module->state, sizeof module->state, module->number,
                                             happening->sensor, happening->litres);
    if (module->run->broken == BREAK_NO_WATER)
        memset(module->state + 23, 0, 8); /* where the total stands */
    report(module, &told, CALL_TICK, answer);
}

static void plant_acts(struct module *module)
{
    struct view view = {.state = pewterslug_own_state(module->state), .running = pewterslug_own_running(module->state)};
    struct happening happening;
    for (uint8_t index = 0; index < pewterslug_own_queued(module->state); index++)
        view.waiting |= UINT64_C(1) << pewterslug_own_response(module->state, index);
    happening = plant_happens(&module->plant, view, &module->chance);
    for (unsigned i = 0; i < happening.times; i++) {
        if (happening.act == PLANT_RESPONDS)
            respond(module, &happening);
        else
            tick(module, &happening);
    }
}

/* While a bid is outstanding every step waits, so the device mostly sleeps until a message comes, and at times the plant wakes it. */
static void wake(struct module *module)
{
    bool sleeps = pewterslug_module_has_bid(module->state) && (module->stopping || !chance_one_in(&module->chance, 4));
    chance_doze(&module->chance);
    if (sleeps || link_ready(module->wire))
        take_message(module);
    if (!module->stopping && chance_one_in(&module->chance, 2))
        plant_acts(module);
    if (module->stopping || chance_one_in(&module->chance, 2))
        step(module);
}

/* Once the recorder says stop, the module goes on only until it has no bid outstanding and no permit: it takes the turns that it has
 * begun to collect permits for, and bids for no other. Then nothing is addressed to it any more. */
void module_process(const struct run *run, uint8_t number, int wire, int recorder)
{
    struct module module = {.run = run, .number = number, .wire = wire, .recorder = recorder};
    struct report last = {0};
    uint64_t answer;
    chance_start(&module.chance, run->seed, number);
    plant_start(&module.plant, &run->plan, number);
    answer = pewterslug_module_start(run->plan.image, run->plan.length, number, module.state, sizeof module.state);
    if (pewterslug_number(answer) != 0)
        refused(&module, answer);
    while (!module.stopping || pewterslug_module_has_bid(module.state) || pewterslug_module_permits(module.state) != 0)
        wake(&module);
    shutdown(wire, SHUT_WR);
    report(&module, &last, CALL_LEAVES, 0);
}
