/* A supervisor's device. It keeps the supervisor's state bytes and nothing else of the engine's. */
#include <stdlib.h>
#include <string.h>

#include "chance.h"
#include "link.h"
#include "run.h"

struct supervisor {
    const struct run *run;
    uint8_t number;
    int wire, recorder;
    struct chance chance;
    uint8_t state[PEWTERSLUG_SUPERVISOR_BYTES];
    uint64_t sent, delivered;
    bool waits; /* its last step waited, and nothing was delivered since */
    bool ended; /* the wire has delivered all there was */
};

static void report(struct supervisor *supervisor, enum call call, uint64_t answer)
{
    struct report report = {.call = call, .answer = answer, .sent = supervisor->sent, .delivered = supervisor->delivered};
    memcpy(report.state, supervisor->state, sizeof supervisor->state);
    report_to(supervisor->recorder, &report);
    if (call == CALL_REFUSED)
        exit(EXIT_FAILURE);
}

static void take_message(struct supervisor *supervisor)
{
    const struct plan *plan = &supervisor->run->plan;
    uint8_t message[PEWTERSLUG_MESSAGE_BYTES];
    size_t length = link_receive(supervisor->wire, message);
    uint64_t answer;
    if (length == 0) {
        supervisor->ended = true;
        return;
    }
    answer = pewterslug_supervisor_deliver(plan->image, plan->length, supervisor->state, sizeof supervisor->state, supervisor->number,
                                           message, length);
    if (pewterslug_number(answer) != 0)
        report(supervisor, CALL_REFUSED, answer);
    supervisor->delivered++;
    supervisor->waits = false;
}

/* The permit is reported and answered before it goes on the wire: until then nobody can fire an event of this supervisor's alphabet, so
 * its state must be exactly that of the one device. */
static void step(struct supervisor *supervisor)
{
    const struct plan *plan = &supervisor->run->plan;
    uint8_t buffer[PEWTERSLUG_STEP_BYTES];
    uint64_t answer = pewterslug_supervisor_step(plan->image, plan->length, supervisor->state, sizeof supervisor->state, supervisor->number,
                                                 buffer, sizeof buffer);
    if (pewterslug_number(answer) != 0)
        report(supervisor, CALL_REFUSED, answer);
    supervisor->waits = true; /* also after a permit: the next step can only wait for its release */
    if (pewterslug_did(answer) != PEWTERSLUG_SENDS)
        return;
    report(supervisor, CALL_PERMIT, answer);
    if (!link_send(supervisor->wire, buffer, pewterslug_length(answer)))
        exit(EXIT_FAILURE);
    supervisor->sent++;
}

void supervisor_process(const struct run *run, uint8_t number, int wire, int recorder)
{
    struct supervisor supervisor = {.run = run, .number = number, .wire = wire, .recorder = recorder};
    uint64_t answer = pewterslug_supervisor_start(run->plan.image, run->plan.length, number, supervisor.state, sizeof supervisor.state);
    chance_start(&supervisor.chance, run->seed, PARTY_SUPERVISOR + number);
    if (pewterslug_number(answer) != 0)
        report(&supervisor, CALL_REFUSED, answer);
    while (!supervisor.ended) {
        chance_doze(&supervisor.chance);
        if (supervisor.waits || (link_ready(wire) && chance_one_in(&supervisor.chance, 2)))
            take_message(&supervisor);
        if (chance_one_in(&supervisor.chance, 2))
            step(&supervisor);
    }
    report(&supervisor, CALL_LEAVES, 0);
}
