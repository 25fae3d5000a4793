/* The record of a run, and its comparison with one device.
 *
 * Why the order of the reports is a valid one. The promise is about a list: calls one after another, each delivery after the step that sent
 * the message. Here calls of different devices run at the same time, and to compare them a list is needed that could have been this run.
 * - A call touches the bytes of its own party and nothing else, so two calls of different parties may stand in either order in the list, as
 *   long as a message is delivered after it is sent and each party's calls keep their order.
 * - A module that took a turn, a response or a tick reports it and does nothing until the recorder has answered: its releases are not on
 *   the wire yet and it makes no other call. Nobody can have seen anything of that call before the recorder handled it. So the call may be
 *   placed in the list at the moment when the recorder handled it. A supervisor's permit is placed likewise.
 * - Every other call (a delivery, a bid, a step that waits) is placed where it happened.
 * Each party's calls are then in their own order, and each message is sent before it is delivered. It is a list as the promise has it, with
 * the same answers and states as in the run, and its turns, responses and ticks stand in the order in which the recorder handled them. The
 * promise must hold for it; that other interleavings would have given other lists does not matter, since it holds for each.
 */
#include "recorder.h"

#include <poll.h>
#include <stdarg.h>
#include <stdio.h>
#include <string.h>
#include <time.h>

#include "link.h"

struct recorder {
    const struct run *run;
    int *links;
    uint8_t device[PEWTERSLUG_DEVICE_BYTES];
    int64_t last_turn; /* milliseconds; used for giving up, never for what is compared */
    uint64_t turns, events, responses, ticks, refused, permits;
    uint64_t past;    /* turns in which a response fired past others that wait ahead of it */
    uint64_t between; /* turns in which a command fired while responses wait */
    uint8_t most;     /* that ever waited in one queue */
    uint64_t left, sent, delivered, differences;
    struct report wire;
};

static void differs(struct recorder *recorder, const char *format, ...)
{
    va_list rest;
    va_start(rest, format);
    printf("difference: ");
    vprintf(format, rest);
    printf("\n");
    va_end(rest);
    recorder->differences++;
}

static const char *kind(int party)
{
    return party < PARTY_SUPERVISOR ? "module" : party < PARTY_WIRE ? "supervisor" : "wire";
}

static int number(int party)
{
    return party < PARTY_SUPERVISOR ? party : party < PARTY_WIRE ? party - PARTY_SUPERVISOR : 0;
}

/* The lower half of an answer is the refusal's number, what was done and of what. The upper half is the length, which on many devices
 * counts the releases too. */
static void compare_answer(struct recorder *recorder, int module, const char *call, const struct report *report, uint64_t one)
{
    uint32_t many = (uint32_t)report->answer;
    const uint8_t *own = pewterslug_own_part(recorder->device, (uint8_t)module);
    if (pewterslug_own_queued(own) > recorder->most)
        recorder->most = pewterslug_own_queued(own);
    if (many != (uint32_t)one)
        differs(recorder, "%s of module %d: many devices number %d, did %d of %d; one device number %d, did %d of %d", call, module,
                pewterslug_number(many), pewterslug_did(many), pewterslug_value(many), pewterslug_number(one), pewterslug_did(one),
                pewterslug_value(one));
    else if (memcmp(report->state, own, PEWTERSLUG_OWN_BYTES) != 0)
        differs(recorder, "%s of module %d: the module's state after it", call, module);
}

static void took_turn(struct recorder *recorder, int module, const struct report *report)
{
    const struct plan *plan = &recorder->run->plan;
    const uint8_t *own = pewterslug_own_part(recorder->device, (uint8_t)module);
    uint8_t queued = pewterslug_own_queued(own), head = pewterslug_own_response(own, 0);
    uint64_t one = pewterslug_device_turn(plan->image, plan->length, recorder->device, sizeof recorder->device, (uint8_t)module);
    compare_answer(recorder, module, "turn", report, one);
    recorder->turns++;
    if (pewterslug_did(one) != PEWTERSLUG_EVENT)
        return;
    recorder->events++;
    if (pewterslug_own_queued(own) < queued)
        recorder->past += pewterslug_value(one) != head;
    else
        recorder->between += queued > 0;
}

static void responded(struct recorder *recorder, int module, const struct report *report)
{
    const struct plan *plan = &recorder->run->plan;
    uint64_t one = pewterslug_device_respond(plan->image, plan->length, recorder->device, sizeof recorder->device, (uint8_t)module,
                                             report->event);
    compare_answer(recorder, module, "response", report, one);
    recorder->responses++;
    recorder->refused += pewterslug_number(one) != 0;
}

static void ticked(struct recorder *recorder, int module, const struct report *report)
{
    const struct plan *plan = &recorder->run->plan;
    uint64_t one = pewterslug_device_tick(plan->image, plan->length, recorder->device, sizeof recorder->device, (uint8_t)module,
                                          report->sensor, report->litres);
    compare_answer(recorder, module, "tick", report, one);
    recorder->ticks++;
    recorder->refused += pewterslug_number(one) != 0;
}

/* A supervisor whose permit is home stands where the record puts it. */
static void compare_supervisor(struct recorder *recorder, int supervisor, const struct report *report)
{
    uint8_t one = pewterslug_device_supervisor_state(recorder->device, (uint8_t)supervisor);
    uint8_t many = pewterslug_supervisor_state(report->state);
    if (many != one)
        differs(recorder, "state of supervisor %d: %d, one device %d", supervisor, many, one);
}

/* A party that has left holds no permit, waits for none and has none noted. */
static void party_left(struct recorder *recorder, int party, const struct report *report)
{
    recorder->left++;
    recorder->links[party] = -1;
    if (party == PARTY_WIRE) {
        recorder->wire = *report;
        return;
    }
    recorder->sent += report->sent;
    recorder->delivered += report->delivered;
    if (party >= PARTY_SUPERVISOR) {
        compare_supervisor(recorder, number(party), report);
        if (pewterslug_supervisor_noted(report->state) != 0 || pewterslug_supervisor_permit_is_out(report->state) ||
            pewterslug_supervisor_holder(report->state) != 0)
            differs(recorder, "supervisor %d has a bid noted or its permit out at the end", number(party));
        return;
    }
    if (memcmp(report->state, pewterslug_own_part(recorder->device, (uint8_t)party), PEWTERSLUG_OWN_BYTES) != 0)
        differs(recorder, "state of module %d at the end", party);
    if (pewterslug_module_permits(report->state) != 0 || pewterslug_module_received(report->state) != 0 ||
        pewterslug_module_has_bid(report->state))
        differs(recorder, "module %d has a permit or a bid at the end", party);
}

static int64_t milliseconds(void)
{
    struct timespec now;
    clock_gettime(CLOCK_MONOTONIC, &now);
    return (int64_t)now.tv_sec * 1000 + now.tv_nsec / 1000000;
}

static void handle(struct recorder *recorder, int party, const struct report *report)
{
    switch (report->call) {
    case CALL_TURN:
        took_turn(recorder, party, report);
        recorder->last_turn = milliseconds();
        break;
    case CALL_RESPONSE:
        responded(recorder, party, report);
        break;
    case CALL_TICK:
        ticked(recorder, party, report);
        break;
    case CALL_PERMIT:
        compare_supervisor(recorder, number(party), report);
        recorder->permits++;
        break;
    case CALL_REFUSED:
        differs(recorder, "%s %d refuses a delivery or a step: %s", kind(party), number(party),
                pewterslug_refusal_text(pewterslug_number(report->answer)));
        break;
    case CALL_LEAVES:
        party_left(recorder, party, report);
        break;
    }
}

static void listen_to(struct recorder *recorder, int party)
{
    int link = recorder->links[party]; /* a party that leaves is struck from the links */
    uint8_t answer = recorder->turns >= recorder->run->turns ? STOP : GO_ON;
    struct report report;
    if (!link_read(link, &report, sizeof report)) {
        differs(recorder, "%s %d ended before it left the wire", kind(party), number(party));
        return;
    }
    handle(recorder, party, &report);
    if (recorder->differences == 0)
        link_write(link, &answer, 1);
}

static void listen_once(struct recorder *recorder)
{
    struct pollfd waiting[PARTIES];
    for (int party = 0; party < PARTIES; party++)
        waiting[party] = (struct pollfd){.fd = recorder->links[party], .events = POLLIN};
    poll(waiting, PARTIES, 100);
    for (int party = 0; party < PARTIES && recorder->differences == 0; party++)
        if (recorder->links[party] >= 0 && waiting[party].revents != 0)
            listen_to(recorder, party);
    if (recorder->differences == 0 && milliseconds() - recorder->last_turn > recorder->run->patience * INT64_C(1000))
        differs(recorder, "no progress: no turn in %d seconds", recorder->run->patience);
}

/* What must hold of the run as a whole: nothing lost, and a wire that did delay and reorder. */
static void judge(struct recorder *recorder)
{
    const struct report *wire = &recorder->wire;
    if (recorder->sent != wire->sent || wire->sent != wire->delivered || wire->delivered != recorder->delivered)
        differs(recorder, "messages: %llu sent, %llu on the wire, %llu delivered", (unsigned long long)recorder->sent,
                (unsigned long long)wire->sent, (unsigned long long)recorder->delivered);
    if (wire->delayed == 0 || wire->reordered == 0)
        differs(recorder, "the wire delayed or reordered nothing, so that the run shows nothing");
    if (recorder->turns < recorder->run->turns)
        differs(recorder, "only %llu turns", (unsigned long long)recorder->turns);
}

static void print(const struct recorder *recorder)
{
    const struct plan *plan = &recorder->run->plan;
    const struct report *wire = &recorder->wire;
    printf("plan %s: %zu bytes, %d modules, %d supervisors, %d events; seed %llu\n", plan->name, plan->length, plan->modules,
           plan->supervisors, plan->events, (unsigned long long)recorder->run->seed);
    printf("turns: %llu, with %llu events fired, %llu none\n", (unsigned long long)recorder->turns, (unsigned long long)recorder->events,
           (unsigned long long)(recorder->turns - recorder->events));
    printf("early: %llu commands while responses waited; %llu responses past others; at most %d waiting\n",
           (unsigned long long)recorder->between, (unsigned long long)recorder->past, recorder->most);
    printf("plant: %llu responses, %llu ticks, %llu refusals\n", (unsigned long long)recorder->responses,
           (unsigned long long)recorder->ticks, (unsigned long long)recorder->refused);
    printf("messages: %llu sent; deliveries: %llu delayed, %llu reordered, %llu past one of the same two parties\n",
           (unsigned long long)recorder->sent, (unsigned long long)wire->delayed, (unsigned long long)wire->reordered,
           (unsigned long long)wire->overtook);
    printf("supervisors: %llu states compared before a permit\n", (unsigned long long)recorder->permits);
    printf("wire: %llu turns compared, %llu differences\n", (unsigned long long)recorder->turns,
           (unsigned long long)recorder->differences);
}

bool recorder_process(const struct run *run, int links[PARTIES])
{
    struct recorder recorder = {.run = run, .links = links, .last_turn = milliseconds()};
    uint64_t parties = (uint64_t)run->plan.modules + run->plan.supervisors + 1;
    uint64_t answer = pewterslug_device_start(run->plan.image, run->plan.length, recorder.device, sizeof recorder.device);
    if (pewterslug_number(answer) != 0)
        differs(&recorder, "one device does not start: %s", pewterslug_refusal_text(pewterslug_number(answer)));
    while (recorder.left < parties && recorder.differences == 0)
        listen_once(&recorder);
    if (recorder.differences == 0)
        judge(&recorder);
    print(&recorder);
    return recorder.differences == 0;
}
