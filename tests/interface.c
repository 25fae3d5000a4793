/* The C interface from C, and from C++: the version; the two-valve plan (docs/two-valve.hex) on one device, then on many with the bytes of
 * each message, then refusals, whether a plan gets stuck and how many words it has, its check in pieces, and the plan as text; and what the
 * header itself has, its names, texts and what it reads from state bytes. tests/interface.sh compares what this prints with
 * tests/interface.expected. */
#include "pewterslug.h"

#include <inttypes.h>
#include <stdio.h>
#include <string.h>

static const uint8_t plan[] = {
    0x10, 0x02, 0x01, 0x04, 0x11, 0x00, 0x00, 0x01, 0x11, 0x01, 0x00, 0x00, 0x11, 0x02, 0x01, 0x01, 0x11, 0x03, 0x01, 0x00, 0x12,
    0x00, 0x02, 0x00, 0x12, 0x01, 0x02, 0x00, 0x13, 0x00, 0x00, 0x00, 0x01, 0x13, 0x00, 0x01, 0x01, 0x00, 0x13, 0x01, 0x00, 0x02,
    0x01, 0x13, 0x01, 0x01, 0x03, 0x00, 0x14, 0x00, 0x02, 0x00, 0x00, 0x00, 0x00, 0x00, 0x00, 0x00, 0x00, 0x0D, 0x15, 0x00, 0x00,
    0x02, 0x01, 0x15, 0x00, 0x01, 0x03, 0x00, 0x16, 0x00, 0x00, 0x00, 0x00, 0x00, 0x00, 0x00, 0x00, 0x00, 0x01, 0x1F,
};

/* One module whose command has a litres step of 8 litres. */
static const uint8_t water[] = {
    0x10, 0x01, 0x00, 0x01, 0x11, 0x00, 0x00, 0x01, 0x12, 0x00, 0x02, 0x00, 0x13, 0x00, 0x00, 0x00, 0x01,
    0x17, 0x00, 0x00, 0x04, 0x40, 0x20, 0x00, 0x00, 0x00, 0x00, 0x00, 0x00, 0x1F,
};

static void say(const char *what, uint64_t answer)
{
    if (pewterslug_number(answer) != 0)
        printf("%s: refused %u at %" PRIu32 "\n", what, pewterslug_number(answer), pewterslug_offset(answer));
    else
        printf("%s: did %u value %u length %" PRIu32 "\n", what, pewterslug_did(answer), pewterslug_value(answer),
               pewterslug_length(answer));
}

static void show(const char *what, const uint8_t *bytes, size_t length)
{
    printf("%s", what);
    for (size_t i = 0; i < length; i++)
        printf(" %02X", bytes[i]);
    printf("\n");
}

/* What the header reads from a module's own part. The whole queue is shown, also past its length. */
static void show_own(const char *what, const uint8_t *own)
{
    printf("%s: state %u, queued %u:", what, pewterslug_own_state(own), pewterslug_own_queued(own));
    for (uint8_t place = 0; place < PEWTERSLUG_QUEUE_LIMIT; place++)
        printf(" %02X", pewterslug_own_response(own, place));
    printf(", past it %02X %02X\n", pewterslug_own_response(own, PEWTERSLUG_QUEUE_LIMIT), pewterslug_own_response(own, 255));
    printf("  running %d, event %u, step %u, ticks %u, litres %016" PRIX64 " of %016" PRIX64 "\n", pewterslug_own_running(own),
           pewterslug_own_event(own), pewterslug_own_step(own), pewterslug_own_ticks(own),
           pewterslug_litres_word(pewterslug_own_total(own)), pewterslug_litres_word(pewterslug_own_target(own)));
    printf("  outputs %08" PRIX32 ", on:", pewterslug_own_outputs(own));
    for (unsigned output = 0; output < 256; output++)
        if (pewterslug_own_output(own, (uint8_t)output))
            printf(" %u", output);
    printf("\n");
}

static void show_module(const char *what, const uint8_t *module)
{
    show_own(what, module);
    printf("  permits %08" PRIX32 ", received %016" PRIX64 ", bid %d\n", pewterslug_module_permits(module),
           pewterslug_module_received(module), pewterslug_module_has_bid(module));
}

static void show_supervisor(const char *what, const uint8_t *supervisor)
{
    printf("%s: state %u, noted %04X, permit out %d, holder %u, last served %u\n", what, pewterslug_supervisor_state(supervisor),
           pewterslug_supervisor_noted(supervisor), pewterslug_supervisor_permit_is_out(supervisor),
           pewterslug_supervisor_holder(supervisor), pewterslug_supervisor_last_served(supervisor));
}

/* Says whether a refused call left the bytes as they were. */
static void left(const uint8_t *bytes, const uint8_t *before, size_t length)
{
    printf("  %s\n", memcmp(bytes, before, length) == 0 ? "bytes left as they were" : "BYTES CHANGED");
}

static void checks(void)
{
    static uint8_t long_image[PEWTERSLUG_IMAGE_LIMIT + 1];
    const uint8_t end[] = {0x1F};
    const uint8_t undeclared[] = {0x10, 0x01, 0x00, 0x01, 0x1F};
    const uint8_t unknown[] = {0x20};
    const uint8_t marking[] = {0x10, 0x01, 0x00, 0x01, 0x11, 0x00, 0x00, 0x00, 0x12, 0x00, 0x02, 0x00, 0x18, 0x00, 0x02, 0x1F};

    say("check P", pewterslug_check(plan, sizeof plan));
    say("check empty", pewterslug_check(plan, 0));
    say("check 1F", pewterslug_check(end, sizeof end));
    say("check 10 01 00 01 1F", pewterslug_check(undeclared, sizeof undeclared));
    say("check 20", pewterslug_check(unknown, sizeof unknown));
    say("check a marking of state 2 of 2", pewterslug_check(marking, sizeof marking));
    say("check 49153 zeros", pewterslug_check(long_image, sizeof long_image));
}

static void records(void)
{
    uint8_t buffer[PEWTERSLUG_RECORD_BYTES];
    uint8_t rewritten[sizeof plan];
    size_t at = 0;
    size_t count = 0;

    while (at < sizeof plan) {
        uint64_t answer = pewterslug_read_record(plan, sizeof plan, at);
        uint8_t kind = pewterslug_value(answer);
        const uint8_t *r = plan + at;
        uint32_t length = pewterslug_length(answer);
        uint64_t word = 0;
        uint64_t put;

        if (pewterslug_number(answer) != 0) {
            say("read", answer);
            return;
        }
        if (kind == PEWTERSLUG_RECORD_SUPERVISOR || kind == PEWTERSLUG_RECORD_DISABLING || kind == PEWTERSLUG_RECORD_STEP)
            word = pewterslug_word_at(r + length - 8);
        put = pewterslug_write_record(kind, length > 1 ? r[1] : 0, length > 2 ? r[2] : 0, length > 3 ? r[3] : 0,
                                      length > 4 ? r[4] : 0, word, buffer, sizeof buffer);
        if (pewterslug_number(put) != 0 || pewterslug_length(put) != length) {
            say("write", put);
            return;
        }
        memcpy(rewritten + at, buffer, length);
        at += length;
        count++;
    }
    printf("records %zu, written again %s\n", count, memcmp(plan, rewritten, sizeof plan) == 0 ? "as they are" : "OTHERWISE");
    say("read at the end", pewterslug_read_record(plan, sizeof plan, sizeof plan));
    say("write a head of 17 modules", pewterslug_write_record(PEWTERSLUG_RECORD_HEAD, 17, 0, 1, 0, 0, buffer, sizeof buffer));
    say("write kind 20", pewterslug_write_record(0x20, 0, 0, 0, 0, 0, buffer, sizeof buffer));
    say("write a step into 11 bytes",
        pewterslug_write_record(PEWTERSLUG_RECORD_STEP, 0, 0, PEWTERSLUG_OPERATION_OUTPUT_ON, 0, 0, buffer, 11));
}

static void one_device(void)
{
    uint8_t state[PEWTERSLUG_DEVICE_BYTES];
    uint8_t before[PEWTERSLUG_DEVICE_BYTES];

    say("start", pewterslug_device_start(plan, sizeof plan, state, sizeof state));
    say("t 0", pewterslug_device_turn(plan, sizeof plan, state, sizeof state, 0));
    say("t 1", pewterslug_device_turn(plan, sizeof plan, state, sizeof state, 1));
    say("t 0", pewterslug_device_turn(plan, sizeof plan, state, sizeof state, 0));
    say("r 1 3", pewterslug_device_respond(plan, sizeof plan, state, sizeof state, 1, 3));
    say("t 1", pewterslug_device_turn(plan, sizeof plan, state, sizeof state, 1));
    say("t 0", pewterslug_device_turn(plan, sizeof plan, state, sizeof state, 0));
    printf("states %u %u %u\n", pewterslug_own_state(pewterslug_own_part(state, 0)), pewterslug_own_state(pewterslug_own_part(state, 1)),
           pewterslug_device_supervisor_state(state, 0));

    memcpy(before, state, sizeof state);
    say("t 9", pewterslug_device_turn(plan, sizeof plan, state, sizeof state, 9));
    left(state, before, sizeof state);
    say("r 0 0", pewterslug_device_respond(plan, sizeof plan, state, sizeof state, 0, 0));
    left(state, before, sizeof state);
    state[10] = before[10] = 2;
    say("flag 2", pewterslug_device_turn(plan, sizeof plan, state, sizeof state, 0));
    left(state, before, sizeof state);
    say("591 bytes", pewterslug_device_turn(plan, sizeof plan, state, sizeof state - 1, 0));
    say("start into 591 bytes", pewterslug_device_start(plan, sizeof plan, state, sizeof state - 1));
    left(state, before, sizeof state);
}

static void litres(void)
{
    uint8_t state[PEWTERSLUG_DEVICE_BYTES];
    uint8_t before[PEWTERSLUG_DEVICE_BYTES];

    say("start", pewterslug_device_start(water, sizeof water, state, sizeof state));
    say("turn", pewterslug_device_turn(water, sizeof water, state, sizeof state, 0));
    say("tick 2.5", pewterslug_device_tick(water, sizeof water, state, sizeof state, 0, 1, 2.5));
    say("tick 0.125", pewterslug_device_tick(water, sizeof water, state, sizeof state, 0, 1, 0.125));
    say("tick without a sensor", pewterslug_device_tick(water, sizeof water, state, sizeof state, 0, 0, 0.1));
    show("target and total", state + 15, 16);
    printf("%g of %g litres\n", pewterslug_own_total(state), pewterslug_own_target(state));
    memcpy(before, state, sizeof state);
    say("tick 64.125", pewterslug_device_tick(water, sizeof water, state, sizeof state, 0, 1, 64.125));
    left(state, before, sizeof state);
    say("tick 0.1", pewterslug_device_tick(water, sizeof water, state, sizeof state, 0, 1, 0.1));
    left(state, before, sizeof state);
    say("tick 64", pewterslug_device_tick(water, sizeof water, state, sizeof state, 0, 1, 64.0));
    show("own part", state, 35);
}

static void many_devices(void)
{
    uint8_t module[PEWTERSLUG_MODULE_BYTES];
    uint8_t supervisor[PEWTERSLUG_SUPERVISOR_BYTES];
    uint8_t before[PEWTERSLUG_MODULE_BYTES];
    uint8_t wire[PEWTERSLUG_STEP_BYTES];
    uint64_t answer;

    say("start module 0", pewterslug_module_start(plan, sizeof plan, 0, module, sizeof module));
    say("start supervisor 0", pewterslug_supervisor_start(plan, sizeof plan, 0, supervisor, sizeof supervisor));
    show("module", module, sizeof module);
    show("supervisor", supervisor, sizeof supervisor);
    show_supervisor("supervisor", supervisor);

    memcpy(before, module, sizeof module);
    say("step into 2 bytes", pewterslug_module_step(plan, sizeof plan, module, sizeof module, 0, wire, 2));
    left(module, before, sizeof module);
    answer = pewterslug_module_step(plan, sizeof plan, module, sizeof module, 0, wire, sizeof wire);
    say("step", answer);
    show("bid", wire, pewterslug_length(answer));
    show_module("module", module);
    say("read", pewterslug_read_message(wire, pewterslug_length(answer)));
    say("deliver", pewterslug_supervisor_deliver(plan, sizeof plan, supervisor, sizeof supervisor, 0, wire, pewterslug_length(answer)));
    say("again", pewterslug_supervisor_deliver(plan, sizeof plan, supervisor, sizeof supervisor, 0, wire, pewterslug_length(answer)));
    show("supervisor", supervisor, sizeof supervisor);
    show_supervisor("supervisor", supervisor);

    answer = pewterslug_supervisor_step(plan, sizeof plan, supervisor, sizeof supervisor, 0, wire, sizeof wire);
    say("supervisor step", answer);
    show("permit", wire, pewterslug_length(answer));
    show("supervisor", supervisor, sizeof supervisor);
    show_supervisor("supervisor", supervisor);
    say("deliver", pewterslug_module_deliver(plan, sizeof plan, module, sizeof module, 0, wire, pewterslug_length(answer)));
    show("module", module, sizeof module);
    show_module("module", module);

    answer = pewterslug_module_step(plan, sizeof plan, module, sizeof module, 0, wire, sizeof wire);
    say("step", answer);
    show("release", wire, pewterslug_length(answer));
    say("deliver", pewterslug_supervisor_deliver(plan, sizeof plan, supervisor, sizeof supervisor, 0, wire, pewterslug_length(answer)));
    show("supervisor", supervisor, sizeof supervisor);
    say("supervisor step", pewterslug_supervisor_step(plan, sizeof plan, supervisor, sizeof supervisor, 0, wire, sizeof wire));
    say("response", pewterslug_module_respond(plan, sizeof plan, module, sizeof module, 0, 1));
    say("tick", pewterslug_module_tick(plan, sizeof plan, module, sizeof module, 0, 1, 64.125));
    show("module", module, sizeof module);
    show_module("module", module);
    say("module 9", pewterslug_module_step(plan, sizeof plan, module, sizeof module, 9, wire, sizeof wire));
    supervisor[4] = 1;
    say("a holder of a permit at home", pewterslug_supervisor_step(plan, sizeof plan, supervisor, sizeof supervisor, 0, wire, sizeof wire));
}

/* A message of each kind, by its name, read back. */
static void messages(void)
{
    uint8_t buffer[PEWTERSLUG_MESSAGE_BYTES];
    const uint8_t misshapen[] = {0x04};
    uint64_t answer = pewterslug_write_message(PEWTERSLUG_MESSAGE_BID, 3, 4, 9, 9, buffer, sizeof buffer);

    say("write a bid", answer);
    show("bid", buffer, pewterslug_length(answer));
    say("read", pewterslug_read_message(buffer, pewterslug_length(answer)));
    answer = pewterslug_write_message(PEWTERSLUG_MESSAGE_PERMIT, 0, 1, 9, 0x0102030405060708u, buffer, sizeof buffer);
    say("write a permit", answer);
    show("permit", buffer, pewterslug_length(answer));
    say("read", pewterslug_read_message(buffer, pewterslug_length(answer)));
    printf("its mask %016" PRIX64 "\n", pewterslug_word_at(buffer + 3));
    answer = pewterslug_write_message(PEWTERSLUG_MESSAGE_RELEASE, 5, 6, PEWTERSLUG_NO_EVENT, 9, buffer, PEWTERSLUG_RELEASE_BYTES);
    say("write a release", answer);
    show("release", buffer, pewterslug_length(answer));
    say("read", pewterslug_read_message(buffer, pewterslug_length(answer)));
    say("write a release into 3 bytes", pewterslug_write_message(PEWTERSLUG_MESSAGE_RELEASE, 0, 0, PEWTERSLUG_NO_EVENT, 0, buffer, 3));
    say("write kind 4", pewterslug_write_message(4, 0, 0, 0, 0, buffer, sizeof buffer));
    say("read 04", pewterslug_read_message(misshapen, sizeof misshapen));
}

/* A plan with a record of each kind, a step of each operation and an event of each class, all by their names. */
static uint8_t named[256];
static size_t named_length;

static void add(uint8_t kind, uint8_t first, uint8_t second, uint8_t third, uint8_t fourth, uint64_t word)
{
    uint64_t answer =
        pewterslug_write_record(kind, first, second, third, fourth, word, named + named_length, sizeof named - named_length);
    uint64_t back = pewterslug_read_record(named, named_length + pewterslug_length(answer), named_length);

    if (pewterslug_number(answer) != 0)
        say("write", answer);
    show("record", named + named_length, pewterslug_length(answer));
    if (pewterslug_value(back) != kind || pewterslug_length(back) != pewterslug_length(answer))
        say("READ OTHERWISE", back);
    named_length += pewterslug_length(answer);
}

static void build_named(void)
{
    add(PEWTERSLUG_RECORD_HEAD, 1, 1, 3, 0, 0);
    add(PEWTERSLUG_RECORD_EVENT, 0, 0, PEWTERSLUG_CLASS_CONTROLLABLE, 0, 0);
    add(PEWTERSLUG_RECORD_EVENT, 1, 0, PEWTERSLUG_CLASS_UNCONTROLLABLE, 0, 0);
    add(PEWTERSLUG_RECORD_EVENT, 2, 0, PEWTERSLUG_CLASS_CONTROLLABLE, 0, 0);
    add(PEWTERSLUG_RECORD_MODULE, 0, 3, 2, 0, 0);
    add(PEWTERSLUG_RECORD_MODULE_MOVE, 0, 1, 1, 2, 0);
    add(PEWTERSLUG_RECORD_MODULE_MOVE, 0, 2, 0, 1, 0);
    add(PEWTERSLUG_RECORD_MODULE_MOVE, 0, 2, 2, 1, 0);
    add(PEWTERSLUG_RECORD_SUPERVISOR, 0, 4, 3, 0, 0x7);
    add(PEWTERSLUG_RECORD_SUPERVISOR_MOVE, 0, 3, 2, 1, 0);
    add(PEWTERSLUG_RECORD_DISABLING, 0, 3, 0, 0, 0x1);
    add(PEWTERSLUG_RECORD_STEP, 2, 0, PEWTERSLUG_OPERATION_OUTPUT_ON, 0, 31);
    add(PEWTERSLUG_RECORD_STEP, 2, 1, PEWTERSLUG_OPERATION_WAIT_TICKS, 0, 65535);
    add(PEWTERSLUG_RECORD_STEP, 2, 2, PEWTERSLUG_OPERATION_OUTPUT_ON, 0, 0);
    add(PEWTERSLUG_RECORD_STEP, 2, 3, PEWTERSLUG_OPERATION_WAIT_LITRES, 0, pewterslug_litres_word(131072));
    add(PEWTERSLUG_RECORD_STEP, 2, 4, PEWTERSLUG_OPERATION_OUTPUT_OFF, 0, 31);
    add(PEWTERSLUG_RECORD_STEP, 2, 5, PEWTERSLUG_OPERATION_RESPOND, 0, 1);
    add(PEWTERSLUG_RECORD_MARKING, 0, 0, 0, 0, 0);
    add(PEWTERSLUG_RECORD_MARKING, 0, 2, 0, 0, 0);
    add(PEWTERSLUG_RECORD_END, 0, 0, 0, 0, 0);
    say("check", pewterslug_check(named, named_length));
}

/* So many ticks of the named plan's module; the first refused one is said. */
static void tick(uint8_t *state, unsigned ticks, double litres)
{
    for (unsigned i = 0; i < ticks; i++) {
        uint64_t answer = pewterslug_device_tick(named, named_length, state, PEWTERSLUG_DEVICE_BYTES, 0, 1, litres);
        if (pewterslug_number(answer) != 0) {
            say("tick", answer);
            return;
        }
    }
}

/* That plan through its whole procedure: disabled event 0, fired event 2, the waits at their ends, a full queue; then responses without a
 * move, which wait while the command 0 fires, and the first of which fires where the command led. */
static void run_named(void)
{
    uint8_t state[PEWTERSLUG_DEVICE_BYTES];
    const uint8_t *own;

    say("start", pewterslug_device_start(named, named_length, state, sizeof state));
    own = pewterslug_own_part(state, 0);
    printf("supervisor %u\n", pewterslug_device_supervisor_state(state, 0));
    show_own("at the start", own);
    say("turn", pewterslug_device_turn(named, named_length, state, sizeof state, 0));
    printf("supervisor %u\n", pewterslug_device_supervisor_state(state, 0));
    tick(state, 1 + 65534, 64);
    show_own("before the last tick of the wait", own);
    tick(state, 2, 0);
    show_own("at the litres", own);
    tick(state, 2047, 64);
    tick(state, 1, 63.875);
    printf("%.3f of %.3f litres\n", pewterslug_own_total(own), pewterslug_own_target(own));
    show_own("an eighth before the target", own);
    for (unsigned i = 0; i < 8; i++)
        say("response", pewterslug_device_respond(named, named_length, state, sizeof state, 0, 1));
    tick(state, 3, 0.125);
    show_own("respond waits for the queue", own);
    say("turn", pewterslug_device_turn(named, named_length, state, sizeof state, 0));
    tick(state, 1, 0);
    show_own("responded", own);
    say("turn", pewterslug_device_turn(named, named_length, state, sizeof state, 0));
    show_own("a command fired, eight wait", own);
    say("turn", pewterslug_device_turn(named, named_length, state, sizeof state, 0));
    show_own("the first of them fired", own);
}

/* Every number, by its name, from a call that gives it. */
#define REFUSED(name, answer) refused(#name, name, answer)

static void refused(const char *name, uint8_t number, uint64_t answer)
{
    printf("%s %u: %s, %s\n", name, number, pewterslug_number(answer) == number ? "given" : "NOT GIVEN",
           pewterslug_refusal_text(pewterslug_number(answer)));
}

static void numbers(void)
{
    static uint8_t long_image[PEWTERSLUG_IMAGE_LIMIT + 1];
    const uint8_t unknown[] = {0x20};
    const uint8_t end[] = {PEWTERSLUG_RECORD_END};
    const uint8_t undeclared[] = {0x10, 0x01, 0x00, 0x01, 0x11, 0x00, 0x00, 0x00, 0x12, 0x00, 0x02, 0x02, 0x1F};
    const uint8_t incomplete[] = {0x10, 0x01, 0x00, 0x01, 0x1F};
    const uint8_t misshapen[] = {0x04};
    const uint8_t permit[] = {PEWTERSLUG_MESSAGE_PERMIT, 0, 0, 0, 0, 0, 0, 0, 0, 0, 0};
    uint8_t disabled[sizeof plan], buffer[PEWTERSLUG_RECORD_BYTES], module[PEWTERSLUG_MODULE_BYTES];
    uint64_t answer = 0;

    memcpy(disabled, plan, sizeof plan);
    disabled[sizeof plan - 2] = 0x02; /* the disabling's mask: event 1, which is uncontrollable and outside the alphabet */
    say("start module 0", pewterslug_module_start(plan, sizeof plan, 0, module, sizeof module));
    REFUSED(PEWTERSLUG_ACCEPTED, pewterslug_check(plan, sizeof plan));
    REFUSED(PEWTERSLUG_REFUSAL_IMAGE_TOO_LONG, pewterslug_check(long_image, sizeof long_image));
    REFUSED(PEWTERSLUG_REFUSAL_UNKNOWN_KIND, pewterslug_check(unknown, sizeof unknown));
    REFUSED(PEWTERSLUG_REFUSAL_CUT, pewterslug_check(plan, sizeof plan - 1));
    REFUSED(PEWTERSLUG_REFUSAL_ORDER, pewterslug_check(end, sizeof end));
    REFUSED(PEWTERSLUG_REFUSAL_RANGE, pewterslug_write_record(PEWTERSLUG_RECORD_HEAD, 17, 0, 1, 0, 0, buffer, sizeof buffer));
    REFUSED(PEWTERSLUG_REFUSAL_UNDECLARED, pewterslug_check(undeclared, sizeof undeclared));
    REFUSED(PEWTERSLUG_REFUSAL_EVENT_RULE, pewterslug_check(disabled, sizeof disabled));
    REFUSED(PEWTERSLUG_REFUSAL_INCOMPLETE, pewterslug_check(incomplete, sizeof incomplete));
    REFUSED(PEWTERSLUG_REFUSAL_STATE, pewterslug_module_respond(plan, sizeof plan, module, sizeof module - 1, 0, 1));
    REFUSED(PEWTERSLUG_REFUSAL_MISSHAPEN, pewterslug_read_message(misshapen, sizeof misshapen));
    REFUSED(PEWTERSLUG_REFUSAL_NOT_IN_PLAN, pewterslug_module_respond(plan, sizeof plan, module, sizeof module, 9, 1));
    REFUSED(PEWTERSLUG_REFUSAL_OUT_OF_TURN,
            pewterslug_module_deliver(plan, sizeof plan, module, sizeof module, 0, permit, sizeof permit));
    REFUSED(PEWTERSLUG_REFUSAL_BUFFER_TOO_SHORT, pewterslug_module_step(plan, sizeof plan, module, sizeof module, 0, buffer, 2));
    REFUSED(PEWTERSLUG_REFUSAL_FLOW_READING, pewterslug_module_tick(plan, sizeof plan, module, sizeof module, 0, 1, 0.1));
    for (unsigned i = 0; i < PEWTERSLUG_QUEUE_LIMIT + 1; i++)
        answer = pewterslug_module_respond(plan, sizeof plan, module, sizeof module, 0, 1);
    REFUSED(PEWTERSLUG_REFUSAL_QUEUE_FULL, answer);
}

/* The two-valve plan with a pump that never stops and is marked only where it is off: once it has started, the plan is stuck. */
static size_t build_stuck(uint8_t *image)
{
    const uint8_t last[] = {PEWTERSLUG_RECORD_MARKING, 0, 0, PEWTERSLUG_RECORD_END};

    memcpy(image, plan, 33);                         /* up to the pump's move by event 1 */
    memcpy(image + 33, plan + 38, sizeof plan - 39); /* from behind it up to the end record */
    memcpy(image + sizeof plan - 6, last, sizeof last);
    return sizeof plan - 6 + sizeof last;
}

static size_t put(uint8_t *image, size_t at, uint8_t kind, uint8_t first, uint8_t second, uint8_t third, uint8_t fourth)
{
    return at + pewterslug_length(pewterslug_write_record(kind, first, second, third, fourth, 0, image + at, PEWTERSLUG_RECORD_BYTES));
}

/* So many modules, up to 16, that each move once, so that there are 2 to that power joint states. */
static size_t build_many(uint8_t *image, uint8_t modules)
{
    size_t at = put(image, 0, PEWTERSLUG_RECORD_HEAD, modules, 0, modules, 0);

    for (uint8_t m = 0; m < modules; m++)
        at = put(image, at, PEWTERSLUG_RECORD_EVENT, m, m, PEWTERSLUG_CLASS_CONTROLLABLE, 0);
    for (uint8_t m = 0; m < modules; m++)
        at = put(image, at, PEWTERSLUG_RECORD_MODULE, m, 2, 0, 0);
    for (uint8_t m = 0; m < modules; m++)
        at = put(image, at, PEWTERSLUG_RECORD_MODULE_MOVE, m, 0, m, 1);
    return put(image, at, PEWTERSLUG_RECORD_END, 0, 0, 0, 0);
}

static void find_stuck(void)
{
    uint8_t image[256], buffer[PEWTERSLUG_STUCK_BYTES + 1], before[sizeof buffer];
    size_t length = build_stuck(image);
    uint64_t answer;

    memset(buffer, 0xAA, sizeof buffer);
    memcpy(before, buffer, sizeof buffer);
    say("find_stuck P into 0 bytes", pewterslug_find_stuck(plan, sizeof plan, buffer, 0));
    left(buffer, before, sizeof buffer);
    say("find_stuck P cut", pewterslug_find_stuck(plan, sizeof plan - 1, buffer, sizeof buffer));
    left(buffer, before, sizeof buffer);
    say("find_stuck into 4 bytes", pewterslug_find_stuck(image, length, buffer, 4));
    left(buffer, before, sizeof buffer);
    answer = pewterslug_find_stuck(image, length, buffer, 5);
    say("find_stuck into 5 bytes", answer);
    show("word and states", buffer, pewterslug_length(answer));
    left(buffer + 5, before + 5, sizeof buffer - 5);
    memcpy(buffer, before, sizeof buffer);
    answer = pewterslug_find_stuck(image, length, buffer, PEWTERSLUG_STUCK_BYTES);
    say("find_stuck into the most", answer);
    show("word and states", buffer, pewterslug_length(answer));
    left(buffer + 5, before + 5, sizeof buffer - 5);
    memcpy(buffer, before, sizeof buffer);
    say("find_stuck of 4096 joint states", pewterslug_find_stuck(image, build_many(image, 12), buffer, 0));
    REFUSED(PEWTERSLUG_REFUSAL_TOO_MANY_STATES, pewterslug_find_stuck(image, build_many(image, 13), buffer, 0));
    left(buffer, before, sizeof buffer);
}

static void count_words(void)
{
    uint8_t image[256], before[16];
    static uint8_t buffer[PEWTERSLUG_COUNT_BYTES];
    uint64_t answer;

    memset(buffer, 0xAA, sizeof buffer);
    memset(before, 0xAA, sizeof before);
    say("count_words P, 3 events, into 9 bytes", pewterslug_count_words(plan, sizeof plan, 3, buffer, 9));
    left(buffer, before, sizeof before);
    say("count_words P cut", pewterslug_count_words(plan, sizeof plan - 1, 41, buffer, 0));
    left(buffer, before, sizeof before);
    answer = pewterslug_count_words(plan, sizeof plan, 3, buffer, 10);
    say("count_words P, 3 events, into 10 bytes", answer);
    printf("%.*s", (int)pewterslug_length(answer), (const char *)buffer);
    left(buffer + 10, before, sizeof before - 10);
    answer = pewterslug_count_words(plan, sizeof plan, 0, buffer, sizeof buffer);
    say("count_words P, no event, into the most", answer);
    printf("%.*s", (int)pewterslug_length(answer), (const char *)buffer);
    left(buffer + 10, before, sizeof before - 10);
    memset(buffer, 0xAA, sizeof buffer);
    REFUSED(PEWTERSLUG_REFUSAL_TOO_MANY_WORDS, pewterslug_count_words(plan, sizeof plan, 41, buffer, 0));
    REFUSED(PEWTERSLUG_REFUSAL_TOO_MANY_WORDS, pewterslug_count_words(plan, sizeof plan, UINT64_MAX, buffer, sizeof buffer));
    REFUSED(PEWTERSLUG_REFUSAL_TOO_MANY_STATES, pewterslug_count_words(image, build_many(image, 13), 41, buffer, sizeof buffer));
    left(buffer, before, sizeof before);
    say("count_words of 4096 joint states", pewterslug_count_words(image, build_many(image, 12), 12, buffer, sizeof buffer));
}

/* Bytes that stand for no state of the check in pieces, since at this stage a byte is as it may not be: 9, and they are left as they are. */
static void no_check_state(const char *what, uint8_t stage, size_t place, uint8_t byte)
{
    uint8_t state[PEWTERSLUG_CHECK_BYTES], before[PEWTERSLUG_CHECK_BYTES];

    pewterslug_check_start(state, sizeof state);
    state[0] = stage;
    state[place] = byte;
    memcpy(before, state, sizeof state);
    say(what, pewterslug_check_piece(state, sizeof state, plan, sizeof plan));
    left(state, before, sizeof state);
    say("  its answer", pewterslug_check_answer(state, sizeof state));
}

static void check_pieces(void)
{
    static uint8_t zeros[PEWTERSLUG_IMAGE_LIMIT];
    uint8_t state[PEWTERSLUG_CHECK_BYTES + 5], before[sizeof state];
    const size_t length = PEWTERSLUG_CHECK_BYTES;

    memset(state, 0xAA, sizeof state);
    memcpy(before, state, sizeof state);
    say("check_start into 494 bytes", pewterslug_check_start(state, length - 1));
    left(state, before, sizeof state);
    say("check_start into 500 bytes", pewterslug_check_start(state, sizeof state));
    left(state + length, before + length, sizeof state - length);
    memcpy(state, before, sizeof state);
    say("check_start into 495 bytes", pewterslug_check_start(state, length));
    left(state + length, before + length, sizeof state - length);
    say("no bytes", pewterslug_check_answer(state, length));
    say("30 bytes of P", pewterslug_check_piece(state, length, plan, 30));
    say("30 bytes", pewterslug_check_answer(state, length));
    show("stage, number, offset and taken", state, 10);
    show("held and cut", state + 10, 13);
    show("last record and counts", state + 23, 8);
    say("30 more", pewterslug_check_piece(state, length, plan + 30, 30));
    say("60 bytes", pewterslug_check_answer(state, length));
    say("the last 22", pewterslug_check_piece(state, length, plan + 60, sizeof plan - 60));
    say("P", pewterslug_check_answer(state, length));
    memcpy(before, state, sizeof state);
    say("an empty piece", pewterslug_check_piece(state, length, plan, 0));
    left(state, before, sizeof state);
    say("494 bytes of state", pewterslug_check_piece(state, length - 1, plan, 1));
    left(state, before, sizeof state);
    say("496", pewterslug_check_piece(state, length + 1, plan, 1));
    left(state, before, sizeof state);
    say("  its answer", pewterslug_check_answer(state, length + 1));
    say("a byte after P", pewterslug_check_piece(state, length, plan, 1));
    say("83 bytes", pewterslug_check_answer(state, length));
    say("zeros up to 49152", pewterslug_check_piece(state, length, zeros, PEWTERSLUG_IMAGE_LIMIT - sizeof plan - 1));
    say("49152 bytes", pewterslug_check_answer(state, length));
    say("one more", pewterslug_check_piece(state, length, zeros, 1));
    say("49153 bytes", pewterslug_check_answer(state, length));
    no_check_state("stage 3", 3, 0, 3);
    no_check_state("begun 2", 0, 23, 2);
    no_check_state("a refusal's number while records are read", 0, 1, 2);
    no_check_state("a refusal's offset after the end", 1, 5, 1);
    no_check_state("refused with 1", 2, 1, 1);
    no_check_state("refused with 9", 2, 1, 9);
}

/* So many lines of a text between bars, and how many blank ones follow. */
static void show_lines(const uint8_t *text, unsigned lines, size_t length)
{
    char blank[PEWTERSLUG_LINE_BYTES];
    unsigned blanks = 0;

    memset(blank, ' ', sizeof blank - 1);
    blank[sizeof blank - 1] = '\n';
    for (size_t at = 0; at < length; at += sizeof blank)
        if (at < lines * sizeof blank)
            printf("|%.72s|%s", (const char *)text + at, text[at + 72] == '\n' ? "\n" : " NO LINE FEED\n");
        else
            blanks += memcmp(text + at, blank, sizeof blank) == 0;
    printf("and %u blank lines\n", blanks);
}

static void print_plan(void)
{
    static uint8_t buffer[PEWTERSLUG_PRINT_BYTES], before[sizeof buffer];
    static const size_t records[] = {0, 1, 59, 60, 61, 120, 121, 10049};
    const uint8_t unknown[] = {0x10, 0x01, 0x00, 0x01, 0x20};
    const size_t page = PEWTERSLUG_PAGE_BYTES;
    uint64_t answer;

    memset(buffer, 0xAA, sizeof buffer);
    memcpy(before, buffer, sizeof buffer);
    say("print_plan P into 4379 bytes", pewterslug_print_plan(plan, sizeof plan, buffer, page - 1));
    left(buffer, before, sizeof buffer);
    say("print_plan P cut", pewterslug_print_plan(plan, sizeof plan - 1, buffer, page));
    left(buffer, before, sizeof buffer);
    answer = pewterslug_print_plan(plan, sizeof plan, buffer, page);
    say("print_plan P into 4380 bytes", answer);
    show_lines(buffer, 16, pewterslug_length(answer));
    left(buffer + page, before, sizeof buffer - page);
    memcpy(buffer, before, sizeof buffer);
    answer = pewterslug_print_plan(named, named_length, buffer, sizeof buffer);
    say("print_plan of every kind into the most", answer);
    show_lines(buffer, 20, pewterslug_length(answer));
    left(buffer + page, before, sizeof buffer - page);
    printf("records: P %zu, every kind %zu, P cut %zu, an unknown kind %zu, no bytes %zu\n", pewterslug_record_count(plan, sizeof plan),
           pewterslug_record_count(named, named_length), pewterslug_record_count(plan, sizeof plan - 1),
           pewterslug_record_count(unknown, sizeof unknown), pewterslug_record_count(plan, 0));
    for (unsigned i = 0; i < sizeof records / sizeof *records; i++)
        printf("print_bytes of %zu records: %zu\n", records[i], pewterslug_print_bytes(records[i]));
}

static void texts(void)
{
    unsigned alike = 0, empty = 0, known = 0;

    for (unsigned number = 0; number < 256; number++) {
        const char *text = pewterslug_refusal_text((uint8_t)number);
        for (unsigned other = 0; other < number && number <= PEWTERSLUG_REFUSAL_TOO_MANY_WORDS + 1; other++)
            alike += strcmp(text, pewterslug_refusal_text((uint8_t)other)) == 0;
        empty += text[0] == 0;
        known += strcmp(text, "unknown number") != 0;
        if (number <= PEWTERSLUG_REFUSAL_TOO_MANY_WORDS + 1 || number == 255)
            printf("text %u: %s\n", number, text);
    }
    printf("texts: %u known, %u alike, %u empty\n", known, alike, empty);
}

/* The parts of an answer with every bit that it may have, accepted and refused. */
static void answers(void)
{
    static const uint64_t whole[] = {0xFFFFFFFF00FFFF00u, 0xFFFFFFFF000000FFu, 0x8000000100000001u, 0x8000000100000000u};

    for (unsigned i = 0; i < sizeof whole / sizeof *whole; i++)
        printf("answer %016" PRIX64 ": number %u, offset %" PRIu32 ", did %u, value %u, length %" PRIu32 "\n", whole[i],
               pewterslug_number(whole[i]), pewterslug_offset(whole[i]), pewterslug_did(whole[i]), pewterslug_value(whole[i]),
               pewterslug_length(whole[i]));
}

static void codes(void)
{
    printf("done %d event %d none %d bids %d sends %d waits %d free %d stuck %d\n", PEWTERSLUG_DONE, PEWTERSLUG_EVENT, PEWTERSLUG_NONE,
           PEWTERSLUG_BIDS, PEWTERSLUG_SENDS, PEWTERSLUG_WAITS, PEWTERSLUG_FREE, PEWTERSLUG_STUCK);
    printf("limits: image %d, modules %d, supervisors %d, events %d, queue %d, outputs %d\n", PEWTERSLUG_IMAGE_LIMIT,
           PEWTERSLUG_MODULE_LIMIT, PEWTERSLUG_SUPERVISOR_LIMIT, PEWTERSLUG_EVENT_LIMIT, PEWTERSLUG_QUEUE_LIMIT, PEWTERSLUG_OUTPUT_LIMIT);
    printf("bytes: device %d, own %d, module %d, supervisor %d, record %d, message %d, release %d, step %d, stuck %d, count %d, check %d\n",
           PEWTERSLUG_DEVICE_BYTES, PEWTERSLUG_OWN_BYTES, PEWTERSLUG_MODULE_BYTES, PEWTERSLUG_SUPERVISOR_BYTES, PEWTERSLUG_RECORD_BYTES,
           PEWTERSLUG_MESSAGE_BYTES, PEWTERSLUG_RELEASE_BYTES, PEWTERSLUG_STEP_BYTES, PEWTERSLUG_STUCK_BYTES, PEWTERSLUG_COUNT_BYTES,
           PEWTERSLUG_CHECK_BYTES);
    printf("line %d, page %d, print %d\n", PEWTERSLUG_LINE_BYTES, PEWTERSLUG_PAGE_BYTES, PEWTERSLUG_PRINT_BYTES);
}

/* Bytes that no call wrote: all 0, all FF, and each byte another, so that a field read from a wrong place shows. */
static void made_states(void)
{
    uint8_t own[PEWTERSLUG_OWN_BYTES], module[PEWTERSLUG_MODULE_BYTES], supervisor[PEWTERSLUG_SUPERVISOR_BYTES];

    memset(own, 0, sizeof own);
    show_own("own 00", own);
    memset(own, 0xFF, sizeof own);
    show_own("own FF", own);
    for (unsigned i = 0; i < sizeof own; i++)
        own[i] = (uint8_t)(0x81 + i);
    show_own("own 81 on", own);
    own[1] = 3;
    own[10] = 0;
    own[31] = 0x80;
    own[32] = own[33] = 0;
    own[34] = 1;
    show_own("3 queued, idle, outputs 0 and 31", own);

    memset(module, 0, sizeof module);
    show_module("module 00", module);
    memset(module, 0xFF, sizeof module);
    show_module("module FF", module);
    for (unsigned i = 0; i < sizeof module; i++)
        module[i] = (uint8_t)(0xA1 + i);
    show_module("module A1 on", module);
    module[47] = 0;
    show_module("no bid", module);

    memset(supervisor, 0, sizeof supervisor);
    show_supervisor("supervisor 00", supervisor);
    memset(supervisor, 0xFF, sizeof supervisor);
    show_supervisor("supervisor FF", supervisor);
    for (unsigned i = 0; i < sizeof supervisor; i++)
        supervisor[i] = (uint8_t)(0xC1 + i);
    show_supervisor("supervisor C1 on", supervisor);
    supervisor[3] = 0;
    show_supervisor("permit home", supervisor);
}

static void made_device(void)
{
    uint8_t device[PEWTERSLUG_DEVICE_BYTES];

    for (unsigned i = 0; i < sizeof device; i++)
        device[i] = (uint8_t)(i * 7 + i / 256);
    printf("own parts");
    for (uint8_t module = 0; module < PEWTERSLUG_MODULE_LIMIT; module++)
        printf(" %td:%02X", pewterslug_own_part(device, module) - device, pewterslug_own_state(pewterslug_own_part(device, module)));
    printf("\nsupervisors");
    for (uint8_t supervisor = 0; supervisor < PEWTERSLUG_SUPERVISOR_LIMIT; supervisor++)
        printf(" %02X", pewterslug_device_supervisor_state(device, supervisor));
    printf("\n");
}

/* Litres at their ends, there and back. */
static void words(void)
{
    static const double ends[] = {0.0, -0.0, 0.125, 2.5, 64.0, 131072.0};
    const uint8_t bytes[] = {0x81, 0x82, 0x83, 0x84, 0x85, 0x86, 0x87, 0x88};

    for (unsigned i = 0; i < sizeof ends / sizeof *ends; i++)
        printf("%g litres: %016" PRIX64 ", back %g\n", ends[i], pewterslug_litres_word(ends[i]),
               pewterslug_word_litres(pewterslug_litres_word(ends[i])));
    printf("%g and %g litres\n", pewterslug_word_litres(0x3FC0000000000000u), pewterslug_word_litres(0x4100000000000000u));
    printf("quad %08" PRIX32 ", word %016" PRIX64 "\n", pewterslug_quad_at(bytes), pewterslug_word_at(bytes));
}

int main(void)
{
    printf("version %" PRIu32 ", header %d\n", pewterslug_version(), PEWTERSLUG_VERSION);
    checks();
    records();
    one_device();
    litres();
    many_devices();
    messages();
    build_named();
    run_named();
    numbers();
    find_stuck();
    count_words();
    check_pieces();
    print_plan();
    texts();
    answers();
    codes();
    made_states();
    made_device();
    words();
    return 0;
}
