/* stack: how many bytes of stack each call of the header needs.
 *
 * Every call runs on a stack of its own that is painted beforehand; what is no longer painted afterwards was used. The calls are those of
 * a run of many devices beside one, on each plan, with refused ones among them, and the table has the most that any of them needed. A
 * frame's bytes that the call reserves and never writes are not seen, so leave a margin.
 */
#define _XOPEN_SOURCE 600

#include <stdio.h>
#include <stdlib.h>
#include <string.h>
#include <sys/mman.h>
#include <ucontext.h>
#include <unistd.h>

#include "chance.h"
#include "plan.h"

/* The questions about joint states have the whole stack, the other calls its upper part, so that less is looked through after each. */
enum { STACK_BYTES = 1 << 22, UPPER_BYTES = 1 << 18, PAINT = 0xA5, PLANS = 3, UNDER_WAY_LIMIT = 64 };

enum which {
    VERSION, CHECK, READ_RECORD, WRITE_RECORD, DEVICE_START, DEVICE_TURN, DEVICE_RESPOND, DEVICE_TICK, MODULE_START, MODULE_STEP,
    MODULE_DELIVER, MODULE_RESPOND, MODULE_TICK, SUPERVISOR_START, SUPERVISOR_STEP, SUPERVISOR_DELIVER, READ_MESSAGE, WRITE_MESSAGE,
    CHECK_START, CHECK_PIECE, CHECK_ANSWER, PRINT_PLAN, FIND_STUCK, COUNT_WORDS, CALLS
};

static const char *const names[CALLS] = {
    "version", "check", "read_record", "write_record", "device_start", "device_turn", "device_respond", "device_tick", "module_start",
    "module_step", "module_deliver", "module_respond", "module_tick", "supervisor_start", "supervisor_step", "supervisor_deliver", "read_message",
    "write_message", "check_start", "check_piece", "check_answer", "print_plan", "find_stuck", "count_words",
};

static const struct {
    const char *name;
    unsigned rounds;
} plans[PLANS] = {{"two-valve", 2000}, {"orchard", 4000}, {"full", 600}};

/* One call and what it is given. */
struct call {
    enum which which;
    uint8_t number, event, sensor, kind;
    double litres;
    size_t offset;
    uint64_t words; /* how long the words are that are counted */
    uint8_t *state;
    size_t state_length;
    uint8_t *bytes; /* the message, or the output buffer */
    size_t length;
};

/* A run of many devices and of one, in one process. */
struct fleet {
    struct plan plan;
    struct chance chance;
    uint8_t device[PEWTERSLUG_DEVICE_BYTES];
    uint8_t modules[PEWTERSLUG_MODULE_LIMIT][PEWTERSLUG_MODULE_BYTES];
    uint8_t supervisors[PEWTERSLUG_SUPERVISOR_LIMIT][PEWTERSLUG_SUPERVISOR_BYTES];
    uint8_t check[PEWTERSLUG_CHECK_BYTES];
    uint8_t buffer[PEWTERSLUG_STEP_BYTES];
    uint8_t text[PEWTERSLUG_PRINT_BYTES]; /* longer than any other answer */
    struct {
        uint8_t bytes[PEWTERSLUG_MESSAGE_BYTES];
        size_t length;
    } under_way[UNDER_WAY_LIMIT];
    size_t count;
    unsigned plan_index;
};

static uint8_t *stack;
static size_t most[PLANS][CALLS], times[PLANS][CALLS];

/* What perform is given and what it leaves: a context is started without arguments. */
static const struct plan *plan;
static struct call current;
static uint64_t answer;
static const volatile uint8_t *base; /* where the call began */

static uint64_t perform_one_device(const struct call *call)
{
    const uint8_t *image = plan->image;
    size_t length = plan->length;
    switch (call->which) {
    case DEVICE_START: return pewterslug_device_start(image, length, call->bytes, call->length);
    case DEVICE_TURN: return pewterslug_device_turn(image, length, call->state, call->state_length, call->number);
    case DEVICE_RESPOND: return pewterslug_device_respond(image, length, call->state, call->state_length, call->number, call->event);
    default:
        return pewterslug_device_tick(image, length, call->state, call->state_length, call->number, call->sensor, call->litres);
    }
}

static uint64_t perform_module(const struct call *call)
{
    const uint8_t *image = plan->image;
    size_t length = plan->length;
    switch (call->which) {
    case MODULE_START: return pewterslug_module_start(image, length, call->number, call->bytes, call->length);
    case MODULE_STEP:
        return pewterslug_module_step(image, length, call->state, call->state_length, call->number, call->bytes, call->length);
    case MODULE_DELIVER:
        return pewterslug_module_deliver(image, length, call->state, call->state_length, call->number, call->bytes, call->length);
    case MODULE_RESPOND: return pewterslug_module_respond(image, length, call->state, call->state_length, call->number, call->event);
    default:
        return pewterslug_module_tick(image, length, call->state, call->state_length, call->number, call->sensor, call->litres);
    }
}

static uint64_t perform_supervisor(const struct call *call)
{
    const uint8_t *image = plan->image;
    size_t length = plan->length;
    switch (call->which) {
    case SUPERVISOR_START: return pewterslug_supervisor_start(image, length, call->number, call->bytes, call->length);
    case SUPERVISOR_STEP:
        return pewterslug_supervisor_step(image, length, call->state, call->state_length, call->number, call->bytes, call->length);
    default:
        return pewterslug_supervisor_deliver(image, length, call->state, call->state_length, call->number, call->bytes, call->length);
    }
}

static uint64_t perform_other(const struct call *call)
{
    switch (call->which) {
    case VERSION: return pewterslug_version();
    case CHECK: return pewterslug_check(plan->image, plan->length);
    case READ_RECORD: return pewterslug_read_record(plan->image, plan->length, call->offset);
    case WRITE_RECORD: return pewterslug_write_record(call->kind, 1, 1, 1, 1, 1, call->bytes, call->length);
    case READ_MESSAGE: return pewterslug_read_message(call->bytes, call->length);
    case CHECK_START: return pewterslug_check_start(call->state, call->state_length);
    case CHECK_PIECE: return pewterslug_check_piece(call->state, call->state_length, plan->image + call->offset, call->length);
    case CHECK_ANSWER: return pewterslug_check_answer(call->state, call->state_length);
    case PRINT_PLAN: return pewterslug_print_plan(plan->image, plan->length, call->bytes, call->length);
    case FIND_STUCK: return pewterslug_find_stuck(plan->image, plan->length, call->bytes, call->length);
    case COUNT_WORDS: return pewterslug_count_words(plan->image, plan->length, call->words, call->bytes, call->length);
    default: return pewterslug_write_message(call->kind, 0, 0, 0, 1, call->bytes, call->length);
    }
}

/* Runs on the painted stack. Counting starts in this frame, so that a few dozen bytes of the frames above belong to the program. */
static void perform(void)
{
    const volatile uint8_t here = 0;
    base = &here;
    if (current.which >= DEVICE_START && current.which <= DEVICE_TICK)
        answer = perform_one_device(&current);
    else if (current.which >= MODULE_START && current.which <= MODULE_TICK)
        answer = perform_module(&current);
    else if (current.which >= SUPERVISOR_START && current.which <= SUPERVISOR_DELIVER)
        answer = perform_supervisor(&current);
    else
        answer = perform_other(&current);
}

/* The stack grows downwards: its lowest byte that lost its paint, from a place on, is the deepest. */
static size_t lowest_used(size_t place)
{
    static uint8_t painted[4096];
    memset(painted, PAINT, sizeof painted);
    while (place < STACK_BYTES && memcmp(stack + place, painted, sizeof painted) == 0)
        place += sizeof painted;
    while (place < STACK_BYTES && stack[place] == PAINT)
        place++;
    return place;
}

static uint64_t measured(struct fleet *fleet, struct call call)
{
    ucontext_t here, there;
    size_t lowest, bytes;
    plan = &fleet->plan;
    current = call;
    getcontext(&there);
    there.uc_stack.ss_sp = stack;
    there.uc_stack.ss_size = STACK_BYTES;
    there.uc_link = &here;
    makecontext(&there, perform, 0);
    if (swapcontext(&here, &there) != 0)
        abort();
    lowest = lowest_used(call.which >= FIND_STUCK ? 0 : STACK_BYTES - UPPER_BYTES);
    bytes = ((size_t)(base - (stack + lowest)) + 15) / 16 * 16; /* frames are multiples of 16 */
    memset(stack + lowest, PAINT, STACK_BYTES - lowest);
    if (bytes > most[fleet->plan_index][call.which])
        most[fleet->plan_index][call.which] = bytes;
    times[fleet->plan_index][call.which]++;
    return answer;
}

static struct call call_module(struct fleet *fleet, enum which which, unsigned module)
{
    return (struct call){.which = which, .number = (uint8_t)module, .state = fleet->modules[module],
                         .state_length = PEWTERSLUG_MODULE_BYTES, .bytes = fleet->buffer, .length = sizeof fleet->buffer};
}

static struct call call_supervisor(struct fleet *fleet, enum which which, unsigned supervisor)
{
    return (struct call){.which = which, .number = (uint8_t)supervisor, .state = fleet->supervisors[supervisor],
                         .state_length = PEWTERSLUG_SUPERVISOR_BYTES, .bytes = fleet->buffer, .length = sizeof fleet->buffer};
}

static struct call call_device(struct fleet *fleet, enum which which, unsigned module)
{
    return (struct call){.which = which, .number = (uint8_t)module, .state = fleet->device, .state_length = sizeof fleet->device,
                         .bytes = fleet->device, .length = sizeof fleet->device};
}

/* What a step wrote goes under way: releases of 4 bytes each, or one bid or permit. */
static void put_under_way(struct fleet *fleet, size_t length)
{
    size_t each = fleet->buffer[0] == PEWTERSLUG_MESSAGE_RELEASE ? PEWTERSLUG_RELEASE_BYTES : length;
    for (size_t place = 0; place < length && fleet->count < UNDER_WAY_LIMIT; place += each) {
        memcpy(fleet->under_way[fleet->count].bytes, fleet->buffer + place, each);
        fleet->under_way[fleet->count++].length = each;
    }
}

static void step_module(struct fleet *fleet, unsigned module)
{
    uint64_t done = measured(fleet, call_module(fleet, MODULE_STEP, module));
    put_under_way(fleet, pewterslug_length(done));
    if (pewterslug_did(done) >= PEWTERSLUG_EVENT && pewterslug_did(done) <= PEWTERSLUG_NONE)
        measured(fleet, call_device(fleet, DEVICE_TURN, module));
}

static void step_supervisor(struct fleet *fleet, unsigned supervisor)
{
    put_under_way(fleet, pewterslug_length(measured(fleet, call_supervisor(fleet, SUPERVISOR_STEP, supervisor))));
}

/* Delivers a message under way at random. A permit is delivered twice, a bid or release once more to a module, to see refusals too. */
static void deliver(struct fleet *fleet)
{
    struct call call;
    uint8_t message[PEWTERSLUG_MESSAGE_BYTES];
    size_t which, length;
    if (fleet->count == 0)
        return;
    which = chance_below(&fleet->chance, (uint32_t)fleet->count);
    length = fleet->under_way[which].length;
    memcpy(message, fleet->under_way[which].bytes, sizeof message);
    fleet->under_way[which] = fleet->under_way[--fleet->count];
    if (message[0] != PEWTERSLUG_MESSAGE_PERMIT) {
        call = call_supervisor(fleet, SUPERVISOR_DELIVER, message[2]);
        call.bytes = message;
        call.length = length;
        measured(fleet, call);
    }
    call = call_module(fleet, MODULE_DELIVER, message[0] == PEWTERSLUG_MESSAGE_PERMIT ? message[2] : message[1]);
    call.bytes = message;
    call.length = length;
    measured(fleet, call);
    if (message[0] == PEWTERSLUG_MESSAGE_PERMIT)
        measured(fleet, call);
    call.which = READ_MESSAGE;
    measured(fleet, call);
}

/* A response and a tick, of the module and of one device alike. */
static void plant_acts(struct fleet *fleet, unsigned module)
{
    struct call call = call_module(fleet, MODULE_RESPOND, module), one = call_device(fleet, DEVICE_RESPOND, module);
    one.event = call.event = (uint8_t)chance_below(&fleet->chance, fleet->plan.events);
    if (chance_one_in(&fleet->chance, 4)) {
        measured(fleet, call);
        measured(fleet, one);
    }
    call.which = MODULE_TICK;
    one.which = DEVICE_TICK;
    one.sensor = call.sensor = !chance_one_in(&fleet->chance, 8);
    one.litres = call.litres = chance_below(&fleet->chance, 20) / 8.0;
    measured(fleet, call);
    measured(fleet, one);
}

static void start(struct fleet *fleet)
{
    struct call call = {.which = VERSION};
    measured(fleet, call);
    call.which = CHECK;
    measured(fleet, call);
    call = (struct call){.which = FIND_STUCK, .bytes = fleet->text, .length = sizeof fleet->text};
    measured(fleet, call);
    call.which = COUNT_WORDS;
    for (call.words = 0; call.words <= 41; call.words++)
        measured(fleet, call);
    call.which = PRINT_PLAN;
    measured(fleet, call);
    call.length = pewterslug_print_bytes(pewterslug_record_count(fleet->plan.image, fleet->plan.length)) - 1;
    measured(fleet, call); /* refused */
    measured(fleet, call_device(fleet, DEVICE_START, 0));
    for (unsigned module = 0; module < fleet->plan.modules; module++) {
        call = call_module(fleet, MODULE_START, module);
        call.bytes = fleet->modules[module];
        call.length = PEWTERSLUG_MODULE_BYTES;
        measured(fleet, call);
    }
    for (unsigned supervisor = 0; supervisor < fleet->plan.supervisors; supervisor++) {
        call = call_supervisor(fleet, SUPERVISOR_START, supervisor);
        call.bytes = fleet->supervisors[supervisor];
        call.length = PEWTERSLUG_SUPERVISOR_BYTES;
        measured(fleet, call);
    }
}

/* Every kind of record and of message written, and records read all along the image. */
static void records_and_messages(struct fleet *fleet)
{
    struct call call = {.bytes = fleet->buffer, .length = sizeof fleet->buffer};
    size_t place = 0;
    for (unsigned kind = 0; kind < 256; kind++) {
        call.kind = (uint8_t)kind;
        call.which = WRITE_RECORD;
        measured(fleet, call);
        call.which = WRITE_MESSAGE;
        measured(fleet, call);
    }
    call.which = READ_RECORD;
    for (unsigned i = 0; i < 500 && place < fleet->plan.length; i++) {
        call.offset = place;
        place += pewterslug_length(measured(fleet, call));
    }
}

/* The plan's check in pieces of several sizes, the answer after each; of the smallest ones the plan's first bytes and its last. */
static void check_in_pieces(struct fleet *fleet)
{
    static const size_t sizes[] = {1, 13, 512, PEWTERSLUG_IMAGE_LIMIT};
    struct call call = {.state = fleet->check, .state_length = sizeof fleet->check};
    for (unsigned i = 0; i < sizeof sizes / sizeof *sizes; i++) {
        call.which = CHECK_START;
        measured(fleet, call);
        for (call.offset = 0; call.offset < fleet->plan.length; call.offset += call.length) {
            size_t left = fleet->plan.length - call.offset;
            call.length = call.offset == 500 * sizes[i] && left > 100 ? left - 100 : left < sizes[i] ? left : sizes[i];
            call.which = CHECK_PIECE;
            measured(fleet, call);
            call.which = CHECK_ANSWER;
            measured(fleet, call);
        }
    }
}

static void measure(struct fleet *fleet, unsigned rounds)
{
    start(fleet);
    check_in_pieces(fleet);
    records_and_messages(fleet);
    for (unsigned round = 0; round < rounds; round++) {
        unsigned module = chance_below(&fleet->chance, fleet->plan.modules);
        unsigned supervisor = chance_below(&fleet->chance, fleet->plan.supervisors);
        deliver(fleet);
        for (unsigned other = 0; other < fleet->plan.supervisors; other++)
            if (pewterslug_supervisor_noted(fleet->supervisors[other]) != 0)
                supervisor = other; /* rather one with a bid noted */
        step_supervisor(fleet, supervisor);
        step_module(fleet, module);
        if (chance_one_in(&fleet->chance, 4))
            plant_acts(fleet, module);
    }
}

/* The lowest page is closed, so that a call that needs more than the stack ends the program instead of writing elsewhere. */
static bool open_stack(void)
{
    void *memory;
    size_t page = (size_t)sysconf(_SC_PAGESIZE);
    if (posix_memalign(&memory, page, STACK_BYTES + page) != 0 || mprotect(memory, page, PROT_NONE) != 0)
        return false;
    stack = (uint8_t *)memory + page;
    memset(stack, PAINT, STACK_BYTES);
    return true;
}

static void print(void)
{
    printf("%-22s", "bytes of stack");
    for (unsigned i = 0; i < PLANS; i++)
        printf("%12s%10s", plans[i].name, "calls");
    printf("\n");
    for (unsigned which = 0; which < CALLS; which++) {
        printf("%-22s", names[which]);
        for (unsigned i = 0; i < PLANS; i++)
            printf("%12zu%10zu", most[i][which], times[i][which]);
        printf("\n");
    }
}

int main(void)
{
    static struct fleet fleet;
    if (!open_stack()) {
        perror("stack");
        return EXIT_FAILURE;
    }
    for (unsigned i = 0; i < PLANS; i++) {
        memset(&fleet, 0, sizeof fleet);
        fleet.plan_index = i;
        chance_start(&fleet.chance, 1, i);
        if (!plan_build(&fleet.plan, plans[i].name))
            return EXIT_FAILURE;
        measure(&fleet, plans[i].rounds);
    }
    print();
    return EXIT_SUCCESS;
}
