/* Random bytes through every call of the C interface, for what the header promises of lent memory.
 *
 * Each slice that is lent ends where a page that may not be touched begins, so that one byte read or written past it ends the program; what
 * stands before it is compared. The C side is compiled with the address and undefined-behaviour sanitizers (tests/fuzz.sh). After each
 * call: an answer is 0 to 17; what is only read is as it was; a refused call left every lent byte as it was; an accepted one changed nothing
 * behind its answer's length, except the state that it was lent. A run of 20,000 calls or more must have met every number.
 *
 *   fuzz SEED COUNT
 */
#define _DEFAULT_SOURCE
#include <stdio.h>
#include <stdlib.h>
#include <string.h>
#include <sys/mman.h>

#include "chance.h"
#include "plan.h"

enum { PAGE = 4096, ROOM = 13 * PAGE, PLANS = 3, NUMBERS = 18, MARKING = 0x18 };

/* The calls by number; those before are of a device, a module and a supervisor, records and messages. */
enum { FIND_STUCK = 17, COUNT_WORDS, CHECK_START, CHECK_PIECE, CHECK_ANSWER, PRINT_PLAN, CALLS };

/* A lent slice: `bytes` of them end at the guard page; `before` is what the room held when the call was made. */
struct slice {
    uint8_t *room;
    uint8_t *start;
    size_t length;
    uint8_t *before;
};

static struct slice image, state, buffer, message;
static struct plan plans[PLANS];
static struct chance chance;

static void slice_make(struct slice *slice)
{
    slice->room = mmap(NULL, ROOM + PAGE, PROT_READ | PROT_WRITE, MAP_PRIVATE | MAP_ANONYMOUS, -1, 0);
    slice->before = malloc(ROOM);
    if (slice->room == MAP_FAILED || slice->before == NULL || mprotect(slice->room + ROOM, PAGE, PROT_NONE) != 0) {
        perror("fuzz");
        exit(2);
    }
    slice->start = slice->room + ROOM;
    slice->length = 0;
}

static void slice_place(struct slice *slice, size_t length)
{
    slice->length = length;
    slice->start = slice->room + ROOM - length;
}

static void slice_random(struct slice *slice, size_t length)
{
    slice_place(slice, length);
    for (size_t place = 0; place < length; place++)
        slice->start[place] = (uint8_t)chance_below(&chance, 256);
}

static void slice_keep(struct slice *slice) { memcpy(slice->before, slice->room, ROOM); }

static uint8_t any_byte(void) { return (uint8_t)chance_below(&chance, 256); }

/* A small number most of the time, so that it is often one of the plan's. */
static uint8_t any_number(uint8_t count)
{
    return chance_one_in(&chance, 8) ? any_byte() : (uint8_t)chance_below(&chance, (uint32_t)count + 1);
}

/* The image lent: the plan as it is, with a few bytes changed, cut, followed by something, or too long; or random bytes. */
static void lend_image(const struct plan *plan)
{
    size_t length = plan->length;
    if (chance_one_in(&chance, 50)) {
        slice_random(&image, chance_below(&chance, 300));
        return;
    }
    if (chance_one_in(&chance, 6))
        length = chance_below(&chance, (uint32_t)length + 1);
    else if (chance_one_in(&chance, 20))
        length += 1 + chance_below(&chance, 8);
    else if (chance_one_in(&chance, 300))
        length = PEWTERSLUG_IMAGE_LIMIT + 1 + chance_below(&chance, 100);
    slice_random(&image, length);
    memcpy(image.start, plan->image, length < plan->length ? length : plan->length);
    for (uint32_t changes = chance_one_in(&chance, 3) ? chance_below(&chance, 4) : 0; changes > 0 && length > 0; changes--)
        image.start[chance_below(&chance, (uint32_t)length)] = any_byte();
}

/* One of the three plans. */
static const struct plan *choose_image(void)
{
    const struct plan *plan = &plans[chance_one_in(&chance, 64) ? 2 : chance_below(&chance, 2)];
    lend_image(plan);
    return plan;
}

/* What later records of a small plan must know. */
struct small {
    uint8_t owner[6], states[3], stages[2];
    uint64_t alphabets[2], controllable;
};

static void small_parties(struct plan *plan, struct small *small)
{
    for (uint8_t event = 0; event < plan->events; event++) {
        uint8_t kind = (uint8_t)chance_below(&chance, 2);
        small->owner[event] = (uint8_t)chance_below(&chance, plan->modules);
        small->controllable |= (uint64_t)kind << event;
        plan_add(plan, PEWTERSLUG_RECORD_EVENT, event, small->owner[event], kind, 0, 0);
    }
    for (uint8_t module = 0; module < plan->modules; module++) {
        small->states[module] = (uint8_t)(1 + chance_below(&chance, 3));
        plan_add(plan, PEWTERSLUG_RECORD_MODULE, module, small->states[module], (uint8_t)chance_below(&chance, small->states[module]), 0, 0);
    }
    for (uint8_t module = 0; module < plan->modules; module++)
        for (uint8_t from = 0; from < small->states[module]; from++)
            for (uint8_t event = 0; event < plan->events; event++)
                if (small->owner[event] == module && !chance_one_in(&chance, 3))
                    plan_add(plan, PEWTERSLUG_RECORD_MODULE_MOVE, module, from, event, (uint8_t)chance_below(&chance, small->states[module]), 0);
}

static void small_supervisors(struct plan *plan, struct small *small)
{
    for (uint8_t number = 0; number < plan->supervisors; number++) {
        small->stages[number] = (uint8_t)(1 + chance_below(&chance, 3));
        small->alphabets[number] = chance_below(&chance, 1u << plan->events);
        plan_add(plan, PEWTERSLUG_RECORD_SUPERVISOR, number, small->stages[number], (uint8_t)chance_below(&chance, small->stages[number]), 0,
                 small->alphabets[number]);
    }
    for (uint8_t number = 0; number < plan->supervisors; number++)
        for (uint8_t from = 0; from < small->stages[number]; from++)
            for (uint8_t event = 0; event < plan->events; event++)
                if ((small->alphabets[number] >> event & 1) != 0 && !chance_one_in(&chance, 3))
                    plan_add(plan, PEWTERSLUG_RECORD_SUPERVISOR_MOVE, number, from, event, (uint8_t)chance_below(&chance, small->stages[number]), 0);
    for (uint8_t number = 0; number < plan->supervisors; number++)
        for (uint8_t state = 0; state < small->stages[number]; state++) {
            uint64_t mask = small->alphabets[number] & small->controllable & chance_below(&chance, 1u << plan->events);
            if (mask != 0)
                plan_add(plan, PEWTERSLUG_RECORD_DISABLING, number, state, 0, 0, mask);
        }
}

/* An accepted plan of few parties and states, some of them marked; now and then spoilt. */
static const struct plan *choose_small(void)
{
    static struct plan plan;
    struct small small = {.controllable = 0};
    plan.name = "small", plan.length = 0;
    plan.modules = (uint8_t)(1 + chance_below(&chance, 3));
    plan.supervisors = (uint8_t)chance_below(&chance, 3);
    plan.events = (uint8_t)(1 + chance_below(&chance, 6));
    plan_add(&plan, PEWTERSLUG_RECORD_HEAD, plan.modules, plan.supervisors, plan.events, 0, 0);
    small_parties(&plan, &small);
    small_supervisors(&plan, &small);
    for (uint8_t module = 0; module < plan.modules; module++)
        for (uint8_t state = 0; state < small.states[module]; state++)
            if (chance_one_in(&chance, 3))
                plan_add(&plan, MARKING, module, state, 0, 0, 0);
    plan_add(&plan, PEWTERSLUG_RECORD_END, 0, 0, 0, 0, 0);
    if (chance_one_in(&chance, 4)) {
        lend_image(&plan);
        return &plan;
    }
    slice_place(&image, plan.length);
    memcpy(image.start, plan.image, plan.length);
    if (pewterslug_check(image.start, image.length) != 0) {
        printf("fuzz: a small plan is refused\n");
        exit(1);
    }
    return &plan;
}

/* An uncontrollable event of the module, half of the time the lowest, so that a queue has several and the module has no move by some of them;
 * event records follow the head, four bytes each. */
static uint8_t response_of(const struct plan *plan, uint8_t module)
{
    uint8_t found[PEWTERSLUG_EVENT_LIMIT];
    uint32_t count = 0;
    for (size_t place = 4; plan->image[place] == PEWTERSLUG_RECORD_EVENT; place += 4)
        if (plan->image[place + 2] == module && plan->image[place + 3] == 0)
            found[count++] = plan->image[place + 1];
    if (count == 0)
        return 0xFF;
    return found[chance_one_in(&chance, 2) ? 0 : chance_below(&chance, count)];
}

/* Calls that lead a device to a state with responses queued and procedures running. */
static void lead_device(const struct plan *plan)
{
    uint8_t module = (uint8_t)chance_below(&chance, plan->modules);
    for (uint32_t calls = chance_below(&chance, 24); calls > 0; calls--) {
        uint8_t event = response_of(plan, module);
        if (chance_one_in(&chance, 4))
            pewterslug_device_turn(plan->image, plan->length, state.start, state.length, (uint8_t)chance_below(&chance, plan->modules));
        else if (chance_one_in(&chance, 4))
            pewterslug_device_tick(plan->image, plan->length, state.start, state.length, module, 1, chance_below(&chance, 512) / 8.0);
        else
            pewterslug_device_respond(plan->image, plan->length, state.start, state.length, module, event);
    }
}

/* The same of a module, which gets a permit for each of its bids; its mask disables nothing. */
static void lead_module(const struct plan *plan, uint8_t module)
{
    uint8_t written[PEWTERSLUG_STEP_BYTES];
    for (uint32_t calls = chance_below(&chance, 24); calls > 0; calls--) {
        uint8_t event = response_of(plan, module);
        uint64_t answer = pewterslug_module_step(plan->image, plan->length, state.start, state.length, module, written, sizeof written);
        uint8_t permit[PEWTERSLUG_MESSAGE_BYTES] = {0x02, pewterslug_value(answer), module};
        if (pewterslug_number(answer) == 0 && pewterslug_did(answer) == PEWTERSLUG_BIDS)
            pewterslug_module_deliver(plan->image, plan->length, state.start, state.length, module, permit, sizeof permit);
        if (!chance_one_in(&chance, 3))
            pewterslug_module_respond(plan->image, plan->length, state.start, state.length, module, event);
        else
            pewterslug_module_tick(plan->image, plan->length, state.start, state.length, module, 0, 0);
    }
}

/* A supervisor with bids noted, whose permit may be out. */
static void lead_supervisor(const struct plan *plan, uint8_t supervisor)
{
    uint8_t written[PEWTERSLUG_MESSAGE_BYTES];
    for (uint32_t calls = chance_below(&chance, 6); calls > 0; calls--) {
        uint8_t bid[3] = {0x01, (uint8_t)chance_below(&chance, plan->modules), supervisor};
        pewterslug_supervisor_deliver(plan->image, plan->length, state.start, state.length, supervisor, bid, sizeof bid);
        if (chance_one_in(&chance, 2))
            pewterslug_supervisor_step(plan->image, plan->length, state.start, state.length, supervisor, written, sizeof written);
    }
}

/* A state of the plan, a few calls after its start, often with some bytes changed; or random bytes of any length. */
static void choose_state(const struct plan *plan, size_t bytes, uint8_t party)
{
    if (chance_one_in(&chance, 16)) {
        slice_random(&state, chance_below(&chance, 700));
        return;
    }
    slice_random(&state, bytes);
    if (bytes == PEWTERSLUG_DEVICE_BYTES) {
        pewterslug_device_start(plan->image, plan->length, state.start, bytes);
        lead_device(plan);
    } else if (bytes == PEWTERSLUG_MODULE_BYTES) {
        pewterslug_module_start(plan->image, plan->length, party, state.start, bytes);
        lead_module(plan, party);
    } else {
        pewterslug_supervisor_start(plan->image, plan->length, party, state.start, bytes);
        lead_supervisor(plan, party);
    }
    for (uint32_t changes = chance_one_in(&chance, 2) ? chance_below(&chance, 4) : 0; changes > 0; changes--)
        state.start[chance_below(&chance, (uint32_t)bytes)] = any_byte();
}

static void choose_message(const struct plan *plan)
{
    static const uint8_t lengths[] = {3, 11, 4};
    uint8_t kind = (uint8_t)(1 + chance_below(&chance, 3));
    if (chance_one_in(&chance, 10)) {
        slice_random(&message, chance_below(&chance, 16));
        return;
    }
    slice_random(&message, lengths[kind - 1]);
    message.start[0] = kind;
    message.start[1] = any_number(kind == 2 ? plan->supervisors : plan->modules);
    message.start[2] = any_number(kind == 2 ? plan->modules : plan->supervisors);
    if (kind == 3)
        message.start[3] = chance_one_in(&chance, 2) ? 0xFF : any_number(plan->events);
}

static uint8_t any_event(const struct plan *plan, uint8_t module)
{
    return chance_one_in(&chance, 2) ? response_of(plan, module) : any_number(plan->events);
}

static double any_litres(void)
{
    uint64_t bits = (uint64_t)chance_below(&chance, 0xFFFFFFFF) << 32 | chance_below(&chance, 0xFFFFFFFF);
    double litres;
    if (!chance_one_in(&chance, 3))
        return chance_below(&chance, 520) / 8.0;
    memcpy(&litres, &bits, sizeof litres);
    return litres;
}

static uint64_t device_call(uint32_t call, const struct plan *plan)
{
    uint8_t module = any_number(plan->modules), event = any_event(plan, module), sensor = (uint8_t)chance_below(&chance, 3);
    double litres = any_litres();
    const uint8_t *plan_bytes = image.start;
    choose_state(plan, PEWTERSLUG_DEVICE_BYTES, 0);
    slice_keep(&state);
    if (call == 0)
        return pewterslug_device_start(plan_bytes, image.length, buffer.start, buffer.length);
    if (call == 1)
        return pewterslug_device_turn(plan_bytes, image.length, state.start, state.length, module);
    if (call == 2)
        return pewterslug_device_respond(plan_bytes, image.length, state.start, state.length, module, event);
    return pewterslug_device_tick(plan_bytes, image.length, state.start, state.length, module, sensor, litres);
}

static uint64_t module_call(uint32_t call, const struct plan *plan)
{
    uint8_t module = any_number(plan->modules), event = any_event(plan, module), sensor = (uint8_t)chance_below(&chance, 3);
    double litres = any_litres();
    choose_state(plan, PEWTERSLUG_MODULE_BYTES, module);
    slice_keep(&state);
    if (call == 0)
        return pewterslug_module_start(image.start, image.length, module, buffer.start, buffer.length);
    if (call == 1)
        return pewterslug_module_step(image.start, image.length, state.start, state.length, module, buffer.start, buffer.length);
    if (call == 2)
        return pewterslug_module_deliver(image.start, image.length, state.start, state.length, module, message.start, message.length);
    if (call == 3)
        return pewterslug_module_respond(image.start, image.length, state.start, state.length, module, event);
    return pewterslug_module_tick(image.start, image.length, state.start, state.length, module, sensor, litres);
}

static uint64_t supervisor_call(uint32_t call, const struct plan *plan)
{
    uint8_t supervisor = any_number(plan->supervisors);
    choose_state(plan, PEWTERSLUG_SUPERVISOR_BYTES, supervisor);
    slice_keep(&state);
    if (call == 0)
        return pewterslug_supervisor_start(image.start, image.length, supervisor, buffer.start, buffer.length);
    if (call == 1)
        return pewterslug_supervisor_step(image.start, image.length, state.start, state.length, supervisor, buffer.start, buffer.length);
    return pewterslug_supervisor_deliver(image.start, image.length, state.start, state.length, supervisor, message.start, message.length);
}

static uint64_t other_call(uint32_t call)
{
    uint64_t word = (uint64_t)chance_below(&chance, 0xFFFFFFFF) << chance_below(&chance, 33);
    uint8_t kind = (uint8_t)(0x0F + chance_below(&chance, 18));
    slice_keep(&state);
    if (call == 0)
        return pewterslug_check(image.start, image.length);
    if (call == 1)
        return pewterslug_read_record(image.start, image.length, chance_below(&chance, (uint32_t)image.length + 3));
    if (call == 2)
        return pewterslug_write_record(kind, any_number(16), any_number(32), any_number(5), any_byte(), word, buffer.start, buffer.length);
    if (call == 3)
        return pewterslug_read_message(message.start, message.length);
    return pewterslug_write_message((uint8_t)chance_below(&chance, 5), any_byte(), any_byte(), any_byte(), word, buffer.start, buffer.length);
}

/* A length of words: mostly one that is counted, now and then one of any bits. */
static uint64_t any_length(void)
{
    uint64_t high = chance_below(&chance, 0xFFFFFFFF);
    if (chance_one_in(&chance, 12))
        return high << chance_below(&chance, 33) | chance_below(&chance, 64);
    return chance_below(&chance, chance_one_in(&chance, 3) ? 46 : 8);
}

/* A question about the joint states of a plan; the state is not lent. */
static uint64_t joint_call(uint32_t call)
{
    uint64_t length = any_length();
    slice_random(&state, chance_below(&chance, 20));
    slice_keep(&state);
    if (call == FIND_STUCK)
        return pewterslug_find_stuck(image.start, image.length, buffer.start, buffer.length);
    return pewterslug_count_words(image.start, image.length, length, buffer.start, buffer.length);
}

/* Sets how many bytes a state of the check in pieces has taken: few, or about as many as there may be. */
static void set_taken(void)
{
    uint32_t taken = chance_one_in(&chance, 3) ? PEWTERSLUG_IMAGE_LIMIT - 300 + chance_below(&chance, 400) : chance_below(&chance, 20000);
    const uint8_t bytes[] = {(uint8_t)(taken >> 24), (uint8_t)(taken >> 16), (uint8_t)(taken >> 8), (uint8_t)taken};
    memcpy(state.start + 6, bytes, sizeof bytes);
}

/* Bytes of a state of the check in pieces: what a part of the plan left, often with some of them changed; or random ones, mostly with flags
 * that a state may have, or of any length. */
static void choose_check_state(const struct plan *plan)
{
    if (chance_one_in(&chance, 16)) {
        slice_random(&state, chance_one_in(&chance, 2) ? 494 + chance_below(&chance, 3) : chance_below(&chance, 700));
        return;
    }
    slice_random(&state, PEWTERSLUG_CHECK_BYTES);
    if (chance_one_in(&chance, 2)) {
        pewterslug_check_start(state.start, state.length);
        pewterslug_check_piece(state.start, state.length, plan->image, chance_below(&chance, (uint32_t)plan->length + 1));
        for (uint32_t changes = chance_below(&chance, 4); changes > 0; changes--)
            state.start[chance_below(&chance, PEWTERSLUG_CHECK_BYTES)] = any_byte();
    } else if (!chance_one_in(&chance, 8)) {
        memset(state.start, 0, 6);
        state.start[0] = (uint8_t)chance_below(&chance, 3);
        state.start[1] = state.start[0] == 2 ? (uint8_t)(2 + chance_below(&chance, 7)) : 0;
        state.start[23] &= 1;
        set_taken();
    }
    if (chance_one_in(&chance, 8))
        set_taken();
}

/* A piece: random bytes, or some of the plan from the byte on that the state says, or from any. */
static void choose_piece(const struct plan *plan)
{
    uint32_t from = state.length == PEWTERSLUG_CHECK_BYTES ? pewterslug_quad_at(state.start + 6) : 0, length = chance_below(&chance, 600);
    if (from > plan->length || chance_one_in(&chance, 3))
        from = chance_below(&chance, (uint32_t)plan->length + 1);
    slice_random(&image, length);
    if (!chance_one_in(&chance, 3))
        memcpy(image.start, plan->image + from, length < plan->length - from ? length : plan->length - from);
}

/* A call of the check in pieces; the piece is lent in place of the image. */
static uint64_t check_call(uint32_t call, const struct plan *plan)
{
    choose_check_state(plan);
    choose_piece(plan);
    if (chance_one_in(&chance, 2))
        slice_random(&buffer, 480 + chance_below(&chance, 32));
    slice_keep(&image), slice_keep(&state), slice_keep(&buffer);
    if (call == CHECK_START)
        return pewterslug_check_start(buffer.start, buffer.length);
    if (call == CHECK_PIECE)
        return pewterslug_check_piece(state.start, state.length, image.start, image.length);
    return pewterslug_check_answer(state.start, state.length);
}

/* How many bytes the text of the image lent has, if it is accepted. */
static size_t text_bytes(void) { return pewterslug_print_bytes(pewterslug_record_count(image.start, image.length)); }

/* A plan printed into a buffer about as long as its text, where there is room for that; the state is not lent. */
static uint64_t print_call(void)
{
    size_t length = text_bytes();
    if (chance_one_in(&chance, 4))
        length -= length > 0;
    else if (chance_one_in(&chance, 4))
        length += chance_below(&chance, 300);
    else if (chance_one_in(&chance, 8))
        length = chance_below(&chance, (uint32_t)length + 1);
    slice_random(&buffer, length < ROOM ? length : ROOM);
    slice_random(&state, chance_below(&chance, 20));
    slice_keep(&state), slice_keep(&buffer);
    return pewterslug_print_plan(image.start, image.length, buffer.start, buffer.length);
}

/* Whether the bytes before a call stood for a state of the check in pieces, as the header says. */
static int stood(void)
{
    const uint8_t *bytes = state.before + (state.start - state.room);
    if (state.length != PEWTERSLUG_CHECK_BYTES || bytes[0] > 2 || bytes[23] > 1)
        return 0;
    if (bytes[0] == 2)
        return bytes[1] >= 2 && bytes[1] <= 8;
    return bytes[1] == 0 && pewterslug_quad_at(bytes + 2) == 0;
}

static int changed(const struct slice *slice, const uint8_t *from)
{
    return memcmp(from, slice->before + (from - slice->room), (size_t)(slice->room + ROOM - from)) != 0
        || memcmp(slice->room, slice->before, (size_t)(slice->start - slice->room)) != 0;
}

/* What the call must have left alone, and the answer's unused bits. The length of a read record or message is not of bytes written. */
static int broken(uint64_t answer, int writes)
{
    uint32_t written = pewterslug_number(answer) == 0 && writes ? pewterslug_length(answer) : 0;
    if ((answer >> 24 & 0xFF) != 0 || (pewterslug_number(answer) != 0 && (answer >> 8 & 0xFFFF) != 0))
        return 1;
    if (pewterslug_number(answer) >= NUMBERS || changed(&image, image.start) || changed(&message, message.start))
        return 1;
    if (written > buffer.length || changed(&buffer, buffer.start + written))
        return 1;
    return changed(&state, pewterslug_number(answer) == 0 ? state.room + ROOM : state.start);
}

/* What a call of the check in pieces may not answer, and that asking leaves the state alone. */
static int check_broken(uint32_t call, uint64_t answer)
{
    if (call == CHECK_START)
        return answer != (buffer.length < PEWTERSLUG_CHECK_BYTES ? 15 : (uint64_t)PEWTERSLUG_CHECK_BYTES << 32);
    if (call == CHECK_PIECE)
        return answer != (stood() ? 0 : 9);
    if (call == CHECK_ANSWER && (changed(&state, state.start) || (answer == 9) == stood()))
        return 1;
    return call == CHECK_ANSWER && (pewterslug_number(answer) > 9 || (pewterslug_number(answer) == 0 && answer != 0));
}

/* A printed plan has the check's answer, 15, or the length that the header tells; then each line has 72 characters and a line feed. */
static int print_broken(uint64_t answer)
{
    uint64_t checked = pewterslug_check(image.start, image.length);
    size_t length = text_bytes();
    if (pewterslug_number(checked) != 0 || buffer.length < length)
        return answer != (pewterslug_number(checked) != 0 ? checked : 15);
    for (size_t place = 0; place < length; place++) {
        int ends = place % PEWTERSLUG_LINE_BYTES == PEWTERSLUG_LINE_BYTES - 1;
        if (ends ? buffer.start[place] != '\n' : buffer.start[place] < ' ' || buffer.start[place] > '~')
            return 1;
    }
    return answer != (uint64_t)length << 32;
}

/* How long the buffer of a call may be, so that it is often long enough and often not. */
static uint32_t most_bytes(uint32_t call)
{
    if (chance_one_in(&chance, 20) || (call == COUNT_WORDS && chance_one_in(&chance, 2)))
        return 700;
    return call == FIND_STUCK || call == COUNT_WORDS ? 20 : 140;
}

static uint64_t one_call(uint32_t call)
{
    int joint = call == FIND_STUCK || call == COUNT_WORDS;
    int small = joint ? !chance_one_in(&chance, 32) : call == PRINT_PLAN && chance_one_in(&chance, 2);
    const struct plan *plan = small ? choose_small() : choose_image();
    choose_message(plan);
    slice_random(&buffer, chance_below(&chance, most_bytes(call)));
    slice_keep(&image);
    slice_keep(&message);
    slice_keep(&buffer);
    if (call < 4)
        return device_call(call, plan);
    if (call < 9)
        return module_call(call - 4, plan);
    if (call < 12)
        return supervisor_call(call - 9, plan);
    if (call < FIND_STUCK)
        return other_call(call - 12);
    if (call == PRINT_PLAN)
        return print_call();
    return joint ? joint_call(call) : check_call(call, plan);
}

int main(int count, char **words)
{
    uint64_t seed = count > 1 ? strtoull(words[1], NULL, 10) : 1, calls = count > 2 ? strtoull(words[2], NULL, 10) : 20000;
    uint64_t numbers[NUMBERS] = {0};
    if (!plan_build(&plans[0], "two-valve") || !plan_build(&plans[1], "orchard") || !plan_build(&plans[2], "full"))
        return 2;
    chance_start(&chance, seed, 0);
    slice_make(&image), slice_make(&state), slice_make(&buffer), slice_make(&message);
    for (uint64_t call = 0; call < calls; call++) {
        uint32_t which = chance_below(&chance, CALLS);
        uint64_t answer = one_call(which);
        if (broken(answer, which != 13 && which != 15) || check_broken(which, answer) || (which == PRINT_PLAN && print_broken(answer))) {
            printf("fuzz: seed %llu, call %llu: lent memory or the answer is not as promised\n", (unsigned long long)seed, (unsigned long long)call);
            return 1;
        }
        numbers[pewterslug_number(answer)]++;
    }
    printf("numbers:");
    for (int number = 0; number < NUMBERS; number++)
        printf(" %d:%llu", number, (unsigned long long)numbers[number]);
    printf("\n");
    for (int number = 0; number < NUMBERS; number++)
        if (numbers[number] == 0 && calls >= 20000) {
            printf("fuzz: no call got %d, so the run shows too little\n", number);
            return 1;
        }
    printf("fuzz: %llu calls, nothing found\n", (unsigned long long)calls);
    return 0;
}
