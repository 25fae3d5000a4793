/* The orchard supervisory engine: every call over numbers and byte slices, and names for what stands in them.
 *
 * A slice is a pointer and a length. Pointers are never null (also for length 0) and slices lent to one call do not overlap, except that
 * two that are only read may. The engine keeps no pointer and no state of its own: what a party remembers stands in the bytes that its
 * caller lends. Multi-byte values in states, messages and plans are big-endian.
 *
 * A refused call leaves every lent byte as it was. An accepted call writes the state in place, and its answer from the buffer's start
 * and nothing else.
 *
 * docs/REFERENCE.md has the rules by which plans are judged and run, docs/EMBEDDING.md what a device owes the engine and gets from it.
 *
 * Of the C library the archive takes memcpy, memmove and memset. Linking with -lm does no harm. C99 or later, or C++.
 */
#ifndef PEWTERSLUG_H
#define PEWTERSLUG_H

#include <stddef.h>
#include <stdint.h>
#include <string.h>

#ifdef __cplusplus
extern "C" {
#endif

/* The layout of states and answers in this header. */
#define PEWTERSLUG_VERSION 1

/* The layout of states and answers in the archive. Where it is not PEWTERSLUG_VERSION, header and archive are of different versions, and no
 * other call may be made. */
uint32_t pewterslug_version(void);

/* Sizes in bytes. */
#define PEWTERSLUG_IMAGE_LIMIT 49152
#define PEWTERSLUG_DEVICE_BYTES 592
#define PEWTERSLUG_OWN_BYTES 35
#define PEWTERSLUG_MODULE_BYTES 48
#define PEWTERSLUG_SUPERVISOR_BYTES 6
#define PEWTERSLUG_CHECK_BYTES 495
#define PEWTERSLUG_RECORD_BYTES 12   /* the longest record */
#define PEWTERSLUG_MESSAGE_BYTES 11  /* the longest message */
#define PEWTERSLUG_RELEASE_BYTES 4
#define PEWTERSLUG_STEP_BYTES 128    /* the longest answer of a step: 32 releases of 4 bytes */
#define PEWTERSLUG_STUCK_BYTES 4143  /* the longest answer of find_stuck: a word of 4,095 events and 48 states */
#define PEWTERSLUG_COUNT_BYTES 86037 /* enough for every text of count_words: 4,097 lines of 20 digits and a line feed */
#define PEWTERSLUG_LINE_BYTES 73     /* a line of print_plan: 72 characters and a line feed */
#define PEWTERSLUG_PAGE_BYTES 4380   /* a page of print_plan: 60 lines */
#define PEWTERSLUG_PRINT_BYTES 735840 /* enough for every text of print_plan: 168 pages */

/* How many at most: modules, supervisors and events of a plan; responses queued and outputs of a module. */
#define PEWTERSLUG_MODULE_LIMIT 16
#define PEWTERSLUG_SUPERVISOR_LIMIT 32
#define PEWTERSLUG_EVENT_LIMIT 64
#define PEWTERSLUG_QUEUE_LIMIT 8
#define PEWTERSLUG_OUTPUT_LIMIT 32

/* ---- plan records ----
 *
 * A plan image is a row of records. A record is one byte of kind, then its fields: those of one byte in the table's order, then the field of
 * eight bytes, where the kind has one. Bit e of a mask stands for event e. Modules, supervisors, events and states are numbered from 0. Kinds
 * are hexadecimal.
 *
 *   kind                bytes  first       second            third             fourth  word (8 bytes)
 *   10 head                 4  modules     supervisors       events
 *                              1 to 16     0 to 32           1 to 64
 *   11 event                4  event       its module        class
 *   12 module               4  module      states 1 to 32    initial state
 *   13 module move          5  module      from state        event             to
 *   14 supervisor          12  supervisor  states 1 to 64    initial state             alphabet, a mask
 *   15 supervisor move      5  supervisor  from state        event             to
 *   16 disabling           11  supervisor  state                                       events disabled there, a mask, not 0
 *   17 procedure step      12  event       index 0 to 63     operation                 operand
 *   18 marking              3  module      marked state
 *   1F end                  1
 *
 * Records ascend by kind, and within a kind strictly: events, modules and supervisors by their number, moves by owner, state and event,
 * disablings by supervisor and state, steps by event and index, markings by module and state. The indices of an event's steps run 0, 1, 2
 * without a gap. A module without a marking has all its states marked. */
enum pewterslug_record {
    PEWTERSLUG_RECORD_HEAD = 0x10,
    PEWTERSLUG_RECORD_EVENT = 0x11,
    PEWTERSLUG_RECORD_MODULE = 0x12,
    PEWTERSLUG_RECORD_MODULE_MOVE = 0x13,
    PEWTERSLUG_RECORD_SUPERVISOR = 0x14,
    PEWTERSLUG_RECORD_SUPERVISOR_MOVE = 0x15,
    PEWTERSLUG_RECORD_DISABLING = 0x16,
    PEWTERSLUG_RECORD_STEP = 0x17,
    PEWTERSLUG_RECORD_MARKING = 0x18,
    PEWTERSLUG_RECORD_END = 0x1F
};

/* The class of an event: a response, which the plant reports, or a command, which the engine fires. */
enum pewterslug_class {
    PEWTERSLUG_CLASS_UNCONTROLLABLE = 0,
    PEWTERSLUG_CLASS_CONTROLLABLE = 1
};

/* The operation of a procedure step. Only controllable events have steps. */
enum pewterslug_operation {
    PEWTERSLUG_OPERATION_OUTPUT_ON = 1,   /* the operand is the output, 0 to 31 */
    PEWTERSLUG_OPERATION_OUTPUT_OFF = 2,  /* the operand is the output, 0 to 31 */
    PEWTERSLUG_OPERATION_WAIT_TICKS = 3,  /* the operand is the ticks, 1 to 65,535 */
    PEWTERSLUG_OPERATION_WAIT_LITRES = 4, /* the operand is pewterslug_litres_word of 0.125 to 131,072 litres, a multiple of 1/8 */
    PEWTERSLUG_OPERATION_RESPOND = 5      /* the operand is an uncontrollable event of the same module */
};

/* ---- messages ----
 *
 *   kind         bytes
 *   01 bid           3  kind, module, supervisor
 *   02 permit       11  kind, supervisor, module, mask (8 bytes)
 *   03 release       4  kind, module, supervisor, event or PEWTERSLUG_NO_EVENT
 *
 * The third byte is always the receiver. */
enum pewterslug_message {
    PEWTERSLUG_MESSAGE_BID = 1,
    PEWTERSLUG_MESSAGE_PERMIT = 2,
    PEWTERSLUG_MESSAGE_RELEASE = 3
};

#define PEWTERSLUG_NO_EVENT 0xFF /* no event has this number */

/* ---- answers ----
 *
 * An answer is one number. Bits 0..7 are the refusal's number, 0 if the call is accepted. Of a refused call bits 32..63 are the byte
 * offset. Of an accepted one bits 8..15 say what was done, bits 16..23 of what, and bits 32..63 how many bytes were written (for a read
 * record or message: how many it has). All other bits are 0. An offset has 32 bits; only read_record on more than 4 GiB could have a longer
 * one, and gives its lower 32.
 *
 * The whole answer of an accepted call need not be 0: only its number is. So `if (answer)` is wrong; it is pewterslug_number(answer) != 0. */
enum pewterslug_done {
    PEWTERSLUG_DONE = 0,  /* taken; the value is 0, of a read record or message its kind */
    PEWTERSLUG_EVENT = 1, /* a turn: an event fired, the value is the event */
    /* 2 was a stray response, until request 2.5; it is not given again */
    PEWTERSLUG_NONE = 3,  /* a turn: none */
    PEWTERSLUG_BIDS = 4,  /* a module bids, the value is the supervisor */
    PEWTERSLUG_SENDS = 5, /* a supervisor sends its permit, the value is the module */
    PEWTERSLUG_WAITS = 6, /* a step that waits */
    PEWTERSLUG_FREE = 7,  /* find_stuck: the plan never gets stuck */
    PEWTERSLUG_STUCK = 8  /* find_stuck: it may; the word that leads there and the state are written */
};

static inline uint8_t pewterslug_number(uint64_t answer) { return (uint8_t)answer; }
static inline uint32_t pewterslug_offset(uint64_t answer) { return (uint8_t)answer != 0 ? (uint32_t)(answer >> 32) : 0; }
static inline uint8_t pewterslug_did(uint64_t answer) { return (uint8_t)(answer >> 8); }
static inline uint8_t pewterslug_value(uint64_t answer) { return (uint8_t)(answer >> 16); }
static inline uint32_t pewterslug_length(uint64_t answer) { return (uint8_t)answer == 0 ? (uint32_t)(answer >> 32) : 0; }

/* The numbers. docs/EMBEDDING.md lists those of each call, and what to do about each. */
enum pewterslug_refusal {
    PEWTERSLUG_ACCEPTED = 0,
    PEWTERSLUG_REFUSAL_IMAGE_TOO_LONG = 1,
    PEWTERSLUG_REFUSAL_UNKNOWN_KIND = 2,
    PEWTERSLUG_REFUSAL_CUT = 3,
    PEWTERSLUG_REFUSAL_ORDER = 4,
    PEWTERSLUG_REFUSAL_RANGE = 5,
    PEWTERSLUG_REFUSAL_UNDECLARED = 6,
    PEWTERSLUG_REFUSAL_EVENT_RULE = 7,
    PEWTERSLUG_REFUSAL_INCOMPLETE = 8,
    PEWTERSLUG_REFUSAL_STATE = 9,
    PEWTERSLUG_REFUSAL_MISSHAPEN = 10,
    PEWTERSLUG_REFUSAL_NOT_IN_PLAN = 11,
    PEWTERSLUG_REFUSAL_OUT_OF_TURN = 12,
    PEWTERSLUG_REFUSAL_QUEUE_FULL = 13,
    PEWTERSLUG_REFUSAL_FLOW_READING = 14,
    PEWTERSLUG_REFUSAL_BUFFER_TOO_SHORT = 15,
    PEWTERSLUG_REFUSAL_TOO_MANY_STATES = 16,
    PEWTERSLUG_REFUSAL_TOO_MANY_WORDS = 17
};

/* The condition of a number, for a log or a display. */
static inline const char *pewterslug_refusal_text(uint8_t number)
{
    switch (number) {
    case PEWTERSLUG_ACCEPTED: return "accepted";
    case PEWTERSLUG_REFUSAL_IMAGE_TOO_LONG: return "image over 49,152 bytes";
    case PEWTERSLUG_REFUSAL_UNKNOWN_KIND: return "record of unknown kind";
    case PEWTERSLUG_REFUSAL_CUT: return "record cut, or no end record";
    case PEWTERSLUG_REFUSAL_ORDER: return "head not first, records or step indices out of order, or bytes after the end";
    case PEWTERSLUG_REFUSAL_RANGE: return "field outside its range";
    case PEWTERSLUG_REFUSAL_UNDECLARED: return "undeclared module, supervisor, event or state named";
    case PEWTERSLUG_REFUSAL_EVENT_RULE: return "move, disabling or step by an event that it may not have";
    case PEWTERSLUG_REFUSAL_INCOMPLETE: return "a number promised by the head is not declared";
    case PEWTERSLUG_REFUSAL_STATE: return "state does not fit the plan";
    case PEWTERSLUG_REFUSAL_MISSHAPEN: return "message misshapen";
    case PEWTERSLUG_REFUSAL_NOT_IN_PLAN: return "number not in the plan, not a neighbour, or not a response of the module";
    case PEWTERSLUG_REFUSAL_OUT_OF_TURN: return "message out of turn or for another party";
    case PEWTERSLUG_REFUSAL_QUEUE_FULL: return "response queue full";
    case PEWTERSLUG_REFUSAL_FLOW_READING: return "bad flow reading";
    case PEWTERSLUG_REFUSAL_BUFFER_TOO_SHORT: return "output buffer shorter than the answer";
    case PEWTERSLUG_REFUSAL_TOO_MANY_STATES: return "more than 4,096 reachable joint states";
    case PEWTERSLUG_REFUSAL_TOO_MANY_WORDS: return "length above 40, or more words than 64 bits count";
    default: return "unknown number";
    }
}

/* ---- numbers of several bytes ---- */

/* Four and eight bytes, big-endian: as the word of a record stands, or the mask of a permit. */
static inline uint32_t pewterslug_quad_at(const uint8_t *bytes)
{
    return (uint32_t)bytes[0] << 24 | (uint32_t)bytes[1] << 16 | (uint32_t)bytes[2] << 8 | (uint32_t)bytes[3];
}

static inline uint64_t pewterslug_word_at(const uint8_t *bytes)
{
    return (uint64_t)pewterslug_quad_at(bytes) << 32 | (uint64_t)pewterslug_quad_at(bytes + 4);
}

/* A double must have the 64 bits of IEEE 754. */
typedef char pewterslug_double_has_eight_bytes[sizeof(double) == sizeof(uint64_t) ? 1 : -1];

/* Litres as the operand of a litres step, and back: the f64's bits. */
static inline uint64_t pewterslug_litres_word(double litres)
{
    uint64_t word;
    memcpy(&word, &litres, sizeof word);
    return word;
}

static inline double pewterslug_word_litres(uint64_t word)
{
    double litres;
    memcpy(&litres, &word, sizeof litres);
    return litres;
}

/* ---- states, by offset ----
 *
 * A module's own part, 35 bytes:
 *    0      state of the automaton
 *    1      responses queued, 0 to 8
 *    2..9   the queue, its head first; places past the length are 0; a response stays until a turn fires it
 *   10      1 while a procedure runs, else 0
 *   11      its event          12      its step's index
 *   13..14  ticks counted of a wait
 *   15..22  target of a litres step, f64 bits
 *   23..30  total of a litres step, f64 bits
 *   31..34  outputs, bit i for output i
 * A module on its own device, 48 bytes: its own part, then
 *   35..38  permits held, bit v for supervisor v
 *   39..46  union of the masks received with them
 *   47      1 while a bid is outstanding, else 0
 * A supervisor on its own device, 6 bytes:
 *    0      state of the automaton
 *    1..2   modules whose bids are noted, bit m for module m
 *    3      1 while the permit is out, else 0
 *    4      its holder, 0 while the permit is home
 *    5      the module last served
 * One device, 592 bytes: sixteen own parts of 35 bytes, then the states of 32 supervisors. Slots that the plan lacks are 0.
 * A check in pieces, 495 bytes:
 *    0        its stage: 0 while records are read, 1 after a faultless end record, 2 after a refusal
 *    1        the refusal's number, else 0
 *    2..5     its offset, else 0
 *    6..9     bytes taken; past 49,152 it stays 49,153, and all else is as at the start
 *   10        how many bytes are held of a record that has begun
 *   11..22    these bytes, the places past them 0
 *   23        1 once a faultless record has come, else 0
 *   24..27    kind and key of the last one
 *   28..30    the head's modules, supervisors, events
 *   31..38    events declared, bit e for event e
 *   39..46    controllable ones
 *   47..110   the module of each event
 *  111..174   steps of each event
 *  175..182   modules declared, bit m for module m
 *  183..198   states of each module
 *  199..206   supervisors declared, bit v for supervisor v
 *  207..238   states of each supervisor
 *  239..494   alphabet of each supervisor, 8 bytes each
 *
 * Bytes of another length, a flag other than 0 and 1, a holder of a permit at home and f64 bits of a NaN stand for no state: the call
 * that gets them is refused with 9, unless the image is refused or, on many devices, the call is on a module or supervisor that the plan
 * lacks, which is 11 (10 of a misshapen message). On one device 9 comes before 11. Of a check in pieces, which is given no image, a stage
 * above 2, a number or an offset without a refusal and a refusal's number other than 2 to 8 stand for no state too.
 *
 * The functions below read these bytes and judge nothing: give them bytes that a call has written. */

/* A module's own part. Give them the 48 bytes of a module's own device as they are, or pewterslug_own_part of one device's. */
static inline uint8_t pewterslug_own_state(const uint8_t *own) { return own[0]; }
static inline uint8_t pewterslug_own_queued(const uint8_t *own) { return own[1]; }

/* The response at a place of the queue, its head at 0; PEWTERSLUG_NO_EVENT from the queue's length on. */
static inline uint8_t pewterslug_own_response(const uint8_t *own, uint8_t place)
{
    return place < PEWTERSLUG_QUEUE_LIMIT && place < own[1] ? own[2 + place] : (uint8_t)PEWTERSLUG_NO_EVENT;
}

/* Whether a procedure runs, its event and its step's index; both are 0 while none runs. */
static inline int pewterslug_own_running(const uint8_t *own) { return own[10] != 0; }
static inline uint8_t pewterslug_own_event(const uint8_t *own) { return own[11]; }
static inline uint8_t pewterslug_own_step(const uint8_t *own) { return own[12]; }

/* Ticks counted of a running wait, else 0; litres of a running litres step, else 0. */
static inline uint16_t pewterslug_own_ticks(const uint8_t *own) { return (uint16_t)(own[13] << 8 | own[14]); }
static inline double pewterslug_own_target(const uint8_t *own) { return pewterslug_word_litres(pewterslug_word_at(own + 15)); }
static inline double pewterslug_own_total(const uint8_t *own) { return pewterslug_word_litres(pewterslug_word_at(own + 23)); }

/* All outputs, bit i for output i, and whether one is on; there is none from 32 on. */
static inline uint32_t pewterslug_own_outputs(const uint8_t *own) { return pewterslug_quad_at(own + 31); }
static inline int pewterslug_own_output(const uint8_t *own, uint8_t output)
{
    return output < PEWTERSLUG_OUTPUT_LIMIT && (pewterslug_own_outputs(own) >> output & 1) != 0;
}

/* A module on its own device: the permits that it holds, bit v for supervisor v; the union of the masks received with them; whether a bid is
 * outstanding. */
static inline uint32_t pewterslug_module_permits(const uint8_t *module) { return pewterslug_quad_at(module + 35); }
static inline uint64_t pewterslug_module_received(const uint8_t *module) { return pewterslug_word_at(module + 39); }
static inline int pewterslug_module_has_bid(const uint8_t *module) { return module[47] != 0; }

/* A supervisor on its own device: its state; the modules whose bids are noted, bit m for module m; whether its permit is out; who holds it,
 * 0 while it is home; the module last served, 15 at the start. */
static inline uint8_t pewterslug_supervisor_state(const uint8_t *supervisor) { return supervisor[0]; }
static inline uint16_t pewterslug_supervisor_noted(const uint8_t *supervisor) { return (uint16_t)(supervisor[1] << 8 | supervisor[2]); }
static inline int pewterslug_supervisor_permit_is_out(const uint8_t *supervisor) { return supervisor[3] != 0; }
static inline uint8_t pewterslug_supervisor_holder(const uint8_t *supervisor) { return supervisor[4]; }
static inline uint8_t pewterslug_supervisor_last_served(const uint8_t *supervisor) { return supervisor[5]; }

/* One device: a module's own part, for a module below 16, and a supervisor's state, for a supervisor below 32. */
static inline const uint8_t *pewterslug_own_part(const uint8_t *device, uint8_t module) { return device + PEWTERSLUG_OWN_BYTES * module; }
static inline uint8_t pewterslug_device_supervisor_state(const uint8_t *device, uint8_t supervisor)
{
    return device[PEWTERSLUG_OWN_BYTES * PEWTERSLUG_MODULE_LIMIT + supervisor];
}

/* ---- plans ---- */

/* Checks a plan image. */
uint64_t pewterslug_check(const uint8_t *image, size_t image_length);

/* The same for an image that comes in pieces, cut anywhere and each handed over once and in order: check_start, check_piece with each piece,
 * and check_answer after the last. What is kept between the calls is the state alone.
 *
 * Writes the state before the first piece, PEWTERSLUG_CHECK_BYTES, from the start of the bytes lent. Where they are fewer it is 15. The other
 * two calls are given these bytes and no more. */
uint64_t pewterslug_check_start(uint8_t *state, size_t state_length);

/* Takes the next piece, of any length, also of 0. Only bytes that stand for no state are refused, with 9; what is wrong with the image is
 * check_answer's to tell. */
uint64_t pewterslug_check_piece(uint8_t *state, size_t state_length, const uint8_t *piece, size_t piece_length);

/* The answer of pewterslug_check for all pieces taken so far, one behind the other. Bytes that stand for no state are 9. It changes nothing,
 * and more pieces may follow. */
uint64_t pewterslug_check_answer(const uint8_t *state, size_t state_length);

/* Reads the record at an offset of an image, by shape alone: the value is its kind and the length that of the whole record, so that the
 * next one stands that much further on. Its fields are the image's bytes. An unknown kind is 2 and a cut body 3, at the offset; from the
 * image's length on it is 3 at that length. */
uint64_t pewterslug_read_record(const uint8_t *image, size_t image_length, size_t offset);

/* Writes one record: the kind, the one-byte fields in the table's order, and the field of eight bytes; what the kind lacks is not looked
 * at. A kind that is none is 5. */
uint64_t pewterslug_write_record(uint8_t kind, uint8_t first, uint8_t second, uint8_t third, uint8_t fourth, uint64_t word,
                                 uint8_t *buffer, size_t buffer_length);

/* Prints a plan: a text of lines of exactly 72 characters and a line feed, one for each record in the image's order, the end record too. 60
 * lines are a page; the last page is filled up with lines of 72 spaces.
 *
 *   columns   1 to 16  the name of the record's kind, as in the table of plan records, at the left
 *            17 to 40  four columns of 6: the one-byte fields in the table's order, decimal, at the right
 *            41 to 72  the field of eight bytes as 16 upper-case hexadecimal digits, at the right
 *
 * What a record lacks is blank. The text read by its columns gives exactly the image again, so two plans have the same text only if they are
 * the same.
 *
 * The call did PEWTERSLUG_DONE and wrote pewterslug_print_bytes of the image's records. After the image's numbers comes 15, where the buffer
 * is shorter than that. PEWTERSLUG_PRINT_BYTES are always enough. */
uint64_t pewterslug_print_plan(const uint8_t *image, size_t image_length, uint8_t *buffer, size_t buffer_length);

/* How many bytes print_plan writes for so many records: a page for each 60 that are begun. */
static inline size_t pewterslug_print_bytes(size_t records) { return (records / 60 + (records % 60 != 0)) * PEWTERSLUG_PAGE_BYTES; }

/* How many records an image has, as far as they can be read; of an accepted plan all. */
static inline size_t pewterslug_record_count(const uint8_t *image, size_t image_length)
{
    size_t records = 0;
    size_t offset = 0;
    uint64_t answer = pewterslug_read_record(image, image_length, offset);
    while (pewterslug_number(answer) == PEWTERSLUG_ACCEPTED) {
        records++;
        offset += pewterslug_length(answer);
        answer = pewterslug_read_record(image, image_length, offset);
    }
    return records;
}

/* Whether the plan ever gets stuck: a question for a workstation and not for a device. It takes about 2.0 MB of stack, and time that grows
 * with the joint states found, the modules and supervisors, and the events that may happen in each.
 *
 * A joint state is the states of all modules and all supervisors. An event may happen where its module has a move by it and, if it is
 * controllable, no supervisor disables it; nothing else of a turn counts. A reachable joint state is stuck if no word of events leads from
 * it to one with all modules marked. If there is none, the call did PEWTERSLUG_FREE and wrote nothing. If there is one, it did
 * PEWTERSLUG_STUCK and wrote, a byte for each number, the shortest word that leads to a stuck joint state, of several the first by event
 * numbers, and then the states that it leads to, modules first. The word's length is the answer's less the plan's modules and supervisors.
 *
 * After the image's numbers comes 16, where more than 4,096 joint states can be reached, whatever the buffer; then 15, where the buffer is
 * shorter than what is to be written. PEWTERSLUG_STUCK_BYTES are always enough. */
uint64_t pewterslug_find_stuck(const uint8_t *image, size_t image_length, uint8_t *buffer, size_t buffer_length);

/* How many words of events lead to each joint state: a question for a workstation too. It takes about 2.1 MB of stack, and time that
 * grows as find_stuck's does, and with the length times the joint states found and the events that may happen in each.
 *
 * Counted are the words of exactly `length` events, 0 to 40, that may happen from the initial joint state on. The call did PEWTERSLUG_DONE
 * and wrote a text of decimal numbers, each with a line feed behind it: for each reachable joint state how many of the words end in it, also
 * where that is 0, and then their sum. The joint states ascend by the state of module 0, then of module 1 and so on, then by those of the
 * supervisors. Markings are not looked at.
 *
 * After the image's numbers comes 16, where more than 4,096 joint states can be reached, whatever the length and the buffer; then 17, where
 * the length is above 40, or a count or the sum, of the words of that length or of a shorter one, is above 2 to the 64th less one; then 15,
 * where the buffer is shorter than the text. PEWTERSLUG_COUNT_BYTES are always enough. */
uint64_t pewterslug_count_words(const uint8_t *image, size_t image_length, uint64_t length, uint8_t *buffer, size_t buffer_length);

/* ---- one device ---- */

/* The starting state, written into a buffer of at least PEWTERSLUG_DEVICE_BYTES. Of the starts a shorter buffer is 15, after the image's
 * numbers and 11. */
uint64_t pewterslug_device_start(const uint8_t *image, size_t image_length, uint8_t *buffer, size_t buffer_length);

/* A turn: the first queued response by which the module has a move in its present state fires, and the others remain in their order. If none
 * has one and no procedure runs, the lowest-numbered command fires that has a move here and that no supervisor disables. Else none. */
uint64_t pewterslug_device_turn(const uint8_t *image, size_t image_length, uint8_t *state, size_t state_length, uint8_t module);

/* A response goes to the end of the module's queue, also where the module has no move by it yet; only a turn takes it out. Where the queue
 * holds PEWTERSLUG_QUEUE_LIMIT already it is 13. */
uint64_t pewterslug_device_respond(const uint8_t *image, size_t image_length, uint8_t *state, size_t state_length, uint8_t module,
                                   uint8_t event);

/* A tick with its flow reading: no sensor is fitted if sensor is 0, and litres is not looked at; else litres. */
uint64_t pewterslug_device_tick(const uint8_t *image, size_t image_length, uint8_t *state, size_t state_length, uint8_t module,
                                uint8_t sensor, double litres);

/* ---- many devices: a module ---- */

uint64_t pewterslug_module_start(const uint8_t *image, size_t image_length, uint8_t module, uint8_t *buffer, size_t buffer_length);

/* A step: writes a bid, releases of 4 bytes each, or nothing into the buffer. With the permits of all its neighbours the module takes a turn,
 * as on one device but over the masks received, and the turn may be none. It begins to bid, or without neighbours takes a turn, if it has a
 * queued response by which it has a move here, or if no procedure runs and a command has a move here, disabled or not. */
uint64_t pewterslug_module_step(const uint8_t *image, size_t image_length, uint8_t *state, size_t state_length, uint8_t module,
                                uint8_t *buffer, size_t buffer_length);

uint64_t pewterslug_module_deliver(const uint8_t *image, size_t image_length, uint8_t *state, size_t state_length, uint8_t module,
                                   const uint8_t *message, size_t message_length);

uint64_t pewterslug_module_respond(const uint8_t *image, size_t image_length, uint8_t *state, size_t state_length, uint8_t module,
                                   uint8_t event);

uint64_t pewterslug_module_tick(const uint8_t *image, size_t image_length, uint8_t *state, size_t state_length, uint8_t module,
                                uint8_t sensor, double litres);

/* ---- many devices: a supervisor ---- */

uint64_t pewterslug_supervisor_start(const uint8_t *image, size_t image_length, uint8_t supervisor, uint8_t *buffer, size_t buffer_length);

/* A step: writes a permit or nothing into the buffer. */
uint64_t pewterslug_supervisor_step(const uint8_t *image, size_t image_length, uint8_t *state, size_t state_length, uint8_t supervisor,
                                    uint8_t *buffer, size_t buffer_length);

uint64_t pewterslug_supervisor_deliver(const uint8_t *image, size_t image_length, uint8_t *state, size_t state_length, uint8_t supervisor,
                                       const uint8_t *message, size_t message_length);

/* ---- messages ---- */

/* Reads a message by shape alone: the value is its kind, 1 to 3, and the length its bytes. Its fields are the message's bytes. */
uint64_t pewterslug_read_message(const uint8_t *message, size_t message_length);

/* Writes one message: the kind, its two parties in the message's order, the event of a release and the mask of a permit; what the kind
 * lacks is not looked at. A kind that is none is 10. */
uint64_t pewterslug_write_message(uint8_t kind, uint8_t first, uint8_t second, uint8_t event, uint64_t mask, uint8_t *buffer,
                                  size_t buffer_length);

#ifdef __cplusplus
}
#endif

#endif
