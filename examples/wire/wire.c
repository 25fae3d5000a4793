/* The wire: it holds what is under way, each message for a random number of rounds, and delivers what is due in random order. It neither
 * loses nor doubles nor alters a message, unless it is made wrong on purpose. */
#include <poll.h>
#include <sched.h>
#include <stdlib.h>
#include <string.h>
#include <sys/socket.h>

#include "chance.h"
#include "link.h"
#include "run.h"

/* Of right parties at most 48 messages are under way; wrong ones may send more. */
enum { UNDER_WAY_LIMIT = 256, ROUNDS_LIMIT = 24, DELIVERIES_BEFORE_BREAK = 100 };

struct message {
    uint8_t bytes[PEWTERSLUG_MESSAGE_BYTES];
    size_t length;
    int sender;
    uint64_t arrival; /* its place in the order in which messages came on the wire */
    uint32_t rounds;  /* still to be held */
    bool delayed;
};

struct wire {
    const struct run *run;
    int *links;
    int recorder;
    struct chance chance;
    struct message under_way[UNDER_WAY_LIMIT];
    size_t count;
    unsigned modules; /* still on the wire */
    uint64_t arrivals, delivered, delayed, reordered, overtook;
};

/* Every kind names its receiver last of its two parties: the supervisor of a bid or release, the module of a permit. */
static int receiver(const struct message *message)
{
    return message->bytes[0] == PEWTERSLUG_MESSAGE_PERMIT ? message->bytes[2] : PARTY_SUPERVISOR + message->bytes[2];
}

static void take(struct wire *wire, int sender)
{
    struct message *message = &wire->under_way[wire->count];
    if (wire->count == UNDER_WAY_LIMIT)
        exit(EXIT_FAILURE);
    message->length = link_receive(wire->links[sender], message->bytes);
    if (message->length == 0) { /* a module leaves; a right supervisor leaves only after the wire */
        if (sender >= PARTY_SUPERVISOR)
            exit(EXIT_FAILURE);
        wire->modules--;
        wire->links[sender] = -1;
        return;
    }
    message->sender = sender;
    message->arrival = wire->arrivals++;
    message->delayed = false;
    message->rounds = wire->run->broken == BREAK_IN_ORDER ? 0 : chance_below(&wire->chance, ROUNDS_LIMIT);
    wire->count++;
}

/* Takes what has come; sleeps until something comes if nothing is under way. Ends when the recorder does, and with it all parties. */
static void listen_once(struct wire *wire)
{
    struct pollfd waiting[PARTIES];
    for (int party = 0; party < PARTY_WIRE; party++)
        waiting[party] = (struct pollfd){.fd = wire->links[party], .events = POLLIN};
    waiting[PARTY_WIRE] = (struct pollfd){.fd = wire->recorder};
    if (poll(waiting, PARTIES, wire->count == 0 ? -1 : 0) <= 0)
        return;
    if (waiting[PARTY_WIRE].revents != 0)
        exit(EXIT_FAILURE);
    for (int party = 0; party < PARTY_WIRE; party++)
        if (wire->links[party] >= 0 && waiting[party].revents != 0)
            take(wire, party);
}

/* Counts what this delivery overtakes: any message that came before it, and one between the same two parties. */
static void count_delivery(struct wire *wire, const struct message *message)
{
    bool reordered = false, overtook = false;
    for (size_t i = 0; i < wire->count; i++) {
        const struct message *other = &wire->under_way[i];
        if (other->arrival >= message->arrival)
            continue;
        reordered = true;
        overtook = overtook || (other->sender == message->sender && receiver(other) == receiver(message));
    }
    wire->delivered++;
    wire->delayed += message->delayed;
    wire->reordered += reordered;
    wire->overtook += overtook;
}

static void deliver(struct wire *wire, size_t which)
{
    struct message message = wire->under_way[which];
    int party = receiver(&message);
    bool break_now = wire->delivered == DELIVERIES_BEFORE_BREAK;
    wire->count--;
    memmove(wire->under_way + which, wire->under_way + which + 1, (wire->count - which) * sizeof message);
    count_delivery(wire, &message);
    if (break_now && wire->run->broken == BREAK_LOSE)
        return;
    if (party >= PARTY_WIRE || !link_send(wire->links[party], message.bytes, message.length))
        exit(EXIT_FAILURE); /* it names a party that the plan lacks or that has left */
    if (break_now && wire->run->broken == BREAK_TWICE)
        link_send(wire->links[party], message.bytes, message.length);
}

/* One round: of the messages that are due, one chosen at random is delivered; the others stay. */
static void deliver_one(struct wire *wire)
{
    size_t chosen = wire->count;
    uint32_t due = 0;
    for (size_t i = 0; i < wire->count; i++) {
        struct message *message = &wire->under_way[i];
        if (message->rounds > 0) {
            message->rounds--;
            message->delayed = true;
        } else if (due == 0 || (wire->run->broken != BREAK_IN_ORDER && chance_one_in(&wire->chance, due + 1))) {
            chosen = i;
            due++;
        } else {
            due++;
        }
    }
    if (chosen < wire->count)
        deliver(wire, chosen);
}

/* The wire ends when every module has left and nothing is under way. All permits are home by then and no bid is noted, so no supervisor
 * has anything more to send; each learns by the end of its stream that it has got everything. */
void wire_process(const struct run *run, int links[PARTY_WIRE], int recorder)
{
    static struct wire wire;
    struct report last = {.call = CALL_LEAVES};
    wire.run = run;
    wire.links = links;
    wire.recorder = recorder;
    wire.modules = run->plan.modules;
    chance_start(&wire.chance, run->seed, PARTY_WIRE);
    while (wire.modules > 0 || wire.count > 0) {
        listen_once(&wire);
        deliver_one(&wire);
        sched_yield();
    }
    for (int party = PARTY_SUPERVISOR; party < PARTY_WIRE; party++)
        if (links[party] >= 0)
            shutdown(links[party], SHUT_WR);
    last.sent = wire.arrivals;
    last.delivered = wire.delivered;
    last.delayed = wire.delayed;
    last.reordered = wire.reordered;
    last.overtook = wire.overtook;
    report_to(recorder, &last);
}
