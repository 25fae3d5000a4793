/* What all processes of a run share: the plan, the seed, the parties' numbers, and what they report to the recorder. */
#ifndef RUN_H
#define RUN_H

#include <stdbool.h>
#include <stdint.h>

#include "plan.h"

/* Parties by number: modules from 0, supervisors from 16, then the wire. */
enum { PARTY_SUPERVISOR = PEWTERSLUG_MODULE_LIMIT, PARTY_WIRE = PARTY_SUPERVISOR + PEWTERSLUG_SUPERVISOR_LIMIT, PARTIES = PARTY_WIRE + 1 };

/* One party made wrong on purpose, to see that the comparison reports it. */
enum breakage {
    BREAK_NOTHING,
    BREAK_RELEASE_NONE, /* modules release FF whatever fired */
    BREAK_ACKNOWLEDGE,  /* a module's first turn is real, later ones change nothing and release FF */
    BREAK_OLD_MASK,     /* modules use the mask of the permit before */
    BREAK_OWN_PERMIT,   /* a module gives itself the permits that it should bid for */
    BREAK_NO_WATER,     /* modules never add to a water total */
    BREAK_LOSE_EARLY,   /* modules lose a response that they have no move by */
    BREAK_TWICE,        /* the wire delivers a message twice */
    BREAK_LOSE,         /* the wire loses a message */
    BREAK_IN_ORDER      /* the wire neither delays nor reorders: a run that shows nothing */
};

struct run {
    struct plan plan;
    uint64_t seed;
    uint64_t turns;   /* how many are compared before the run ends */
    int patience;     /* seconds without a turn after which a run makes no progress */
    enum breakage broken;
};

/* What a party reports. It waits for the answer before it does anything else. */
enum call {
    CALL_TURN,     /* a module step that took a turn */
    CALL_RESPONSE, /* a response of the plant */
    CALL_TICK,
    CALL_PERMIT,   /* a supervisor is about to send its permit */
    CALL_REFUSED,  /* a delivery or a step was refused, which never happens where all parties are right */
    CALL_LEAVES    /* the party has left the wire */
};

struct report {
    enum call call;
    uint8_t event;  /* of a response */
    uint8_t sensor; /* of a tick */
    double litres;
    uint64_t answer;
    uint8_t state[PEWTERSLUG_MODULE_BYTES]; /* of a module or, in its first bytes, of a supervisor */
    uint64_t sent, delivered;               /* messages, of a party that leaves */
    uint64_t delayed, reordered, overtook;  /* deliveries, of the wire */
};

/* The recorder's answer to a report. */
enum { GO_ON = 0, STOP = 1 };

/* Reports and waits for the answer. Ends the process if the recorder has left. */
uint8_t report_to(int recorder, const struct report *report);

/* Each process of a party, from its start until it leaves the wire. */
void module_process(const struct run *run, uint8_t module, int wire, int recorder);
void supervisor_process(const struct run *run, uint8_t supervisor, int wire, int recorder);

/* The wire has a link to each module and supervisor, by party number; -1 where the plan has none. */
void wire_process(const struct run *run, int links[PARTY_WIRE], int recorder);

#endif
