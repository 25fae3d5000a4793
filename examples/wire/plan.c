#include "plan.h"

#include <stdio.h>
#include <string.h>

/* The plan of docs/two-valve.hex: a pump (module 0) starts only while a valve (module 1) is open. */
static const uint8_t two_valve[] = {
    0x10, 0x02, 0x01, 0x04,
    0x11, 0x00, 0x00, 0x01, 0x11, 0x01, 0x00, 0x00, 0x11, 0x02, 0x01, 0x01, 0x11, 0x03, 0x01, 0x00,
    0x12, 0x00, 0x02, 0x00, 0x12, 0x01, 0x02, 0x00,
    0x13, 0x00, 0x00, 0x00, 0x01, 0x13, 0x00, 0x01, 0x01, 0x00, 0x13, 0x01, 0x00, 0x02, 0x01, 0x13, 0x01, 0x01, 0x03, 0x00,
    0x14, 0x00, 0x02, 0x00, 0x00, 0x00, 0x00, 0x00, 0x00, 0x00, 0x00, 0x0D,
    0x15, 0x00, 0x00, 0x02, 0x01, 0x15, 0x00, 0x01, 0x03, 0x00,
    0x16, 0x00, 0x00, 0x00, 0x00, 0x00, 0x00, 0x00, 0x00, 0x00, 0x01,
    0x1F,
};

void plan_add(struct plan *plan, uint8_t kind, uint8_t first, uint8_t second, uint8_t third, uint8_t fourth, uint64_t word)
{
    size_t place = plan->length;
    uint64_t answer;
    if (place > sizeof plan->image)
        return; /* an earlier record was refused */
    answer = pewterslug_write_record(kind, first, second, third, fourth, word, plan->image + place, sizeof plan->image - place);
    if (pewterslug_number(answer) != 0) {
        fprintf(stderr, "plan %s: record %02X at %zu is refused: %s\n", plan->name, kind, place,
                pewterslug_refusal_text(pewterslug_number(answer)));
        plan->length = sizeof plan->image + 1;
        return;
    }
    plan->length = place + pewterslug_length(answer);
}

bool plan_build(struct plan *plan, const char *name)
{
    uint64_t answer;
    memset(plan, 0, sizeof *plan);
    plan->name = name;
    if (strcmp(name, "two-valve") == 0) {
        memcpy(plan->image, two_valve, sizeof two_valve);
        plan->length = sizeof two_valve;
    } else if (strcmp(name, "orchard") == 0) {
        orchard_add(plan);
    } else if (strcmp(name, "full") == 0) {
        full_add(plan);
    } else {
        fprintf(stderr, "no plan %s: there are two-valve, orchard and full\n", name);
        return false;
    }
    if (plan->length > sizeof plan->image)
        return false;
    answer = pewterslug_check(plan->image, plan->length);
    if (pewterslug_number(answer) != 0) {
        fprintf(stderr, "plan %s is refused at %u: %s\n", name, (unsigned)pewterslug_offset(answer),
                pewterslug_refusal_text(pewterslug_number(answer)));
        return false;
    }
    plan->modules = plan->image[1];
    plan->supervisors = plan->image[2];
    plan->events = plan->image[3];
    return true;
}
