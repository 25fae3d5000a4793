/* Writes the orchard plan that examples/wire/orchard.c builds to standard output, record by record, without the engine. */
#include <stdio.h>

#include "plan.h"

/* For the kinds from 10 on: how many fields of one byte, and whether one of eight bytes follows them. */
static const struct {
    uint8_t fields, word;
} bodies[] = {{3, 0}, {3, 0}, {3, 0}, {4, 0}, {3, 1}, {4, 0}, {2, 1}, {3, 1}};

void plan_add(struct plan *plan, uint8_t kind, uint8_t first, uint8_t second, uint8_t third, uint8_t fourth, uint64_t word)
{
    const uint8_t fields[] = {first, second, third, fourth};
    (void)plan;
    putchar(kind);
    if (kind == PEWTERSLUG_RECORD_END)
        return;
    for (int i = 0; i < bodies[kind - PEWTERSLUG_RECORD_HEAD].fields; i++)
        putchar(fields[i]);
    if (bodies[kind - PEWTERSLUG_RECORD_HEAD].word)
        for (int shift = 56; shift >= 0; shift -= 8)
            putchar((int)(word >> shift & 0xFF));
}

int main(void)
{
    static struct plan plan;
    orchard_add(&plan);
    return 0;
}
