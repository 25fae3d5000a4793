#include <stdlib.h>

#include "link.h"
#include "run.h"

uint8_t report_to(int recorder, const struct report *report)
{
    uint8_t answer;
    if (!link_write(recorder, report, sizeof *report) || !link_read(recorder, &answer, 1))
        exit(EXIT_FAILURE);
    return answer;
}
