/* The recorder: runs the one-device controller beside the parties and compares. */
#ifndef RECORDER_H
#define RECORDER_H

#include "run.h"

/* Takes the parties' reports, by party number (-1 where the plan has none), until all have left or something differs. Prints what was seen,
 * and the count of differences last. True if there was none. */
bool recorder_process(const struct run *run, int links[PARTIES]);

#endif
