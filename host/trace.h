/* The trace: a line for each step. */
#ifndef HOST_TRACE_H
#define HOST_TRACE_H

#include "world.h"

/* What the line needs from before the step. */
struct trace {
    uint8_t machine[ECO32_RECORD_LENGTH];
    uint32_t word; /* at the PC */
    int has_word;  /* 0 where a fetch faults */
};

void trace_before(const struct world *world, struct trace *before);

/* Prints the step's number, its PC, the word there or --------, the mode that it was made in, EID and name or --, what
 * changed in the processor, a store, the slot of a load or store, what changed in the timer, the step's charge if it is
 * charged, and the PC after it unless that is the next word's. `answer` is that of the step as a run to exception. */
void trace_after(uint64_t step, const struct eco32_charged *answer, int charged, const struct trace *before,
                 const struct world *world);

#endif
