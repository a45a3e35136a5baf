/* What is shown of a world after a run. */
#ifndef HOST_PRINT_H
#define HOST_PRINT_H

#include "world.h"

/* The registers, and the timer. */
void print_registers(const uint8_t *machine);

void print_tlb(const uint8_t *machine);

/* "slot 7", or "slot 32 (direct-mapped)". */
void print_slot(uint32_t slot);

/* A refusal is told, with the page as it was given; the answer is an exit status. */
int print_view(const struct world *world, const char *text, uint64_t page);

#endif
