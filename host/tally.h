/* The steps of a charged run by their entries in the list of charges, for --charge-table. */
#ifndef HOST_TALLY_H
#define HOST_TALLY_H

#include "charges.h"

struct tally {
    uint64_t steps[CHARGE_COUNT];
};

/* A list to lend for one step in place of the user's: the charge then names the step's entry, as entry i holds i + 1. */
void tally_list(uint8_t *list);

/* Counts a step by its charge under that list, and answers what it costs under the user's. */
uint64_t tally_step(struct tally *tally, uint64_t marked, const uint8_t *list);

/* Prints a line for each entry with steps, and one for all of them. */
void tally_print(const struct tally *tally, const uint8_t *list);

#endif
