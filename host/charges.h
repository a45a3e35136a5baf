/* The list of charges: what the steps of a run cost (document 02, job 3). */
#ifndef HOST_CHARGES_H
#define HOST_CHARGES_H

#include "opcodes.h"
#include "options.h"
#include "world.h"

/* The opcodes' entries, and then that of an accepted exception. */
#define CHARGE_EXCEPTION OPCODE_COUNT
#define CHARGE_COUNT (ECO32_CHARGES_LENGTH / 2)
#define CHARGE_MOST UINT16_MAX

/* Reads the list of --charges, if it is given, and has the total of the steps that are wanted fit in 64 bits. Failures
 * are told; the answer is an exit status. */
int charges_read(const struct options *options, struct world *world);

uint32_t charge_at(const uint8_t *list, unsigned entry);

void charge_put(uint8_t *list, unsigned entry, uint64_t charge);

/* The mnemonic, or "exception". */
const char *charge_name(unsigned entry);

#endif
