/* What is lent to the model: the machine with its timer, RAM, ROM, the belt and the list of charges. */
#ifndef HOST_WORLD_H
#define HOST_WORLD_H

#include "bytes.h"
#include "eco32.h"
#include "options.h"

struct world {
    uint8_t machine[ECO32_RECORD_LENGTH];
    struct bytes ram;
    struct bytes rom;
    struct bytes belt;
    uint8_t charges[ECO32_CHARGES_LENGTH]; /* of --charges; else not lent */
};

/* Makes what the options say, but for the charges. Failures are told; the answer is an exit status. `world` is the caller's to free
 * after, whatever the answer. */
int world_make(const struct options *options, struct world *world);

void world_free(struct world *world);

/* The word at a physical address. Answers 1, or 0 where no word of RAM, ROM, belt or timer is. */
int world_word(const struct world *world, uint64_t physical, uint32_t *word);

/* Which of the four a physical address that has a word is in: "RAM", "ROM", "belt" or "timer". */
const char *world_part(uint64_t physical);

#endif
