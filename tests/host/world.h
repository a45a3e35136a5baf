/* What the programs of this test lend to the library, and how they call it. */
#ifndef TEST_WORLD_H
#define TEST_WORLD_H

#include "eco32.h"

#include <stdio.h>
#include <string.h>

static int failures;

static inline void check(int holds, const char *says)
{
    if (!holds) {
        failures++;
        printf("host: FAILED: %s\n", says);
    }
}

struct world {
    uint8_t machine[ECO32_RECORD_LENGTH];
    uint8_t ram[2 * ECO32_FRAME_LENGTH];
    uint8_t rom[ECO32_FRAME_LENGTH];
    uint8_t belt[ECO32_BELT_LENGTH];
};

static inline void put_word(uint8_t *at, uint32_t word)
{
    at[0] = (uint8_t)(word >> 24);
    at[1] = (uint8_t)(word >> 16);
    at[2] = (uint8_t)(word >> 8);
    at[3] = (uint8_t)word;
}

static inline uint32_t get_word(const uint8_t *at)
{
    return (uint32_t)at[0] << 24 | (uint32_t)at[1] << 16 | (uint32_t)at[2] << 8 | at[3];
}

/* ADDI R1, R0, 5; STW R1 to the first word of RAM; TRAP. */
static inline void load_program(struct world *w)
{
    memset(w, 0, sizeof *w);
    check(eco32_reset(w->machine, sizeof w->machine) == ECO32_ACCEPTED, "reset");
    put_word(w->rom, 0x04010005);
    put_word(w->rom + 4, 0x7C02C000); /* LDHI R2, C000 */
    put_word(w->rom + 8, 0xD4410000); /* STW R1, R2, 0 */
    put_word(w->rom + 12, 0xB8000000);
}

static inline struct eco32_answer run(struct world *w, size_t ram_len, uint64_t wanted)
{
    return eco32_run(w->machine, sizeof w->machine, w->ram, ram_len, w->rom, sizeof w->rom,
                     w->belt, sizeof w->belt, wanted, 0);
}

static inline struct eco32_answer run_to_exception(struct world *w, uint64_t wanted)
{
    return eco32_run_to_exception(w->machine, sizeof w->machine, w->ram, sizeof w->ram, w->rom,
                                  sizeof w->rom, w->belt, sizeof w->belt, wanted, 0);
}

static inline struct eco32_view page_view(const struct world *w, uint64_t page)
{
    return eco32_page_view(w->ram, sizeof w->ram, w->machine, sizeof w->machine, page);
}

/* Tells whether all held, for main. */
static inline int told(const char *says)
{
    if (failures == 0)
        printf("host: %s\n", says);
    return failures != 0;
}

#endif
