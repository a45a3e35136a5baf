#include "tally.h"

#include <inttypes.h>
#include <stdio.h>

void tally_list(uint8_t *list)
{
    for (unsigned i = 0; i < CHARGE_COUNT; i++)
        charge_put(list, i, i + 1);
}

/* The sum of what this answers is the charge of the whole run under the user's list, as the library would answer it in
 * one call: a run makes its steps one after the other, its charge is the exact sum of theirs, and what a step does
 * never depends on the list (document 02, job 3). tests/cli compares the sum with the library's own. */
uint64_t tally_step(struct tally *tally, uint64_t marked, const uint8_t *list)
{
    unsigned entry = (unsigned)(marked - 1);

    tally->steps[entry]++;
    return charge_at(list, entry);
}

static void print_line(const char *name, uint64_t steps, uint64_t charge)
{
    printf("%-9s %20" PRIu64 " %20" PRIu64 "\n", name, steps, charge);
}

void tally_print(const struct tally *tally, const uint8_t *list)
{
    uint64_t steps = 0;
    uint64_t total = 0;

    printf("%-9s %20s %20s\n", "entry", "steps", "charge");
    for (unsigned i = 0; i < CHARGE_COUNT; i++) {
        uint64_t charge = tally->steps[i] * charge_at(list, i);
        if (tally->steps[i] != 0)
            print_line(charge_name(i), tally->steps[i], charge);
        steps += tally->steps[i];
        total += charge;
    }
    print_line("total", steps, total);
}
