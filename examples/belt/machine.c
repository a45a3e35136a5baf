/* The machine of the example: its runs, and what its record says. */
#include "belt.h"

#include <inttypes.h>
#include <stdio.h>
#include <stdlib.h>

void need(int holds, const char *says)
{
    if (holds)
        return;
    fflush(stdout);
    fprintf(stderr, "belt: FAILED: this does not hold: %s\n", says);
    exit(FAILED);
}

void reset(struct cell *c)
{
    need(eco32_reset(c->machine, sizeof c->machine) == ECO32_ACCEPTED, "the model makes the machine at reset");
    c->steps = 0;
}

uint32_t run_on(struct cell *c, uint64_t steps)
{
    struct eco32_answer a = eco32_run_to_exception(c->machine, sizeof c->machine, c->ram, sizeof c->ram,
                                                   c->rom, sizeof c->rom, c->belt, sizeof c->belt, steps, 0);
    need(a.refusal == ECO32_ACCEPTED, "the model accepts the run");
    c->steps += a.steps;
    return a.eid;
}

uint32_t word(const uint8_t *at)
{
    return (uint32_t)at[0] << 24 | (uint32_t)at[1] << 16 | (uint32_t)at[2] << 8 | at[3];
}

/* Words of the machine record: see eco32.h. */
uint32_t reg(const struct cell *c, int number) { return word(c->machine + ECO32_RECORD_REGISTERS + 4 * number); }
uint32_t pc(const struct cell *c) { return word(c->machine + ECO32_RECORD_PC); }
uint32_t special(const struct cell *c, int number) { return word(c->machine + ECO32_RECORD_PSW + 4 * number); }
uint32_t tlb_high(const struct cell *c, int entry) { return word(c->machine + ECO32_RECORD_TLB + 8 * entry); }
uint32_t tlb_low(const struct cell *c, int entry) { return word(c->machine + ECO32_RECORD_TLB + 8 * entry + 4); }

/* The frame behind a virtual page, as a part of the RAM that was lent. */
const uint8_t *page(const struct cell *c, uint64_t number)
{
    struct eco32_view v = eco32_page_view(c->ram, sizeof c->ram, c->machine, sizeof c->machine, number);
    need(v.refusal == ECO32_ACCEPTED, "the firmware's page is in RAM");
    return c->ram + v.offset;
}

struct count counted(const struct cell *c)
{
    const uint8_t *frame = page(c, BELT_COUNT_PAGE);
    struct count count = {word(frame + BELT_PACKS), word(frame + BELT_REJECTS)};
    return count;
}

/* The routine traps, and R4 says what it reports. */
int reports(const struct cell *c, uint32_t eid)
{
    return eid == 20 && reg(c, 4) >= BELT_REPORT_MATCH && reg(c, 4) <= BELT_REPORT_DONE;
}

/* The machine record by its items; TLB entries that are blank are left out. */
void tell_record(const struct cell *c)
{
    printf("\nmachine record\n");
    for (int n = 0; n < 32; n++)
        printf("%s%08" PRIX32 "%s", n == 0 ? "  01 registers    " : n % 8 == 0 ? "                  " : " ",
               reg(c, n), n % 8 == 7 ? "\n" : "");
    printf("  02 PC           %08" PRIX32 "\n", pc(c));
    printf("  03 special      %08" PRIX32 " %08" PRIX32 " %08" PRIX32 " %08" PRIX32 " %08" PRIX32 "\n",
           special(c, 0), special(c, 1), special(c, 2), special(c, 3), special(c, 4));
    for (int n = 0; n < 32; n++)
        if (tlb_high(c, n) < 0xC0000000)
            printf("  04 TLB entry %2d %08" PRIX32 " %08" PRIX32 "\n", n, tlb_high(c, n), tlb_low(c, n));
    printf("  05 replacement  %d\n", c->machine[ECO32_RECORD_REPLACEMENT]);
    printf("  06 timer        %08" PRIX32 " %08" PRIX32 " %d\n", word(c->machine + ECO32_RECORD_TIMER_DIVISOR),
           word(c->machine + ECO32_RECORD_TIMER_COUNTER), c->machine[ECO32_RECORD_TIMER_CONTROL]);
}
