/* The hostile twin of the barcode routine: each of its attempts ends in the fault that the manual names. */
#include "belt.h"

#include "eco32_text.h"

#include <inttypes.h>
#include <stdio.h>
#include <string.h>

#define ATTEMPTS (sizeof attempts / sizeof *attempts)
#define STEPS_OF_A_CALL 50000

/* What the host saw. */
struct seen {
    uint32_t reports;                          /* traps that report a pack */
    uint32_t faults;                           /* attempts that ended */
    uint8_t count_before[ECO32_FRAME_LENGTH]; /* the count's frame at the first attempt */
};

static void tell_report(const struct cell *c, struct seen *s)
{
    need(reg(c, 4) != BELT_REPORT_DONE, "the twin never says that it is done");
    need(s->reports < c->packs, "a report for each pack");
    printf("%6" PRIu64 "  pack %2" PRIu32 ", code %" PRIu32 ": %s\n", c->steps, s->reports + 1,
           word(c->belt + 4 * s->reports), reg(c, 4) == BELT_REPORT_MATCH ? "match" : "reject");
    s->reports++;
}

/* The routine faults: which attempt was it, and is the fault the one that the manual names? */
static void tell_attempt(const struct cell *c, struct seen *s, uint32_t eid)
{
    const uint8_t *count = page(c, BELT_COUNT_PAGE);
    const struct attempt *tried = &attempts[s->faults];
    if (s->faults == 0)
        memcpy(s->count_before, count, sizeof s->count_before);
    need(s->faults < ATTEMPTS && tried->address == reg(c, 30), "the attempts come in their order");
    printf("%6" PRIu64 "  %-45s %2" PRIu32 " %-23s rejects %" PRIu32 "\n", c->steps, tried->what, eid,
           eco32_exception_name(eid), word(count + BELT_REJECTS));
    need(eid == tried->eid, "the fault is the one that the manual names");
    need(pc(c) == (eid == 21 ? 0xE0000008 : 0xE0000004), "its service routine starts");
    need(memcmp(count, s->count_before, sizeof s->count_before) == 0, "the count's frame is untouched");
    s->faults++;
}

/* What the kernel itself wrote down, and the count. */
static void tell_kernel(const struct cell *c, const struct seen *s)
{
    const uint8_t *kernel = page(c, BELT_KERNEL_PAGE);
    struct count count = counted(c);

    need(word(kernel + BELT_OUTCOME) == BELT_OUTCOME_ENDED, "the kernel has ended the routine");
    printf("\nkernel: it ended the routine\nkernel: exceptions by EID:");
    for (uint32_t eid = 0; eid < 32; eid++)
        if (word(kernel + BELT_TALLY + 4 * eid) != 0)
            printf(" %" PRIu32 " (%" PRIu32 ")", eid, word(kernel + BELT_TALLY + 4 * eid));
    printf("\nkernel: faults in its log: %" PRIu32 "\n", word(kernel + BELT_LOGGED));
    need(word(kernel + BELT_LOGGED) == s->faults, "the log has every fault");
    for (uint32_t n = 0; n < s->faults; n++)
        need(word(kernel + BELT_LOG + 16 * n) == attempts[n].eid
             && word(kernel + BELT_LOG + 16 * n + 4) == attempts[n].address, "the log has this fault");
    printf("count's frame: packs %" PRIu32 ", rejects %" PRIu32 "\n", count.packs, count.rejected);
    need(count.packs == c->packs, "each pack was counted");
}

static void tell_twin(const struct cell *c, const struct seen *s)
{
    const uint8_t *count = page(c, BELT_COUNT_PAGE);
    need(s->faults == ATTEMPTS, "every attempt ended in a fault");
    need(memcmp(count, s->count_before, sizeof s->count_before) == 0, "the count's frame is untouched");
    printf("twin: %zu attempts, each ended in the fault that the manual names\n", ATTEMPTS);
    printf("twin: rejects before the first %" PRIu32 ", after the last %" PRIu32
           "; the frame's 4,096 bytes are equal\n",
           word(s->count_before + BELT_REJECTS), word(count + BELT_REJECTS));
    need(word(page(c, BELT_OWN_PAGE) + BELT_OWN_LOADED) == 0xFFFFFFFF, "nothing was loaded");
    printf("twin: the register of its loads was FFFFFFFF before them, and is after them\n");
}

void run_twin(struct cell *c, const char *rom, int state)
{
    static struct seen s;
    uint32_t eid;

    reset(c);
    printf("%s: %" PRIu32 " packs on the belt\n\n  step\n", rom, c->packs);
    /* After its last exception the kernel stands at a jump to itself. */
    while ((eid = run_on(c, STEPS_OF_A_CALL)) != ECO32_NO_EXCEPTION)
        if (reports(c, eid))
            tell_report(c, &s);
        else
            tell_attempt(c, &s, eid);
    tell_kernel(c, &s);
    tell_twin(c, &s);
    if (state)
        tell_record(c);
}
