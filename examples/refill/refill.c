/*
 * A firmware that fills the TLB by TBWR alone, in the service of its misses.
 * The replacement index moves with every step, so the steps made before a TBWR
 * choose its slot. See README.md.
 */
#include "eco32.h"

#include <errno.h>
#include <inttypes.h>
#include <stdio.h>
#include <stdlib.h>
#include <string.h>

/* Exit statuses beside 0. */
enum { BAD_USAGE = 2, REFUSED_INPUT = 3, FAILED = 4 };

/* What the firmware does: see refill.lst. */
#define PAGES 32 /* of data, from page 00001 on, in the frames of the same numbers */
#define ROUNDS 2
#define LOG 0x800 /* in frame 0, to its end: page and slot of each refill */
#define MOST_REFILLS ((ECO32_FRAME_LENGTH - LOG) / 4)
#define MOST_STEPS 20000

#define TBWR 0xEC000000
#define TRAP 20
#define ENTRIES 32
#define FIXED 4 /* entries that TBWR never writes */
#define BLANK 0xC0000000 /* high word of an entry at reset */

/* What the host owns and lends. */
struct cell {
    uint8_t machine[ECO32_RECORD_LENGTH];
    uint8_t ram[(PAGES + 1) * ECO32_FRAME_LENGTH];
    uint8_t rom[ECO32_ROM_LEAST];
    uint8_t belt[ECO32_BELT_LENGTH];
    uint64_t steps; /* made since reset */
};

/* What the host saw. */
struct seen {
    uint32_t refills;
    uint32_t page[MOST_REFILLS];
    int slot[MOST_REFILLS];
};

static void need(int holds, const char *says)
{
    if (holds)
        return;
    fflush(stdout);
    fprintf(stderr, "refill: FAILED: this does not hold: %s\n", says);
    exit(FAILED);
}

static uint32_t word(const uint8_t *at)
{
    return (uint32_t)at[0] << 24 | (uint32_t)at[1] << 16 | (uint32_t)at[2] << 8 | at[3];
}

static uint32_t pc(const uint8_t *machine) { return word(machine + ECO32_RECORD_PC); }

static const uint8_t *entry(const uint8_t *machine, int slot) { return machine + ECO32_RECORD_TLB + 8 * slot; }

static void read_rom(const char *name, uint8_t *rom, size_t length)
{
    FILE *file = fopen(name, "rb");
    size_t found = file == NULL ? 0 : fread(rom, 1, length, file);
    int failed = file == NULL || ferror(file);

    if (failed)
        fprintf(stderr, "refill: %s: cannot be read: %s\n", name, strerror(errno));
    else if (found < length || getc(file) != EOF)
        fprintf(stderr, "refill: %s: the image has to have %zu bytes\n", name, length);
    else {
        fclose(file);
        return;
    }
    exit(REFUSED_INPUT);
}

static void reset(struct cell *c)
{
    need(eco32_reset(c->machine, sizeof c->machine) == ECO32_ACCEPTED, "the model makes the machine at reset");
}

static void run_on(struct cell *c, uint64_t steps)
{
    struct eco32_answer a = eco32_run(c->machine, sizeof c->machine, c->ram, sizeof c->ram, c->rom, sizeof c->rom,
                                      c->belt, sizeof c->belt, steps, 0);
    need(a.refusal == ECO32_ACCEPTED && a.steps == steps, "the model makes the steps");
    c->steps += steps;
}

/* The entry that a step has changed, or -1. */
static int changed_entry(const uint8_t *before, const uint8_t *after)
{
    int found = -1;

    for (int slot = 0; slot < ENTRIES; slot++)
        if (memcmp(entry(before, slot), entry(after, slot), 8) != 0) {
            need(found < 0, "a step changes one entry at most");
            found = slot;
        }
    return found;
}

/* The last step has written an entry. */
static void tell(const struct cell *c, const uint8_t *before, int slot, struct seen *s)
{
    uint32_t old = word(entry(before, slot));
    uint32_t at = pc(before) - 0xE0000000; /* the kernel's code is in ROM */

    need(at < sizeof c->rom && word(c->rom + at) == TBWR, "TBWR alone writes entries");
    need(slot == FIXED + (int)((c->steps - 1) % (ENTRIES - FIXED)), "the steps before a TBWR choose its slot");
    need(s->refills < MOST_REFILLS, "the log has room for every refill");
    s->page[s->refills] = word(entry(c->machine, slot)) >> 12;
    s->slot[s->refills] = slot;
    printf("  step %5" PRIu64 ": page %05" PRIX32 " in slot %2d", c->steps, s->page[s->refills], slot);
    if (old != BLANK)
        printf(", where page %05" PRIX32 " was", old >> 12);
    printf("\n");
    s->refills++;
}

/* Step by step, until the firmware jumps to itself. */
static void walk(struct cell *c, struct seen *s)
{
    uint8_t before[ECO32_RECORD_LENGTH];

    do {
        need(c->steps < MOST_STEPS, "the firmware comes to its end");
        memcpy(before, c->machine, sizeof before);
        run_on(c, 1);
        int slot = changed_entry(before, c->machine);
        if (slot >= 0)
            tell(c, before, slot, s);
    } while (pc(before) != pc(c->machine));
}

/* The program is done, each page has its touches, and the firmware's log is what the host saw. */
static void check_end(const struct cell *c, const struct seen *s)
{
    const uint8_t *log = c->ram + LOG;

    need((word(c->machine + ECO32_RECORD_PSW) >> 16 & 31) == TRAP, "the program ends with its trap");
    for (int page = 1; page <= PAGES; page++)
        need(word(c->ram + page * ECO32_FRAME_LENGTH) == ROUNDS, "each page was touched in each round");
    need(word(c->ram) == 0xC0000000 + LOG + 4 * s->refills, "the log has every refill");
    for (uint32_t n = 0; n < s->refills; n++)
        need(word(log + 4 * n) == (s->page[n] << 16 | (uint32_t)s->slot[n]), "the log has this refill");
}

/* The same steps in one call. */
static void check_one_call(const struct cell *walked, struct cell *c)
{
    memcpy(c->rom, walked->rom, sizeof c->rom);
    reset(c);
    run_on(c, walked->steps);
    need(memcmp(c->machine, walked->machine, sizeof c->machine) == 0 && memcmp(c->ram, walked->ram, sizeof c->ram) == 0,
         "one call of as many steps comes to the same");
}

static int slots_used(const struct seen *s)
{
    int count = 0;

    for (int slot = 0; slot < ENTRIES; slot++) {
        int used = 0;
        for (uint32_t n = 0; n < s->refills; n++)
            used |= s->slot[n] == slot;
        count += used;
    }
    return count;
}

int main(int argc, char **argv)
{
    static struct cell c, again;
    static struct seen s;

    if (argc != 2) {
        fprintf(stderr, "usage: refill ROM\n");
        return BAD_USAGE;
    }
    read_rom(argv[1], c.rom, sizeof c.rom);
    reset(&c);
    printf("The firmware fills the TLB by TBWR alone. The index that names the slot goes up by 1 after every step, 31 to 4.\n");
    walk(&c, &s);
    check_end(&c, &s);
    check_one_call(&c, &again);
    printf("The program touched %d pages in each of %d rounds: %" PRIu64 " steps, %" PRIu32 " refills, %d slots.\n", PAGES, ROUNDS,
           c.steps, s.refills, slots_used(&s));
    if (fflush(stdout) == 0 && !ferror(stdout))
        return 0;
    fprintf(stderr, "refill: FAILED: what was printed could not be written\n");
    return FAILED;
}
