/*
 * The firmware of examples/refill on the model, the plain simulator and the simulator in Rust: step by step, and then the
 * same steps in one call, which the plain simulator makes in another way. After each step and after the call all three
 * have to have the same machine and memory, and name the same slot for the step's data access. It prints a line for each
 * entry that a side writes: the side, the step, the page and the slot.
 */
#include "plain.h"

#include <stdio.h>
#include <stdlib.h>
#include <string.h>

#define SIDES 3
#define FRAMES 33 /* the kernel's, and one for each page of data */
#define MOST_STEPS 20000

typedef struct eco32_answer run(uint8_t *machine, size_t machine_len, uint8_t *ram, size_t ram_len,
                                const uint8_t *rom, size_t rom_len, uint8_t *belt, size_t belt_len, uint64_t wanted,
                                uint16_t lines);

/* reference/bench/rust */
run reference_run;

struct side {
    const char *name;
    run *run;
};

static const struct side sides[SIDES] = {{"model", eco32_run}, {"C", plain_run}, {"Rust", reference_run}};

/* What a run may change, and the slot that the last one answered. */
struct world {
    uint8_t record[ECO32_RECORD_LENGTH];
    uint8_t ram[FRAMES * ECO32_FRAME_LENGTH];
    uint8_t belt[ECO32_BELT_LENGTH];
    uint32_t slot;
};

static uint8_t rom[ECO32_ROM_LEAST];
static struct world start;
static unsigned long steps; /* made one by one */

static void fail(const char *name, const char *what)
{
    fflush(stdout);
    fprintf(stderr, "refill: %s %s, at step %lu\n", name, what, steps);
    exit(1);
}

static void read_rom(const char *name)
{
    FILE *file = fopen(name, "rb");

    if (!file || fread(rom, 1, sizeof rom, file) != sizeof rom)
        fail(name, "has no image");
    fclose(file);
}

static void make_start(void)
{
    struct plain_machine m;

    plain_reset(&m);
    plain_write(&m, start.record);
}

static void call(const struct side *side, struct world *world, uint64_t wanted)
{
    struct eco32_answer answer = side->run(world->record, sizeof world->record, world->ram, sizeof world->ram, rom,
                                           sizeof rom, world->belt, sizeof world->belt, wanted, 0);

    if (answer.refusal != ECO32_ACCEPTED || answer.steps != wanted)
        fail(side->name, "did not make the steps");
    world->slot = answer.slot;
}

/* One step of a side. Answers whether it stays where it is. */
static int step(const struct side *side, struct world *world)
{
    struct plain_machine before;
    struct plain_machine after;
    unsigned n;

    plain_read(&before, world->record);
    call(side, world, 1);
    plain_read(&after, world->record);
    for (n = 0; n < 32; n++)
        if (memcmp(&before.tlb[n], &after.tlb[n], sizeof after.tlb[n]) != 0)
            printf("%s %lu %05lX %u\n", side->name, steps, (unsigned long)after.tlb[n].high >> 12, n);
    return before.pc == after.pc;
}

static void check(const struct world worlds[SIDES])
{
    int n;

    for (n = 1; n < SIDES; n++)
        if (memcmp(&worlds[0], &worlds[n], sizeof worlds[n]) != 0)
            fail(sides[n].name, "and the model do not agree");
}

/* To the firmware's jump to itself. */
static void walk(struct world worlds[SIDES])
{
    int ended = 0;
    int n;

    for (n = 0; n < SIDES; n++)
        worlds[n] = start;
    while (!ended) {
        if (steps++ == MOST_STEPS)
            fail("the firmware", "does not end");
        for (n = 0; n < SIDES; n++)
            ended = step(&sides[n], &worlds[n]);
        check(worlds);
    }
}

int main(int count, char **words)
{
    static struct world walked[SIDES];
    static struct world called[SIDES];
    int n;

    if (count != 2)
        fail("takes", "the image alone");
    read_rom(words[1]);
    make_start();
    walk(walked);
    for (n = 0; n < SIDES; n++) {
        called[n] = start;
        call(&sides[n], &called[n], steps);
        if (memcmp(&walked[n], &called[n], sizeof called[n]) != 0)
            fail(sides[n].name, "comes to something else in one call");
        printf("%s %lu steps\n", sides[n].name, steps);
    }
    return 0;
}
