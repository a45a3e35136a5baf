/*
 * A pusher that the timer paces. The firmware in ROM sets the timer and serves
 * channel 14; until the last stroke no call gives an interrupt line. See
 * README.md.
 */
#include "eco32.h"

#include <errno.h>
#include <inttypes.h>
#include <stdio.h>
#include <stdlib.h>
#include <string.h>

/* Exit statuses beside 0. */
enum { BAD_USAGE = 2, REFUSED_INPUT = 3, FAILED = 4 };

/* Belt registers that host and firmware share. */
enum { PUSHER, PACE, STROKES };

#define CHANNEL 14
#define MOST_PACE 500000 /* one call takes a machine to its next stroke */
#define MOST_STROKES 1000
#define MOST_SERVICE 100 /* steps from an interrupt to its stroke */

/* What the host owns and lends. */
struct cell {
    uint8_t machine[ECO32_RECORD_LENGTH];
    uint8_t ram[ECO32_RAM_LEAST];
    uint8_t rom[ECO32_ROM_LEAST];
    uint8_t belt[ECO32_BELT_LENGTH];
    uint64_t steps; /* made since reset */
};

static void need(int holds, const char *says)
{
    if (holds)
        return;
    fflush(stdout);
    fprintf(stderr, "pusher: FAILED: this does not hold: %s\n", says);
    exit(FAILED);
}

static uint32_t word(const uint8_t *at)
{
    return (uint32_t)at[0] << 24 | (uint32_t)at[1] << 16 | (uint32_t)at[2] << 8 | at[3];
}

static uint32_t belt_word(const struct cell *c, int number) { return word(c->belt + 4 * number); }

static void read_rom(const char *name, uint8_t *rom, size_t length)
{
    FILE *file = fopen(name, "rb");
    size_t found = file == NULL ? 0 : fread(rom, 1, length, file);
    int failed = file == NULL || ferror(file);

    if (failed)
        fprintf(stderr, "pusher: %s: cannot be read: %s\n", name, strerror(errno));
    else if (found < length || getc(file) != EOF)
        fprintf(stderr, "pusher: %s: the image has to have %zu bytes\n", name, length);
    else {
        fclose(file);
        return;
    }
    exit(REFUSED_INPUT);
}

/* To the next exception: its EID, or 32. */
static uint32_t run_on(struct cell *c, uint64_t steps, uint16_t lines)
{
    struct eco32_answer a = eco32_run_to_exception(c->machine, sizeof c->machine, c->ram, sizeof c->ram, c->rom,
                                                   sizeof c->rom, c->belt, sizeof c->belt, steps, lines);
    need(a.refusal == ECO32_ACCEPTED, "the model accepts the run");
    c->steps += a.steps;
    return a.eid;
}

/* From the interrupt on: the service makes one stroke. */
static void serve(struct cell *c, uint32_t eid)
{
    uint32_t strokes = belt_word(c, STROKES);

    need(eid == CHANNEL, "an interrupt by channel 14 is accepted");
    for (int n = 0; belt_word(c, STROKES) == strokes; n++) {
        need(n < MOST_SERVICE, "the service makes a stroke");
        need(run_on(c, 1, 0) == ECO32_NO_EXCEPTION, "the service is not interrupted");
    }
    need(belt_word(c, STROKES) == strokes + 1, "the service makes one stroke");
    need(belt_word(c, PUSHER) == (strokes + 1) % 2, "the pusher goes out and back");
    printf("  step %7" PRIu64 ": stroke %" PRIu32 ", %s", c->steps, strokes + 1, strokes % 2 == 0 ? "out" : "back");
}

/* Strokes by the timer, up to the one of that number. */
static void strokes_to(struct cell *c, uint32_t last)
{
    while (belt_word(c, STROKES) < last) {
        uint64_t before = belt_word(c, STROKES) == 0 ? 0 : c->steps;
        serve(c, run_on(c, ECO32_MOST_STEPS, 0));
        if (before != 0)
            printf(", %" PRIu64 " steps later", c->steps - before);
        printf("\n");
        need(before == 0 || c->steps - before == belt_word(c, PACE), "two strokes are as many steps apart as the pace says");
    }
}

/* The machine saved, and loaded from the first bytes of what was saved. */
static void reload(struct cell *c, size_t length)
{
    uint8_t record[ECO32_RECORD_LENGTH];
    const uint8_t *m = c->machine;

    need(eco32_write_record(m, sizeof c->machine, record, sizeof record) == ECO32_ACCEPTED, "the machine can be saved");
    memset(c->machine, 0, sizeof c->machine);
    need(eco32_read_record(record, length, c->machine, sizeof c->machine) == ECO32_ACCEPTED, "the record can be loaded");
    printf("The machine is saved, and loaded from a record of %zu bytes. Its timer: divisor %" PRIu32 ", counter %" PRIu32
           ", control %d.\n", length, word(m + ECO32_RECORD_TIMER_DIVISOR), word(m + ECO32_RECORD_TIMER_COUNTER),
           m[ECO32_RECORD_TIMER_CONTROL]);
}

/* A record from before the timer: it stands still, and the host's line is what is left of channel 14. */
static void without_timer(struct cell *c)
{
    uint64_t steps = 2 * (uint64_t)belt_word(c, PACE);

    reload(c, ECO32_OLD_RECORD_LENGTH);
    need(run_on(c, steps, 0) == ECO32_NO_EXCEPTION, "a timer at zero interrupts nothing");
    printf("  step %7" PRIu64 ": no stroke in %" PRIu64 " steps\n", c->steps, steps);
    serve(c, run_on(c, 1, 1 << CHANNEL));
    printf(", by the host's line 14\n");
}

/* A whole number from 1 on, or 0 for anything else. */
static uint32_t number(const char *text, uint32_t most)
{
    uint32_t value = 0;

    for (; *text >= '0' && *text <= '9' && value <= most; text++)
        value = 10 * value + (uint32_t)(*text - '0');
    return *text == '\0' && value <= most ? value : 0;
}

int main(int argc, char **argv)
{
    static struct cell c;
    uint32_t pace = argc == 4 ? number(argv[2], MOST_PACE) : 0;
    uint32_t strokes = argc == 4 ? number(argv[3], MOST_STROKES) : 0;

    if (pace == 0 || strokes == 0) {
        fprintf(stderr, "usage: pusher ROM PACE STROKES, with a pace from 1 to %d steps and 1 to %d strokes\n", MOST_PACE,
                MOST_STROKES);
        return BAD_USAGE;
    }
    read_rom(argv[1], c.rom, sizeof c.rom);
    for (int n = 0; n < 4; n++)
        c.belt[4 * PACE + n] = (uint8_t)(pace >> (24 - 8 * n));
    need(eco32_reset(c.machine, sizeof c.machine) == ECO32_ACCEPTED, "the model makes the machine at reset");
    printf("The timer paces the pusher: a stroke every %" PRIu32 " steps. Until the last stroke no call gives an interrupt line.\n",
           pace);
    strokes_to(&c, (strokes + 1) / 2);
    reload(&c, sizeof c.machine);
    strokes_to(&c, strokes);
    without_timer(&c);
    if (fflush(stdout) == 0 && !ferror(stdout))
        return 0;
    fprintf(stderr, "pusher: FAILED: what was printed could not be written\n");
    return FAILED;
}
