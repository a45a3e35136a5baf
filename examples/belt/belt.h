/* What the parts of the example share: what the host lends, and how it ends. */
#ifndef BELT_H
#define BELT_H

#include "eco32.h"
#include "image.h"

#include <stddef.h>
#include <stdint.h>

/* Exit statuses beside 0. */
enum { COUNTS_DIFFER = 1, BAD_USAGE = 2, REFUSED_INPUT = 3, FAILED = 4 };

/* A belt register for each pack. */
#define MOST_PACKS (ECO32_BELT_LENGTH / 4)

/* What the host owns and lends. */
struct cell {
    uint8_t machine[ECO32_RECORD_LENGTH];
    uint8_t ram[BELT_RAM_LENGTH];
    uint8_t rom[BELT_ROM_LENGTH];
    uint8_t belt[ECO32_BELT_LENGTH];
    uint32_t packs;   /* on the belt */
    uint32_t stopped; /* how often the routine was stopped in what it may not do */
    uint64_t steps;   /* made since reset */
};

struct count {
    uint32_t packs;
    uint32_t rejected;
};

/* input.c: files, each held to its form. What is bad is told with its line, and the program ends. */
void read_image(const char *name, uint8_t *bytes, size_t length);
uint32_t read_packs(const char *name, uint8_t *belt);
struct count read_count(const char *name);
uint32_t crc32(const uint8_t *bytes, size_t length);

/* machine.c: the machine, and what its record says. */
void need(int holds, const char *says);
void reset(struct cell *c);
uint32_t run_on(struct cell *c, uint64_t steps); /* to the next exception: its EID, or 32 */
uint32_t word(const uint8_t *at);
uint32_t reg(const struct cell *c, int number);
uint32_t pc(const struct cell *c);
uint32_t special(const struct cell *c, int number);
uint32_t tlb_high(const struct cell *c, int entry);
uint32_t tlb_low(const struct cell *c, int entry);
const uint8_t *page(const struct cell *c, uint64_t number);
struct count counted(const struct cell *c);
int reports(const struct cell *c, uint32_t eid); /* the exception is a report of the routine */
void tell_record(const struct cell *c);

/* week.c: the week, a day at a time. */
void monday(const struct cell *c, const char *rom, const char *ram);
void tuesday(struct cell *c);
void wednesday(const struct cell *c);
void thursday(struct cell *c, int state);
int friday(const struct cell *c, struct count cell); /* are the counts equal? */

/* twin.c: the hostile twin. */
void run_twin(struct cell *c, const char *rom, int state);

#endif
