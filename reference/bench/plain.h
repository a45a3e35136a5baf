/*
 * A plain ECO32 simulator in C, to measure the model by: one step in place, with no table, cache or translation made
 * beforehand. A run makes the timer's ticks together where nothing can tell (timer.h), and the moves of the replacement
 * index. It refuses nothing: it may be handed only what eco32_run would accept.
 */
#ifndef BENCH_PLAIN_H
#define BENCH_PLAIN_H

#include "eco32.h"
#include "timer.h"

/* Numbers of the special registers. */
enum special { PSW, TLB_INDEX, ENTRY_HIGH, ENTRY_LOW, BAD_ADDRESS, SPECIALS };

struct plain_entry {
    uint32_t high;
    uint32_t low;
};

struct plain_machine {
    uint32_t r[32]; /* r[0] stays 0 */
    uint32_t pc;
    uint32_t special[SPECIALS];
    struct plain_entry tlb[32];
    uint32_t replacement;
    struct plain_timer timer;
    uint32_t accessed; /* address of the last load or store; no part of the record */
};

struct plain_memory {
    uint8_t *ram;
    size_t ram_length;
    const uint8_t *rom;
    size_t rom_length;
    uint8_t *belt;
};

void plain_reset(struct plain_machine *m);

/* Between a machine and its record of 424 bytes. */
void plain_read(struct plain_machine *m, const uint8_t *record);
void plain_write(const struct plain_machine *m, uint8_t *record);

/* The EID of the exception that a step accepted, or 32; the slot of its data access, or 33 if it completed none. */
struct plain_answer {
    uint32_t eid;
    uint32_t slot;
};

/* Makes one step, its tick and the index's move. */
struct plain_answer plain_step(struct plain_machine *m, const struct plain_memory *memory, uint16_t lines);

/* The plain run, called as eco32_run is. */
struct eco32_answer plain_run(uint8_t *machine, size_t machine_len, uint8_t *ram, size_t ram_len, const uint8_t *rom,
                              size_t rom_len, uint8_t *belt, size_t belt_len, uint64_t wanted, uint16_t lines);

/* The same with charges, called as eco32_run_charged is. It goes step by step, to check charges by and not paces. */
struct eco32_charged plain_run_charged(uint8_t *machine, size_t machine_len, uint8_t *ram, size_t ram_len,
                                       const uint8_t *rom, size_t rom_len, uint8_t *belt, size_t belt_len,
                                       const uint8_t *charges, size_t charges_len, uint64_t wanted, uint16_t lines);

#endif
