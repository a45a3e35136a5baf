/* The workloads: RAM with a program in it, and the machine that begins it. */
#ifndef BENCH_IMAGES_H
#define BENCH_IMAGES_H

#include "eco32.h"

#define RAM_LENGTH 65536
#define ROM_LENGTH 4096

/* What a run may change. RAM begins on a page of the host's, so that in no copy of it words lie across cache lines. */
struct world {
    _Alignas(4096) uint8_t ram[RAM_LENGTH];
    uint8_t record[ECO32_RECORD_LENGTH];
    uint8_t belt[ECO32_BELT_LENGTH];
};

/* Kernel Mode in direct-mapped RAM, C0000000 up: a loop of arithmetic, branches, a call, loads and stores over 1,024
 * words, without end and without exception. */
void image_kernel(struct world *world);

/* User Mode on eight pages, in TLB entries 0 to 7: code on two of them, loads and stores on all, without end and
 * without exception. */
void image_user(struct world *world);

/* The machine's timer set going: it wraps every thousand steps, and asks for no interrupt. */
void start_timer(struct world *world);

/* One instruction over and over. */
struct kind {
    const char *name;
    uint32_t word;
};

#define KINDS 9
extern const struct kind kinds[KINDS];

/* Kernel Mode in direct-mapped RAM: the instruction a hundred times from C0000004 up, and a jump back. Its exception and
 * its return, where it has one, lead to C0000004 too and leave the PSW as it is. */
void image_kind(struct world *world, const struct kind *kind);

#endif
