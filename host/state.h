/* The parts of a machine record, as eco32.h lays it out. */
#ifndef HOST_STATE_H
#define HOST_STATE_H

#include <stdint.h>

enum special { SPECIAL_PSW, SPECIAL_INDEX, SPECIAL_ENTRY_HIGH, SPECIAL_ENTRY_LOW, SPECIAL_BAD_ADDRESS, SPECIAL_COUNT };

#define REGISTER_COUNT 32
#define TLB_COUNT 32

uint32_t state_register(const uint8_t *machine, unsigned number);
uint32_t state_pc(const uint8_t *machine);
uint32_t state_special(const uint8_t *machine, enum special special);
uint32_t state_tlb_high(const uint8_t *machine, unsigned slot);
uint32_t state_tlb_low(const uint8_t *machine, unsigned slot);
uint32_t state_replacement(const uint8_t *machine);
uint32_t state_timer_divisor(const uint8_t *machine);
uint32_t state_timer_counter(const uint8_t *machine);

/* As the word that a program loads: bit 1 interrupt enable, bit 0 the wrap flag. */
uint32_t state_timer_control(const uint8_t *machine);

/* K or U. */
char state_mode(const uint8_t *machine);

const char *special_name(enum special special);

#endif
