#include "mapping.h"

#include "state.h"

#define KERNEL_BEGINS 0x80000000
#define DIRECT_BEGINS 0xC0000000
#define OFFSET_BITS 0xFFFU
#define LOW_VALID 1U

/* The lowest entry of the page counts, be it valid or not. */
static int find_in_tlb(const uint8_t *machine, uint32_t address, uint32_t *physical)
{
    for (unsigned i = 0; i < TLB_COUNT; i++) {
        uint32_t low = state_tlb_low(machine, i);
        if ((state_tlb_high(machine, i) ^ address) & ~OFFSET_BITS)
            continue;
        *physical = (low & ~OFFSET_BITS) | (address & OFFSET_BITS);
        return (low & LOW_VALID) != 0;
    }
    return 0;
}

int mapping_find(const uint8_t *machine, uint32_t address, unsigned width, uint32_t *physical)
{
    if (address % width != 0 || (state_mode(machine) == 'U' && address >= KERNEL_BEGINS))
        return 0;
    if (address < DIRECT_BEGINS)
        return find_in_tlb(machine, address, physical);
    *physical = address - DIRECT_BEGINS;
    return 1;
}
