#include "state.h"

#include "bytes.h"
#include "eco32.h"

#define PSW_USER_MODE 0x04000000

uint32_t state_register(const uint8_t *machine, unsigned number)
{
    return word_at(machine + ECO32_RECORD_REGISTERS + 4 * number);
}

uint32_t state_pc(const uint8_t *machine)
{
    return word_at(machine + ECO32_RECORD_PC);
}

uint32_t state_special(const uint8_t *machine, enum special special)
{
    return word_at(machine + ECO32_RECORD_PSW + 4 * (unsigned)special);
}

uint32_t state_tlb_high(const uint8_t *machine, unsigned slot)
{
    return word_at(machine + ECO32_RECORD_TLB + 8 * slot);
}

uint32_t state_tlb_low(const uint8_t *machine, unsigned slot)
{
    return word_at(machine + ECO32_RECORD_TLB + 8 * slot + 4);
}

uint32_t state_replacement(const uint8_t *machine)
{
    return machine[ECO32_RECORD_REPLACEMENT];
}

uint32_t state_timer_divisor(const uint8_t *machine)
{
    return word_at(machine + ECO32_RECORD_TIMER_DIVISOR);
}

uint32_t state_timer_counter(const uint8_t *machine)
{
    return word_at(machine + ECO32_RECORD_TIMER_COUNTER);
}

uint32_t state_timer_control(const uint8_t *machine)
{
    return machine[ECO32_RECORD_TIMER_CONTROL];
}

char state_mode(const uint8_t *machine)
{
    return state_special(machine, SPECIAL_PSW) & PSW_USER_MODE ? 'U' : 'K';
}

const char *special_name(enum special special)
{
    static const char *const names[SPECIAL_COUNT] = {"PSW", "Index", "EntryHigh", "EntryLow", "BadAddress"};

    return names[special];
}
