#include "trace.h"

#include "mapping.h"
#include "eco32_text.h"
#include "state.h"

#include <inttypes.h>
#include <stdio.h>
#include <string.h>

#define OPCODE_STW 0x35
#define OPCODE_STB 0x37
#define INTERRUPTS 16

void trace_before(const struct world *world, struct trace *before)
{
    uint32_t physical;

    memcpy(before->machine, world->machine, sizeof before->machine);
    before->word = 0;
    before->has_word = mapping_find(before->machine, state_pc(before->machine), 4, &physical) &&
                       world_word(world, physical, &before->word);
}

static void trace_registers(const uint8_t *before, const uint8_t *after)
{
    for (unsigned i = 0; i < REGISTER_COUNT; i++)
        if (state_register(before, i) != state_register(after, i))
            printf(" R%u=%08" PRIX32, i, state_register(after, i));
    for (int i = 0; i < SPECIAL_COUNT; i++) {
        enum special special = (enum special)i;
        if (state_special(before, special) != state_special(after, special))
            printf(" %s=%08" PRIX32, special_name(special), state_special(after, special));
    }
}

/* The replacement index goes up in every step, so a line says nothing of it. The entry that TBWR changed names it. */
static void trace_tlb(const uint8_t *before, const uint8_t *after)
{
    for (unsigned i = 0; i < TLB_COUNT; i++) {
        uint32_t high = state_tlb_high(after, i);
        uint32_t low = state_tlb_low(after, i);
        if (high != state_tlb_high(before, i) || low != state_tlb_low(before, i))
            printf(" TLB%u=%08" PRIX32 ":%08" PRIX32, i, high, low);
    }
}

/* Bytes that an instruction stores; 0 if it is no STW, STH or STB. */
static unsigned store_width(uint32_t word)
{
    unsigned opcode = word >> 26;

    return opcode < OPCODE_STW || opcode > OPCODE_STB ? 0 : 4U >> (opcode - OPCODE_STW);
}

/* The instruction word says that a step stores, and where: comparing memory before and after would not show a store
 * of the bytes that are there already, and would cost a pass over RAM. The bytes shown are those that stand there
 * after the step: a store to ROM shows what ROM has kept, and one to the timer's control what the tick left there. */
static void trace_store(const struct trace *before, const struct world *world)
{
    unsigned width = store_width(before->word);
    uint32_t base = state_register(before->machine, before->word >> 21 & 31);
    uint32_t offset = (before->word & 0xFFFF) ^ 0x8000;
    uint32_t address = base + offset - 0x8000;
    uint32_t physical;
    uint32_t word;

    if (width == 0 || !mapping_find(before->machine, address, width, &physical) ||
        !world_word(world, physical & ~3U, &word))
        return;
    printf(" [%08" PRIX32 "]=", address);
    for (unsigned i = physical % 4; i < physical % 4 + width; i++)
        printf("%02X", word >> (24 - 8 * i) & 0xFF);
    printf(" (%s %08" PRIX32 ")", world_part(physical), physical);
}

/* The TLB entry that served a load or store, as the model answers it. Other steps have none, and neither has an access
 * that faulted. */
static void trace_slot(uint32_t slot)
{
    if (slot == ECO32_DIRECT_MAPPED)
        printf(" Slot=direct");
    else if (slot != ECO32_NO_SLOT)
        printf(" Slot=%" PRIu32, slot);
}

/* Whether the counter rested, or just went down by 1, as it does in nearly every step of a timer that runs. */
static int counts_on(const uint8_t *before, const uint8_t *after)
{
    uint32_t counter = state_timer_counter(before);

    if (state_timer_divisor(after) == 0)
        return state_timer_counter(after) == counter;
    return counter > 1 && state_timer_counter(after) == counter - 1;
}

/* With the line before, this says what the whole timer is. */
static void trace_timer(const uint8_t *before, const uint8_t *after)
{
    if (state_timer_divisor(before) != state_timer_divisor(after))
        printf(" Divisor=%08" PRIX32, state_timer_divisor(after));
    if (!counts_on(before, after))
        printf(" Counter=%08" PRIX32, state_timer_counter(after));
    if (state_timer_control(before) != state_timer_control(after))
        printf(" Control=%" PRIX32, state_timer_control(after));
}

void trace_after(uint64_t step, const struct eco32_charged *answer, int charged, const struct trace *before,
                 const struct world *world)
{
    uint32_t eid = answer->eid;
    uint32_t pc = state_pc(before->machine);
    uint32_t next = state_pc(world->machine);

    printf("%" PRIu64 " %08" PRIX32 " ", step, pc);
    if (before->has_word && eid >= INTERRUPTS)
        printf("%08" PRIX32, before->word);
    else
        printf("--------");
    printf(" %c ", state_mode(before->machine));
    if (eid == ECO32_NO_EXCEPTION)
        printf("--");
    else
        printf("%02" PRIu32 " (%s)", eid, eco32_exception_name(eid));
    trace_registers(before->machine, world->machine);
    trace_tlb(before->machine, world->machine);
    if (eid == ECO32_NO_EXCEPTION)
        trace_store(before, world);
    trace_slot(answer->slot);
    trace_timer(before->machine, world->machine);
    if (charged)
        printf(" Charge=%" PRIu64, answer->charge);
    if (next != pc + 4)
        printf(" PC=%08" PRIX32, next);
    putchar('\n');
}
