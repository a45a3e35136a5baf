#include "print.h"

#include "say.h"
#include "state.h"

#include <ctype.h>
#include <inttypes.h>
#include <stdio.h>
#include <string.h>

#define LINE_LENGTH 16

void print_registers(const uint8_t *machine)
{
    uint32_t psw = state_special(machine, SPECIAL_PSW);
    uint32_t control = state_timer_control(machine);

    for (unsigned i = 0; i < REGISTER_COUNT; i++)
        printf("R%-2u %08" PRIX32 "%s", i, state_register(machine, i), i % 4 == 3 ? "\n" : "  ");
    printf("PC  %08" PRIX32 "  mode %c  replacement %" PRIu32 "\n", state_pc(machine), state_mode(machine),
           state_replacement(machine));
    printf("PSW %08" PRIX32 "  V %u  U %u%u%u  I %u%u%u  EID %u  IEN %04X\n", psw, psw >> 27 & 1, psw >> 26 & 1,
           psw >> 25 & 1, psw >> 24 & 1, psw >> 23 & 1, psw >> 22 & 1, psw >> 21 & 1, psw >> 16 & 31, psw & 0xFFFF);
    for (int i = SPECIAL_INDEX; i < SPECIAL_COUNT; i++)
        printf("%s %08" PRIX32 "%s", special_name((enum special)i), state_special(machine, (enum special)i),
               i == SPECIAL_COUNT - 1 ? "\n" : "  ");
    printf("Timer  Divisor %08" PRIX32 "  Counter %08" PRIX32 "  Control %" PRIX32 "  enable %u  wrap %u\n",
           state_timer_divisor(machine), state_timer_counter(machine), control, control >> 1 & 1, control & 1);
}

void print_tlb(const uint8_t *machine)
{
    for (unsigned i = 0; i < TLB_COUNT; i++) {
        uint32_t high = state_tlb_high(machine, i);
        uint32_t low = state_tlb_low(machine, i);
        printf("TLB %-2u  high %08" PRIX32 "  low %08" PRIX32 "  page %05" PRIX32 "  frame %05" PRIX32 "  %c%c\n", i,
               high, low, high >> 12, low >> 12, low & 1 ? 'v' : '-', low & 2 ? 'w' : '-');
    }
}

static void print_line(uint64_t address, const uint8_t *line)
{
    printf("%08" PRIX64 " ", address);
    for (int i = 0; i < LINE_LENGTH; i++)
        printf("%s%02X", i == LINE_LENGTH / 2 ? "  " : " ", line[i]);
    printf("  |");
    for (int i = 0; i < LINE_LENGTH; i++)
        putchar(line[i] < 128 && isprint(line[i]) ? line[i] : '.');
    printf("|\n");
}

/* Lines equal to the one before them are folded to one *, as hexdump does. */
static void print_page(uint64_t address, const uint8_t *page, size_t length)
{
    int folded = 0;

    for (size_t at = 0; at < length; at += LINE_LENGTH) {
        if (at != 0 && memcmp(page + at, page + at - LINE_LENGTH, LINE_LENGTH) == 0) {
            if (!folded)
                printf("*\n");
            folded = 1;
        } else {
            print_line(address + at, page + at);
            folded = 0;
        }
    }
    printf("%08" PRIX64 "\n", address + length);
}

void print_slot(uint32_t slot)
{
    printf("slot %" PRIu32 "%s", slot, slot == ECO32_DIRECT_MAPPED ? " (direct-mapped)" : "");
}

int print_view(const struct world *world, const char *text, uint64_t page)
{
    struct eco32_view view =
        eco32_page_view(world->ram.at, world->ram.length, world->machine, sizeof world->machine, page);

    if (view.refusal != ECO32_ACCEPTED)
        return say_refused("--view", text, view.refusal);
    printf("page %05" PRIX64 ", RAM offset %08" PRIX64 ", ", page, view.offset);
    print_slot(view.slot);
    putchar('\n');
    print_page(page * ECO32_FRAME_LENGTH, world->ram.at + view.offset, (size_t)view.length);
    return STATUS_GOOD;
}
