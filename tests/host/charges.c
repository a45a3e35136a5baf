/* Charges, from include/eco32.h alone: what a charged run answers beside the run's own answer, and that all else is as without charges. */
#include "world.h"

#define ENTRIES 65
#define EXCEPTION 64
#define LARGEST 65535
#define USER_MODE 0x04000000

struct charges {
    uint8_t list[ECO32_CHARGES_LENGTH];
};

static void put_charge(struct charges *charges, size_t entry, uint32_t charge)
{
    charges->list[2 * entry] = (uint8_t)(charge >> 8);
    charges->list[2 * entry + 1] = (uint8_t)charge;
}

/* Every entry with the same charge. */
static struct charges all_of(uint32_t charge)
{
    struct charges charges;
    size_t i;

    for (i = 0; i < ENTRIES; i++)
        put_charge(&charges, i, charge);
    return charges;
}

static struct charges one_of(size_t entry, uint32_t charge)
{
    struct charges charges = all_of(0);

    put_charge(&charges, entry, charge);
    return charges;
}

/* Entry i holds 1000 * i + 7, within 16 bits: every entry has another charge, of two bytes. */
static uint32_t price(size_t entry)
{
    return (uint32_t)(1000 * entry + 7);
}

static struct charges all_other(void)
{
    struct charges charges;
    size_t i;

    for (i = 0; i < ENTRIES; i++)
        put_charge(&charges, i, price(i));
    return charges;
}

static struct eco32_charged run_charged(struct world *w, const struct charges *charges, uint64_t wanted)
{
    return eco32_run_charged(w->machine, sizeof w->machine, w->ram, sizeof w->ram, w->rom, sizeof w->rom,
                             w->belt, sizeof w->belt, charges->list, sizeof charges->list, wanted, 0);
}

static struct eco32_charged run_to_exception_charged(struct world *w, const struct charges *charges, uint64_t wanted)
{
    return eco32_run_to_exception_charged(w->machine, sizeof w->machine, w->ram, sizeof w->ram, w->rom, sizeof w->rom,
                                          w->belt, sizeof w->belt, charges->list, sizeof charges->list, wanted, 0);
}

static int same(struct eco32_charged a, struct eco32_answer b)
{
    return a.refusal == b.refusal && a.steps == b.steps && a.eid == b.eid && a.slot == b.slot;
}

/* A run of either kind costs this, and its answer and what it leaves are those of the run without charges. */
static void costs(const struct world *w, const struct charges *charges, uint64_t wanted, uint64_t plain, uint64_t to_exception,
                  const char *says)
{
    struct world charged = *w, free_of_charge = *w;
    struct eco32_charged a = run_charged(&charged, charges, wanted);

    check(a.refusal == ECO32_ACCEPTED && a.charge == plain, says);
    check(same(a, run(&free_of_charge, sizeof free_of_charge.ram, wanted)), says);
    check(memcmp(&charged, &free_of_charge, sizeof charged) == 0, says);
    charged = free_of_charge = *w;
    a = run_to_exception_charged(&charged, charges, wanted);
    check(a.refusal == ECO32_ACCEPTED && a.charge == to_exception, says);
    check(same(a, run_to_exception(&free_of_charge, wanted)), says);
    check(memcmp(&charged, &free_of_charge, sizeof charged) == 0, says);
}

static void layouts(void)
{
    check(ECO32_CHARGES_LENGTH == 130 && ECO32_REFUSED_CHARGES_LENGTH == 9, "the list's length and its refusal");
    check(sizeof(struct eco32_charged) == 24 && offsetof(struct eco32_charged, refusal) == 0, "a charged answer");
    check(offsetof(struct eco32_charged, steps) == 4 && offsetof(struct eco32_charged, eid) == 8, "a charged answer");
    check(offsetof(struct eco32_charged, slot) == 12 && offsetof(struct eco32_charged, charge) == 16, "a charged answer");
}

/* J by -1: stays where it is. */
static void load_loop(struct world *w)
{
    load_program(w);
    put_word(w->rom, 0xABFFFFFF);
}

/* The largest total there is, and one in which no step costs anything. */
static void totals(void)
{
    struct world w;
    struct charges charges = all_of(LARGEST);
    uint64_t most = (uint64_t)ECO32_MOST_STEPS * LARGEST;

    check(most / 1000000 == 65535 && most % 1000000 == 0, "65,535,000,000");
    load_loop(&w);
    costs(&w, &charges, ECO32_MOST_STEPS, most, most, "the largest charge for every step");
    charges = one_of(0x2A, LARGEST);
    costs(&w, &charges, ECO32_MOST_STEPS, most, most, "the largest charge for J alone");
    charges = all_of(0);
    costs(&w, &charges, ECO32_MOST_STEPS, 0, 0, "no step costs anything");
    charges = all_of(LARGEST);
    costs(&w, &charges, 0, 0, 0, "no steps cost nothing");
    /* Three instructions and a trap, which is served from the second instruction on. */
    load_program(&w);
    costs(&w, &charges, ECO32_MOST_STEPS, most, 4 * (uint64_t)LARGEST, "the largest charge, exceptions too");
    charges = one_of(EXCEPTION, 1);
    costs(&w, &charges, 3, 0, 0, "entry 64 alone, before the trap");
    costs(&w, &charges, 4, 1, 1, "entry 64 alone, with the trap");
}

/* ADDI, LDHI, STW, TRAP: each step has its own entry, and the trap's own opcode costs nothing. */
static void by_steps(void)
{
    static const size_t entries[] = {0x01, 0x1F, 0x35, EXCEPTION};
    struct charges charges = all_other();
    struct world w;
    uint64_t sum = 0;
    size_t n;

    load_program(&w);
    for (n = 0; n <= 4; n++) {
        costs(&w, &charges, n, sum, sum, "a sum over the steps");
        if (n < 4)
            sum += price(entries[n]);
    }
    charges = one_of(0x2E, LARGEST);
    costs(&w, &charges, 4, 0, 0, "the opcode of TRAP costs nothing");
}

/* Every opcode with registers at 0, in Kernel Mode: it completes, and costs its own charge alone, or it accepts an exception. */
static void every_opcode(void)
{
    struct charges own, rest;
    struct world w;
    uint32_t opcode;
    int completed = 0;

    for (opcode = 0; opcode < 64; opcode++) {
        struct world after;
        uint64_t charge;
        load_program(&w);
        put_word(w.rom, opcode << 26);
        put_word(w.machine + ECO32_RECORD_TLB, 0x00000000);     /* page 00000 */
        put_word(w.machine + ECO32_RECORD_TLB + 4, 0x00000003); /* frame 00000, writable and valid */
        after = w;
        own = one_of(opcode, 5);
        rest = all_of(9);
        put_charge(&rest, opcode, 0);
        put_charge(&rest, EXCEPTION, 3);
        charge = run_to_exception(&after, 1).eid == ECO32_NO_EXCEPTION ? 5 : 0;
        completed += charge != 0;
        costs(&w, &own, 1, charge, charge, "an opcode's own charge");
        costs(&w, &rest, 1, charge != 0 ? 0 : 3, charge != 0 ? 0 : 3, "none but an opcode's own charge, or that of an exception");
    }
    /* The rest are eight divisions by zero, TRAP and the three illegal opcodes. */
    check(completed == 52, "52 opcodes complete");
}

/* An accepted exception costs entry 64 and not the opcode at the PC: a fault, a privileged instruction, a fetch that faults, an interrupt. */
static void exceptions(void)
{
    static const uint32_t faulting[] = {0xB8000000, 0x78000000, 0xF8000000, 0xFC000000, 0x20201000, 0xC0221000, 0xC0220001};
    struct charges charges = one_of(EXCEPTION, 777);
    struct world w;
    struct eco32_charged a;
    size_t i;

    for (i = 0; i < sizeof faulting / sizeof faulting[0]; i++) {
        load_program(&w);
        put_word(w.rom, faulting[i]);
        costs(&w, &charges, 1, 777, 777, "a fault costs entry 64");
    }
    load_program(&w);
    put_word(w.machine + ECO32_RECORD_PSW, USER_MODE);
    costs(&w, &charges, 1, 777, 777, "a fetch that faults costs entry 64");
    charges = all_of(LARGEST);
    put_charge(&charges, EXCEPTION, 2);
    load_loop(&w);
    put_word(w.machine + ECO32_RECORD_PSW, 0x00800001); /* I_C, and channel 0 */
    a = eco32_run_to_exception_charged(w.machine, sizeof w.machine, w.ram, sizeof w.ram, w.rom, sizeof w.rom, w.belt, sizeof w.belt,
                                       charges.list, sizeof charges.list, ECO32_MOST_STEPS, 1);
    check(a.refusal == ECO32_ACCEPTED && a.steps == 1 && a.eid == 0 && a.charge == 2, "an interrupt costs entry 64");
}

/* The charge of a run is that of its parts. */
static void in_parts(void)
{
    struct charges charges = all_other();
    struct world whole, parts;
    uint64_t sum = 0;
    int i;

    load_program(&whole);
    parts = whole;
    for (i = 0; i < 20; i++)
        sum += run_charged(&parts, &charges, (uint64_t)i).charge;
    check(run_charged(&whole, &charges, 190).charge == sum, "the sum of the parts");
    check(memcmp(&whole, &parts, sizeof whole) == 0, "and what they leave");
}

/* What both charged runs answer with these lengths, and that nothing is written. */
static void refused(const struct world *w, size_t ram_len, size_t machine_len, size_t charges_len, uint64_t wanted, uint32_t refusal,
                    const char *says)
{
    struct world lent = *w;
    uint8_t list[ECO32_CHARGES_LENGTH + 1];
    struct eco32_charged a, b;

    memset(list, 1, sizeof list);
    a = eco32_run_charged(lent.machine, machine_len, lent.ram, ram_len, lent.rom, sizeof lent.rom, lent.belt, sizeof lent.belt, list,
                          charges_len, wanted, 0);
    b = eco32_run_to_exception_charged(lent.machine, machine_len, lent.ram, ram_len, lent.rom, sizeof lent.rom, lent.belt,
                                       sizeof lent.belt, list, charges_len, wanted, 0);
    check(a.refusal == refusal && b.refusal == refusal, says);
    check(a.steps == 0 && a.eid == ECO32_NO_EXCEPTION && a.slot == ECO32_NO_SLOT && a.charge == 0, says);
    check(b.steps == 0 && b.eid == ECO32_NO_EXCEPTION && b.slot == ECO32_NO_SLOT && b.charge == 0, says);
    check(memcmp(&lent, w, sizeof lent) == 0, says);
}

/* 9 is the last cause that a charged run tests, behind 1 to 7; a run of no steps is refused too. */
static void refusals(void)
{
    static const size_t lengths[] = {0, 1, 64, 128, 129, 131};
    struct world w;
    size_t i;

    load_program(&w);
    for (i = 0; i < sizeof lengths / sizeof lengths[0]; i++) {
        refused(&w, sizeof w.ram, sizeof w.machine, lengths[i], 1, ECO32_REFUSED_CHARGES_LENGTH, "a list of another length");
        refused(&w, sizeof w.ram, sizeof w.machine, lengths[i], 0, ECO32_REFUSED_CHARGES_LENGTH, "and no steps");
        refused(&w, sizeof w.ram, sizeof w.machine, lengths[i], ECO32_MOST_STEPS + 1, ECO32_REFUSED_STEPS, "7 comes before 9");
        refused(&w, sizeof w.ram - 1, sizeof w.machine, lengths[i], 1, ECO32_REFUSED_RAM_LENGTH, "1 comes before 9");
        refused(&w, sizeof w.ram, ECO32_OLD_RECORD_LENGTH, lengths[i], 1, ECO32_REFUSED_RECORD_LENGTH, "4 comes before 9");
    }
    refused(&w, sizeof w.ram, sizeof w.machine, ECO32_CHARGES_LENGTH, ECO32_MOST_STEPS + 1, ECO32_REFUSED_STEPS, "too many steps");
    refused(&w, sizeof w.ram, ECO32_OLD_RECORD_LENGTH, ECO32_CHARGES_LENGTH, 1, ECO32_REFUSED_RECORD_LENGTH, "an old record");
    w.machine[ECO32_RECORD_KIND_TLB] = 9;
    refused(&w, sizeof w.ram, sizeof w.machine, 0, 1, ECO32_REFUSED_KIND_BYTE, "5 comes before 9");
    load_program(&w);
    w.machine[ECO32_RECORD_REPLACEMENT] = 0;
    refused(&w, sizeof w.ram, sizeof w.machine, 0, ECO32_MOST_STEPS + 1, ECO32_REFUSED_UNFIT_MACHINE, "6 comes before 7 and 9");
}

int main(void)
{
    layouts();
    totals();
    by_steps();
    every_opcode();
    exceptions();
    in_parts();
    refusals();
    return told("every charge is the sum over its steps, and all else is as without charges");
}
