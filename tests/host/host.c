/* A host written from include/eco32.h alone: every call, its answers and its refusals; the timer; the replacement index. */
#include "world.h"

static void runs(void)
{
    struct world w;
    struct eco32_answer a;

    load_program(&w);
    a = run(&w, sizeof w.ram, 3);
    check(a.refusal == ECO32_ACCEPTED && a.steps == 3 && a.eid == ECO32_NO_EXCEPTION, "a plain run of 3 steps");
    check(get_word(w.machine + ECO32_RECORD_PC) == 0xE000000C, "the PC after 3 steps");
    check(get_word(w.ram) == 5, "the word that was stored");

    load_program(&w);
    a = run_to_exception(&w, ECO32_MOST_STEPS);
    check(a.refusal == ECO32_ACCEPTED && a.steps == 4 && a.eid == 20, "a run to the trap");
    a = run_to_exception(&w, 0);
    check(a.refusal == ECO32_ACCEPTED && a.steps == 0 && a.eid == ECO32_NO_EXCEPTION, "a run of no steps");
}

static void refusals(void)
{
    struct world w, before;
    struct eco32_answer a;

    load_program(&w);
    before = w;
    a = run(&w, sizeof w.ram - 1, ECO32_MOST_STEPS + 1);
    check(a.refusal == ECO32_REFUSED_RAM_LENGTH && a.steps == 0 && a.eid == ECO32_NO_EXCEPTION, "RAM's length comes first");
    a = run(&w, sizeof w.ram, (uint64_t)1 << 40);
    check(a.refusal == ECO32_REFUSED_STEPS, "too many steps");
    check(memcmp(&w, &before, sizeof w) == 0, "a refused call leaves every byte");
    w.machine[ECO32_RECORD_KIND_REGISTERS] = 9;
    check(run(&w, sizeof w.ram, 1).refusal == ECO32_REFUSED_KIND_BYTE, "a wrong kind byte");
    w.machine[ECO32_RECORD_KIND_REGISTERS] = 1;
    w.machine[ECO32_RECORD_REPLACEMENT] = 3;
    check(run(&w, sizeof w.ram, 1).refusal == ECO32_REFUSED_UNFIT_MACHINE, "an unfit machine");
    w = before;
    w.machine[ECO32_RECORD_KIND_TIMER] = 7;
    check(run(&w, sizeof w.ram, 1).refusal == ECO32_REFUSED_KIND_BYTE, "a wrong kind byte of the timer");
    w.machine[ECO32_RECORD_KIND_TIMER] = 6;
    w.machine[ECO32_RECORD_TIMER_CONTROL] = 4;
    check(run(&w, sizeof w.ram, 1).refusal == ECO32_REFUSED_UNFIT_MACHINE, "a control above 3");
    w.machine[ECO32_RECORD_TIMER_CONTROL] = 3;
    check(run(&w, sizeof w.ram, 1).refusal == ECO32_ACCEPTED, "a control of 3");
}

static void records(void)
{
    struct world w;
    uint8_t copy[ECO32_RECORD_LENGTH];

    load_program(&w);
    run(&w, sizeof w.ram, 2);
    check(eco32_write_record(w.machine, sizeof w.machine, copy, sizeof copy) == ECO32_ACCEPTED, "write a record");
    check(memcmp(copy, w.machine, sizeof copy) == 0, "the same bytes");
    check(eco32_read_record(copy, sizeof copy, w.machine, sizeof w.machine) == ECO32_ACCEPTED, "read a record");
}

/* A machine whose timer runs, and what is left of it in a record of 414 bytes. */
static void load_timed(struct world *w)
{
    load_program(w);
    put_word(w->machine + ECO32_RECORD_TIMER_DIVISOR, 7);
    put_word(w->machine + ECO32_RECORD_TIMER_COUNTER, 5);
    w->machine[ECO32_RECORD_TIMER_CONTROL] = 2;
}

static int is_without_timer(const uint8_t *copy, const uint8_t *machine)
{
    static const uint8_t timer[ECO32_RECORD_LENGTH - ECO32_OLD_RECORD_LENGTH] = {6};

    return memcmp(copy, machine, ECO32_OLD_RECORD_LENGTH) == 0 &&
           memcmp(copy + ECO32_OLD_RECORD_LENGTH, timer, sizeof timer) == 0;
}

static void old_records(void)
{
    struct world w;
    uint8_t copy[ECO32_RECORD_LENGTH];

    load_timed(&w);
    memset(copy, 0xEE, sizeof copy);
    check(eco32_read_record(w.machine, ECO32_OLD_RECORD_LENGTH, copy, sizeof copy) == ECO32_ACCEPTED, "read 414 bytes");
    check(is_without_timer(copy, w.machine), "414 bytes are read with the timer at zero");
    memset(copy, 0xEE, sizeof copy);
    check(eco32_write_record(w.machine, ECO32_OLD_RECORD_LENGTH, copy, sizeof copy) == ECO32_ACCEPTED, "write from 414 bytes");
    check(is_without_timer(copy, w.machine), "414 bytes are written with the timer at zero");
    check(eco32_page_view(w.ram, sizeof w.ram, w.machine, ECO32_OLD_RECORD_LENGTH, 0xC0001).refusal == ECO32_ACCEPTED,
          "a page view by 414 bytes");
    check(eco32_read_record(w.machine, sizeof w.machine, copy, sizeof copy) == ECO32_ACCEPTED &&
              memcmp(copy, w.machine, sizeof copy) == 0,
          "424 bytes are read with their timer");
}

/* Lengths that no record has, and 414 where a machine is written: refused, and nothing changes. */
static void other_lengths(void)
{
    static const size_t never[] = {0, 413, 415, 423, 425};
    struct world w, before;
    uint8_t longer[ECO32_RECORD_LENGTH + 1], copy[ECO32_RECORD_LENGTH + 1], kept[ECO32_RECORD_LENGTH + 1];
    size_t i, old = ECO32_OLD_RECORD_LENGTH;

    load_timed(&w);
    before = w;
    memset(longer, 0, sizeof longer);
    memcpy(longer, w.machine, sizeof w.machine);
    memset(copy, 0xEE, sizeof copy);
    memcpy(kept, copy, sizeof copy);
    for (i = 0; i <= sizeof never / sizeof never[0]; i++) {
        size_t n = i < sizeof never / sizeof never[0] ? never[i] : old;
        int reads = n == old;
        check(reads || eco32_read_record(longer, n, copy, sizeof w.machine) == ECO32_REFUSED_RECORD_LENGTH, "a source read");
        check(reads || eco32_write_record(longer, n, copy, sizeof w.machine) == ECO32_REFUSED_RECORD_LENGTH, "a source written");
        check(reads || eco32_page_view(w.ram, sizeof w.ram, longer, n, 0xC0001).refusal == ECO32_REFUSED_RECORD_LENGTH, "a view");
        check(eco32_reset(copy, n) == ECO32_REFUSED_RECORD_LENGTH, "a machine at reset");
        check(eco32_read_record(longer, sizeof w.machine, copy, n) == ECO32_REFUSED_RECORD_LENGTH, "a target of reading");
        check(eco32_write_record(longer, sizeof w.machine, copy, n) == ECO32_REFUSED_RECORD_LENGTH, "a target of writing");
        check(eco32_run(longer, n, w.ram, sizeof w.ram, w.rom, sizeof w.rom, w.belt, sizeof w.belt, 1, 0).refusal ==
                  ECO32_REFUSED_RECORD_LENGTH,
              "the machine of a run");
    }
    check(memcmp(copy, kept, sizeof copy) == 0, "a target of another length is left as it was");
    check(memcmp(longer, w.machine, sizeof w.machine) == 0 && memcmp(&w, &before, sizeof w) == 0, "and so is all else");
}

/* LDHI R1, F000; ADDI R2, R0, 3; STW R2, R1, 4: the divisor; STW R2, R1, 0: control; LDW R3, R1, 0; J by -1. */
static void load_timer_program(struct world *w)
{
    static const uint32_t program[] = {0x7C01F000, 0x04020003, 0xD4220004, 0xD4220000, 0xC0230000, 0xABFFFFFF};
    size_t i;

    load_program(w);
    for (i = 0; i < sizeof program / sizeof program[0]; i++)
        put_word(w->rom + 4 * i, program[i]);
}

static int timer_is(const struct world *w, uint32_t divisor, uint32_t counter, uint8_t control)
{
    return get_word(w->machine + ECO32_RECORD_TIMER_DIVISOR) == divisor &&
           get_word(w->machine + ECO32_RECORD_TIMER_COUNTER) == counter &&
           w->machine[ECO32_RECORD_TIMER_CONTROL] == control;
}

static void timer(void)
{
    struct world w;
    struct eco32_answer a;

    load_timer_program(&w);
    check(timer_is(&w, 0, 0, 0), "the timer at reset");
    run(&w, sizeof w.ram, 2);
    check(timer_is(&w, 0, 0, 0), "with divisor 0 nothing moves");
    run(&w, sizeof w.ram, 1);
    check(timer_is(&w, 3, 2, 0), "a store to the divisor loads the counter, and then the timer ticks");
    run(&w, sizeof w.ram, 1);
    check(timer_is(&w, 3, 1, 3), "a store to control sets both bits");
    run(&w, sizeof w.ram, 1);
    check(timer_is(&w, 3, 3, 3) && get_word(w.machine + ECO32_RECORD_REGISTERS + 4 * 3) == 3, "a wrap, and a load of control");

    /* Both bits are set, so channel 14 is ready as soon as the PSW accepts it: I_C, and bit 14 of IEN. */
    put_word(w.machine + ECO32_RECORD_PSW, 0x00804000);
    a = run_to_exception(&w, 9);
    check(a.steps == 1 && a.eid == 14 && timer_is(&w, 3, 2, 3), "the timer interrupts by channel 14, and ticks on");
    put_word(w.machine + ECO32_RECORD_PSW, 0x00804000);
    w.machine[ECO32_RECORD_TIMER_CONTROL] = 1;
    w.machine[ECO32_RECORD_TIMER_DIVISOR + 3] = 0;
    check(run_to_exception(&w, 1).eid == ECO32_NO_EXCEPTION, "without the enable bit the timer does not interrupt");
    check(eco32_run_to_exception(w.machine, sizeof w.machine, w.ram, sizeof w.ram, w.rom, sizeof w.rom, w.belt, sizeof w.belt,
                                 1, 0x4000).eid == 14,
          "but the line does");
}

static void index_moves(void)
{
    struct world w;

    load_program(&w);
    check(w.machine[ECO32_RECORD_REPLACEMENT] == 4, "the replacement index at reset");
    run(&w, sizeof w.ram, 3);
    check(w.machine[ECO32_RECORD_REPLACEMENT] == 7, "every step moves it");
    run_to_exception(&w, ECO32_MOST_STEPS);
    check(w.machine[ECO32_RECORD_REPLACEMENT] == 8, "a step that accepts an exception too");
    run(&w, sizeof w.ram, 0);
    run(&w, sizeof w.ram, ECO32_MOST_STEPS + 1);
    check(w.machine[ECO32_RECORD_REPLACEMENT] == 8, "no steps and a refused run leave it");
    run(&w, sizeof w.ram, 28);
    check(w.machine[ECO32_RECORD_REPLACEMENT] == 8, "it comes round in 28 steps");
    run(&w, sizeof w.ram, ECO32_MOST_STEPS);
    check(w.machine[ECO32_RECORD_REPLACEMENT] == 16, "and 35,714 times in 999,992");
}

/* TBWR; TBWR; TBWI. From index 31, with TLB Index 9. */
static void entries(void)
{
    struct world w;
    int i;

    load_program(&w);
    put_word(w.rom, 0xEC000000);
    put_word(w.rom + 4, 0xEC000000);
    put_word(w.rom + 8, 0xF4000000);
    w.machine[ECO32_RECORD_REPLACEMENT] = 31;
    w.machine[ECO32_RECORD_TLB_INDEX + 3] = 9;
    put_word(w.machine + ECO32_RECORD_ENTRY_HIGH, 0x00001000);
    run(&w, sizeof w.ram, 3);
    for (i = 0; i < 32; i++)
        check(get_word(w.machine + ECO32_RECORD_TLB + 8 * i) == (i == 31 || i == 4 || i == 9 ? 0x00001000 : 0xC0000000),
              "TBWR writes where the index was before its step, TBWI where TLB Index is");
    check(w.machine[ECO32_RECORD_REPLACEMENT] == 6, "neither moves the index further");
}

static void views(void)
{
    struct world w;
    struct eco32_view v;

    load_program(&w);
    v = page_view(&w, 0xC0001);
    check(v.refusal == ECO32_ACCEPTED && v.offset == 4096 && v.length == ECO32_FRAME_LENGTH, "the second frame of RAM");
    v = page_view(&w, 0x100000);
    check(v.refusal == ECO32_REFUSED_PAGE && v.offset == 0 && v.length == 0, "no such page");
}

int main(void)
{
    runs();
    refusals();
    records();
    old_records();
    other_lengths();
    timer();
    index_moves();
    entries();
    views();
    return told("every call answered as eco32.h says");
}
