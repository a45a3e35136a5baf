/* Slots, from include/eco32.h alone: which TLB entry served the last step's load or store, and a page view's lookup. */
#include "world.h"

#define ENTRIES 32
#define LDW 0xC0220000 /* R2, R1, 0 */
#define STW 0xD4220000
#define USER_MODE 0x04000000
#define WRITABLE 3 /* and valid */

/* LDW, LDH, LDHU, LDB, LDBU, STW, STH, STB: R2, R1, 0. */
static const uint32_t accesses[] = {LDW, 0xC4220000, 0xC8220000, 0xCC220000, 0xD0220000, STW, 0xD8220000, 0xDC220000};

/* The machine at reset, with one instruction in ROM and an address in R1. */
static void load_access(struct world *w, uint32_t instruction, uint32_t address)
{
    load_program(w);
    put_word(w->rom, instruction);
    put_word(w->machine + ECO32_RECORD_REGISTERS + 4 * 1, address);
}

static void map(struct world *w, uint32_t entry, uint32_t page, uint32_t low)
{
    put_word(w->machine + ECO32_RECORD_TLB + 8 * entry, page);
    put_word(w->machine + ECO32_RECORD_TLB + 8 * entry + 4, low);
}

/* The code is fetched through a page, 00002, that stands for the ROM. */
static void fetch_mapped(struct world *w, uint32_t entry)
{
    map(w, entry, 0x00002000, 0x20000001);
    put_word(w->machine + ECO32_RECORD_PC, 0x00002000);
}

/* One step, by both runs. */
static void step_is(const struct world *w, uint32_t eid, uint32_t slot, const char *says)
{
    struct world plain = *w, to_exception = *w;
    struct eco32_answer a = run(&plain, sizeof plain.ram, 1);
    struct eco32_answer b = run_to_exception(&to_exception, 1);

    check(a.refusal == ECO32_ACCEPTED && a.steps == 1 && a.eid == ECO32_NO_EXCEPTION && a.slot == slot, says);
    check(b.refusal == ECO32_ACCEPTED && b.steps == 1 && b.eid == eid && b.slot == slot, says);
    check(memcmp(&plain, &to_exception, sizeof plain) == 0, says);
}

static void layouts(void)
{
    check(sizeof(struct eco32_answer) == 16 && offsetof(struct eco32_answer, slot) == 12, "the slot of a run comes last");
    check(sizeof(struct eco32_view) == 24 && offsetof(struct eco32_view, slot) == 4, "the slot of a view comes second");
    check(offsetof(struct eco32_view, offset) == 8 && offsetof(struct eco32_view, length) == 16, "and the rest where it was");
}

/* Every load and store, by every entry and directly. */
static void served(void)
{
    struct world w;
    uint32_t k;
    size_t i;

    for (i = 0; i < sizeof accesses / sizeof accesses[0]; i++) {
        for (k = 0; k < ENTRIES; k++) {
            load_access(&w, accesses[i], 0x00001000);
            map(&w, k, 0x00001000, 0x00001000 | WRITABLE);
            step_is(&w, ECO32_NO_EXCEPTION, k, "the entry of the page");
        }
        load_access(&w, accesses[i], 0xC0000FF8);
        step_is(&w, ECO32_NO_EXCEPTION, ECO32_DIRECT_MAPPED, "a direct-mapped address");
    }
    load_access(&w, LDW, 0xBFFFFFFC);
    map(&w, 31, 0xBFFFF000, 0x00000000 | WRITABLE);
    step_is(&w, ECO32_NO_EXCEPTION, 31, "the last address that is not direct-mapped");
    load_access(&w, LDW, 0x00001000);
    fetch_mapped(&w, 3);
    map(&w, 7, 0x00001000, 0x00001000 | WRITABLE);
    step_is(&w, ECO32_NO_EXCEPTION, 7, "the slot is that of the data, not of the fetch");
    put_word(w.machine + ECO32_RECORD_PSW, USER_MODE);
    step_is(&w, ECO32_NO_EXCEPTION, 7, "in User Mode too");
}

/* A completed store to ROM, which changes nothing there, to a belt register and to the timer. */
static void places(void)
{
    static const uint32_t physical[] = {0x20000000, 0x30500000, ECO32_TIMER_CONTROL};
    struct world w;
    size_t i;

    for (i = 0; i < sizeof physical / sizeof physical[0]; i++) {
        load_access(&w, STW, 0x00001000);
        map(&w, 12, 0x00001000, physical[i] | WRITABLE);
        step_is(&w, ECO32_NO_EXCEPTION, 12, "a store to ROM, belt or timer, through the TLB");
        load_access(&w, STW, 0xC0000000 + physical[i]);
        step_is(&w, ECO32_NO_EXCEPTION, ECO32_DIRECT_MAPPED, "a store to ROM, belt or timer, direct-mapped");
    }
}

/* Of two entries with one page the lower one counts, be it valid or not. */
static void doubled(void)
{
    struct world w;

    load_access(&w, LDW, 0x00001000);
    map(&w, 20, 0x00001000, 0x00001000 | WRITABLE);
    map(&w, 9, 0x00001000, 0x00000000 | WRITABLE);
    step_is(&w, ECO32_NO_EXCEPTION, 9, "the lower entry of a doubled page");
    check(page_view(&w, 0x00001).slot == 9, "and so in a page view");
    map(&w, 9, 0x00001000, 0x00000000);
    step_is(&w, 23, ECO32_NO_SLOT, "the lower entry of a doubled page, not valid");
}

/* A data access that faults has no slot, though an entry was found for some. */
static void faults(void)
{
    static const struct {
        uint32_t instruction, address, page, low, eid;
    } cases[] = {
        {LDW, 0xD0000000, 0x00001000, 0, 16},          {LDW, 0x00001000, 0x00001000, 0x10000001, 16},
        {LDW, 0x00001000, 0x00003000, 0x00001003, 21}, {STW, 0x00001000, 0x00001000, 0x00001001, 22},
        {LDW, 0x00001000, 0x00001000, 0x00001002, 23}, {LDW, 0x00001002, 0x00001000, 0x00001003, 24},
        {LDW, 0x80000000, 0x80000000, 0x00001003, 25}, {LDW, 0xC0000000, 0x00001000, 0, 25},
    };
    struct world w;
    size_t i;

    for (i = 0; i < sizeof cases / sizeof cases[0]; i++) {
        load_access(&w, cases[i].instruction, cases[i].address);
        map(&w, 5, cases[i].page, cases[i].low);
        fetch_mapped(&w, 3);
        if (cases[i].eid == 25)
            put_word(w.machine + ECO32_RECORD_PSW, USER_MODE);
        step_is(&w, cases[i].eid, ECO32_NO_SLOT, "an access that faults");
    }
}

/* Steps without a data access: ADDI, TRAP, an illegal and a privileged instruction, a division by zero; a fault of the fetch; an interrupt. */
static void no_access(void)
{
    static const uint32_t none[][2] = {
        {0x04020005, ECO32_NO_EXCEPTION}, {0xB8000000, 20}, {0x78000000, 17}, {0xBC000000, 18}, {0x20201000, 19}};
    struct world w;
    struct eco32_answer a;
    size_t i;

    for (i = 0; i < sizeof none / sizeof none[0]; i++) {
        load_access(&w, none[i][0], 0x00001000);
        fetch_mapped(&w, 3);
        put_word(w.machine + ECO32_RECORD_PSW, USER_MODE);
        step_is(&w, none[i][1], ECO32_NO_SLOT, "a step without a data access");
    }
    load_access(&w, LDW, 0xC0000000);
    put_word(w.machine + ECO32_RECORD_PC, 0x00002000);
    step_is(&w, 21, ECO32_NO_SLOT, "a fetch that faults");
    load_access(&w, LDW, 0xC0000000);
    put_word(w.machine + ECO32_RECORD_PSW, 0x00800001); /* I_C, and channel 0 */
    a = eco32_run_to_exception(w.machine, sizeof w.machine, w.ram, sizeof w.ram, w.rom, sizeof w.rom, w.belt, sizeof w.belt, 1, 1);
    check(a.steps == 1 && a.eid == 0 && a.slot == ECO32_NO_SLOT, "an interrupt in place of a load");
}

/* LDW R2, R1, 0, through entry 6; LDW R2, R4, 0, direct-mapped; ADDI R2, R0, 5; TRAP. */
static void load_row(struct world *w)
{
    load_access(w, LDW, 0x00001000);
    map(w, 6, 0x00001000, 0x00001000 | WRITABLE);
    put_word(w->machine + ECO32_RECORD_REGISTERS + 4 * 4, 0xC0000000);
    put_word(w->rom + 4, 0xC0820000);
    put_word(w->rom + 8, 0x04020005);
}

/* A run of several steps answers the slot of its last one, and a run of none has none. */
static void last_steps(void)
{
    static const uint32_t slots[] = {ECO32_NO_SLOT, 6, ECO32_DIRECT_MAPPED, ECO32_NO_SLOT, ECO32_NO_SLOT};
    struct world w;
    struct eco32_answer a;
    uint32_t n;

    for (n = 0; n <= 4; n++) {
        load_row(&w);
        a = run(&w, sizeof w.ram, n);
        check(a.refusal == ECO32_ACCEPTED && a.steps == n && a.slot == slots[n], "the last step of a plain run");
        load_row(&w);
        a = run_to_exception(&w, n);
        check(a.refusal == ECO32_ACCEPTED && a.steps == n && a.slot == slots[n], "the last step of a run to exception");
    }
    load_row(&w);
    a = run_to_exception(&w, ECO32_MOST_STEPS);
    check(a.steps == 4 && a.eid == 20 && a.slot == ECO32_NO_SLOT, "a run that an exception ends");
}

static int is_refused(struct eco32_answer a, uint32_t refusal)
{
    return a.refusal == refusal && a.steps == 0 && a.eid == ECO32_NO_EXCEPTION && a.slot == ECO32_NO_SLOT;
}

static void refused_runs(void)
{
    struct world w;

    load_row(&w);
    check(is_refused(run(&w, sizeof w.ram - 1, 1), ECO32_REFUSED_RAM_LENGTH), "a refused run");
    check(is_refused(run(&w, sizeof w.ram, ECO32_MOST_STEPS + 1), ECO32_REFUSED_STEPS), "a refused run");
    check(is_refused(run_to_exception(&w, ECO32_MOST_STEPS + 1), ECO32_REFUSED_STEPS), "a refused run to exception");
    w.machine[ECO32_RECORD_KIND_TLB] = 9;
    check(is_refused(run(&w, sizeof w.ram, 1), ECO32_REFUSED_KIND_BYTE), "a refused run");
    check(is_refused(run_to_exception(&w, 1), ECO32_REFUSED_KIND_BYTE), "a refused run to exception");
}

static int is_view(struct eco32_view v, uint32_t slot, uint64_t offset)
{
    return v.refusal == ECO32_ACCEPTED && v.slot == slot && v.offset == offset && v.length == ECO32_FRAME_LENGTH;
}

static int is_no_view(struct eco32_view v, uint32_t refusal)
{
    return v.refusal == refusal && v.slot == ECO32_NO_SLOT && v.offset == 0 && v.length == 0;
}

static void views(void)
{
    struct world w;
    uint32_t k;

    for (k = 0; k < ENTRIES; k++) {
        load_program(&w);
        map(&w, k, 0x00001000, 0x00001001);
        check(is_view(page_view(&w, 0x00001), k, 4096), "a view of a mapped page");
    }
    check(is_view(page_view(&w, 0xC0000), ECO32_DIRECT_MAPPED, 0), "a view of a direct-mapped page");
    check(is_view(eco32_page_view(w.ram, sizeof w.ram, w.machine, ECO32_OLD_RECORD_LENGTH, 0x00001), 31, 4096),
          "a view by a record of 414 bytes");
    check(is_no_view(page_view(&w, 0x00002), ECO32_REFUSED_PAGE), "a view of a page that is not mapped");
    check(is_no_view(page_view(&w, 0x100000), ECO32_REFUSED_PAGE), "a view of no page");
    check(is_no_view(page_view(&w, 0xE0000), ECO32_REFUSED_PAGE), "a view of ROM");
    map(&w, 31, 0x00001000, 0x00001000);
    check(is_no_view(page_view(&w, 0x00001), ECO32_REFUSED_PAGE), "a view of a page that is not valid");
    map(&w, 31, 0x00001000, 0x20000001);
    check(is_no_view(page_view(&w, 0x00001), ECO32_REFUSED_PAGE), "a view of a page that stands for ROM");
    check(is_no_view(eco32_page_view(w.ram, 1, w.machine, sizeof w.machine, 0xC0000), ECO32_REFUSED_RAM_LENGTH), "a refused view");
    w.machine[ECO32_RECORD_REPLACEMENT] = 0;
    check(is_no_view(page_view(&w, 0xC0000), ECO32_REFUSED_UNFIT_MACHINE), "a view by an unfit machine");
}

int main(void)
{
    layouts();
    served();
    places();
    doubled();
    faults();
    no_access();
    last_steps();
    refused_runs();
    views();
    return told("every slot is that of its access");
}
