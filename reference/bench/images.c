/* The programs of the workloads, instruction by instruction. */
#include "images.h"

#include "opcodes.h"
#include "plain.h"

#include <string.h>

/* A program in the making: its words go to RAM at `at`; branches count words, so places do too. */
struct code {
    uint8_t *ram;
    uint32_t at;
};

static void put(struct code *code, uint32_t word)
{
    uint8_t *at = code->ram + 4 * code->at++;

    at[0] = (uint8_t)(word >> 24);
    at[1] = (uint8_t)(word >> 16);
    at[2] = (uint8_t)(word >> 8);
    at[3] = (uint8_t)word;
}

/* Three registers: r takes the result of x and y. */
static void three(struct code *code, uint32_t opcode, uint32_t r, uint32_t x, uint32_t y)
{
    put(code, opcode << 26 | x << 21 | y << 16 | r << 11);
}

/* Two registers and an immediate: r takes the result of x, or is loaded from x + immediate or stored there. */
static void two(struct code *code, uint32_t opcode, uint32_t r, uint32_t x, uint32_t immediate)
{
    put(code, opcode << 26 | x << 21 | r << 16 | (immediate & 0xFFFF));
}

/* Branch on x and y to a place of the program. */
static void branch(struct code *code, uint32_t opcode, uint32_t x, uint32_t y, uint32_t place)
{
    two(code, opcode, y, x, place - (code->at + 1));
}

/* J or JAL over so many words from the next instruction. */
static void jump(struct code *code, uint32_t opcode, uint32_t offset)
{
    put(code, opcode << 26 | (offset & 0x03FFFFFF));
}

/* Registers of both programs: SUM mixes all that is loaded, DATA goes from FIRST to LAST. */
enum { A = 1, B, C, D, COUNT = 9, SUM, DATA, FIRST, LAST, RETURN = 31 };

static void turn(struct code *code)
{
    two(code, SLLI, A, SUM, 5); /* SUM turned left by 5 */
    two(code, SLRI, B, SUM, 27);
    three(code, OR, SUM, A, B);
    put(code, (uint32_t)JR << 26 | RETURN << 21);
}

void image_kernel(struct world *world)
{
    struct code code = {world->ram, 0x1000 / 4};
    struct plain_machine m;
    uint32_t subroutine = code.at;
    uint32_t loop;

    memset(world, 0, sizeof *world);
    turn(&code);
    loop = code.at;
    two(&code, LDW, A, DATA, 0);
    three(&code, ADD, SUM, SUM, A);
    two(&code, MULI, C, A, 31);
    three(&code, XOR, SUM, SUM, COUNT);
    jump(&code, JAL, subroutine - (code.at + 1));
    three(&code, SUB, C, SUM, C);
    two(&code, STW, C, DATA, 0);
    two(&code, LDHU, B, DATA, 2);
    two(&code, ANDI, D, B, 1);
    branch(&code, BEQ, D, 0, code.at + 3); /* past the next two in one half of all turns */
    two(&code, STB, SUM, DATA, 4);
    two(&code, XORI, SUM, SUM, 0x5A5A);
    two(&code, LDB, D, DATA, 1);
    branch(&code, BGE, D, 0, code.at + 2);
    three(&code, ADD, SUM, SUM, D);
    two(&code, ADDI, COUNT, COUNT, 1);
    two(&code, ADDI, DATA, DATA, 4);
    branch(&code, BNE, DATA, LAST, loop);
    three(&code, ADD, DATA, FIRST, 0);
    jump(&code, J, loop - (code.at + 1));

    plain_reset(&m);
    m.pc = 0xC0000000 + 4 * loop;
    m.r[SUM] = 0x12345678;
    m.r[DATA] = m.r[FIRST] = 0xC0004000;
    m.r[LAST] = 0xC0005000;
    plain_write(&m, world->record);
}

/* The pages follow one another; their frames go down from the last of RAM. Half of the code stands on a page of an
 * early entry and half on one of a late entry: a search from entry 0 up is as long for code as for data. */
#define PAGES 8
#define FIRST_PAGE 0x00010u
#define LAST_FRAME 0x0000Fu
#define FIRST_CODE_PAGE 1u
#define SECOND_CODE_PAGE 6u

static struct code on_page(struct world *world, uint32_t page)
{
    struct code code = {world->ram, (LAST_FRAME - page) << 10};

    return code;
}

/* Loads from four pages and stores to the four others. */
static void four_pages(struct code *code, uint32_t page)
{
    uint32_t last = page + 4;

    for (; page < last; page++) {
        two(code, LDW, A, DATA, page << 12);
        three(code, ADD, SUM, SUM, A);
        two(code, SLRI, B, SUM, 3);
        branch(code, BLT, SUM, 0, code->at + 2);
        two(code, XORI, SUM, SUM, 0x5A5A);
        three(code, XOR, SUM, SUM, B);
        two(code, STW, SUM, DATA, (PAGES - 1 - page) << 12);
    }
}

static void map_pages(struct plain_machine *m)
{
    uint32_t page;

    for (page = 0; page < PAGES; page++) {
        m->tlb[page].high = (FIRST_PAGE + page) << 12;
        m->tlb[page].low = (LAST_FRAME - page) << 12 | 3; /* valid and writable */
    }
}

/* The offset of a jump that stands next on one code page and goes to the start of the other. */
static uint32_t across(const struct code *code, uint32_t from, uint32_t to)
{
    uint32_t within = code->at - ((LAST_FRAME - from) << 10);

    return (to << 10) - ((from << 10) + within + 1);
}

void image_user(struct world *world)
{
    struct code code;
    struct plain_machine m;

    memset(world, 0, sizeof *world);
    code = on_page(world, FIRST_CODE_PAGE);
    four_pages(&code, 0);
    jump(&code, J, across(&code, FIRST_CODE_PAGE, SECOND_CODE_PAGE));

    code = on_page(world, SECOND_CODE_PAGE);
    four_pages(&code, 4);
    two(&code, ADDI, DATA, DATA, 4);
    branch(&code, BNE, DATA, LAST, code.at + 2);
    three(&code, ADD, DATA, FIRST, 0);
    jump(&code, J, across(&code, SECOND_CODE_PAGE, FIRST_CODE_PAGE));

    plain_reset(&m);
    m.pc = (FIRST_PAGE + FIRST_CODE_PAGE) << 12;
    m.special[PSW] = 0x04000000; /* User Mode */
    m.r[SUM] = 0x12345678;
    m.r[DATA] = m.r[FIRST] = (FIRST_PAGE << 12) + 0x800; /* code stands in the lower halves */
    m.r[LAST] = (FIRST_PAGE << 12) + 0x1000;
    map_pages(&m);
    plain_write(&m, world->record);
}

void start_timer(struct world *world)
{
    struct plain_machine m;

    plain_read(&m, world->record);
    m.timer.divisor = m.timer.counter = 1000;
    plain_write(&m, world->record);
}

/* A word of one register and a 16-bit number. */
#define WORD(opcode, r, z) ((uint32_t)(opcode) << 26 | (uint32_t)(r) << 16 | (z))

const struct kind kinds[KINDS] = {
    {"ADDI", WORD(ADDI, A, 1)},
    {"TRAP", WORD(TRAP, 0, 0)},
    {"RFX", WORD(RFX, 0, 0)},
    {"MVFS", WORD(MVFS, A, PSW)},
    {"MVTS", WORD(MVTS, A, BAD_ADDRESS)},
    {"TBS", WORD(TBS, 0, 0)},
    {"TBWR", WORD(TBWR, 0, 0)},
    {"TBRI", WORD(TBRI, 0, 0)},
    {"TBWI", WORD(TBWI, 0, 0)},
};

void image_kind(struct world *world, const struct kind *kind)
{
    struct code code = {world->ram, 1};
    struct plain_machine m;

    memset(world, 0, sizeof *world);
    while (code.at <= 100)
        put(&code, kind->word);
    jump(&code, J, 1 - (code.at + 1));

    plain_reset(&m);
    m.pc = m.r[30] = 0xC0000004;
    m.special[PSW] = 0x08140000; /* V is 1; the EID is that of a trap */
    plain_write(&m, world->record);
}
