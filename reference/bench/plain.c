/* The plain simulator: the step. Numbers of sections are those of the manual's chapters 2 and 3. */
#include "plain.h"

#include "opcodes.h"

enum eid {
    BUS_TIMEOUT = 16,
    ILLEGAL_INSTRUCTION,
    PRIVILEGED_INSTRUCTION,
    DIVISION_BY_ZERO,
    TRAP_INSTRUCTION,
    TLB_MISS,
    TLB_WRITE,
    TLB_INVALID,
    ILLEGAL_ADDRESS,
    PRIVILEGED_ADDRESS,
    NONE = ECO32_NO_EXCEPTION,
    ACCESSED,       /* no exception either: a load or store has completed */
    CONTROL_STORED, /* a store to the timer has */
    DIVISOR_STORED,
    ENTRY_DUE /* nor here: TBWR, which has still to write its entry */
};

#define PSW_V 0x08000000u
#define PSW_USER 0x04000000u
#define PSW_INTERRUPTS 0x00800000u

#define ENTRY_VALID 1u
#define ENTRY_WRITABLE 2u

#define PRIVILEGED_BASE 0x80000000u
#define DIRECT_BASE 0xC0000000u
#define ROM_BASE 0x20000000u
#define BELT_BASE 0x30500000u

/* An instruction word in parts, with the two registers that its format may name. */
struct fields {
    uint32_t word;
    uint32_t opcode;
    uint32_t second;    /* r of the immediate format, y of the other */
    uint32_t third;     /* r of the format with three registers */
    uint32_t immediate; /* zero-extended */
    uint32_t extended;  /* sign-extended */
    uint32_t x;
    uint32_t y;
};

static uint32_t extend16(uint32_t value)
{
    return (uint32_t)(int32_t)(int16_t)value;
}

static uint32_t extend8(uint32_t value)
{
    return (uint32_t)(int32_t)(int8_t)value;
}

static uint32_t extend26(uint32_t value)
{
    return (uint32_t)((int32_t)(value << 6) >> 6);
}

/* Like all below that make an instruction, it answers an EID, or NONE or what follows NONE. */
static uint32_t set(struct plain_machine *m, uint32_t number, uint32_t value)
{
    if (number != 0)
        m->r[number] = value;
    return NONE;
}

/* Both stacks of the PSW take a 0, from bit 26 and from bit 23 down (2.7.2, 2.7.3). */
static void enter(struct plain_machine *m, uint32_t return_address, uint32_t eid, uint32_t vector)
{
    uint32_t psw = m->special[PSW];

    m->r[30] = return_address;
    m->special[PSW] = (psw & ~0x07FF0000u) | (psw >> 1 & 0x03600000u) | eid << 16;
    m->pc = (psw & PSW_V ? 0xC0000000u : 0xE0000000u) + vector;
}

/* Both stacks lose their top; the old level stays (2.8.3). */
static uint32_t return_from_exception(struct plain_machine *m)
{
    uint32_t psw = m->special[PSW];

    m->special[PSW] = (psw & ~0x06C00000u) | (psw << 1 & 0x06C00000u);
    m->pc = m->r[30];
    return NONE;
}

/* The lowest index with the page number of an address, or 32. */
static uint32_t find(const struct plain_machine *m, uint32_t address)
{
    uint32_t page = address & 0xFFFFF000u;
    uint32_t index = 0;

    while (index < 32 && m->tlb[index].high != page)
        index++;
    return index;
}

static uint32_t address_fault(struct plain_machine *m, uint32_t address, uint32_t eid)
{
    m->special[BAD_ADDRESS] = address;
    if (eid <= TLB_INVALID)
        m->special[ENTRY_HIGH] = address & 0xFFFFF000u;
    return eid;
}

/* An entry's low word gives the physical address or the fault; so does that there is no entry. */
static uint32_t translate_mapped(struct plain_machine *m, uint32_t address, int store, uint32_t *physical)
{
    uint32_t index = find(m, address);
    uint32_t low;

    if (index == 32)
        return address_fault(m, address, TLB_MISS);
    low = m->tlb[index].low;
    if (!(low & ENTRY_VALID))
        return address_fault(m, address, TLB_INVALID);
    if (store && !(low & ENTRY_WRITABLE))
        return address_fault(m, address, TLB_WRITE);
    *physical = (low & 0xFFFFF000u) | (address & 0xFFFu);
    return NONE;
}

static uint32_t translate(struct plain_machine *m, uint32_t address, uint32_t size, int store, uint32_t *physical)
{
    if (address & (size - 1))
        return address_fault(m, address, ILLEGAL_ADDRESS);
    if (address >= PRIVILEGED_BASE && m->special[PSW] & PSW_USER)
        return address_fault(m, address, PRIVILEGED_ADDRESS);
    if (address < DIRECT_BASE)
        return translate_mapped(m, address, store, physical);
    *physical = address - DIRECT_BASE;
    return NONE;
}

static uint32_t from_bytes(const uint8_t *at, uint32_t size)
{
    if (size == 4)
        return (uint32_t)at[0] << 24 | (uint32_t)at[1] << 16 | (uint32_t)at[2] << 8 | at[3];
    if (size == 2)
        return (uint32_t)at[0] << 8 | at[1];
    return at[0];
}

static void to_bytes(uint8_t *at, uint32_t size, uint32_t value)
{
    if (size == 4) {
        at[0] = (uint8_t)(value >> 24);
        at[1] = (uint8_t)(value >> 16);
        at[2] = (uint8_t)(value >> 8);
        at[3] = (uint8_t)value;
    } else if (size == 2) {
        at[0] = (uint8_t)(value >> 8);
        at[1] = (uint8_t)value;
    } else {
        at[0] = (uint8_t)value;
    }
}

/* An access is aligned and every length a multiple of 4, so the first byte tells where all of it lies. */
static uint32_t load(struct plain_machine *m, const struct plain_memory *memory, uint32_t address, uint32_t size,
                     uint32_t *value)
{
    uint32_t at;
    uint32_t eid = translate(m, address, size, 0, &at);

    if (eid != NONE)
        return eid;
    if (at < memory->ram_length)
        *value = from_bytes(memory->ram + at, size);
    else if (at - ROM_BASE < memory->rom_length)
        *value = from_bytes(memory->rom + (at - ROM_BASE), size);
    else if (at - BELT_BASE < ECO32_BELT_LENGTH && size == 4)
        *value = from_bytes(memory->belt + (at - BELT_BASE), size);
    else if (timer_answers(at) && size == 4)
        *value = timer_load(&m->timer, at);
    else
        return BUS_TIMEOUT;
    return NONE;
}

static uint32_t store_timer(struct plain_machine *m, uint32_t at, uint32_t value)
{
    timer_store(&m->timer, at, value);
    return at == TIMER_CONTROL ? CONTROL_STORED : DIVISOR_STORED;
}

/* A store to ROM completes and changes nothing. */
static uint32_t store(struct plain_machine *m, const struct plain_memory *memory, uint32_t address, uint32_t size,
                      uint32_t value)
{
    uint32_t at;
    uint32_t eid = translate(m, address, size, 1, &at);

    if (eid != NONE)
        return eid;
    if (at < memory->ram_length)
        to_bytes(memory->ram + at, size, value);
    else if (at - BELT_BASE < ECO32_BELT_LENGTH && size == 4)
        to_bytes(memory->belt + (at - BELT_BASE), size, value);
    else if (timer_answers(at) && size == 4)
        return store_timer(m, at, value);
    else if (at - ROM_BASE >= memory->rom_length)
        return BUS_TIMEOUT;
    return ACCESSED;
}

/* 80000000 by FFFFFFFF would overflow; its quotient is 80000000. */
static uint32_t divide(struct plain_machine *m, uint32_t number, uint32_t x, uint32_t y)
{
    if (y == 0)
        return DIVISION_BY_ZERO;
    if (y == 0xFFFFFFFFu)
        return set(m, number, 0 - x);
    return set(m, number, (uint32_t)((int32_t)x / (int32_t)y));
}

static uint32_t divide_unsigned(struct plain_machine *m, uint32_t number, uint32_t x, uint32_t y)
{
    return y == 0 ? DIVISION_BY_ZERO : set(m, number, x / y);
}

static uint32_t remainder_signed(struct plain_machine *m, uint32_t number, uint32_t x, uint32_t y)
{
    if (y == 0)
        return DIVISION_BY_ZERO;
    if (y == 0xFFFFFFFFu)
        return set(m, number, 0);
    return set(m, number, (uint32_t)((int32_t)x % (int32_t)y));
}

static uint32_t remainder_unsigned(struct plain_machine *m, uint32_t number, uint32_t x, uint32_t y)
{
    return y == 0 ? DIVISION_BY_ZERO : set(m, number, x % y);
}

static uint32_t shift_arithmetic(uint32_t x, uint32_t count)
{
    return (uint32_t)((int32_t)x >> (count & 31));
}

/* Computation (3.3). The low 32 bits of a signed and of an unsigned product are the same. */
static uint32_t compute(struct plain_machine *m, const struct fields *f)
{
    uint32_t x = f->x;
    uint32_t y = f->y;

    switch (f->opcode) {
    case ADD: return set(m, f->third, x + y);
    case ADDI: return set(m, f->second, x + f->extended);
    case SUB: return set(m, f->third, x - y);
    case SUBI: return set(m, f->second, x - f->extended);
    case MUL:
    case MULU: return set(m, f->third, x * y);
    case MULI: return set(m, f->second, x * f->extended);
    case MULUI: return set(m, f->second, x * f->immediate);
    case DIV: return divide(m, f->third, x, y);
    case DIVI: return divide(m, f->second, x, f->extended);
    case DIVU: return divide_unsigned(m, f->third, x, y);
    case DIVUI: return divide_unsigned(m, f->second, x, f->immediate);
    case REM: return remainder_signed(m, f->third, x, y);
    case REMI: return remainder_signed(m, f->second, x, f->extended);
    case REMU: return remainder_unsigned(m, f->third, x, y);
    case REMUI: return remainder_unsigned(m, f->second, x, f->immediate);
    case AND: return set(m, f->third, x & y);
    case ANDI: return set(m, f->second, x & f->immediate);
    case OR: return set(m, f->third, x | y);
    case ORI: return set(m, f->second, x | f->immediate);
    case XOR: return set(m, f->third, x ^ y);
    case XORI: return set(m, f->second, x ^ f->immediate);
    case XNOR: return set(m, f->third, ~(x ^ y));
    case XNORI: return set(m, f->second, ~(x ^ f->immediate));
    case SLL: return set(m, f->third, x << (y & 31));
    case SLLI: return set(m, f->second, x << (f->immediate & 31));
    case SLR: return set(m, f->third, x >> (y & 31));
    case SLRI: return set(m, f->second, x >> (f->immediate & 31));
    case SAR: return set(m, f->third, shift_arithmetic(x, y));
    case SARI: return set(m, f->second, shift_arithmetic(x, f->immediate));
    case LDHI: return set(m, f->second, f->immediate << 16);
    default: return ILLEGAL_INSTRUCTION;
    }
}

/* Offsets count words from the next instruction, which the PC already names. */
static uint32_t branch(struct plain_machine *m, int taken, uint32_t offset)
{
    if (taken)
        m->pc += offset << 2;
    return NONE;
}

static uint32_t jump(struct plain_machine *m, uint32_t target)
{
    m->pc = target;
    return NONE;
}

/* Control flow (3.4). */
static uint32_t control(struct plain_machine *m, const struct fields *f)
{
    uint32_t x = f->x;
    uint32_t y = f->y;
    int32_t xs = (int32_t)x;
    int32_t ys = (int32_t)y;

    switch (f->opcode) {
    case BEQ: return branch(m, x == y, f->extended);
    case BNE: return branch(m, x != y, f->extended);
    case BLE: return branch(m, xs <= ys, f->extended);
    case BLEU: return branch(m, x <= y, f->extended);
    case BLT: return branch(m, xs < ys, f->extended);
    case BLTU: return branch(m, x < y, f->extended);
    case BGE: return branch(m, xs >= ys, f->extended);
    case BGEU: return branch(m, x >= y, f->extended);
    case BGT: return branch(m, xs > ys, f->extended);
    case BGTU: return branch(m, x > y, f->extended);
    case J: return branch(m, 1, extend26(f->word));
    case JR: return jump(m, x);
    case JAL:
        m->r[31] = m->pc;
        return branch(m, 1, extend26(f->word));
    case JALR: /* x is R31 as it was, if it is R31 */
        m->r[31] = m->pc;
        return jump(m, x);
    case TRAP: return TRAP_INSTRUCTION;
    default: return ILLEGAL_INSTRUCTION;
    }
}

/* Load and store (3.5). */
static uint32_t transfer(struct plain_machine *m, const struct plain_memory *memory, const struct fields *f)
{
    uint32_t address = f->x + f->extended;
    uint32_t value = 0;
    uint32_t eid;

    m->accessed = address;
    switch (f->opcode) {
    case LDW: eid = load(m, memory, address, 4, &value); break;
    case LDH:
        eid = load(m, memory, address, 2, &value);
        value = extend16(value);
        break;
    case LDHU: eid = load(m, memory, address, 2, &value); break;
    case LDB:
        eid = load(m, memory, address, 1, &value);
        value = extend8(value);
        break;
    case LDBU: eid = load(m, memory, address, 1, &value); break;
    case STW: return store(m, memory, address, 4, f->y);
    case STH: return store(m, memory, address, 2, f->y);
    case STB: return store(m, memory, address, 1, f->y);
    default: return ILLEGAL_INSTRUCTION;
    }
    if (eid != NONE)
        return eid;
    set(m, f->second, value);
    return ACCESSED;
}

/* Bits that each special register keeps; numbers above 4 store nothing. */
static uint32_t set_special(struct plain_machine *m, uint32_t number, uint32_t value)
{
    static const uint32_t kept[SPECIALS] = {0x0FFFFFFF, 0x8000001F, 0xFFFFF000, 0xFFFFF003, 0xFFFFFFFF};

    if (number < SPECIALS)
        m->special[number] = value & kept[number];
    return NONE;
}

static uint32_t write_entry(struct plain_machine *m, uint32_t index)
{
    m->tlb[index].high = m->special[ENTRY_HIGH];
    m->tlb[index].low = m->special[ENTRY_LOW];
    return NONE;
}

static uint32_t read_entry(struct plain_machine *m, uint32_t index)
{
    m->special[ENTRY_HIGH] = m->tlb[index].high;
    m->special[ENTRY_LOW] = m->tlb[index].low;
    return NONE;
}

static uint32_t search(struct plain_machine *m)
{
    uint32_t index = find(m, m->special[ENTRY_HIGH]);

    m->special[TLB_INDEX] = index < 32 ? index : 0x80000000u;
    return NONE;
}

/* The privileged instructions (3.6); TRAP is with control flow. */
static uint32_t privileged(struct plain_machine *m, const struct fields *f)
{
    if (f->opcode > TBWI)
        return ILLEGAL_INSTRUCTION;
    if (m->special[PSW] & PSW_USER)
        return PRIVILEGED_INSTRUCTION;
    switch (f->opcode) {
    case RFX: return return_from_exception(m);
    case MVFS: return set(m, f->second, f->immediate < SPECIALS ? m->special[f->immediate] : 0);
    case MVTS: return set_special(m, f->immediate, f->y);
    case TBS: return search(m);
    case TBWR: return ENTRY_DUE;
    case TBRI: return read_entry(m, m->special[TLB_INDEX] & 31);
    default: return write_entry(m, m->special[TLB_INDEX] & 31); /* TBWI */
    }
}

/* Fetches and makes one instruction. A fault leaves all but the PC, Bad Address and Entry High as it was. */
static uint32_t execute(struct plain_machine *m, const struct plain_memory *memory)
{
    struct fields f;
    uint32_t eid = load(m, memory, m->pc, 4, &f.word);

    if (eid != NONE)
        return eid;
    m->pc += 4;
    f.opcode = f.word >> 26;
    f.second = f.word >> 16 & 31;
    f.third = f.word >> 11 & 31;
    f.immediate = f.word & 0xFFFF;
    f.extended = extend16(f.immediate);
    f.x = m->r[f.word >> 21 & 31];
    f.y = m->r[f.second];
    if (f.opcode <= LDHI)
        return compute(m, &f);
    if (f.opcode <= TRAP)
        return control(m, &f);
    if (f.opcode >= LDW && f.opcode <= STB)
        return transfer(m, memory, &f);
    return privileged(m, &f);
}

static uint32_t lowest_bit(uint32_t bits)
{
    uint32_t n = 0;

    while (!(bits >> n & 1))
        n++;
    return n;
}

/* A step without its tick, its move of the replacement index, and the entry of TBWR. Aligned to a line of the
 * cache: elsewhere it may be up to a sixth slower, depending on what is linked before it. */
__attribute__((aligned(64)))
static uint32_t step(struct plain_machine *m, const struct plain_memory *memory, uint16_t lines)
{
    uint32_t ready = m->special[PSW] & lines;
    uint32_t pc = m->pc;
    uint32_t eid;

    if (ready && m->special[PSW] & PSW_INTERRUPTS) {
        eid = lowest_bit(ready);
        enter(m, pc, eid, 4);
        return eid;
    }
    eid = execute(m, memory);
    if (eid < NONE)
        enter(m, pc, eid, eid == TLB_MISS && m->special[BAD_ADDRESS] < PRIVILEGED_BASE ? 8 : 4);
    return eid;
}

/* The replacement index after so many steps: up by 1 with each, 31 to 4 (document 02, job 4). */
static uint32_t moved(uint32_t index, uint64_t steps)
{
    return 4 + (uint32_t)((index - 4 + steps) % 28);
}

/* What so many steps leave for their end: the moves of the index, the ticks, and the entry of a TBWR, which goes where the
 * index was before its last move. TBWR alone asks for the index, so it ends a stretch. Moving it in every step would cost
 * 3 to 4 % a step; letting TBWR count within a stretch, 1 to 2 %. A new divisor has taken the counter, so it only gets the
 * tick of its own step. */
static void settle(struct plain_machine *m, uint64_t made, uint32_t eid)
{
    m->replacement = moved(m->replacement, made);
    timer_ticks(&m->timer, eid == DIVISOR_STORED ? 1 : made);
    if (eid == ENTRY_DUE)
        write_entry(m, m->replacement > 4 ? m->replacement - 1 : 31);
}

/* The slot of a step's data access, if it has completed one (document 02, job 2). The entries are still those of the access,
 * so a run looks for it once, after its last step. */
static uint32_t slot(const struct plain_machine *m, uint32_t eid)
{
    if (eid < ACCESSED || eid > DIVISOR_STORED)
        return ECO32_NO_SLOT;
    return m->accessed < DIRECT_BASE ? find(m, m->accessed) : ECO32_DIRECT_MAPPED;
}

struct plain_answer plain_step(struct plain_machine *m, const struct plain_memory *memory, uint16_t lines)
{
    uint32_t eid = step(m, memory, timer_lines(&m->timer, lines));
    struct plain_answer answer = {eid < NONE ? eid : NONE, slot(m, eid)};

    settle(m, 1, eid);
    return answer;
}

/* Steps up to the timer's next wrap, to a store to the timer, to TBWR or to the most wanted, and what they leave. The last
 * one's EID, or what stands for it, goes to `last`. */
static uint64_t stretch(struct plain_machine *m, const struct plain_memory *memory, uint16_t lines, uint64_t most,
                        uint32_t *last)
{
    uint64_t to_wrap = timer_to_wrap(&m->timer);
    uint64_t made = 0;
    uint32_t eid;

    lines = timer_lines(&m->timer, lines);
    if (most > to_wrap)
        most = to_wrap;
    do {
        eid = step(m, memory, lines);
        made++;
    } while (made < most && eid <= ACCESSED);
    settle(m, made, eid);
    *last = eid;
    return made;
}

struct eco32_answer plain_run(uint8_t *machine, size_t machine_len, uint8_t *ram, size_t ram_len, const uint8_t *rom,
                              size_t rom_len, uint8_t *belt, size_t belt_len, uint64_t wanted, uint16_t lines)
{
    struct plain_memory memory = {ram, ram_len, rom, rom_len, belt};
    struct eco32_answer answer = {ECO32_ACCEPTED, (uint32_t)wanted, ECO32_NO_EXCEPTION, ECO32_NO_SLOT};
    struct plain_machine m;
    uint64_t made = 0;
    uint32_t last = NONE;

    (void)machine_len; /* 424 and 1,024, as the caller has to see to */
    (void)belt_len;
    plain_read(&m, machine);
    while (made < wanted)
        made += stretch(&m, &memory, lines, wanted - made, &last);
    answer.slot = slot(&m, last);
    plain_write(&m, machine);
    return answer;
}

/* The opcode of the word that a step would fetch. It is looked up before the step, which may store over the word, and
 * not told by it: a run without charges would be the slower. A step that cannot fetch tells the fault itself, so what
 * the lookup leaves of the fault is taken back. */
static uint32_t next_opcode(struct plain_machine *m, const struct plain_memory *memory)
{
    uint32_t high = m->special[ENTRY_HIGH];
    uint32_t bad = m->special[BAD_ADDRESS];
    uint32_t word = 0;

    load(m, memory, m->pc, 4, &word);
    m->special[ENTRY_HIGH] = high;
    m->special[BAD_ADDRESS] = bad;
    return word >> 26;
}

/* A completed instruction costs its opcode's charge, a step that accepts an exception entry 64 (document 02, job 3). */
static uint32_t charge(const uint8_t *charges, uint32_t opcode, uint32_t eid)
{
    return from_bytes(charges + 2 * (eid < NONE ? 64 : opcode), 2);
}

struct eco32_charged plain_run_charged(uint8_t *machine, size_t machine_len, uint8_t *ram, size_t ram_len,
                                       const uint8_t *rom, size_t rom_len, uint8_t *belt, size_t belt_len,
                                       const uint8_t *charges, size_t charges_len, uint64_t wanted, uint16_t lines)
{
    struct plain_memory memory = {ram, ram_len, rom, rom_len, belt};
    struct eco32_charged answer = {ECO32_ACCEPTED, (uint32_t)wanted, ECO32_NO_EXCEPTION, ECO32_NO_SLOT, 0};
    struct plain_machine m;
    uint64_t made;

    (void)machine_len; /* 424, 1,024 and 130, as the caller has to see to */
    (void)belt_len;
    (void)charges_len;
    plain_read(&m, machine);
    for (made = 0; made < wanted; made++) {
        uint32_t opcode = next_opcode(&m, &memory);
        struct plain_answer last = plain_step(&m, &memory, lines);

        answer.charge += charge(charges, opcode, last.eid);
        answer.slot = last.slot;
    }
    plain_write(&m, machine);
    return answer;
}
