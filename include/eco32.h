/*
 * eco32.h - a model of the ECO32 processor, to be linked from libeco32.a or
 * libeco32.so.
 *
 * One machine is one ECO32 processor with a timer, RAM, ROM and 256 belt
 * registers. The library keeps nothing between calls: processor and timer
 * travel as a machine record of 424 bytes, and the memory is yours.
 *
 * Memory. You own every buffer. A call uses the buffers it is handed until it
 * returns, and keeps no pointer to them. It reads and writes no byte outside
 * the lengths you give. The buffers of one call must not overlap, and nobody
 * else may write them during the call. No pointer may be null, not even with
 * the length 0. Different threads may make calls at the same time on different
 * buffers.
 *
 * Refusals. Every call answers a refusal number: ECO32_ACCEPTED (0), or the
 * number of the first cause below, in their order, among those that concern
 * what the call takes. A refused call leaves every byte of every buffer as it
 * was, the machine's too. A program that faults is no cause for a refusal: the
 * fault is an event of the modelled processor.
 *
 * Timer. It ticks once after every step, a step that accepts an exception too.
 * With divisor 0 nothing moves. Otherwise a counter at 0 or 1 takes the divisor
 * and sets the wrap flag, and any other counter goes down by 1. Control has two
 * bits: interrupt enable (bit 1) and the wrap flag (bit 0). While both are set,
 * channel 14 is ready, whatever your line 14 is. A step looks at its interrupts
 * before its own tick. Programs load and store control and divisor, as whole
 * words, at the addresses below; a store to the divisor loads the counter too.
 *
 * Replacement index. It goes up by 1 after every step, a step that accepts an
 * exception too, and from 31 to 4. TBWR writes the TLB entry that the index
 * named before that step, and does not move the index itself.
 *
 * Slots. A slot says which TLB entry served an access: the entry's number, 0 to
 * 31, or ECO32_DIRECT_MAPPED (32) for an address from C0000000 up, which needs
 * none. A run answers the slot of its last step's load or store. Where that step
 * completed none, or no step was made, it is ECO32_NO_SLOT (33). A page view
 * answers the slot of its lookup.
 *
 * Charges. A charged run is a run that also answers what its steps cost, by a
 * list of charges that you lend. A step that completes its instruction costs
 * the charge of the instruction's opcode, the upper six bits of its word. A step
 * that accepts an exception, be it an interrupt, a fault or a trap, costs the
 * last charge of the list and nothing else. All else comes out as without
 * charges.
 *
 * Words in records, ROM and RAM images and belt registers are big-endian.
 *
 * eco32_text.h has words for refusal numbers and EIDs.
 */
#ifndef ECO32_H
#define ECO32_H

#include <stddef.h>
#include <stdint.h>

#ifdef __cplusplus
extern "C" {
#endif

/* The version of library and host. All else that names it is made from these
 * lines or compared with them. A program that was written for one version may
 * need changes for a later one if the major number is another, or, as long as
 * that is 0, the minor number. */
#define ECO32_VERSION_MAJOR 0
#define ECO32_VERSION_MINOR 6
#define ECO32_VERSION_PATCH 0
#define ECO32_VERSION "0.6.0"

/* The number N in libeco32.so.N, the name of the shared library. It goes up with
 * the first version in which a program that was linked before would no longer
 * run right: a struct has another layout, a record another length or other
 * places, a call other parameters, or one is gone. It also goes up with the
 * major number. */
#define ECO32_ABI 3

/* Length of a machine record. Its items, in this order, each behind its kind
 * byte: 01, registers 0 to 31 (128 bytes); 02, PC (4); 03, PSW, TLB Index,
 * Entry High, Entry Low, Bad Address (20); 04, 32 TLB entries of high word and
 * low word (256); 05, the replacement index (1); 06, the timer: divisor,
 * counter, control (9). */
#define ECO32_RECORD_LENGTH 424

/* Length of a record of a version before 0.3: the first five items alone. Where
 * a call only reads a machine or record, it takes one of this length too, with
 * the timer at zero. What it writes has ECO32_RECORD_LENGTH bytes. */
#define ECO32_OLD_RECORD_LENGTH 414

/* Where these stand in a record. All are words but the replacement index and
 * the timer's control. */
#define ECO32_RECORD_REGISTERS 1       /* register i stands 4 * i further */
#define ECO32_RECORD_PC 130
#define ECO32_RECORD_PSW 135
#define ECO32_RECORD_TLB_INDEX 139
#define ECO32_RECORD_ENTRY_HIGH 143
#define ECO32_RECORD_ENTRY_LOW 147
#define ECO32_RECORD_BAD_ADDRESS 151
#define ECO32_RECORD_TLB 156           /* entry i stands 8 * i further: high word, low word */
#define ECO32_RECORD_REPLACEMENT 413   /* one byte */
#define ECO32_RECORD_TIMER_DIVISOR 415
#define ECO32_RECORD_TIMER_COUNTER 419
#define ECO32_RECORD_TIMER_CONTROL 423 /* one byte, 0 to 3 */

/* Where the kind bytes 01 to 06 stand. */
#define ECO32_RECORD_KIND_REGISTERS 0
#define ECO32_RECORD_KIND_PC 129
#define ECO32_RECORD_KIND_SPECIAL 134
#define ECO32_RECORD_KIND_TLB 155
#define ECO32_RECORD_KIND_REPLACEMENT 412
#define ECO32_RECORD_KIND_TIMER 414

/* RAM and ROM lengths are multiples of 4,096 within these bounds. RAM stands at
 * physical 00000000, ROM at 20000000. */
#define ECO32_FRAME_LENGTH 4096
#define ECO32_RAM_LEAST 4096
#define ECO32_RAM_MOST 536870912
#define ECO32_ROM_LEAST 4096
#define ECO32_ROM_MOST 268435456

/* The belt registers: 256 words at physical 30500000. */
#define ECO32_BELT_LENGTH 1024

/* The timer's registers, by physical address: words, which programs load, store
 * and fetch. A store to control keeps bits 1 and 0. A narrower access times out
 * (16), and so does every word from 30000008 to 300FFFFF. The counter has no
 * address. */
#define ECO32_TIMER_CONTROL 0x30000000
#define ECO32_TIMER_DIVISOR 0x30000004

/* Length of a list of charges: 65 numbers of 16 bits, big-endian. Entry i stands
 * at byte 2 * i. Entries 0 to 63 are the charges of the opcodes, entry 64 is that
 * of an accepted exception. */
#define ECO32_CHARGES_LENGTH 130

/* Most steps that one run may be asked for. */
#define ECO32_MOST_STEPS 1000000

/* Answered in place of an exception's EID (0 to 25) where there was none. */
#define ECO32_NO_EXCEPTION 32

/* Answered in place of the number of a TLB entry (0 to 31). */
#define ECO32_DIRECT_MAPPED 32 /* the address was from C0000000 up */
#define ECO32_NO_SLOT 33       /* no data access, a faulted one, no step, or refused */

/* Refusal numbers, in the order in which they are tested. */
#define ECO32_ACCEPTED 0               /* not refused */
#define ECO32_REFUSED_RAM_LENGTH 1     /* RAM length: no multiple of 4,096 in 4,096 .. 536,870,912 */
#define ECO32_REFUSED_ROM_LENGTH 2     /* ROM length: no multiple of 4,096 in 4,096 .. 268,435,456 */
#define ECO32_REFUSED_BELT_LENGTH 3    /* belt length not 1,024 */
#define ECO32_REFUSED_RECORD_LENGTH 4  /* machine or record: only read and neither 414 nor 424 bytes, or
                                          written and not 424 */
#define ECO32_REFUSED_KIND_BYTE 5      /* a kind byte of the record is not in its place */
#define ECO32_REFUSED_UNFIT_MACHINE 6  /* register 0 not 0, replacement index outside 4 .. 31, timer's
                                          control above 3, or a bit set that is never kept */
#define ECO32_REFUSED_STEPS 7          /* more than 1,000,000 steps wanted */
#define ECO32_REFUSED_PAGE 8           /* page view: no RAM frame behind that page */
#define ECO32_REFUSED_CHARGES_LENGTH 9 /* charged run: length of the list of charges not 130 */

/* Answer of a run. */
struct eco32_answer {
    uint32_t refusal; /* 0, or the refusal number; then steps is 0, eid 32 and slot 33 */
    uint32_t steps;   /* steps made */
    uint32_t eid;     /* run to exception: EID of the exception that ended it, or 32; plain run: 32 */
    uint32_t slot;    /* of the last step's completed load or store: 0 to 31, or 32; else 33 */
};

/* Answer of a charged run: that of the run, and the charge. */
struct eco32_charged {
    uint32_t refusal; /* 0, or the refusal number; then steps is 0, eid 32, slot 33 and charge 0 */
    uint32_t steps;   /* as in eco32_answer */
    uint32_t eid;
    uint32_t slot;
    uint64_t charge;  /* the exact sum over the steps made: at most their number times the largest charge */
};

/* Answer of a page view. */
struct eco32_view {
    uint32_t refusal; /* 0, or the refusal number; then slot is 33, offset and length are 0 */
    uint32_t slot;    /* that served the lookup: 0 to 31, or 32 for a page from C0000 up */
    uint64_t offset;  /* where the frame begins in the RAM you lent */
    uint64_t length;  /* 4,096 */
};

#if defined(__cplusplus) && __cplusplus >= 201103L
#define ECO32_ASSERT(holds, says) static_assert(holds, says)
#elif !defined(__cplusplus) && defined(__STDC_VERSION__) && __STDC_VERSION__ >= 201112L
#define ECO32_ASSERT(holds, says) _Static_assert(holds, says)
#endif

#ifdef ECO32_ASSERT
ECO32_ASSERT(sizeof(struct eco32_answer) == 16, "eco32_answer has 16 bytes");
ECO32_ASSERT(offsetof(struct eco32_answer, refusal) == 0, "eco32_answer.refusal");
ECO32_ASSERT(offsetof(struct eco32_answer, steps) == 4, "eco32_answer.steps");
ECO32_ASSERT(offsetof(struct eco32_answer, eid) == 8, "eco32_answer.eid");
ECO32_ASSERT(offsetof(struct eco32_answer, slot) == 12, "eco32_answer.slot");
ECO32_ASSERT(sizeof(struct eco32_charged) == 24, "eco32_charged has 24 bytes");
ECO32_ASSERT(offsetof(struct eco32_charged, refusal) == 0, "eco32_charged.refusal");
ECO32_ASSERT(offsetof(struct eco32_charged, steps) == 4, "eco32_charged.steps");
ECO32_ASSERT(offsetof(struct eco32_charged, eid) == 8, "eco32_charged.eid");
ECO32_ASSERT(offsetof(struct eco32_charged, slot) == 12, "eco32_charged.slot");
ECO32_ASSERT(offsetof(struct eco32_charged, charge) == 16, "eco32_charged.charge");
ECO32_ASSERT(sizeof(struct eco32_view) == 24, "eco32_view has 24 bytes");
ECO32_ASSERT(offsetof(struct eco32_view, refusal) == 0, "eco32_view.refusal");
ECO32_ASSERT(offsetof(struct eco32_view, slot) == 4, "eco32_view.slot");
ECO32_ASSERT(offsetof(struct eco32_view, offset) == 8, "eco32_view.offset");
ECO32_ASSERT(offsetof(struct eco32_view, length) == 16, "eco32_view.length");
#undef ECO32_ASSERT
#endif

/*
 * Writes the machine at reset to machine: PC E0000000, PSW and all registers
 * 0, TLB high words C0000000 and low words 0, replacement index 4, timer 0.
 *
 *   machine  buffer of 424 bytes; its contents do not matter
 *
 * Answers 0 or 4.
 */
uint32_t eco32_reset(uint8_t *machine, size_t machine_len);

/*
 * Reads a record, say from a file, to machine, which then holds the same 424
 * bytes. Of a record of 414 bytes it holds these, and the timer at zero.
 *
 *   record   the record, 424 or 414 bytes; never written
 *   machine  buffer of 424 bytes; its contents do not matter
 *
 * Answers 0, 4 (for either length), 5 or 6.
 */
uint32_t eco32_read_record(const uint8_t *record, size_t record_len,
                           uint8_t *machine, size_t machine_len);

/*
 * Writes a machine to record, which then holds the same 424 bytes. Of a machine
 * of 414 bytes it holds these, and the timer at zero.
 *
 *   machine  the machine, 424 or 414 bytes; never written
 *   record   buffer of 424 bytes; its contents do not matter
 *
 * Answers 0, 4 (for either length), 5 or 6.
 */
uint32_t eco32_write_record(const uint8_t *machine, size_t machine_len,
                            uint8_t *record, size_t record_len);

/*
 * Plain run: makes exactly the wanted steps, through exceptions and
 * interrupts too. A step accepts an interrupt or executes one instruction; then
 * the replacement index moves, and the timer ticks.
 *
 *   machine  the machine, 424 bytes; written with the state after the run
 *   ram      RAM; written by the program's stores
 *   rom      ROM; never written, a program's store to it changes nothing
 *   belt     belt registers, 1,024 bytes; written by the program's stores
 *   wanted   steps, at most 1,000,000; 0 is accepted and changes nothing
 *   lines    interrupt lines, bit i for channel i, held for the whole run;
 *            channel 14 is ready by your line or by the timer
 *
 * Answers a refusal 0 to 7, the steps made, EID 32, and the slot of the last
 * step's load or store, if it completed one, else 33. A store to ROM, to a belt
 * register or to the timer has its slot too.
 */
struct eco32_answer eco32_run(uint8_t *machine, size_t machine_len,
                              uint8_t *ram, size_t ram_len,
                              const uint8_t *rom, size_t rom_len,
                              uint8_t *belt, size_t belt_len,
                              uint64_t wanted, uint16_t lines);

/*
 * Run to exception: the same, but ends after the first step that accepts an
 * exception (an interrupt, a fault or a trap). The machine then stands at the
 * first instruction of the service routine.
 *
 * Answers a refusal 0 to 7, the steps made (with the one that accepted the
 * exception), that exception's EID, or 32 if all wanted steps were made without
 * one, and the slot as above: a step that accepts an exception has none.
 */
struct eco32_answer eco32_run_to_exception(uint8_t *machine, size_t machine_len,
                                           uint8_t *ram, size_t ram_len,
                                           const uint8_t *rom, size_t rom_len,
                                           uint8_t *belt, size_t belt_len,
                                           uint64_t wanted, uint16_t lines);

/*
 * Plain run with charges: eco32_run, and what its steps cost.
 *
 *   charges  the list of charges, 130 bytes; never written
 *
 * Answers a refusal 0 to 7 or 9, steps, EID and slot as eco32_run does, and the
 * charge. It is at most 65,535,000,000. No steps, and a refused run, cost 0.
 * Machine, RAM and belt come out as from eco32_run, unless 9 refuses it.
 */
struct eco32_charged eco32_run_charged(uint8_t *machine, size_t machine_len,
                                       uint8_t *ram, size_t ram_len,
                                       const uint8_t *rom, size_t rom_len,
                                       uint8_t *belt, size_t belt_len,
                                       const uint8_t *charges, size_t charges_len,
                                       uint64_t wanted, uint16_t lines);

/*
 * Run to exception with charges: eco32_run_to_exception, and what its steps
 * cost. The step that accepted the exception is among them, with entry 64.
 *
 * Answers a refusal 0 to 7 or 9, steps, EID and slot as eco32_run_to_exception
 * does, and the charge, as above.
 */
struct eco32_charged eco32_run_to_exception_charged(uint8_t *machine, size_t machine_len,
                                                    uint8_t *ram, size_t ram_len,
                                                    const uint8_t *rom, size_t rom_len,
                                                    uint8_t *belt, size_t belt_len,
                                                    const uint8_t *charges, size_t charges_len,
                                                    uint64_t wanted, uint16_t lines);

/*
 * Page view: finds the part of your RAM that a virtual page stands for. The
 * page is looked up as a Kernel Mode load of its first byte. Nothing is
 * written.
 *
 *   ram      RAM; only its length is used
 *   machine  the machine, 424 or 414 bytes, for its TLB
 *   page     virtual page number, 0 to FFFFF
 *
 * Answers 0 with the slot that served the lookup, the offset in RAM and the
 * length 4,096; or 1, 4, 5, 6 or 8 with slot 33, and offset and length 0.
 * Refusal 8: the page number exceeds FFFFF, that load would fault, or its
 * physical address is not in RAM.
 */
struct eco32_view eco32_page_view(const uint8_t *ram, size_t ram_len,
                                  const uint8_t *machine, size_t machine_len,
                                  uint64_t page);

#ifdef __cplusplus
}
#endif

#endif
