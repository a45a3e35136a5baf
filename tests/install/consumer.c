/* Uses the library and prints what came of it. C and C++, the archive and the shared library print the same, and so does
 * consumer.py, but for the lines that begin with a word in capitals: those need the headers. */
#include <eco32.h>
#include <eco32_text.h>

#include <stdio.h>
#include <string.h>

static uint8_t machine[ECO32_RECORD_LENGTH];
static uint8_t ram[2 * ECO32_FRAME_LENGTH];
static uint8_t rom[ECO32_ROM_LEAST];
static uint8_t belt[ECO32_BELT_LENGTH];
static uint8_t charges[ECO32_CHARGES_LENGTH];

/* ADDI R1, R0, 5; LDHI R2, C000; STW R1, R2, 0; TRAP. */
static const uint8_t program[] = {
    0x04, 0x01, 0x00, 0x05, 0x7C, 0x02, 0xC0, 0x00, 0xD4, 0x41, 0x00, 0x00, 0xB8, 0x00, 0x00, 0x00,
};

static void print_number(const char *name, uint64_t number)
{
    printf("%s %lu\n", name, (unsigned long)number);
}

static void print_answer(const char *name, struct eco32_answer answer)
{
    printf("%s: refusal %lu, steps %lu, eid %lu, slot %lu\n", name, (unsigned long)answer.refusal,
           (unsigned long)answer.steps, (unsigned long)answer.eid, (unsigned long)answer.slot);
    printf("TEXT %s, %s\n", eco32_refusal_text(answer.refusal), eco32_exception_name(answer.eid));
}

static void print_charged(const char *name, struct eco32_charged answer)
{
    printf("%s: refusal %lu, steps %lu, eid %lu, slot %lu, charge %lu\n", name, (unsigned long)answer.refusal,
           (unsigned long)answer.steps, (unsigned long)answer.eid, (unsigned long)answer.slot, (unsigned long)answer.charge);
    printf("TEXT %s, %s\n", eco32_refusal_text(answer.refusal), eco32_exception_name(answer.eid));
}

static void print_view(const char *name, struct eco32_view view)
{
    printf("%s: refusal %lu, slot %lu, offset %lu, length %lu\n", name, (unsigned long)view.refusal,
           (unsigned long)view.slot, (unsigned long)view.offset, (unsigned long)view.length);
    printf("TEXT %s\n", eco32_refusal_text(view.refusal));
}

static void print_bytes(const char *name, const uint8_t *bytes, size_t length)
{
    size_t i;

    printf("%s ", name);
    for (i = 0; i < length; i++)
        printf("%02X", (unsigned)bytes[i]);
    printf("\n");
}

static void print_layouts(void)
{
    print_number("eco32_answer", sizeof(struct eco32_answer));
    print_number("eco32_answer.refusal", offsetof(struct eco32_answer, refusal));
    print_number("eco32_answer.steps", offsetof(struct eco32_answer, steps));
    print_number("eco32_answer.eid", offsetof(struct eco32_answer, eid));
    print_number("eco32_answer.slot", offsetof(struct eco32_answer, slot));
    print_number("eco32_charged", sizeof(struct eco32_charged));
    print_number("eco32_charged.refusal", offsetof(struct eco32_charged, refusal));
    print_number("eco32_charged.steps", offsetof(struct eco32_charged, steps));
    print_number("eco32_charged.eid", offsetof(struct eco32_charged, eid));
    print_number("eco32_charged.slot", offsetof(struct eco32_charged, slot));
    print_number("eco32_charged.charge", offsetof(struct eco32_charged, charge));
    print_number("eco32_view", sizeof(struct eco32_view));
    print_number("eco32_view.refusal", offsetof(struct eco32_view, refusal));
    print_number("eco32_view.slot", offsetof(struct eco32_view, slot));
    print_number("eco32_view.offset", offsetof(struct eco32_view, offset));
    print_number("eco32_view.length", offsetof(struct eco32_view, length));
}

/* Page 00001 in TLB entry 7, valid, for the frame of that number. */
static void print_mapped(void)
{
    machine[ECO32_RECORD_TLB + 8 * 7] = 0;
    machine[ECO32_RECORD_TLB + 8 * 7 + 2] = machine[ECO32_RECORD_TLB + 8 * 7 + 6] = 0x10;
    machine[ECO32_RECORD_TLB + 8 * 7 + 7] = 1;
    print_view("mapped", eco32_page_view(ram, sizeof ram, machine, sizeof machine, 1));
}

/* The program again, from reset: ADDI costs 3, LDHI 261, STW 20, and an exception 1,000. */
static void print_charges(void)
{
    charges[2 * 0x01 + 1] = 3;
    charges[2 * 0x1F] = 1;
    charges[2 * 0x1F + 1] = 5;
    charges[2 * 0x35 + 1] = 20;
    charges[2 * 64] = 0x03;
    charges[2 * 64 + 1] = 0xE8;
    print_number("reset", eco32_reset(machine, sizeof machine));
    print_charged("charged", eco32_run_charged(machine, sizeof machine, ram, sizeof ram, rom, sizeof rom, belt, sizeof belt,
                                               charges, sizeof charges, 3, 0));
    print_charged("charged to exception",
                  eco32_run_to_exception_charged(machine, sizeof machine, ram, sizeof ram, rom, sizeof rom, belt, sizeof belt,
                                                 charges, sizeof charges, ECO32_MOST_STEPS, 0));
    print_charged("no list", eco32_run_charged(machine, sizeof machine, ram, sizeof ram, rom, sizeof rom, belt, sizeof belt,
                                               charges, sizeof charges - 1, 3, 0));
}

int main(void)
{
    uint8_t copy[ECO32_RECORD_LENGTH];

    printf("VERSION %s %d.%d.%d, ABI %d\n", ECO32_VERSION, ECO32_VERSION_MAJOR, ECO32_VERSION_MINOR, ECO32_VERSION_PATCH,
           ECO32_ABI);
    print_layouts();
    memcpy(rom, program, sizeof program);
    belt[3] = 7;
    print_number("reset", eco32_reset(machine, sizeof machine));
    print_answer("run", eco32_run(machine, sizeof machine, ram, sizeof ram, rom, sizeof rom, belt, sizeof belt, 3, 0));
    print_bytes("pc", machine + ECO32_RECORD_PC, 4);
    print_bytes("register 1", machine + ECO32_RECORD_REGISTERS + 4 * 1, 4);
    print_answer("to exception", eco32_run_to_exception(machine, sizeof machine, ram, sizeof ram, rom, sizeof rom, belt,
                                                        sizeof belt, ECO32_MOST_STEPS, 0));
    print_bytes("psw", machine + ECO32_RECORD_PSW, 4);
    print_number("write", eco32_write_record(machine, sizeof machine, copy, sizeof copy));
    print_bytes("record", copy, sizeof copy);
    copy[ECO32_RECORD_TIMER_DIVISOR + 3] = 9;
    print_number("timed", eco32_read_record(copy, sizeof copy, machine, sizeof machine));
    print_answer("ticks", eco32_run(machine, sizeof machine, ram, sizeof ram, rom, sizeof rom, belt, sizeof belt, 3, 0));
    print_bytes("timer", machine + ECO32_RECORD_KIND_TIMER, 10);
    print_number("old", eco32_read_record(copy, ECO32_OLD_RECORD_LENGTH, machine, sizeof machine));
    print_bytes("no timer", machine + ECO32_RECORD_KIND_TIMER, 10);
    print_number("short", eco32_read_record(copy, sizeof copy - 1, machine, sizeof machine));
    print_view("view", eco32_page_view(ram, sizeof ram, machine, sizeof machine, 0xC0001));
    print_bytes("ram", ram, 16);
    print_bytes("belt", belt, 16);
    print_view("no view", eco32_page_view(ram, sizeof ram, machine, sizeof machine, 0xC0002));
    print_mapped();
    print_answer("refused", eco32_run(machine, sizeof machine, ram, sizeof ram - 1, rom, sizeof rom, belt, sizeof belt, 1,
                                      0));
    copy[ECO32_RECORD_REPLACEMENT] = 3;
    print_number("unfit", eco32_read_record(copy, sizeof copy, machine, sizeof machine));
    copy[ECO32_RECORD_KIND_PC] = 9;
    print_number("kind", eco32_read_record(copy, sizeof copy, machine, sizeof machine));
    print_charges();
    return 0;
}
