/* Reads a trace of a run from reset on RAM of 262,144 zeros and without lines, up to the line about the steps, and writes
 * the RAM that its stores make. Fails where a line has no PC that follows from the line before, where a step that stores
 * shows no store or another step shows one, where a step without a fetch is neither an interrupt nor a fault of a fetch,
 * where TBWR changes another TLB entry than that of its step, where a load or store does not show the slot that its
 * address has in the TLB before the step or another step shows one, where the timer is not what the line before and the
 * tick make of it, or where its interrupt comes or fails to come. */
#include <stdio.h>
#include <stdlib.h>
#include <string.h>

#define RAM_LENGTH 262144
#define CHANNEL 14
#define OPCODE_LDW 0x30 /* the first of the loads, which the stores follow */
#define OPCODE_STW 0x35
#define OPCODE_STB 0x37
#define OPCODE_TBWR 0x3B
#define DIRECT_BEGINS 0xC0000000UL
#define ENTRIES 32
#define DIRECT 32UL
#define NO_SLOT 33UL
#define PSW_ACCEPTS 0x00804000UL /* I_C, and bit 14 of IEN */

/* What a trace line follows from. */
struct state {
    unsigned long step;
    unsigned long slot; /* of the last step */
    unsigned long pc;
    unsigned long psw;
    unsigned long divisor;
    unsigned long counter;
    unsigned long control;
    unsigned long registers[32];
    unsigned long high[ENTRIES]; /* high words of the TLB */
};

static unsigned char ram[RAM_LENGTH];

static void check(int holds, const char *line, const char *says)
{
    if (holds)
        return;
    fprintf(stderr, "%s: %s", says, line);
    exit(1);
}

/* A store as [ADDRESS]=BYTES (PART PHYSICAL). One to the timer loads the counter too, before the tick. */
static void store(const char *at, const char *line, struct state *s)
{
    unsigned long address;
    unsigned long physical;
    char bytes[9];
    char part[6];

    check(sscanf(at, " [%8lx]=%8[0-9A-F] (%5[A-Za-z] %8lx)", &address, bytes, part, &physical) == 4, line, "no store");
    check(strlen(bytes) / 2 == 1 || address % (strlen(bytes) / 2) == 0, line, "not aligned");
    if (strcmp(part, "timer") == 0 && physical == 0x30000004)
        s->divisor = s->counter = strtoul(bytes, NULL, 16);
    else if (strcmp(part, "timer") == 0)
        s->control = strtoul(bytes, NULL, 16);
    if (strcmp(part, "RAM") != 0)
        return;
    check(physical + 4 <= RAM_LENGTH, line, "not in RAM");
    for (size_t i = 0; bytes[i] != '\0'; i += 2) {
        unsigned byte;
        check(sscanf(bytes + i, "%2x", &byte) == 1, line, "no byte");
        ram[physical++] = (unsigned char)byte;
    }
}

/* The entry that TBWR changed, if it changed one. From reset on every step moves the index that names it: 4 to 31, and round. */
static void random_entry(const char *line, unsigned long step)
{
    const char *at = strstr(line, " TLB");

    check(at == NULL || strtoul(at + 4, NULL, 10) == 4 + (step - 1) % 28, line, "another entry");
}

static int may_lack_word(long eid)
{
    return (eid >= 0 && eid <= 16) || eid == 21 || (eid >= 23 && eid <= 25);
}

/* What stands behind a name such as " PSW=", in a line that has it only if it has to. */
static void shows(const char *line, const char *name, int has_to, unsigned long value)
{
    const char *at = strstr(line, name);

    check((at != NULL) == has_to, line, "shown, or not");
    check(at == NULL || strtoul(at + strlen(name), NULL, 16) == value, line, "another value");
}

/* The tick, after the step's own store. A control that was stored is shown with the flag that the tick set. */
static void tick(const char *line, const struct state *before, struct state *s)
{
    int counts_on;

    check(s->control <= 3, line, "a bit that control does not keep");
    if (s->divisor != 0 && s->counter <= 1) {
        s->counter = s->divisor;
        s->control |= 1;
    } else if (s->divisor != 0) {
        s->counter--;
    }
    counts_on = s->divisor == 0 ? s->counter == before->counter : before->counter > 1 && s->counter == before->counter - 1;
    shows(line, " Divisor=", s->divisor != before->divisor, s->divisor);
    shows(line, " Counter=", !counts_on, s->counter);
    shows(line, " Control=", s->control != before->control, s->control);
}

/* The slot of an access by the TLB before its step: that of the lowest entry which has the page, or 32. */
static unsigned long slot_of(const struct state *s, unsigned long word)
{
    unsigned long offset = (word & 0xFFFF) ^ 0x8000;
    unsigned long address = (s->registers[word >> 21 & 31] + offset - 0x8000) & 0xFFFFFFFF;
    unsigned long slot = 0;

    if (address >= DIRECT_BEGINS)
        return DIRECT;
    while (slot < ENTRIES && s->high[slot] >> 12 != address >> 12)
        slot++;
    return slot < ENTRIES ? slot : NO_SLOT;
}

static unsigned long shown_slot(const char *line)
{
    const char *at = strstr(line, " Slot=");
    unsigned long slot;

    if (at == NULL)
        return NO_SLOT;
    if (strncmp(at, " Slot=direct", 12) == 0)
        return DIRECT;
    check(sscanf(at, " Slot=%2lu", &slot) == 1 && slot < ENTRIES, line, "no slot");
    return slot;
}

/* A completed load or store shows its slot, and no other step shows one. */
static void take_slot(const char *line, int completes, unsigned long word, struct state *s)
{
    int accesses = completes && word >> 26 >= OPCODE_LDW && word >> 26 <= OPCODE_STB;

    s->slot = accesses ? slot_of(s, word) : NO_SLOT;
    check(!accesses || s->slot != NO_SLOT, line, "an access without an entry");
    check(shown_slot(line) == s->slot, line, "another slot, or none");
}

/* What the step changed in PSW, registers and TLB. */
static void take_changes(const char *line, struct state *s)
{
    const char *psw = strstr(line, " PSW=");
    const char *at;
    unsigned number;
    unsigned long value;

    if (psw != NULL)
        s->psw = strtoul(psw + 5, NULL, 16);
    for (at = strstr(line, " R"); at != NULL; at = strstr(at + 1, " R"))
        if (sscanf(at, " R%2u=%8lx", &number, &value) == 2 && number < 32)
            s->registers[number] = value;
    for (at = strstr(line, " TLB"); at != NULL; at = strstr(at + 1, " TLB"))
        if (sscanf(at, " TLB%2u=%8lx", &number, &value) == 2 && number < ENTRIES)
            s->high[number] = value;
}

/* Takes the line of a step. */
static void take(const char *line, struct state *s)
{
    struct state before = *s;
    unsigned long number;
    unsigned long at;
    char word[9];
    char mode;
    char eid[3];
    const char *stored = strstr(line, " [");
    const char *jumped = strstr(line, " PC=");
    unsigned long opcode;
    int completes;

    check(sscanf(line, "%lu %8lx %8s %c %2s", &number, &at, word, &mode, eid) == 5, line, "no step");
    check(number == ++s->step && (number == 1 || at == s->pc), line, "does not follow");
    completes = strcmp(eid, "--") == 0;
    opcode = strtoul(word, NULL, 16) >> 26;
    check((completes && opcode >= OPCODE_STW && opcode <= OPCODE_STB) == (stored != NULL), line, "a store, or none");
    check(strcmp(word, "--------") != 0 || (!completes && may_lack_word(strtol(eid, NULL, 10))), line, "no word");
    check((!completes && strtol(eid, NULL, 10) == CHANNEL) == (s->control == 3 && (s->psw & PSW_ACCEPTS) == PSW_ACCEPTS),
          line, "an interrupt, or none");
    if (stored != NULL)
        store(stored, line, s);
    if (completes && opcode == OPCODE_TBWR)
        random_entry(line, number);
    take_slot(line, completes, strtoul(word, NULL, 16), s);
    tick(line, &before, s);
    take_changes(line, s);
    s->pc = jumped != NULL ? strtoul(jumped + 4, NULL, 16) : (at + 4) & 0xFFFFFFFF;
}

/* The line about the steps has the slot of the last one. */
static void take_end(const char *line, const struct state *s)
{
    const char *at = strstr(line, ", data slot ");

    check(strncmp(line, "steps ", 6) == 0 && s->step > 0, line, "no steps, or no line about them");
    check((at == NULL ? NO_SLOT : strtoul(at + 12, NULL, 10)) == s->slot, line, "another slot than that of the last step");
}

int main(void)
{
    char line[4096] = "";
    struct state s = {.slot = NO_SLOT};

    for (int i = 0; i < ENTRIES; i++)
        s.high[i] = DIRECT_BEGINS;
    while (fgets(line, sizeof line, stdin) != NULL && strncmp(line, "steps ", 6) != 0)
        take(line, &s);
    take_end(line, &s);
    return fwrite(ram, 1, RAM_LENGTH, stdout) == RAM_LENGTH ? 0 : 1;
}
