#include "opcodes.h"

#include <string.h>

/* Opcode i stands in place i. */
static const char *const names[OPCODE_COUNT] = {
    "ADD",  "ADDI", "SUB",  "SUBI", "MUL",  "MULI", "MULU", "MULUI", /* 00 */
    "DIV",  "DIVI", "DIVU", "DIVUI", "REM", "REMI", "REMU", "REMUI", /* 08 */
    "AND",  "ANDI", "OR",   "ORI",  "XOR",  "XORI", "XNOR", "XNORI", /* 10 */
    "SLL",  "SLLI", "SLR",  "SLRI", "SAR",  "SARI", NULL,   "LDHI",  /* 18 */
    "BEQ",  "BNE",  "BLE",  "BLEU", "BLT",  "BLTU", "BGE",  "BGEU",  /* 20 */
    "BGT",  "BGTU", "J",    "JR",   "JAL",  "JALR", "TRAP", "RFX",   /* 28 */
    "LDW",  "LDH",  "LDHU", "LDB",  "LDBU", "STW",  "STH",  "STB",   /* 30 */
    "MVFS", "MVTS", "TBS",  "TBWR", "TBRI", "TBWI", NULL,   NULL,    /* 38 */
};

const char *opcode_name(unsigned opcode)
{
    return names[opcode];
}

/* A byte is a letter in one case or the other exactly where | 32 makes it the small one. */
int is_word(const char *text, size_t length, const char *word)
{
    if (length != strlen(word))
        return 0;
    for (size_t i = 0; i < length; i++)
        if ((text[i] | 32) != (word[i] | 32))
            return 0;
    return 1;
}

unsigned opcode_named(const char *text, size_t length)
{
    unsigned opcode = 0;

    while (opcode < OPCODE_COUNT && (names[opcode] == NULL || !is_word(text, length, names[opcode])))
        opcode++;
    return opcode;
}
