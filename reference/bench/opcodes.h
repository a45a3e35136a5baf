/* The six opcode bits of the 61 instructions (manual, chapter 3). 1E, 3E and 3F are illegal. */
#ifndef BENCH_OPCODES_H
#define BENCH_OPCODES_H

enum opcode {
    ADD = 0x00, ADDI, SUB, SUBI, MUL, MULI, MULU, MULUI,
    DIV = 0x08, DIVI, DIVU, DIVUI, REM, REMI, REMU, REMUI,
    AND = 0x10, ANDI, OR, ORI, XOR, XORI, XNOR, XNORI,
    SLL = 0x18, SLLI, SLR, SLRI, SAR, SARI,
    LDHI = 0x1F,
    BEQ = 0x20, BNE, BLE, BLEU, BLT, BLTU, BGE, BGEU,
    BGT = 0x28, BGTU, J, JR, JAL, JALR, TRAP, RFX,
    LDW = 0x30, LDH, LDHU, LDB, LDBU, STW, STH, STB,
    MVFS = 0x38, MVTS, TBS, TBWR, TBRI, TBWI
};

#endif
