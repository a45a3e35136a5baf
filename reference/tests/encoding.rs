//! Encoders against words worked out from the format tables (manual chapter
//! 3). Registers are r = 3, x = 1, y = 2; immediates show all their bits.

use eco32_reference::asm::*;

/// Word from the opcode in binary as printed, and the fields below it.
fn word(opcode: u32, fields: u32) -> u32 {
    opcode * 0x0400_0000 + fields
}

#[test]
fn three_register_format() {
    // x = 1 in 25..21 is 00200000, y = 2 in 20..16 is 00020000, r = 3 in
    // 15..11 is 00001800.
    let table = [
        (add(3, 1, 2), 0b000000),
        (sub(3, 1, 2), 0b000010),
        (mul(3, 1, 2), 0b000100),
        (mulu(3, 1, 2), 0b000110),
        (div(3, 1, 2), 0b001000),
        (divu(3, 1, 2), 0b001010),
        (rem(3, 1, 2), 0b001100),
        (remu(3, 1, 2), 0b001110),
        (and(3, 1, 2), 0b010000),
        (or(3, 1, 2), 0b010010),
        (xor(3, 1, 2), 0b010100),
        (xnor(3, 1, 2), 0b010110),
        (sll(3, 1, 2), 0b011000),
        (slr(3, 1, 2), 0b011010),
        (sar(3, 1, 2), 0b011100),
    ];
    for (encoded, opcode) in table {
        assert_eq!(encoded, word(opcode, 0x0022_1800), "{opcode:06b}");
    }
}

#[test]
fn immediate_format() {
    // x = 1 is 00200000, r = 3 in 20..16 is 00030000, -2 is FFFE.
    let table = [
        (addi(3, 1, -2), 0b000001),
        (subi(3, 1, -2), 0b000011),
        (muli(3, 1, -2), 0b000101),
        (mului(3, 1, -2), 0b000111),
        (divi(3, 1, -2), 0b001001),
        (divui(3, 1, -2), 0b001011),
        (remi(3, 1, -2), 0b001101),
        (remui(3, 1, -2), 0b001111),
        (andi(3, 1, -2), 0b010001),
        (ori(3, 1, -2), 0b010011),
        (xori(3, 1, -2), 0b010101),
        (xnori(3, 1, -2), 0b010111),
        (slli(3, 1, -2), 0b011001),
        (slri(3, 1, -2), 0b011011),
        (sari(3, 1, -2), 0b011101),
        (ldw(3, 1, -2), 0b110000),
        (ldh(3, 1, -2), 0b110001),
        (ldhu(3, 1, -2), 0b110010),
        (ldb(3, 1, -2), 0b110011),
        (ldbu(3, 1, -2), 0b110100),
        (stw(3, 1, -2), 0b110101),
        (sth(3, 1, -2), 0b110110),
        (stb(3, 1, -2), 0b110111),
    ];
    for (encoded, opcode) in table {
        assert_eq!(encoded, word(opcode, 0x0023_FFFE), "{opcode:06b}");
    }
    assert_eq!(ldhi(3, 0x8001), word(0b011111, 0x0003_8001));
}

#[test]
fn control_and_system_formats() {
    let branches = [
        (beq(1, 2, -2), 0b100000),
        (bne(1, 2, -2), 0b100001),
        (ble(1, 2, -2), 0b100010),
        (bleu(1, 2, -2), 0b100011),
        (blt(1, 2, -2), 0b100100),
        (bltu(1, 2, -2), 0b100101),
        (bge(1, 2, -2), 0b100110),
        (bgeu(1, 2, -2), 0b100111),
        (bgt(1, 2, -2), 0b101000),
        (bgtu(1, 2, -2), 0b101001),
    ];
    for (encoded, opcode) in branches {
        assert_eq!(encoded, word(opcode, 0x0022_FFFE), "{opcode:06b}");
    }
    let others = [
        (j(-2), word(0b101010, 0x03FF_FFFE)),
        (jr(31), word(0b101011, 0x03E0_0000)),
        (jal(5), word(0b101100, 0x0000_0005)),
        (jalr(1), word(0b101101, 0x0020_0000)),
        (trap(), word(0b101110, 0)),
        (rfx(), word(0b101111, 0)),
        (mvfs(3, 4), word(0b111000, 0x0003_0004)),
        (mvts(3, 0xFFFF), word(0b111001, 0x0003_FFFF)),
        (tbs(), word(0b111010, 0)),
        (tbwr(), word(0b111011, 0)),
        (tbri(), word(0b111100, 0)),
        (tbwi(), word(0b111101, 0)),
    ];
    for (encoded, expected) in others {
        assert_eq!(encoded, expected, "{expected:08X}");
    }
    // Words that document 01, "Cases", gives.
    assert_eq!(addi(1, 0, 5), 0x0401_0005);
    assert_eq!(j(-1), 0xABFF_FFFF);
    assert_eq!(trap(), 0xB800_0000);
}
