//! Instruction encoders, one for each mnemonic (manual chapter 3).
//!
//! Operands stand in the order of the assembler: destination register first
//! for computation and loads, stored register first for stores. Immediates
//! and offsets are cut to the width of their field; offsets of branches and
//! jumps count words from the next instruction.

/// Format with three registers: x, y, r.
pub fn three_registers(opcode: u32, x: u32, y: u32, r: u32) -> u32 {
    opcode << 26 | (x & 31) << 21 | (y & 31) << 16 | (r & 31) << 11
}

/// Format with two registers and a 16-bit immediate.
pub fn two_registers(opcode: u32, first: u32, second: u32, immediate: i32) -> u32 {
    opcode << 26 | (first & 31) << 21 | (second & 31) << 16 | (immediate as u32 & 0xFFFF)
}

/// Format with a 26-bit offset.
pub fn long_offset(opcode: u32, offset: i32) -> u32 {
    opcode << 26 | (offset as u32 & 0x03FF_FFFF)
}

macro_rules! encoders {
    (register $($name:ident $opcode:literal)*) => {
        $(pub fn $name(r: u32, x: u32, y: u32) -> u32 { three_registers($opcode, x, y, r) })*
    };
    (immediate $($name:ident $opcode:literal)*) => {
        $(pub fn $name(r: u32, x: u32, y: i32) -> u32 { two_registers($opcode, x, r, y) })*
    };
    (branch $($name:ident $opcode:literal)*) => {
        $(pub fn $name(x: u32, y: u32, offset: i32) -> u32 {
            two_registers($opcode, x, y, offset)
        })*
    };
    (jump $($name:ident $opcode:literal)*) => {
        $(pub fn $name(offset: i32) -> u32 { long_offset($opcode, offset) })*
    };
    (indirect $($name:ident $opcode:literal)*) => {
        $(pub fn $name(dest: u32) -> u32 { two_registers($opcode, dest, 0, 0) })*
    };
    (special $($name:ident $opcode:literal)*) => {
        $(pub fn $name(r: u32, z: u32) -> u32 { two_registers($opcode, 0, r, z as i32) })*
    };
    (plain $($name:ident $opcode:literal)*) => {
        $(pub fn $name() -> u32 { $opcode << 26 })*
    };
}

encoders! { register
    add 0x00 sub 0x02 mul 0x04 mulu 0x06 div 0x08 divu 0x0A rem 0x0C remu 0x0E
    and 0x10 or 0x12 xor 0x14 xnor 0x16 sll 0x18 slr 0x1A sar 0x1C
}

encoders! { immediate
    addi 0x01 subi 0x03 muli 0x05 mului 0x07 divi 0x09 divui 0x0B remi 0x0D remui 0x0F
    andi 0x11 ori 0x13 xori 0x15 xnori 0x17 slli 0x19 slri 0x1B sari 0x1D
    ldw 0x30 ldh 0x31 ldhu 0x32 ldb 0x33 ldbu 0x34 stw 0x35 sth 0x36 stb 0x37
}

/// LDHI; its field x is ignored and encoded as 0.
pub fn ldhi(r: u32, y: i32) -> u32 {
    two_registers(0x1F, 0, r, y)
}

encoders! { branch
    beq 0x20 bne 0x21 ble 0x22 bleu 0x23 blt 0x24 bltu 0x25
    bge 0x26 bgeu 0x27 bgt 0x28 bgtu 0x29
}

encoders! { jump j 0x2A jal 0x2C }

encoders! { indirect jr 0x2B jalr 0x2D }

encoders! { special mvfs 0x38 mvts 0x39 }

encoders! { plain trap 0x2E rfx 0x2F tbs 0x3A tbwr 0x3B tbri 0x3C tbwi 0x3D }
