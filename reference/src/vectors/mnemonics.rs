//! Mnemonics and groups of the 64 opcodes (manual chapter 3).

const MNEMONICS: [&str; 64] = [
    "ADD", "ADDI", "SUB", "SUBI", "MUL", "MULI", "MULU", "MULUI", "DIV", "DIVI", "DIVU", "DIVUI",
    "REM", "REMI", "REMU", "REMUI", "AND", "ANDI", "OR", "ORI", "XOR", "XORI", "XNOR", "XNORI",
    "SLL", "SLLI", "SLR", "SLRI", "SAR", "SARI", "1E", "LDHI", "BEQ", "BNE", "BLE", "BLEU", "BLT",
    "BLTU", "BGE", "BGEU", "BGT", "BGTU", "J", "JR", "JAL", "JALR", "TRAP", "RFX", "LDW", "LDH",
    "LDHU", "LDB", "LDBU", "STW", "STH", "STB", "MVFS", "MVTS", "TBS", "TBWR", "TBRI", "TBWI",
    "3E", "3F",
];

pub const LDHI: u32 = 0x1F;
pub const TRAP: u32 = 0x2E;
pub const RFX: u32 = 0x2F;
pub const JALR: u32 = 0x2D;
pub const MVFS: u32 = 0x38;
pub const MVTS: u32 = 0x39;
pub const TBS: u32 = 0x3A;
pub const TBWR: u32 = 0x3B;
pub const TBRI: u32 = 0x3C;
pub const TBWI: u32 = 0x3D;

/// What kind of instruction an opcode names.
#[derive(Clone, Copy, Debug, PartialEq, Eq)]
pub enum Group {
    /// Three registers.
    Register,
    /// Two registers and an immediate, LDHI among them.
    Immediate,
    Branch,
    /// J and JAL.
    Jump,
    /// JR and JALR.
    Indirect,
    Load,
    Store,
    Trap,
    Privileged,
    Illegal,
}

pub fn mnemonic(opcode: u32) -> &'static str {
    MNEMONICS[(opcode & 63) as usize]
}

pub fn group(opcode: u32) -> Group {
    match opcode & 63 {
        0x1E | 0x3E | 0x3F => Group::Illegal,
        LDHI => Group::Immediate,
        op @ 0x00..=0x1D if op % 2 == 0 => Group::Register,
        0x00..=0x1D => Group::Immediate,
        0x20..=0x29 => Group::Branch,
        0x2A | 0x2C => Group::Jump,
        0x2B | 0x2D => Group::Indirect,
        TRAP => Group::Trap,
        0x30..=0x34 => Group::Load,
        0x35..=0x37 => Group::Store,
        _ => Group::Privileged,
    }
}

/// Bits of an instruction word that have no effect (manual chapter 3).
pub fn ignored_bits(opcode: u32) -> u32 {
    match (opcode & 63, group(opcode)) {
        (_, Group::Register) => 0x0000_07FF,
        (LDHI | MVFS | MVTS, _) => 0x03E0_0000,
        (_, Group::Indirect) => 0x001F_FFFF,
        (_, Group::Trap | Group::Privileged) => 0x03FF_FFFF,
        _ => 0,
    }
}

/// The opcodes of one group, in order.
pub fn opcodes(wanted: Group) -> impl Iterator<Item = u32> {
    (0..64).filter(move |&opcode| group(opcode) == wanted)
}
