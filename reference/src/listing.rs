//! A routine as text: address, word, mnemonic with operands, note.

use crate::builder::{Line, Routine};
use crate::vectors::mnemonics::{group, mnemonic, Group, LDHI, MVFS, MVTS};

/// Bits of a word from `low` up.
fn field(word: u32, low: u32, bits: u32) -> u32 {
    word >> low & ((1 << bits) - 1)
}

fn sign_extended(value: u32, bits: u32) -> u32 {
    ((value << (32 - bits)) as i32 >> (32 - bits)) as u32
}

/// Target of a branch or jump by its label, or by its address without one.
fn target(routine: &Routine, line: &Line, bits: u32) -> String {
    let words = sign_extended(field(line.word, 0, bits), bits);
    let address = line.address.wrapping_add(4).wrapping_add(words << 2);
    let mut labels = routine.labels.iter();
    match labels.find(|(_, &at)| at == address) {
        Some((name, _)) => name.to_string(),
        None => format!("{address:08X}"),
    }
}

/// Operands in the order of the encoders of `asm`.
fn operands(routine: &Routine, line: &Line) -> String {
    let word = line.word;
    let (first, second) = (field(word, 21, 5), field(word, 16, 5));
    let (third, low) = (field(word, 11, 5), field(word, 0, 16));
    match (word >> 26, group(word >> 26)) {
        (LDHI, _) => format!("R{second}, {low:04X}"),
        (MVFS | MVTS, _) => format!("R{second}, {low}"),
        (_, Group::Register) => format!("R{third}, R{first}, R{second}"),
        (_, Group::Immediate | Group::Load | Group::Store) => {
            format!("R{second}, R{first}, {low:04X}")
        }
        (_, Group::Branch) => format!("R{first}, R{second}, {}", target(routine, line, 16)),
        (_, Group::Jump) => target(routine, line, 26),
        (_, Group::Indirect) => format!("R{first}"),
        (_, Group::Trap | Group::Privileged | Group::Illegal) => String::new(),
    }
}

fn text(routine: &Routine, line: &Line) -> String {
    if line.is_data {
        return "data".to_string();
    }
    let text = format!(
        "{:5} {}",
        mnemonic(line.word >> 26),
        operands(routine, line)
    );
    text.trim_end().to_string()
}

/// The whole routine, its headings and labels on lines of their own.
pub fn listing(routine: &Routine) -> String {
    let mut all = String::new();
    for line in &routine.lines {
        if let Some(heading) = routine.headings.get(&line.address) {
            all += &format!("\n; {heading}\n");
        }
        for (name, _) in routine.labels.iter().filter(|(_, &at)| at == line.address) {
            all += &format!("{name}:\n");
        }
        let shown = format!(
            "{:08X}  {:08X}  {:24} ; {}",
            line.address,
            line.word,
            text(routine, line),
            line.note
        );
        all += shown.trim_end_matches([' ', ';']);
        all += "\n";
    }
    all
}
