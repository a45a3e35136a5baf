//! Control flow instructions (manual 3.4).

use crate::common::{put, Rig};
use eco32_reference::asm::*;

type Branch = fn(u32, u32, i32) -> u32;

const MAX: u32 = 0x7FFF_FFFF;
const MIN: u32 = 0x8000_0000;
const ONES: u32 = 0xFFFF_FFFF;

/// One instruction at E0000100.
fn at_100(word: u32) -> Rig {
    let mut rig = Rig::new();
    put(&mut rig.rom, 0x100, word);
    rig.cpu.pc = 0xE000_0100;
    rig
}

#[test]
fn conditions() {
    let branches: [(&str, Branch); 10] = [
        ("BEQ", beq),
        ("BNE", bne),
        ("BLE", ble),
        ("BLEU", bleu),
        ("BLT", blt),
        ("BLTU", bltu),
        ("BGE", bge),
        ("BGEU", bgeu),
        ("BGT", bgt),
        ("BGTU", bgtu),
    ];
    // One letter for each branch above, T where it is taken.
    let table = [
        (0, 0, "T.TT..TT.."),
        (0, 1, ".TTTTT...."),
        (1, 0, ".T....TTTT"),
        (MAX, MIN, ".T.T.TT.T."),
        (MIN, MAX, ".TT.T..T.T"),
        (ONES, 0, ".TT.T..T.T"),
        (0, ONES, ".T.T.TT.T."),
        (MIN, MIN, "T.TT..TT.."),
        (ONES, ONES, "T.TT..TT.."),
        (ONES, MIN, ".T....TTTT"),
        (1, ONES, ".T.T.TT.T."),
        (MAX, 1, ".T....TTTT"),
    ];
    for (x, y, letters) in table {
        for ((name, op), letter) in branches.iter().zip(letters.chars()) {
            let rig = at_100(op(1, 2, 3)).set(1, x).set(2, y);
            let pc = if letter == 'T' {
                0xE000_0110
            } else {
                0xE000_0104
            };
            rig.completes(&format!("{name} {x:08X} {y:08X}"), |cpu| cpu.pc = pc);
        }
    }
}

#[test]
fn branch_offsets_count_words_from_the_incremented_pc() {
    let taken: [Branch; 10] = [beq, bne, ble, bleu, blt, bltu, bge, bgeu, bgt, bgtu];
    // Operands for which the branch of that place is taken.
    let operands = [
        (0, 0),
        (0, 1),
        (0, 1),
        (0, 1),
        (0, 1),
        (0, 1),
        (1, 0),
        (1, 0),
        (1, 0),
        (1, 0),
    ];
    let offsets = [
        (0, 0xE000_0104),
        (-1, 0xE000_0100),
        (0x7FFF, 0xE002_0100),
        (-0x8000, 0xDFFE_0104),
    ];
    for (op, (x, y)) in taken.iter().zip(operands) {
        for (offset, pc) in offsets {
            let rig = at_100(op(1, 2, offset)).set(1, x).set(2, y);
            rig.completes(&format!("offset {offset}"), |cpu| cpu.pc = pc);
        }
    }
}

#[test]
fn jumps_with_an_offset() {
    let table = [
        (0, 0xE000_0104),
        (-1, 0xE000_0100),
        (1, 0xE000_0108),
        (0x01FF_FFFF, 0xE800_0100),
        (-0x0200_0000, 0xD800_0104),
    ];
    for (offset, pc) in table {
        at_100(j(offset)).completes("J", |cpu| cpu.pc = pc);
        at_100(jal(offset)).completes("JAL", |cpu| {
            cpu.pc = pc;
            cpu.registers[31] = 0xE000_0104;
        });
    }
}

#[test]
fn indirect_jumps() {
    for target in [0, 1, MAX, MIN, ONES, 0xE000_0200] {
        for ignored in [0, 0x001F_FFFF] {
            let rig = at_100(jr(5) | ignored).set(5, target);
            rig.completes("JR", |cpu| cpu.pc = target);
            let rig = at_100(jalr(5) | ignored).set(5, target);
            rig.completes("JALR", |cpu| {
                cpu.pc = target;
                cpu.registers[31] = 0xE000_0104;
            });
            // JALR through R31 reads it before the return address goes in.
            let rig = at_100(jalr(31) | ignored).set(31, target);
            rig.completes("JALR 31", |cpu| {
                cpu.pc = target;
                cpu.registers[31] = 0xE000_0104;
            });
        }
    }
    at_100(jr(0)).completes("JR 0", |cpu| cpu.pc = 0);
    at_100(jr(31))
        .set(31, 8)
        .completes("JR 31", |cpu| cpu.pc = 8);
}

#[test]
fn jump_to_an_odd_address_faults_in_the_next_fetch() {
    let mut rig = at_100(jr(5)).set(5, 0xE000_0202);
    assert_eq!(rig.step(), 32);
    assert_eq!(rig.cpu.pc, 0xE000_0202);
    rig.faults("fetch", 24, 0x0018_0000, 0xE000_0004, |cpu| {
        cpu.bad_address = 0xE000_0202;
    });
}

#[test]
fn targets_wrap_around() {
    for (word, result) in [
        (j(-2), 0xFFFF_FFFC),
        (beq(0, 0, -2), 0xFFFF_FFFC),
        (j(-0x0200_0000), 0xF800_0004),
    ] {
        let mut rig = Rig::new();
        rig.map(0, 0x0000_0000, 0x0000_1001);
        put(&mut rig.ram, 0x1000, word);
        rig.cpu.pc = 0;
        rig.completes("below 0", |cpu| cpu.pc = result);
        // Nothing answers behind either address.
        assert_eq!(rig.step(), 32);
        rig.faults("fetch", 16, 0x0010_0000, 0xE000_0004, |_| {});
    }
}
