//! System instructions (manual 3.6) and the illegal opcodes.

use crate::common;
use crate::common::Rig;
use eco32_reference::asm::*;
use eco32_reference::TlbEntry;

/// Ignored bits 25..0 of the instructions without operands.
const IGNORED: u32 = 0x03FF_FFFF;

#[test]
fn trap_in_both_modes() {
    for ignored in [0, IGNORED] {
        let rig = Rig::with_rom(&[trap() | ignored]);
        rig.faults("kernel", 20, 0x0014_0000, 0xE000_0004, |_| {});
        let rig = Rig::in_user_mode(trap() | ignored);
        rig.faults("user", 20, 0x0214_0000, 0xE000_0004, |_| {});
    }
}

#[test]
fn rfx_pops_both_stacks() {
    let table = [
        (0x0000_0000, 0x0000_0000),
        (0x0260_0000, 0x04E0_0000),
        (0x0100_0000, 0x0300_0000),
        (0x0200_0000, 0x0400_0000),
        (0x0300_0000, 0x0700_0000),
        (0x0020_0000, 0x0060_0000),
        (0x0040_0000, 0x0080_0000),
        (0x00A0_0000, 0x0060_0000),
        (0x0080_0000, 0x0000_0000),
        // V, EID and IEN stay
        (0x0914_ABCD, 0x0B14_ABCD),
        (0x081F_FFFF, 0x081F_FFFF),
        (0x0A4E_4000, 0x0C8E_4000),
    ];
    for (before, after) in table {
        for ignored in [0, IGNORED] {
            let mut rig = Rig::with_rom(&[rfx() | ignored]).set(30, 0x1234_5679);
            rig.cpu.psw = before;
            rig.completes(&format!("{before:08X}"), |cpu| {
                cpu.psw = after;
                cpu.pc = 0x1234_5679;
            });
        }
    }
}

#[test]
fn mvfs_reads_special_registers() {
    let mut rig = Rig::new().set(3, 0x55);
    rig.cpu.psw = 0x0014_1234;
    rig.cpu.tlb_index = 0x8000_0011;
    rig.cpu.entry_high = 0x1111_1000;
    rig.cpu.entry_low = 0x2222_2003;
    rig.cpu.bad_address = 0x3333_3333;
    let table = [
        (0, 0x0014_1234),
        (1, 0x8000_0011),
        (2, 0x1111_1000),
        (3, 0x2222_2003),
        (4, 0x3333_3333),
        (5, 0),
        (7, 0),
        (8, 0),
        (32, 0),
        (0x0100, 0),
        (0x8000, 0),
        (0xFFFF, 0),
    ];
    for (z, value) in table {
        for ignored in [0, 0x03E0_0000] {
            common::put(&mut rig.rom, 0, mvfs(3, z) | ignored);
            rig.completes(&format!("MVFS {z}"), |cpu| cpu.registers[3] = value);
        }
        common::put(&mut rig.rom, 0, mvfs(0, z));
        rig.completes(&format!("MVFS {z} to R0"), |_| {});
    }
}

#[test]
fn mvts_keeps_the_kept_bits() {
    for value in [0xFFFF_FFFF, 0, 0xA5A5_A5A5, 0x5A5A_5A5A] {
        for ignored in [0, 0x03E0_0000] {
            let rig = |z| Rig::with_rom(&[mvts(3, z) | ignored]).set(3, value);
            rig(0).completes("PSW", |cpu| cpu.psw = value & 0x0FFF_FFFF);
            rig(1).completes("Index", |cpu| cpu.tlb_index = value & 0x8000_001F);
            rig(2).completes("High", |cpu| cpu.entry_high = value & 0xFFFF_F000);
            rig(3).completes("Low", |cpu| cpu.entry_low = value & 0xFFFF_F003);
            rig(4).completes("Bad Address", |cpu| cpu.bad_address = value);
            for z in [5, 8, 31, 32, 0x0100, 0x8000, 0xFFFF] {
                rig(z).completes("above 4", |_| {});
            }
        }
    }
}

#[test]
fn tbs_finds_an_entry() {
    for ignored in [0, IGNORED] {
        let mut rig = Rig::with_rom(&[tbs() | ignored]);
        rig.map(0, 0x0000_0000, 0x0000_0003);
        rig.map(17, 0x1234_5000, 0x0000_0000);
        rig.map(31, 0xFFFF_F000, 0x0000_0003);
        let table = [
            (0x0000_0000, 0),
            (0x1234_5000, 17),
            (0xFFFF_F000, 31),
            // The first entry that reset leaves with this page number.
            (0xC000_0000, 1),
            (0x1234_4000, 0x8000_0000),
            (0x9234_5000, 0x8000_0000),
        ];
        for (high, index) in table {
            rig.cpu.entry_high = high;
            for before in [0x8000_001F, 5] {
                rig.cpu.tlb_index = before;
                rig.completes(&format!("TBS {high:08X}"), |cpu| cpu.tlb_index = index);
            }
        }
    }
}

#[test]
fn tbri_and_tbwi_use_the_index() {
    for ignored in [0, IGNORED] {
        for index in [0, 3, 4, 19, 31] {
            for high_bit in [0, 0x8000_0000] {
                let mut rig = Rig::with_rom(&[tbri() | ignored, tbwi() | ignored]);
                rig.map(index, 0x1234_5000, 0x6789_A003);
                rig.cpu.tlb_index = high_bit | index as u32;
                rig.completes("TBRI", |cpu| {
                    cpu.entry_high = 0x1234_5000;
                    cpu.entry_low = 0x6789_A003;
                });
                rig.cpu.pc = 0xE000_0004;
                rig.cpu.entry_high = 0xFFFF_F000;
                rig.cpu.entry_low = 0xFFFF_F001;
                rig.completes("TBWI", |cpu| {
                    cpu.tlb[index] = TlbEntry {
                        high: 0xFFFF_F000,
                        low: 0xFFFF_F001,
                    }
                });
            }
        }
    }
}

#[test]
fn tbwr_walks_over_the_non_fixed_entries() {
    for ignored in [0, IGNORED] {
        let mut rig = Rig::with_rom(&[tbwr() | ignored; 60]);
        for turn in 0..60usize {
            let index = 4 + turn % 28;
            rig.cpu.entry_high = (turn as u32) << 12;
            rig.cpu.entry_low = (turn as u32) << 16 | 2;
            let entry = TlbEntry {
                high: rig.cpu.entry_high,
                low: rig.cpu.entry_low,
            };
            assert_eq!(rig.cpu.replacement as usize, index);
            rig.completes("TBWR", |cpu| cpu.tlb[index] = entry);
            rig.step();
        }
    }
}

#[test]
fn privileged_instructions_in_user_mode() {
    let words = [
        rfx(),
        mvfs(3, 0),
        mvfs(3, 9),
        mvts(1, 0),
        mvts(1, 2),
        mvts(1, 9),
        tbs(),
        tbwr(),
        tbri(),
        tbwi(),
    ];
    for word in words {
        let mut rig = Rig::in_user_mode(word).set(1, 0xFFFF_FFFF).set(30, 0x1000);
        rig.cpu.tlb_index = 2;
        rig.cpu.entry_high = 0x0000_5000;
        rig.cpu.entry_low = 0x0000_6003;
        let what = format!("{word:08X}");
        rig.faults(&what, 18, 0x0212_0000, 0xE000_0004, |_| {});
    }
}

#[test]
fn illegal_opcodes_in_both_modes() {
    for opcode in [0x1E, 0x3E, 0x3F] {
        for low_bits in [0, IGNORED] {
            let word = opcode << 26 | low_bits;
            let what = format!("{word:08X}");
            let rig = Rig::with_rom(&[word]);
            rig.faults(&what, 17, 0x0011_0000, 0xE000_0004, |_| {});
            let rig = Rig::in_user_mode(word);
            rig.faults(&what, 17, 0x0211_0000, 0xE000_0004, |_| {});
        }
    }
}

#[test]
fn every_other_opcode_is_legal() {
    let mut legal = 0;
    for opcode in 0..64 {
        let mut rig = Rig::with_rom(&[opcode << 26]);
        if rig.step() != 17 {
            legal += 1;
        }
        // In User Mode the same opcodes are illegal, and seven privileged.
        let mut rig = Rig::in_user_mode(opcode << 26);
        let eid = rig.step();
        let privileged = matches!(opcode, 0x2F | 0x38..=0x3D);
        assert_eq!(eid == 18, privileged, "{opcode:02X}");
        assert_eq!(eid == 17, matches!(opcode, 0x1E | 0x3E | 0x3F));
    }
    assert_eq!(legal, 61);
}
