//! Each line of document 01, "Closed by us", but that about TBWR and the
//! replacement index: document 02, job 4, withdraws it (tests/replacement.rs).

use crate::common::{put, timer, Rig};
use eco32_reference::asm::*;
use eco32_reference::{Processor, TlbEntry};

#[test]
fn write_bit_set_means_writable() {
    for (low, eid) in [(0x0000_0001, 22), (0x0000_0003, 32)] {
        let mut rig = Rig::with_rom(&[stw(3, 1, 0)]).set(1, 0x0000_5000);
        rig.map(0, 0x0000_5000, low);
        assert_eq!(rig.step(), eid);
    }
}

#[test]
fn of_two_entries_the_lower_index_is_used() {
    // Index and low word of two entries for page 00005.
    let table = [
        ((4, 0x0000_0001), (5, 0x0000_1001), Ok(0xAAAA)),
        ((4, 0x0000_1001), (5, 0x0000_0001), Ok(0xBBBB)),
        ((0, 0x0000_1001), (31, 0x0000_0001), Ok(0xBBBB)),
        ((30, 0x0000_0001), (31, 0x0000_1001), Ok(0xAAAA)),
        // An invalid lower entry does not make the search go on.
        ((2, 0x0000_0000), (3, 0x0000_1001), Err(23)),
    ];
    for ((first, first_low), (second, second_low), result) in table {
        let mut rig = Rig::with_rom(&[ldw(3, 1, 0), tbs()]).set(1, 0x0000_5100);
        put(&mut rig.ram, 0x0100, 0xAAAA);
        put(&mut rig.ram, 0x1100, 0xBBBB);
        rig.map(second, 0x0000_5000, second_low);
        rig.map(first, 0x0000_5000, first_low);
        let mut search = rig.clone();
        match result {
            Ok(value) => rig.completes("load", |cpu| cpu.registers[3] = value),
            Err(eid) => assert_eq!(rig.step(), eid),
        }
        search.cpu.pc = 0xE000_0004;
        search.cpu.entry_high = 0x0000_5000;
        search.completes("TBS", |cpu| cpu.tlb_index = first as u32);
    }
}

#[test]
fn of_several_channels_the_lowest_is_accepted() {
    let mut rig = Rig::new();
    rig.cpu.psw = 0x0080_FFFF;
    assert_eq!(rig.step_with(0b1010_1000), 3);
}

#[test]
fn rom_and_belt_registers() {
    let stores = Rig::with_rom(&[stw(1, 1, 0)]).set(1, 0xE000_0000);
    stores.completes("ROM", |_| {});
    let belt = Rig::with_rom(&[ldb(2, 1, 0)]).set(1, 0xF050_0000);
    belt.faults("byte", 16, 0x0010_0000, 0xE000_0004, |_| {});
    let belt = Rig::with_rom(&[sth(2, 1, 0)]).set(1, 0xF050_0002);
    belt.faults("half-word", 16, 0x0010_0000, 0xE000_0004, |_| {});
}

#[test]
fn signed_division() {
    let table = [
        (0x8000_0000, 0xFFFF_FFFFu32, 0x8000_0000, 0),
        // -9 by 4 is -2, remainder -1; 9 by -4 is -2, remainder 1.
        (0xFFFF_FFF7, 4, 0xFFFF_FFFE, 0xFFFF_FFFF),
        (9, 0xFFFF_FFFC, 0xFFFF_FFFE, 1),
        (0xFFFF_FFF7, 0xFFFF_FFFC, 2, 0xFFFF_FFFF),
    ];
    for (x, y, quotient, remainder) in table {
        let words = [
            div(3, 1, 2),
            rem(4, 1, 2),
            divi(5, 1, y as i32),
            remi(6, 1, y as i32),
        ];
        let mut rig = Rig::with_rom(&words).set(1, x).set(2, y);
        for _ in 0..4 {
            assert_eq!(rig.step(), 32);
        }
        let expected = [quotient, remainder, quotient, remainder];
        assert_eq!(rig.cpu.registers[3..7], expected, "{x:08X} {y:08X}");
    }
}

#[test]
fn special_register_numbers_above_4() {
    for z in [5, 6, 15, 16, 31, 32, 255, 256, 0x1004, 0xFFFF] {
        let rig = Rig::with_rom(&[mvfs(3, z)]).set(3, 0x55);
        rig.completes("MVFS", |cpu| cpu.registers[3] = 0);
        let rig = Rig::with_rom(&[mvts(3, z)]).set(3, 0xFFFF_FFFF);
        rig.completes("MVTS", |_| {});
    }
}

#[test]
fn tlb_index_register() {
    let mut rig = Rig::with_rom(&[tbs(), tbri(), tbwi()]);
    rig.map(0, 0x0000_7000, 0x0000_8003);
    rig.cpu.entry_high = 0x0000_5000;
    rig.completes("no match", |cpu| cpu.tlb_index = 0x8000_0000);
    rig.cpu.pc = 0xE000_0004;
    rig.cpu.tlb_index = 0x8000_0000;
    rig.completes("TBRI", |cpu| {
        cpu.entry_high = 0x0000_7000;
        cpu.entry_low = 0x0000_8003;
    });
    rig.cpu.pc = 0xE000_0008;
    rig.cpu.tlb_index = 0x8000_001E;
    rig.cpu.entry_low = 0x0000_9001;
    rig.completes("TBWI", |cpu| {
        cpu.tlb[30] = TlbEntry {
            high: 0x0000_5000,
            low: 0x0000_9001,
        }
    });
}

#[test]
fn kept_bits_read_back() {
    // All ones by MVTS, then MVFS.
    let table = [
        (1, 0x8000_001F),
        (2, 0xFFFF_F000),
        (3, 0xFFFF_F003),
        (4, 0xFFFF_FFFF),
    ];
    for (z, kept) in table {
        let mut rig = Rig::with_rom(&[mvts(1, z), mvfs(2, z)]).set(1, 0xFFFF_FFFF);
        rig.step();
        rig.step();
        assert_eq!(rig.cpu.registers[2], kept, "special register {z}");
        assert!(rig.cpu.fit());
    }
    // The PSW without the mode bits, to stay in Kernel Mode.
    let mut rig = Rig::with_rom(&[mvts(1, 0), mvfs(2, 0)]).set(1, 0xFBFF_FFFF);
    rig.step();
    rig.step();
    assert_eq!(rig.cpu.registers[2], 0x0BFF_FFFF);
    // TLB words take what the registers hold.
    let words = [mvts(1, 2), mvts(1, 3), tbwi(), tbwr()];
    let mut rig = Rig::with_rom(&words).set(1, 0xFFFF_FFFF);
    for _ in 0..4 {
        rig.step();
    }
    let entry = TlbEntry {
        high: 0xFFFF_F000,
        low: 0xFFFF_F003,
    };
    assert_eq!(rig.cpu.tlb[0], entry);
    // Three steps came before TBWR.
    assert_eq!(rig.cpu.tlb[7], entry);
}

#[test]
fn reset_machine() {
    let machine = Processor::reset();
    assert_eq!(machine.registers, [0; 32]);
    assert_eq!(machine.pc, 0xE000_0000);
    let special: Vec<u32> = (0..5).map(|z| machine.special(z)).collect();
    assert_eq!(special, [0; 5]);
    for entry in machine.tlb {
        assert_eq!((entry.high, entry.low), (0xC000_0000, 0));
    }
    assert_eq!(machine.replacement, 4);
    assert_eq!(machine.timer, timer(0, 0, 0));
    assert!(machine.fit());
}
