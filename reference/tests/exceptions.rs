//! Exception entry and the order of faults (manual 2.8, document 01, "One
//! step").

use crate::common::{put, Rig, USER};
use eco32_reference::asm::*;

#[test]
fn entry_pushes_both_stacks() {
    // PSW before and after a trap, and the vector.
    let table = [
        (0x0000_0000, 0x0014_0000, 0xE000_0004),
        (0x07E0_0000, 0x0374_0000, 0xE000_0004),
        (0x0300_0000, 0x0114_0000, 0xE000_0004),
        (0x0160_0000, 0x0034_0000, 0xE000_0004),
        (0x0080_0000, 0x0054_0000, 0xE000_0004),
        (0x0020_0000, 0x0014_0000, 0xE000_0004),
        (0x001F_FFFF, 0x0014_FFFF, 0xE000_0004),
        (0x0800_0000, 0x0814_0000, 0xC000_0004),
        (0x0FFF_FFFF, 0x0B74_FFFF, 0xC000_0004),
    ];
    for (before, after, vector) in table {
        let mut rig = Rig::in_user_mode(trap());
        rig.cpu.psw = before;
        rig.faults(&format!("{before:08X}"), 20, after, vector, |_| {});
    }
}

#[test]
fn faults_without_an_address() {
    let div_by_zero = div(3, 1, 0);
    for (word, eid) in [
        (ldw(3, 0, -4), 16),
        (0x7800_0000, 17),
        (div_by_zero, 19),
        (trap(), 20),
    ] {
        let mut rig = Rig::with_rom(&[word]).set(3, 0x33).set(30, 0x30);
        rig.cpu.bad_address = 0x1234_5678;
        rig.cpu.entry_high = 0x9ABC_D000;
        let psw = eid << 16;
        rig.faults(&format!("EID {eid}"), eid, psw, 0xE000_0004, |_| {});
    }
    let rig = Rig::in_user_mode(mvfs(3, 0)).set(3, 0x33);
    rig.faults("EID 18", 18, 0x0212_0000, 0xE000_0004, |_| {});
}

/// Data access from ROM in Kernel Mode, or from page 00001 in User Mode.
fn access(user: bool, word: u32, address: u32) -> Rig {
    let rig = if user {
        Rig::in_user_mode(word)
    } else {
        Rig::with_rom(&[word])
    };
    let mut rig = rig.set(1, address).set(3, 0x33);
    rig.cpu.bad_address = 0x5555_5555;
    rig.cpu.entry_high = 0x6666_6000;
    rig
}

#[test]
fn data_faults_with_an_address() {
    // User Mode, store, low word of the entry (if any), address, EID, vector
    // offset. Entry High changes for 21, 22 and 23.
    let table = [
        (false, false, None, 0x0000_5000, 21, 8),
        (false, true, None, 0x7FFF_FFFC, 21, 8),
        (true, false, None, 0x0000_5004, 21, 8),
        (true, true, None, 0x7FFF_FFFC, 21, 8),
        (false, false, None, 0x8000_0000, 21, 4),
        (false, true, None, 0xBFFF_FFFC, 21, 4),
        (false, false, Some(0x0000_0000), 0x0000_5008, 23, 4),
        (false, false, Some(0x0000_0002), 0x0000_5008, 23, 4),
        (false, true, Some(0x0000_0000), 0x0000_5008, 23, 4),
        (true, true, Some(0x0000_0002), 0x0000_5008, 23, 4),
        (true, false, Some(0x0000_0002), 0x0000_5FFC, 23, 4),
        (false, true, Some(0x0000_0001), 0x8000_5FFC, 22, 4),
        (true, true, Some(0x0000_0001), 0x0000_5FFC, 22, 4),
        (false, false, None, 0xC000_0001, 24, 4),
        (true, false, None, 0xFFFF_FFFF, 24, 4),
        (true, false, None, 0x8000_0002, 24, 4),
        (false, true, None, 0x0000_5002, 24, 4),
        (true, true, Some(0x0000_0000), 0x0000_5003, 24, 4),
        (true, false, None, 0x8000_0000, 25, 4),
        (true, true, None, 0xC000_0000, 25, 4),
        (true, true, Some(0x0000_0003), 0xBFFF_FFFC, 25, 4),
        (true, false, None, 0xFFFF_FFFC, 25, 4),
    ];
    for (user, store, low, address, eid, vector) in table {
        for v in [false, true] {
            let word = if store { stw(3, 1, 0) } else { ldw(3, 1, 0) };
            let mut rig = access(user, word, address);
            if let Some(low) = low {
                rig.map(9, address & 0xFFFF_F000, low);
            }
            let mut psw = eid << 16;
            let mut base = 0xE000_0000;
            if user {
                psw |= 0x0200_0000;
            }
            if v {
                rig.cpu.psw |= 0x0800_0000;
                psw |= 0x0800_0000;
                base = 0xC000_0000;
            }
            let what = format!("{address:08X}, EID {eid}");
            rig.faults(&what, eid, psw, base + vector, |cpu| {
                cpu.bad_address = address;
                if eid <= 23 {
                    cpu.entry_high = address & 0xFFFF_F000;
                }
            });
        }
    }
}

#[test]
fn bus_timeout_comes_last() {
    // Frame 00002 is behind the end of RAM.
    for (store, low, eid) in [
        (false, 0x0000_2001, 16),
        (true, 0x0000_2003, 16),
        (true, 0x0000_2001, 22),
        (true, 0x0000_2002, 23),
        (false, 0x0000_2000, 23),
    ] {
        let word = if store { stw(3, 1, 0) } else { ldw(3, 1, 0) };
        let mut rig = access(true, word, 0x0000_5000);
        rig.map(9, 0x0000_5000, low);
        assert_eq!(rig.step(), eid, "{low:08X}");
    }
}

#[test]
fn fetch_faults() {
    // PSW before, PC, low word of the entry for its page, EID, PSW after, PC
    // after.
    let table = [
        (0, 0xE000_0001, None, 24, 0x0018_0000, 0xE000_0004),
        (0, 0xE000_0002, None, 24, 0x0018_0000, 0xE000_0004),
        (0, 0x0000_0003, None, 24, 0x0018_0000, 0xE000_0004),
        (USER, 0x8000_0002, None, 24, 0x0218_0000, 0xE000_0004),
        (USER, 0x8000_0000, None, 25, 0x0219_0000, 0xE000_0004),
        (USER, 0xE000_0000, None, 25, 0x0219_0000, 0xE000_0004),
        (USER, 0x7FFF_FFFC, None, 21, 0x0215_0000, 0xE000_0008),
        (0, 0x7FFF_FFFC, None, 21, 0x0015_0000, 0xE000_0008),
        (0x0800_0000, 0, None, 21, 0x0815_0000, 0xC000_0008),
        (0, 0x8000_0000, None, 21, 0x0015_0000, 0xE000_0004),
        (0, 0xBFFF_FFFC, None, 21, 0x0015_0000, 0xE000_0004),
        (USER, 0x0000_5000, Some(2), 23, 0x0217_0000, 0xE000_0004),
        (0, 0x8000_5000, Some(0), 23, 0x0017_0000, 0xE000_0004),
    ];
    for (psw, pc, low, eid, psw_after, pc_after) in table {
        let mut rig = Rig::new();
        rig.cpu.psw = psw;
        rig.cpu.pc = pc;
        if let Some(low) = low {
            rig.map(0, pc & 0xFFFF_F000, low);
        }
        rig.faults(&format!("{pc:08X}"), eid, psw_after, pc_after, |cpu| {
            cpu.bad_address = pc;
            if eid <= 23 {
                cpu.entry_high = pc & 0xFFFF_F000;
            }
        });
    }
    for (pc, low) in [(0xC000_2000, 0), (0x0000_5000, 0x4000_0001)] {
        let mut rig = Rig::new();
        rig.cpu.pc = pc;
        rig.map(0, 0x0000_5000, low);
        rig.faults("bus timeout", 16, 0x0010_0000, 0xE000_0004, |_| {});
    }
}

#[test]
fn fetch_needs_no_write_bit() {
    let mut rig = Rig::in_user_mode(addi(1, 0, 7));
    rig.map(31, 0x0000_1000, 0x0000_1001);
    rig.completes("read-only page", |cpu| cpu.registers[1] = 7);
}

#[test]
fn faults_of_the_fetch_come_before_those_of_the_instruction() {
    let mut rig = Rig::in_user_mode(0xFFFF_FFFF);
    rig.cpu.pc = 0x0000_1002;
    assert_eq!(rig.clone().step(), 24);
    rig.cpu.pc = 0x0000_1000;
    assert_eq!(rig.clone().step(), 17);
    rig.map(31, 0x0000_1000, 0x0000_1002);
    assert_eq!(rig.clone().step(), 23);
}

#[test]
fn faulting_access_keeps_registers_and_memory() {
    for word in [ldw(1, 1, 0), ldw(31, 1, 0), ldh(1, 1, 0), ldbu(1, 1, 0)] {
        let rig = access(true, word, 0x9000_0000);
        rig.faults("load", 25, 0x0219_0000, 0xE000_0004, |cpu| {
            cpu.bad_address = 0x9000_0000;
        });
    }
    // A load to R30 that faults leaves the return address there.
    let mut rig = access(false, ldw(30, 1, 0), 0xC000_2000);
    put(&mut rig.ram, 0x1000, 0xFFFF_FFFF);
    rig.faults("R30", 16, 0x0010_0000, 0xE000_0004, |_| {});
}
