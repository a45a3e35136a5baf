//! Load and store instructions (manual 3.5).

use crate::common::{get, moved, put, Rig};
use eco32_reference::asm::*;

type Transfer = fn(u32, u32, i32) -> u32;

/// RAM words that the loads below read.
fn rig(word: u32) -> Rig {
    let mut rig = Rig::with_rom(&[word]);
    put(&mut rig.ram, 0x100, 0x8182_7F03);
    put(&mut rig.ram, 0x104, 0x0102_FFFE);
    rig
}

#[test]
fn loads_extend_to_32_bits() {
    let table: [(&str, Transfer, i32, u32); 19] = [
        ("LDW", ldw, 0, 0x8182_7F03),
        ("LDW", ldw, 4, 0x0102_FFFE),
        ("LDW", ldw, -4, 0x0000_0000),
        ("LDH", ldh, 0, 0xFFFF_8182),
        ("LDH", ldh, 2, 0x0000_7F03),
        ("LDH", ldh, 6, 0xFFFF_FFFE),
        ("LDHU", ldhu, 0, 0x0000_8182),
        ("LDHU", ldhu, 2, 0x0000_7F03),
        ("LDHU", ldhu, 6, 0x0000_FFFE),
        ("LDB", ldb, 0, 0xFFFF_FF81),
        ("LDB", ldb, 1, 0xFFFF_FF82),
        ("LDB", ldb, 2, 0x0000_007F),
        ("LDB", ldb, 3, 0x0000_0003),
        ("LDB", ldb, 7, 0xFFFF_FFFE),
        ("LDBU", ldbu, 0, 0x0000_0081),
        ("LDBU", ldbu, 1, 0x0000_0082),
        ("LDBU", ldbu, 2, 0x0000_007F),
        ("LDBU", ldbu, 3, 0x0000_0003),
        ("LDBU", ldbu, 7, 0x0000_00FE),
    ];
    for (name, op, offset, result) in table {
        let what = format!("{name} {offset}");
        let loaded = rig(op(3, 1, offset)).set(1, 0xC000_0100).set(3, 0x55);
        loaded.completes(&what, |cpu| cpu.registers[3] = result);
        let loaded = rig(op(1, 1, offset)).set(1, 0xC000_0100);
        loaded.completes(&what, |cpu| cpu.registers[1] = result);
        let loaded = rig(op(0, 1, offset)).set(1, 0xC000_0100);
        loaded.completes(&what, |_| {});
    }
}

#[test]
fn stores_write_their_width_only() {
    let table: [(&str, Transfer, i32, u32, u32); 9] = [
        ("STW", stw, 0, 0xA1B2_C3D4, 0x0102_FFFE),
        ("STW", stw, 4, 0x8182_7F03, 0xA1B2_C3D4),
        ("STH", sth, 0, 0xC3D4_7F03, 0x0102_FFFE),
        ("STH", sth, 2, 0x8182_C3D4, 0x0102_FFFE),
        ("STB", stb, 0, 0xD482_7F03, 0x0102_FFFE),
        ("STB", stb, 1, 0x81D4_7F03, 0x0102_FFFE),
        ("STB", stb, 2, 0x8182_D403, 0x0102_FFFE),
        ("STB", stb, 3, 0x8182_7FD4, 0x0102_FFFE),
        ("STB", stb, 4, 0x8182_7F03, 0xD402_FFFE),
    ];
    for (name, op, offset, first, second) in table {
        let mut rig = rig(op(3, 1, offset))
            .set(1, 0xC000_0100)
            .set(3, 0xA1B2_C3D4);
        let mut cpu = rig.cpu.clone();
        let mut ram = rig.ram.clone();
        cpu.pc = 0xE000_0004;
        cpu.replacement = moved(cpu.replacement, 1);
        put(&mut ram, 0x100, first);
        put(&mut ram, 0x104, second);
        assert_eq!(rig.step(), 32);
        assert_eq!(rig.cpu, cpu, "{name} {offset}");
        assert!(rig.ram == ram, "{name} {offset}");
    }
    // R0 stores 0.
    let mut rig = rig(stw(0, 1, 0)).set(1, 0xC000_0100);
    rig.step();
    assert_eq!(get(&rig.ram, 0x100), 0);
}

#[test]
fn addresses_are_sums_modulo_2_32() {
    let mut rig = Rig::with_rom(&[ldw(3, 1, 8), ldw(3, 1, -0x8000), ldw(3, 0, -4)]);
    rig.map(7, 0x0000_0000, 0x0000_1001);
    rig.map(8, 0x7FFF_8000, 0x0000_1001);
    put(&mut rig.ram, 0x1004, 0x77);
    put(&mut rig.ram, 0x1000, 0x88);
    rig.cpu.registers[1] = 0xFFFF_FFFC;
    assert_eq!(rig.step(), 32);
    assert_eq!(rig.cpu.registers[3], 0x77);
    rig.cpu.registers[1] = 0x8000_0000;
    assert_eq!(rig.step(), 32);
    assert_eq!(rig.cpu.registers[3], 0x88);
    // FFFFFFFC is physical 3FFFFFFC
    assert_eq!(rig.step(), 16);
}

#[test]
fn page_mapped_access_goes_through_the_frame() {
    let mut rig = Rig::in_user_mode(ldw(3, 1, 0));
    rig.map(5, 0x1234_5000, 0x0000_0001);
    put(&mut rig.ram, 0x0ABC, 0xCAFE_0001);
    let rig = rig.set(1, 0x1234_5ABC);
    rig.completes("user load", |cpu| cpu.registers[3] = 0xCAFE_0001);

    // Kernel space, Kernel Mode, writable entry in the frame of RAM's end.
    let mut rig = Rig::with_rom(&[sth(3, 1, 0)]);
    rig.map(0, 0xBFFF_F000, 0x0000_1003);
    let mut rig = rig.set(1, 0xBFFF_FFFE).set(3, 0x1234_5678);
    assert_eq!(rig.step(), 32);
    assert_eq!(get(&rig.ram, 0x1FFC), 0x0000_5678);
}

#[test]
fn misaligned_access_gives_24() {
    let table: [(&str, Transfer, u32, bool); 16] = [
        ("LDW", ldw, 1, true),
        ("LDW", ldw, 2, true),
        ("LDW", ldw, 3, true),
        ("LDH", ldh, 1, true),
        ("LDH", ldh, 2, false),
        ("LDH", ldh, 3, true),
        ("LDHU", ldhu, 1, true),
        ("LDHU", ldhu, 2, false),
        ("LDB", ldb, 1, false),
        ("LDBU", ldbu, 3, false),
        ("STW", stw, 1, true),
        ("STW", stw, 2, true),
        ("STW", stw, 3, true),
        ("STH", sth, 1, true),
        ("STH", sth, 2, false),
        ("STB", stb, 3, false),
    ];
    for (name, op, low_bits, illegal) in table {
        let address = 0xC000_0200 | low_bits;
        let rig = Rig::with_rom(&[op(3, 1, 0)]).set(1, address).set(3, 0);
        let what = format!("{name} {low_bits}");
        if illegal {
            rig.faults(&what, 24, 0x0018_0000, 0xE000_0004, |cpu| {
                cpu.bad_address = address;
            });
        } else {
            rig.completes(&what, |_| {});
        }
    }
}

#[test]
fn every_transfer_can_time_out() {
    let transfers: [Transfer; 8] = [ldw, ldh, ldhu, ldb, ldbu, stw, sth, stb];
    // First addresses behind RAM, ROM, the timer's registers and the belt's,
    // last before the belt's, and the end of the direct-mapped space.
    let holes = [
        0xC000_2000,
        0xDFFF_FFFC,
        0xE000_1000,
        0xF000_0008,
        0xF04F_FFFC,
        0xF050_0400,
        0xFFFF_FFFC,
    ];
    for op in transfers {
        for address in holes {
            let rig = Rig::with_rom(&[op(3, 1, 0)]).set(1, address).set(3, 9);
            let what = format!("{address:08X}");
            rig.faults(&what, 16, 0x0010_0000, 0xE000_0004, |_| {});
        }
        // A frame above the used physical addresses.
        for low in [0x4000_0003, 0x8000_0003, 0xC000_0003, 0xFFFF_F003] {
            let mut rig = Rig::with_rom(&[op(3, 1, 0)]).set(1, 0x8000_0000);
            rig.map(3, 0x8000_0000, low);
            rig.faults("frame", 16, 0x0010_0000, 0xE000_0004, |_| {});
        }
    }
}
