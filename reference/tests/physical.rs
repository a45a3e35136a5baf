//! Physical memory (document 01, "What the host lends" and "Closed by us").

use crate::common;
use crate::common::{get, put, Rig};
use eco32_reference::asm::*;
use eco32_reference::{Fault, Memory, Width};

const WIDTHS: [Width; 3] = [Width::Byte, Width::Half, Width::Word];

#[test]
fn regions_answer_for_their_length() {
    let mut ram = vec![0; 8192];
    let rom: Vec<u8> = (0..4096).map(|n| n as u8).collect();
    let mut belt = vec![0; 1024];
    put(&mut ram, 0, 0x1122_3344);
    put(&mut ram, 0x1FFC, 0x5566_7788);
    put(&mut belt, 0, 0x99AA_BBCC);
    put(&mut belt, 0x3FC, 0xDDEE_FF00);
    let memory = Memory {
        ram: &mut ram,
        rom: &rom,
        belt: &mut belt,
    };
    let timeout = Err(Fault::BusTimeout);
    let table = [
        (0x0000_0000, [Ok(0x11), Ok(0x1122), Ok(0x1122_3344)]),
        (0x0000_1FFC, [Ok(0x55), Ok(0x5566), Ok(0x5566_7788)]),
        (0x0000_1FFE, [Ok(0x77), Ok(0x7788), timeout]),
        (0x0000_1FFF, [Ok(0x88), timeout, timeout]),
        (0x0000_2000, [timeout; 3]),
        (0x1FFF_FFFC, [timeout; 3]),
        (0x2000_0000, [Ok(0x00), Ok(0x0001), Ok(0x0001_0203)]),
        (0x2000_0FFC, [Ok(0xFC), Ok(0xFCFD), Ok(0xFCFD_FEFF)]),
        (0x2000_1000, [timeout; 3]),
        (0x3000_0000, [timeout; 3]),
        (0x304F_FFFC, [timeout; 3]),
        (0x3050_0000, [timeout, timeout, Ok(0x99AA_BBCC)]),
        (0x3050_03FC, [timeout, timeout, Ok(0xDDEE_FF00)]),
        (0x3050_0400, [timeout; 3]),
        (0x3FFF_FFFC, [timeout; 3]),
        (0x4000_0000, [timeout; 3]),
        (0xC000_0000, [timeout; 3]),
        (0xE000_0000, [timeout; 3]),
        (0xFFFF_FFFC, [timeout; 3]),
        (0xFFFF_FFFF, [timeout; 3]),
    ];
    for (address, answers) in table {
        for (width, answer) in WIDTHS.into_iter().zip(answers) {
            let loaded = memory.load(address, width);
            assert_eq!(loaded, answer, "{address:08X} {width:?}");
        }
    }
}

#[test]
fn stores_of_each_width() {
    let mut rig = Rig::new();
    let mut memory = rig.memory();
    assert_eq!(memory.store(0x10, Width::Word, 0xA1B2_C3D4), Ok(()));
    assert_eq!(memory.store(0x12, Width::Half, 0xFFFF_1234), Ok(()));
    assert_eq!(memory.store(0x11, Width::Byte, 0xFFFF_FF77), Ok(()));
    let belt_word = memory.store(0x3050_0008, Width::Word, 0x0102_0304);
    assert_eq!(belt_word, Ok(()));
    for width in [Width::Byte, Width::Half] {
        let stored = memory.store(0x3050_0008, width, 0xFF);
        assert_eq!(stored, Err(Fault::BusTimeout));
    }
    for width in WIDTHS {
        assert_eq!(memory.store(0x2000_0000, width, 0xFFFF_FFFF), Ok(()));
        let stored = memory.store(0x0000_2000, width, 0xFFFF_FFFF);
        assert_eq!(stored, Err(Fault::BusTimeout));
    }
    let mut ram = vec![0; 8192];
    put(&mut ram, 0x10, 0xA177_1234);
    assert!(rig.ram == ram);
    assert!(rig.rom.iter().all(|&byte| byte == 0));
    assert_eq!(get(&rig.belt, 8), 0x0102_0304);
    assert!(rig.belt[12..].iter().all(|&byte| byte == 0));
}

#[test]
fn any_length_is_answered_without_a_panic() {
    let bases = [0x0000_0000, 0x2000_0000, 0x3050_0000u32];
    for length in 0..10usize {
        let mut ram = vec![1; length];
        let rom = vec![2; length];
        let mut belt = vec![3; length];
        let mut memory = Memory {
            ram: &mut ram,
            rom: &rom,
            belt: &mut belt,
        };
        for base in bases {
            for offset in 0..12u32 {
                for width in WIDTHS {
                    let inside = offset as usize + width.bytes() <= length;
                    let answers = inside && (base != 0x3050_0000 || width == Width::Word);
                    let address = base + offset;
                    let what = format!("length {length}, {address:08X} {width:?}");
                    assert_eq!(memory.load(address, width).is_ok(), answers, "{what}");
                    assert_eq!(memory.store(address, width, 0).is_ok(), answers, "{what}");
                }
            }
        }
        let last = memory.load(0xFFFF_FFFF, Width::Word);
        assert_eq!(last, Err(Fault::BusTimeout));
    }
}

#[test]
fn the_largest_memories_answer_up_to_their_end() {
    let mut rig = Rig::with_rom(&[]);
    rig.ram = vec![0; 536_870_912];
    rig.rom = vec![0; 268_435_456];
    put(&mut rig.ram, 0x1FFF_FFFC, 0x0102_0304);
    put(&mut rig.rom, 0x0FFF_FFFC, 0x0506_0708);
    let mut memory = rig.memory();
    assert_eq!(memory.load(0x1FFF_FFFC, Width::Word), Ok(0x0102_0304));
    assert_eq!(memory.load(0x1FFF_FFFF, Width::Byte), Ok(0x04));
    assert_eq!(memory.load(0x2000_0000, Width::Word), Ok(0));
    assert_eq!(memory.load(0x2FFF_FFFC, Width::Word), Ok(0x0506_0708));
    let behind = memory.load(0x3000_0000, Width::Byte);
    assert_eq!(behind, Err(Fault::BusTimeout));
    assert_eq!(memory.store(0x1FFF_FFFE, Width::Half, 0xABCD), Ok(()));
    assert_eq!(get(&rig.ram, 0x1FFF_FFFC), 0x0102_ABCD);
}

#[test]
fn rom_store_completes() {
    for op in [stw, sth, stb] {
        let rig = Rig::with_rom(&[op(3, 1, 0)])
            .set(1, 0xE000_0100)
            .set(3, 0xFFFF_FFFF);
        rig.completes("ROM store", |_| {});
    }
}

#[test]
fn belt_registers_are_words() {
    let mut rig = Rig::with_rom(&[ldw(3, 1, 0), stw(4, 1, 4), ldw(3, 1, 4)])
        .set(1, 0xF050_0100)
        .set(4, 0x0BAD_CAFE);
    put(&mut rig.belt, 0x100, 0x0102_0304);
    assert_eq!(rig.step(), 32);
    assert_eq!(rig.cpu.registers[3], 0x0102_0304);
    assert_eq!(rig.step(), 32);
    assert_eq!(get(&rig.belt, 0x104), 0x0BAD_CAFE);
    assert_eq!(rig.step(), 32);
    assert_eq!(rig.cpu.registers[3], 0x0BAD_CAFE);
    for op in [ldh, ldhu, ldb, ldbu, sth, stb] {
        let rig = Rig::with_rom(&[op(3, 1, 0)]).set(1, 0xF050_0100).set(3, 7);
        rig.faults("belt", 16, 0x0010_0000, 0xE000_0004, |_| {});
    }
    // Alignment comes before the bus.
    let rig = Rig::with_rom(&[ldh(3, 1, 1)]).set(1, 0xF050_0100);
    rig.faults("belt", 24, 0x0018_0000, 0xE000_0004, |cpu| {
        cpu.bad_address = 0xF050_0101;
    });
}

#[test]
fn instructions_are_fetched_from_every_region() {
    let mut rig = Rig::new();
    put(&mut rig.ram, 0x1FFC, addi(1, 0, 1));
    put(&mut rig.rom, 0xFFC, addi(1, 0, 2));
    put(&mut rig.belt, 0x3FC, addi(1, 0, 3));
    for (pc, value) in [(0xC000_1FFC, 1), (0xE000_0FFC, 2), (0xF050_03FC, 3)] {
        rig.cpu.pc = pc;
        rig.completes(&format!("{pc:08X}"), |cpu| cpu.registers[1] = value);
        let mut behind = rig.clone();
        behind.cpu.pc = pc + 4;
        behind.faults("behind", 16, 0x0010_0000, 0xE000_0004, |_| {});
    }
    // ROM and belt registers behind page-mapped addresses.
    rig.map(0, 0x0000_0000, 0x2000_0001);
    rig.map(1, 0x0000_1000, 0x3050_0001);
    for (pc, value) in [(0x0000_0FFC, 2), (0x0000_13FC, 3)] {
        rig.cpu.pc = pc;
        rig.cpu.psw = common::USER;
        rig.completes(&format!("{pc:08X}"), |cpu| cpu.registers[1] = value);
    }
}

#[test]
fn any_machine_steps_without_a_panic() {
    let mut numbers = common::Numbers(8);
    for _ in 0..3000 {
        let mut rig = Rig::new();
        rig.ram.truncate((numbers.next() % 40) as usize);
        rig.rom.truncate((numbers.next() % 40) as usize);
        rig.belt.truncate((numbers.next() % 40) as usize);
        rig.rom.fill_with(|| numbers.next() as u8);
        for register in rig.cpu.registers.iter_mut() {
            *register = numbers.next();
        }
        rig.cpu.psw = numbers.next() & !common::USER;
        rig.cpu.tlb_index = numbers.next();
        rig.cpu.entry_high = numbers.next();
        rig.cpu.entry_low = numbers.next();
        for entry in rig.cpu.tlb.iter_mut() {
            entry.high = numbers.next();
            entry.low = numbers.next();
        }
        rig.cpu.replacement = numbers.next() as u8;
        rig.cpu.timer = common::timer(numbers.next(), numbers.next() % 4, numbers.next() as u8);
        for _ in 0..4 {
            let eid = rig.step_with(numbers.next() as u16);
            assert!(eid <= 25 || eid == 32);
        }
    }
}
