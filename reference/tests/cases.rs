//! Document 01, "Cases", with the mistakes listed at the end of it.

use crate::common;
use crate::common::{Rig, USER};
use eco32_reference::{host, page_view, read_record, write_record, Processor};

#[test]
fn addi_at_reset() {
    let rig = Rig::with_rom(&[0x0401_0005]);
    rig.completes("04010005", |cpu| cpu.registers[1] = 5);
    assert_eq!(rig.cpu.pc, 0xE000_0000);
}

#[test]
fn sum_wraps() {
    // ADD R3, R1, R2
    let rig = Rig::with_rom(&[0x0022_1800]).set(1, 0xFFFF_FFFF).set(2, 1);
    rig.completes("ADD", |cpu| cpu.registers[3] = 0);
}

#[test]
fn jump_by_minus_one_stays() {
    let rig = Rig::with_rom(&[0xABFF_FFFF]);
    rig.completes("J", |cpu| cpu.pc = 0xE000_0000);
}

#[test]
fn sar_by_33() {
    // SAR R3, R1, R2
    let rig = Rig::with_rom(&[0x7022_1800]).set(1, 0x8000_0000).set(2, 33);
    rig.completes("SAR", |cpu| cpu.registers[3] = 0xC000_0000);
}

#[test]
fn blt_and_bltu() {
    // BLT R1, R0, 1 and BLTU R1, R0, 1
    let rig = Rig::with_rom(&[0x9020_0001]).set(1, 0xFFFF_FFFF);
    rig.completes("BLT", |cpu| cpu.pc = 0xE000_0008);
    let rig = Rig::with_rom(&[0x9420_0001]).set(1, 0xFFFF_FFFF);
    rig.completes("BLTU", |_| {});
}

#[test]
fn jalr_through_r31() {
    let rig = Rig::with_rom(&[0xB7E0_0000]).set(31, 0xC000_0040);
    rig.completes("JALR", |cpu| {
        cpu.pc = 0xC000_0040;
        cpu.registers[31] = 0xE000_0004;
    });
}

#[test]
fn div_by_zero_from_reset() {
    // DIV R3, R1, R2
    let rig = Rig::with_rom(&[0x2022_1800]);
    rig.faults("DIV", 19, 0x0013_0000, 0xE000_0004, |_| {});
}

#[test]
fn interrupt_14_and_return() {
    let mut rig = Rig::new();
    rig.cpu.psw = 0x0C80_4000;
    common::put(&mut rig.ram, 4, 0xBC00_0000); // RFX at C0000004
    assert_eq!(rig.step_with(0x4000), 14);
    assert_eq!(rig.cpu.psw, 0x0A4E_4000);
    assert_eq!(rig.cpu.pc, 0xC000_0004);
    assert_eq!(rig.step_with(0x4000), 32);
    assert_eq!(rig.cpu.psw, 0x0C8E_4000);
    assert_eq!(rig.cpu.pc, 0xE000_0000);
}

#[test]
fn user_word_load_from_kernel_space() {
    // LDW R3, R1, 0
    let rig = |address| Rig::in_user_mode(0xC023_0000).set(1, address);
    rig(0x8000_0002).faults("24", 24, 0x0218_0000, 0xE000_0004, |cpu| {
        cpu.bad_address = 0x8000_0002;
    });
    rig(0x8000_0000).faults("25", 25, 0x0219_0000, 0xE000_0004, |cpu| {
        cpu.bad_address = 0x8000_0000;
    });
}

#[test]
fn miss_vectors() {
    // LDW R3, R1, 0
    let rig = |address| Rig::with_rom(&[0xC023_0000]).set(1, address);
    rig(0x0000_1000).faults("user space", 21, 0x0015_0000, 0xE000_0008, |cpu| {
        cpu.bad_address = 0x0000_1000;
        cpu.entry_high = 0x0000_1000;
    });
    rig(0x8000_0000).faults("kernel space", 21, 0x0015_0000, 0xE000_0004, |cpu| {
        cpu.bad_address = 0x8000_0000;
        cpu.entry_high = 0x8000_0000;
    });
}

#[test]
fn store_through_a_protected_entry() {
    // STW R3, R1, 0
    for (low, eid, psw) in [(0, 23, 0x0017_0000), (1, 22, 0x0016_0000)] {
        let mut rig = Rig::with_rom(&[0xD423_0000]).set(1, 0x0000_1000);
        rig.map(0, 0x0000_1000, low);
        rig.faults("store", eid, psw, 0xE000_0004, |cpu| {
            cpu.bad_address = 0x0000_1000;
            cpu.entry_high = 0x0000_1000;
        });
    }
}

#[test]
fn a_million_steps_and_one_more() {
    // J by -1
    let mut rig = Rig::with_rom(&[0xABFF_FFFF]);
    let mut machine = rig.cpu.clone();
    let answer = machine.run(&mut rig.memory(), 1_000_000, 0);
    assert_eq!((answer.refusal, answer.steps), (0, 1_000_000));
    let answer = machine.run(&mut rig.memory(), 1_000_001, 0);
    assert_eq!((answer.refusal, answer.steps), (7, 0));
    let answer = machine.run_to_exception(&mut rig.memory(), 1_000_000, 0);
    assert_eq!(
        (answer.refusal, answer.steps, answer.eid),
        (0, 1_000_000, 32)
    );
    let answer = machine.run_to_exception(&mut rig.memory(), 1_000_001, 0);
    assert_eq!((answer.refusal, answer.steps, answer.eid), (7, 0, 32));
}

#[test]
fn record_lengths() {
    // Writing takes 424 bytes, reading 414 as well (document 02, job 1).
    let mut whole = [0; 424];
    assert_eq!(host::reset(&mut whole), 0);
    for (length, writing, reading) in [
        (413, 4, 4),
        (414, 4, 0),
        (415, 4, 4),
        (423, 4, 4),
        (424, 0, 0),
        (425, 4, 4),
    ] {
        let mut record = whole.to_vec();
        record.resize(length, 0);
        assert_eq!(read_record(&record).0, reading);
        assert_eq!(write_record(&Processor::reset(), &mut record), writing);
        assert_eq!(host::reset(&mut record), writing);
    }
}

#[test]
fn ram_lengths() {
    for (length, refusal) in [(0, 1), (4096, 0), (4097, 1)] {
        let mut rig = Rig::new();
        rig.ram = vec![0; length];
        let mut machine = Processor::reset();
        assert_eq!(machine.run(&mut rig.memory(), 1, 0).refusal, refusal);
        let view = page_view(&rig.ram, &Processor::reset(), 0xC0000);
        assert_eq!(view.refusal, refusal);
    }
}

#[test]
fn listed_mistakes() {
    // MVFS R3, 0 in User Mode
    let rig = Rig::in_user_mode(0xE003_0000).set(3, 5);
    rig.faults("MVFS", 18, 0x0212_0000, 0xE000_0004, |_| {});
    // LDW R1, R1, 0 that faults
    let rig = Rig::in_user_mode(0xC021_0000).set(1, 0x0000_5000);
    rig.faults("half-done", 21, 0x0215_0000, 0xE000_0008, |cpu| {
        cpu.bad_address = 0x0000_5000;
        cpu.entry_high = 0x0000_5000;
    });
    // alignment before privilege, for the fetch
    let mut rig = Rig::new();
    rig.cpu.psw = USER;
    rig.cpu.pc = 0xE000_0001;
    assert_eq!(rig.step(), 24);
    // a cleared valid bit ends the search
    let mut rig = Rig::with_rom(&[0xC023_0000]).set(1, 0x0000_5000);
    rig.map(1, 0x0000_5000, 0x0000_0002);
    rig.map(2, 0x0000_5000, 0x0000_0003);
    assert_eq!(rig.step(), 23);
    // + 8 from Kernel Mode too
    let mut rig = Rig::with_rom(&[0xC023_0000]).set(1, 0x7FFF_FFFC);
    assert_eq!(rig.step(), 21);
    assert_eq!(rig.cpu.pc, 0xE000_0008);
}
