//! Host calls on record bytes: order of checks, lent bytes, results.

use crate::common;
use crate::common::{get, Numbers, Rig};
use eco32_reference::asm::*;
use eco32_reference::{host, write_record, Answer, Processor, Timer};

fn record_of(machine: &Processor) -> Vec<u8> {
    let mut record = vec![0; 424];
    assert_eq!(write_record(machine, &mut record), 0);
    record
}

/// Damages a record: length, kind byte, never-kept bit.
fn damaged(record: &[u8], length: bool, kind: bool, bit: bool) -> Vec<u8> {
    let mut record = record.to_vec();
    if bit {
        record[135] |= 0x80;
    }
    if kind {
        record[129] = 9;
    }
    if length {
        record.truncate(423);
    }
    record
}

#[test]
fn reset() {
    for (length, refusal) in [(0, 4), (413, 4), (414, 4), (423, 4), (424, 0), (425, 4)] {
        let mut machine = vec![0x77; length];
        assert_eq!(host::reset(&mut machine), refusal);
        if refusal == 0 {
            assert_eq!(machine, record_of(&Processor::reset()));
        } else {
            assert!(machine.iter().all(|&byte| byte == 0x77));
        }
    }
}

#[test]
fn record_calls() {
    let whole = record_of(&Numbers(6).fit_machine());
    for call in [host::read_record, host::write_record] {
        for causes in 0..16u32 {
            let holds = |n: u32| causes >> n & 1 == 1;
            let from = damaged(&whole, holds(0), holds(2), holds(3));
            let mut to = vec![0x77; if holds(1) { 414 } else { 424 }];
            let refusal = match causes.trailing_zeros() {
                0 | 1 => 4,
                2 => 5,
                3 => 6,
                _ => 0,
            };
            assert_eq!(call(&from, &mut to), refusal, "{causes:04b}");
            if refusal == 0 {
                assert_eq!(to, whole);
            } else {
                assert!(to.iter().all(|&byte| byte == 0x77));
            }
        }
    }
}

/// A record or machine from before the timer is read where it is not written.
#[test]
fn old_records() {
    let mut processor = Numbers(10).fit_machine();
    let old = record_of(&processor)[..414].to_vec();
    processor.timer = Timer::default();
    let new = record_of(&processor);
    for call in [host::read_record, host::write_record] {
        for (length, refusal) in [(413, 4), (414, 4), (423, 4), (424, 0), (425, 4)] {
            let mut to = vec![0x77; length];
            assert_eq!(call(&old, &mut to), refusal, "{length}");
            let left = if refusal == 0 {
                new.clone()
            } else {
                vec![0x77; length]
            };
            assert_eq!(to, left);
        }
        for (kind, bit, refusal) in [(true, true, 5), (true, false, 5), (false, true, 6)] {
            let mut to = vec![0x77; 424];
            let from = damaged(&old, false, kind, bit);
            assert_eq!(call(&from, &mut to), refusal);
            assert!(to.iter().all(|&byte| byte == 0x77));
        }
    }
    // A run writes its machine.
    for call in [host::run, host::run_to_exception] {
        let mut rig = program();
        let before = rig.clone();
        for wanted in [0, 6, 1_000_001] {
            let mut machine = record_of(&rig.cpu)[..414].to_vec();
            let unchanged = machine.clone();
            let (ram, belt) = (&mut rig.ram, &mut rig.belt);
            let answer = call(&mut machine, ram, &rig.rom, belt, wanted, 0);
            assert_eq!(answer, Answer::refused(4));
            assert_eq!(machine, unchanged);
            before.memory_equals(&rig, "refused");
        }
    }
}

/// ROM that counts in R1 and stores the count in RAM and belt registers, then
/// traps to RAM.
fn program() -> Rig {
    let words = [
        addi(1, 1, 1),
        ldhi(2, 0xC000),
        ldhi(3, 0xF050),
        stw(1, 2, 0x20),
        stw(1, 3, 0x10),
        trap(),
    ];
    let mut rig = Rig::with_rom(&words);
    rig.cpu.psw = 0x0800_0000;
    rig
}

#[test]
fn runs_equal_runs_by_value() {
    for to_exception in [false, true] {
        for wanted in [0, 1, 3, 5, 6, 7, 20] {
            let mut by_value = program();
            let mut cpu = by_value.cpu.clone();
            let mut rig = program();
            let mut machine = record_of(&rig.cpu);
            let (ram, rom, belt) = (&mut rig.ram, &rig.rom, &mut rig.belt);
            let (expected, answer) = if to_exception {
                (
                    cpu.run_to_exception(&mut by_value.memory(), wanted, 0),
                    host::run_to_exception(&mut machine, ram, rom, belt, wanted, 0),
                )
            } else {
                (
                    cpu.run(&mut by_value.memory(), wanted, 0),
                    host::run(&mut machine, ram, rom, belt, wanted, 0),
                )
            };
            assert_eq!(answer, expected);
            assert_eq!(machine, record_of(&cpu));
            rig.memory_equals(&by_value, "run");
        }
    }
}

#[test]
fn run_results() {
    let mut rig = program();
    let mut machine = record_of(&rig.cpu);
    let answer = host::run_to_exception(
        &mut machine,
        &mut rig.ram,
        &rig.rom,
        &mut rig.belt,
        1_000_000,
        0,
    );
    let expected = Answer {
        refusal: 0,
        steps: 6,
        eid: 20,
        slot: 33,
    };
    assert_eq!(answer, expected);
    assert_eq!(get(&rig.ram, 0x20), 1);
    assert_eq!(get(&rig.belt, 0x10), 1);
    assert_eq!(get(&machine, 130), 0xC000_0004);
    assert_eq!(get(&machine, 135), 0x0814_0000);
    assert_eq!(get(&machine, 1 + 4 * 30), 0xE000_0014);
    // Interrupt lines reach the machine: I_C and channel 3.
    common::put(&mut machine, 135, 0x0080_0008);
    let answer = host::run(
        &mut machine,
        &mut rig.ram,
        &rig.rom,
        &mut rig.belt,
        1,
        0x0008,
    );
    assert_eq!((answer.refusal, answer.steps, answer.eid), (0, 1, 32));
    assert_eq!(get(&machine, 135), 0x0043_0008);
}

#[test]
fn run_refusals_in_table_order() {
    // One bit for each of the causes 1 to 7.
    for causes in 0..128u32 {
        let holds = |n: u32| causes >> n & 1 == 1;
        let mut rig = program();
        rig.ram.truncate(if holds(0) { 8191 } else { 8192 });
        rig.rom.truncate(if holds(1) { 4095 } else { 4096 });
        rig.belt.truncate(if holds(2) { 1023 } else { 1024 });
        let machine = damaged(&record_of(&rig.cpu), holds(3), holds(4), holds(5));
        let wanted = if holds(6) { 1_000_001 } else { 6 };
        let refusal = match causes {
            0 => 0,
            _ => causes.trailing_zeros() + 1,
        };
        for call in [host::run, host::run_to_exception] {
            let mut after = rig.clone();
            let mut after_machine = machine.clone();
            let answer = call(
                &mut after_machine,
                &mut after.ram,
                &after.rom,
                &mut after.belt,
                wanted,
                0,
            );
            assert_eq!(answer.refusal, refusal, "{causes:07b}");
            if refusal == 0 {
                assert_eq!(answer.steps, 6);
                assert_ne!(after_machine, machine);
            } else {
                assert_eq!(answer, Answer::refused(refusal));
                assert_eq!(after_machine, machine);
                rig.memory_equals(&after, "refused");
            }
        }
    }
}

#[test]
fn page_views() {
    let ram = vec![0; 12288];
    // One bit for each of the causes 1, 4, 5, 6, 8.
    for causes in 0..32u32 {
        let holds = |n: u32| causes >> n & 1 == 1;
        let ram = if holds(0) { &ram[..4097] } else { &ram[..] };
        let whole = record_of(&Processor::reset());
        let machine = damaged(&whole, holds(1), holds(2), holds(3));
        let page = if holds(4) { 0xC0003 } else { 0xC0002 };
        let refusal = match causes.trailing_zeros() {
            0 => 1,
            n @ 1..=3 => n + 3,
            4 => 8,
            _ => 0,
        };
        let old = damaged(&whole[..414], holds(1), holds(2), holds(3));
        let old = &old[..if holds(1) { 413 } else { 414 }];
        for machine in [&machine, old] {
            let view = host::page_view(ram, machine, page);
            assert_eq!(view.refusal, refusal, "{causes:05b}");
            let place = match refusal {
                0 => (32, 8192, 4096),
                _ => (33, 0, 0),
            };
            assert_eq!((view.slot, view.offset, view.length), place);
        }
    }
}
