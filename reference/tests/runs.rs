//! Runs by value (document 01, "Runs and views" and "Refused calls").

use crate::common::{get, Numbers, Rig};
use eco32_reference::asm::*;
use eco32_reference::{Answer, Memory, Processor};

/// The answer of a run whose last step has no slot.
fn answer(refusal: u32, steps: u32, eid: u32) -> Answer {
    Answer {
        refusal,
        steps,
        eid,
        slot: 33,
    }
}

/// That of a run whose last step has a direct-mapped access.
fn direct(steps: u32) -> Answer {
    Answer {
        slot: 32,
        ..answer(0, steps, 32)
    }
}

fn run(rig: &mut Rig, wanted: u64, lines: u16) -> Answer {
    let mut memory = Memory {
        ram: &mut rig.ram,
        rom: &rig.rom,
        belt: &mut rig.belt,
    };
    rig.cpu.run(&mut memory, wanted, lines)
}

fn run_to_exception(rig: &mut Rig, wanted: u64, lines: u16) -> Answer {
    let mut memory = Memory {
        ram: &mut rig.ram,
        rom: &rig.rom,
        belt: &mut rig.belt,
    };
    rig.cpu.run_to_exception(&mut memory, wanted, lines)
}

/// Counts in R1, stores the count at C0000000, traps on the fifth step.
fn counter() -> Rig {
    let words = [
        addi(1, 1, 1),
        ldhi(2, 0xC000),
        stw(1, 2, 0),
        addi(1, 1, 1),
        trap(),
    ];
    let mut rig = Rig::with_rom(&words);
    // Exceptions are served in RAM, which holds zeros: ADD R0, R0, R0.
    rig.cpu.psw = 0x0800_0000;
    rig
}

#[test]
fn plain_run_makes_the_wanted_steps() {
    for wanted in 0..12 {
        let mut rig = counter();
        let mut single = counter();
        let expected = match wanted as u32 {
            3 => direct(3),
            steps => answer(0, steps, 32),
        };
        assert_eq!(run(&mut rig, wanted, 0), expected);
        for _ in 0..wanted {
            single.step();
        }
        assert_eq!(rig.cpu, single.cpu);
        rig.memory_equals(&single, "run");
    }
    // Past the trap: four ordinary steps, the trap, then three of zeros.
    let mut rig = counter();
    run(&mut rig, 8, 0);
    assert_eq!(rig.cpu.pc, 0xC000_0010);
    assert_eq!(rig.cpu.psw, 0x0814_0000);
    assert_eq!(rig.cpu.registers[30], 0xE000_0010);
    assert_eq!(rig.cpu.registers[1], 2);
    assert_eq!(get(&rig.ram, 0), 1);
}

#[test]
fn run_to_exception_stops_behind_the_exception() {
    let table = [
        (0, answer(0, 0, 32)),
        (1, answer(0, 1, 32)),
        (3, direct(3)),
        (4, answer(0, 4, 32)),
        (5, answer(0, 5, 20)),
        (6, answer(0, 5, 20)),
        (1_000_000, answer(0, 5, 20)),
    ];
    for (wanted, expected) in table {
        let mut rig = counter();
        assert_eq!(run_to_exception(&mut rig, wanted, 0), expected);
        let mut single = counter();
        for _ in 0..expected.steps {
            single.step();
        }
        assert_eq!(rig.cpu, single.cpu);
        rig.memory_equals(&single, "run");
    }
}

#[test]
fn run_to_exception_names_interrupts() {
    let mut rig = counter();
    rig.cpu.psw = 0x0080_0021;
    assert_eq!(run_to_exception(&mut rig, 10, 0x20), answer(0, 1, 5));
    // The line is held for the whole call, channel 0 is EID 0.
    let mut rig = Rig::with_rom(&[addi(1, 0, 1), mvts(2, 0)]).set(2, 0x0080_0001);
    assert_eq!(run_to_exception(&mut rig, 10, 1), answer(0, 3, 0));
    assert_eq!(rig.cpu.registers[30], 0xE000_0008);
}

#[test]
fn zero_steps_change_nothing() {
    let before = {
        let mut rig = counter();
        rig.cpu = Numbers(5).fit_machine();
        rig.cpu.psw = 0x0080_FFFF;
        rig
    };
    let mut rig = before.clone();
    assert_eq!(run(&mut rig, 0, 0xFFFF), answer(0, 0, 32));
    assert_eq!(run_to_exception(&mut rig, 0, 0xFFFF), answer(0, 0, 32));
    assert_eq!(rig.cpu, before.cpu);
    before.memory_equals(&rig, "zero steps");
}

#[test]
fn refusals_in_table_order() {
    // One bit for each of the causes 1, 2, 3, 6, 7.
    for causes in 0..32u32 {
        let holds = |n: u32| causes >> n & 1 == 1;
        let mut rig = counter();
        rig.ram.truncate(if holds(0) { 8191 } else { 8192 });
        rig.rom.resize(if holds(1) { 4095 } else { 4096 }, 0);
        rig.belt.resize(if holds(2) { 1025 } else { 1024 }, 0);
        rig.cpu.replacement = if holds(3) { 32 } else { 31 };
        let wanted = if holds(4) { 1_000_001 } else { 3 };
        let refusal = match causes.trailing_zeros() {
            n @ 0..=2 => n + 1,
            n @ 3..=4 => n + 3,
            _ => 0,
        };
        for plain in [true, false] {
            let mut after = rig.clone();
            let result = if plain {
                run(&mut after, wanted, 0)
            } else {
                run_to_exception(&mut after, wanted, 0)
            };
            if refusal == 0 {
                assert_eq!(result, direct(3));
                assert_eq!(get(&after.ram, 0), 1);
            } else {
                assert_eq!(result, answer(refusal, 0, 32), "{causes:05b}");
                assert_eq!(after.cpu, rig.cpu);
                rig.memory_equals(&after, "refused");
            }
        }
    }
}

#[test]
fn lengths_at_their_bounds() {
    const RAM_MOST: usize = 536_870_912;
    const ROM_MOST: usize = 268_435_456;
    // RAM, ROM, belt, refusal. Zeroed pages are not touched by zero steps.
    let table = [
        (4096, 4096, 1024, 0),
        (4095, 4096, 1024, 1),
        (0, 4096, 1024, 1),
        (4097, 4096, 1024, 1),
        (6144, 4096, 1024, 1),
        (12288, 8192, 1024, 0),
        (RAM_MOST, 4096, 1024, 0),
        (RAM_MOST - 1, 4096, 1024, 1),
        (RAM_MOST + 4096, 4096, 1024, 1),
        (4096, 0, 1024, 2),
        (4096, 4095, 1024, 2),
        (4096, 4097, 1024, 2),
        (4096, ROM_MOST, 1024, 0),
        (4096, ROM_MOST + 4096, 1024, 2),
        (4096, RAM_MOST, 1024, 2),
        (4096, 4096, 0, 3),
        (4096, 4096, 1023, 3),
        (4096, 4096, 1025, 3),
        (4096, 4096, 4096, 3),
    ];
    for (ram, rom, belt, refusal) in table {
        let mut ram = vec![0; ram];
        let rom = vec![0; rom];
        let mut belt = vec![0; belt];
        let mut memory = Memory {
            ram: &mut ram,
            rom: &rom,
            belt: &mut belt,
        };
        let mut machine = Processor::reset();
        let result = machine.run(&mut memory, 0, 0);
        assert_eq!(result, answer(refusal, 0, 32));
        let result = machine.run_to_exception(&mut memory, 0, 0);
        assert_eq!(result, answer(refusal, 0, 32));
    }
}

#[test]
fn step_counts_at_their_bound() {
    for (wanted, refusal) in [
        (1_000_000, 0),
        (1_000_001, 7),
        (1 << 32, 7),
        ((1 << 32) + 3, 7),
        (u64::MAX, 7),
    ] {
        let mut rig = Rig::with_rom(&[j(-1)]);
        let result = run(&mut rig, wanted, 0);
        assert_eq!(result.refusal, refusal, "{wanted}");
    }
}

#[test]
fn a_run_keeps_the_machine_fit() {
    let mut numbers = Numbers(7);
    for _ in 0..100 {
        let mut rig = Rig::new();
        rig.cpu = numbers.fit_machine();
        rig.cpu.pc = 0xE000_0000 + (numbers.next() & 0xFFC);
        rig.cpu.psw &= 0x0BFF_FFFF; // Kernel Mode
        for byte in rig.rom.iter_mut().chain(rig.ram.iter_mut()) {
            *byte = numbers.next() as u8;
        }
        for _ in 0..50 {
            let lines = numbers.next() as u16;
            let result = run(&mut rig, 7, lines);
            assert_eq!((result.refusal, result.steps, result.eid), (0, 7, 32));
            assert!(rig.cpu.fit());
        }
    }
}
