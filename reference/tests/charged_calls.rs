//! Charged runs beside runs without charges, their refusals, and their calls on
//! record bytes (document 02, job 3).

use crate::charges::{charged, distinct, program, random};
use crate::common::{put, Numbers, Rig};
use eco32_reference::asm::*;
use eco32_reference::{host, write_record, Answer, Charged};

fn uncharged(rig: &mut Rig, to_exception: bool, (wanted, lines): (u64, u16)) -> Answer {
    let mut cpu = rig.cpu.clone();
    let answer = if to_exception {
        cpu.run_to_exception(&mut rig.memory(), wanted, lines)
    } else {
        cpu.run(&mut rig.memory(), wanted, lines)
    };
    rig.cpu = cpu;
    answer
}

/// Both kinds of run of a machine, with charges and without. The answers hold
/// the slot.
#[track_caller]
fn as_without_charges(rig: &Rig, charges: &[u8], wanted: u64, lines: u16) -> [Answer; 2] {
    [false, true].map(|kind| {
        let (mut with, mut without) = (rig.clone(), rig.clone());
        let found = charged(&mut with, kind, charges, (wanted, lines));
        let answer = uncharged(&mut without, kind, (wanted, lines));
        assert_eq!(found.answer, answer);
        assert_eq!(with.cpu, without.cpu);
        with.memory_equals(&without, "charged");
        answer
    })
}

#[test]
fn machine_memory_and_other_answers_are_those_without_charges() {
    let mut numbers = Numbers(3);
    let mut slots = Vec::new();
    for wanted in 0..=8 {
        let mut mapped = Rig::in_user_mode(ldw(3, 0, 0x1100));
        put(&mut mapped.ram, 0x1004, stw(3, 0, 0x1200));
        for rig in [program(), mapped] {
            slots.extend(as_without_charges(&rig, &distinct(), wanted, 0).map(|a| a.slot));
        }
    }
    assert!([31, 32, 33].iter().all(|slot| slots.contains(slot)));
    for _ in 0..400 {
        let (rig, lines) = random(&mut numbers);
        let charges: Vec<u8> = (0..130).map(|_| numbers.next() as u8).collect();
        as_without_charges(&rig, &charges, u64::from(numbers.next() % 40), lines);
    }
}

type HostCall = fn(&mut [u8], &mut [u8], &[u8], &mut [u8], &[u8], u64, u16) -> Charged;
const HOST_CALLS: [HostCall; 2] = [host::run_charged, host::run_to_exception_charged];

fn record_of(rig: &Rig) -> Vec<u8> {
    let mut record = vec![0; 424];
    assert_eq!(write_record(&rig.cpu, &mut record), 0);
    record
}

/// Both calls on record bytes, which have to change nothing and answer a
/// refusal, or to make six steps.
fn both_calls(rig: &Rig, machine: &[u8], charges: &[u8], wanted: u64, refusal: u32) {
    for (call, steps) in HOST_CALLS.into_iter().zip([6, 5]) {
        let (mut after, mut bytes) = (rig.clone(), machine.to_vec());
        let (ram, belt) = (&mut after.ram, &mut after.belt);
        let found = call(&mut bytes, ram, &after.rom, belt, charges, wanted, 0);
        if refusal == 0 {
            assert_eq!((found.answer.refusal, found.answer.steps), (0, steps));
            assert_eq!(found.charge, u64::from(steps) * 0x0505);
            assert_ne!(bytes, machine);
            continue;
        }
        let nothing = Answer {
            refusal,
            steps: 0,
            eid: 32,
            slot: 33,
        };
        assert_eq!((found.answer, found.charge), (nothing, 0));
        assert_eq!(bytes, machine);
        rig.memory_equals(&after, "refused");
    }
}

#[test]
fn refusals_in_their_order_and_9_last() {
    // One bit for each of the causes 1 to 7, and one for 9.
    for causes in 0..256u32 {
        let holds = |n: u32| causes >> n & 1 == 1;
        let mut rig = program();
        let mut machine = record_of(&rig);
        rig.ram.truncate(if holds(0) { 8191 } else { 8192 });
        rig.rom.truncate(if holds(1) { 4095 } else { 4096 });
        rig.belt.truncate(if holds(2) { 1023 } else { 1024 });
        machine.truncate(if holds(3) { 414 } else { 424 });
        machine[129] = if holds(4) { 9 } else { 2 };
        machine[135] |= if holds(5) { 0x80 } else { 0 };
        let wanted = if holds(6) { 1_000_001 } else { 6 };
        let charges = vec![5; if holds(7) { 129 } else { 130 }];
        let refusal = match causes.trailing_zeros() {
            n @ 0..=6 => n + 1,
            7 => 9,
            _ => 0,
        };
        both_calls(&rig, &machine, &charges, wanted, refusal);
    }
}

/// The same for a machine by value, which has no record: causes 1, 2, 3, 6, 7
/// and 9.
#[test]
fn refusals_of_a_machine_by_value() {
    for causes in 1..64u32 {
        let holds = |n: u32| causes >> n & 1 == 1;
        let mut rig = program();
        rig.ram.truncate(if holds(0) { 8191 } else { 8192 });
        rig.rom.truncate(if holds(1) { 4095 } else { 4096 });
        rig.belt.truncate(if holds(2) { 1023 } else { 1024 });
        rig.cpu.replacement = if holds(3) { 32 } else { 31 };
        let wanted = if holds(4) { 1_000_001 } else { 6 };
        let charges = vec![5; if holds(5) { 131 } else { 130 }];
        let refusal = [1, 2, 3, 6, 7, 9][causes.trailing_zeros() as usize];
        for kind in [false, true] {
            let mut after = rig.clone();
            let found = charged(&mut after, kind, &charges, (wanted, 0));
            assert_eq!(found.answer, Answer::refused(refusal), "{causes:06b}");
            assert_eq!(found.charge, 0);
            assert_eq!(after.cpu, rig.cpu);
            rig.memory_equals(&after, "refused");
        }
    }
}

#[test]
fn a_list_of_another_length_is_refused_by_9() {
    let rig = program();
    let machine = record_of(&rig);
    for length in (0..=261).chain([424, 1024, 4096, 65_536]) {
        let refusal = if length == 130 { 0 } else { 9 };
        both_calls(&rig, &machine, &vec![5; length], 6, refusal);
    }
    // 9 comes after 7, and also where no step is wanted.
    for length in [0, 129, 131] {
        let charges = vec![5; length];
        both_calls(&rig, &machine, &charges, 1_000_001, 7);
        both_calls(&rig, &machine, &charges, 1_000_000, 9);
        both_calls(&rig, &machine, &charges, 0, 9);
    }
}

#[test]
fn a_run_on_a_record_is_that_by_value() {
    let mut numbers = Numbers(8);
    for _ in 0..100 {
        let (rig, lines) = random(&mut numbers);
        for (call, kind) in HOST_CALLS.into_iter().zip([false, true]) {
            let (mut by_value, mut after) = (rig.clone(), rig.clone());
            let expected = charged(&mut by_value, kind, &distinct(), (30, lines));
            let mut machine = record_of(&rig);
            let (ram, belt) = (&mut after.ram, &mut after.belt);
            let found = call(&mut machine, ram, &after.rom, belt, &distinct(), 30, lines);
            assert_eq!(found, expected);
            assert_eq!(machine, record_of(&by_value));
            by_value.memory_equals(&after, "run");
        }
    }
}
