//! Cycle charges: what each step costs, and the sum of a run (document 02, job
//! 3).

use crate::common::{timer, Numbers, Rig, USER};
use eco32_reference::asm::*;
use eco32_reference::{Answer, Charged};

/// Opcodes that complete no instruction: illegal, TRAP, illegal.
const NEVER_COMPLETED: [u32; 4] = [0x1E, 0x2E, 0x3E, 0x3F];
/// Opcodes that User Mode may not have.
const PRIVILEGED: [u32; 7] = [0x2F, 0x38, 0x39, 0x3A, 0x3B, 0x3C, 0x3D];
/// A word with this in its lower bits names R1, R2 and R3.
const OPERANDS: u32 = 0x0022_1800;
/// What R1 has to hold so that a load or store reaches an address.
const BEFORE: u32 = 0x1800;

/// A list with a charge for each entry.
fn list(charge: impl Fn(usize) -> u16) -> Vec<u8> {
    (0..65).flat_map(|n| charge(n).to_be_bytes()).collect()
}

/// A list with one charge that is not 0.
fn only(entry: usize, charge: u16) -> Vec<u8> {
    list(|n| if n == entry { charge } else { 0 })
}

/// No two entries cost the same, and no sum of two is a third.
pub fn distinct() -> Vec<u8> {
    list(distinct_charge)
}

fn distinct_charge(entry: usize) -> u16 {
    0x8001 + 0x0101 * entry as u16
}

/// A charged run of either kind on a machine by value.
pub fn charged(
    rig: &mut Rig,
    to_exception: bool,
    charges: &[u8],
    (wanted, lines): (u64, u16),
) -> Charged {
    let mut cpu = rig.cpu.clone();
    let charged = if to_exception {
        cpu.run_to_exception_charged(&mut rig.memory(), charges, wanted, lines)
    } else {
        cpu.run_charged(&mut rig.memory(), charges, wanted, lines)
    };
    rig.cpu = cpu;
    charged
}

/// The charge of one step, which has to be the same for both kinds.
#[track_caller]
fn cost(rig: &Rig, charges: &[u8], lines: u16) -> u64 {
    let [plain, to_exception] =
        [false, true].map(|kind| charged(&mut rig.clone(), kind, charges, (1, lines)));
    assert_eq!(plain.answer.steps, 1);
    assert_eq!(plain.charge, to_exception.charge);
    plain.charge
}

/// Kernel Mode and User Mode with one instruction that completes, if its
/// opcode can.
fn completing(opcode: u32) -> [Rig; 2] {
    let word = opcode << 26 | OPERANDS;
    [
        Rig::with_rom(&[word]).set(1, 0xC000_0100 - BEFORE),
        Rig::in_user_mode(word).set(1, 0x1100_u32.wrapping_sub(BEFORE)),
    ]
    .map(|rig| rig.set(2, 5))
}

#[test]
fn each_opcode_costs_its_own_entry_and_no_other() {
    for opcode in (0..64).filter(|opcode| !NEVER_COMPLETED.contains(opcode)) {
        for rig in completing(opcode) {
            if rig.cpu.user_mode() && PRIVILEGED.contains(&opcode) {
                continue;
            }
            assert_eq!(rig.clone().stepped(0).opcode, Some(opcode));
            for entry in 0..65 {
                let expected = if entry == opcode as usize { 9 } else { 0 };
                let found = cost(&rig, &only(entry, 9), 0);
                assert_eq!(found, expected, "{opcode:02X} by entry {entry}");
            }
        }
    }
}

/// Charges the exception of one step by entry 64, and by nothing else.
#[track_caller]
fn costs_entry_64(rig: &Rig, lines: u16, eid: u32) {
    let mut after = rig.clone();
    let stepped = charged(&mut after, true, &distinct(), (1, lines));
    assert_eq!(stepped.answer.eid, eid);
    assert_eq!(stepped.charge, u64::from(distinct_charge(64)));
    assert_eq!(cost(rig, &distinct(), lines), stepped.charge);
    let others = list(|n| if n == 64 { 0 } else { 65_535 });
    assert_eq!(cost(rig, &others, lines), 0);
    assert_eq!(cost(rig, &only(64, 65_535), lines), 65_535);
}

#[test]
fn an_interrupt_costs_entry_64_alone() {
    for opcode in 0..64 {
        for mut rig in completing(opcode) {
            rig.cpu.psw |= 0x0080_FFFF;
            for channel in 0..16 {
                costs_entry_64(&rig, 1 << channel, channel);
            }
            rig.cpu.timer = timer(0, 0, 3);
            costs_entry_64(&rig, 0, 14);
        }
    }
}

#[test]
fn a_faulting_fetch_costs_entry_64_alone() {
    let table = [
        (0xC000_2000, 0, 16),
        (0x0000_6000, 0, 21),
        (0x0000_7000, 0, 23),
        (0xE000_0001, 0, 24),
        (0xE000_0000, USER, 25),
    ];
    for (pc, psw, eid) in table {
        let mut rig = Rig::with_rom(&[addi(1, 1, 1)]);
        rig.map(7, 0x0000_7000, 0);
        rig.cpu.pc = pc;
        rig.cpu.psw = psw;
        costs_entry_64(&rig, 0, eid);
    }
}

#[test]
fn an_instruction_that_cannot_complete_costs_entry_64_alone() {
    for opcode in NEVER_COMPLETED {
        for rig in completing(opcode) {
            costs_entry_64(&rig, 0, if opcode == 0x2E { 20 } else { 17 });
        }
    }
    for opcode in PRIVILEGED {
        let [_, user] = completing(opcode);
        costs_entry_64(&user, 0, 18);
    }
    // A divisor register of 0, and an immediate of 0.
    for opcode in 0x08..0x10 {
        let word = opcode << 26 | 0x0022_0000;
        costs_entry_64(&Rig::with_rom(&[word]), 0, 19);
        costs_entry_64(&Rig::in_user_mode(word), 0, 19);
    }
}

/// Faults 16 and 21 to 25 of loads and stores.
#[test]
fn a_faulting_access_costs_entry_64_alone() {
    for opcode in 0x30..0x38 {
        let [kernel, user] = completing(opcode);
        let to = |rig: &Rig, address: u32| rig.clone().set(1, address.wrapping_sub(BEFORE));
        costs_entry_64(&to(&kernel, 0xC000_2000), 0, 16);
        for rig in [&kernel, &user] {
            costs_entry_64(&to(rig, 0x0000_5000), 0, 21);
            let mut mapped = to(rig, 0x0000_5000);
            mapped.map(7, 0x0000_5000, 0);
            costs_entry_64(&mapped, 0, 23);
            mapped.map(7, 0x0000_5000, 1);
            if opcode >= 0x35 {
                costs_entry_64(&mapped, 0, 22);
            } else {
                assert_eq!(cost(&mapped, &only(opcode as usize, 3), 0), 3);
            }
        }
        if !matches!(opcode, 0x33 | 0x34 | 0x37) {
            costs_entry_64(&to(&kernel, 0xC000_0001), 0, 24);
        }
        costs_entry_64(&to(&user, 0xC000_0000), 0, 25);
    }
}

#[test]
fn charges_are_big_endian() {
    for (rig, entry) in [
        (Rig::with_rom(&[addi(1, 1, 1)]), 1),
        (Rig::with_rom(&[tbwi()]), 0x3D),
        (Rig::with_rom(&[add(1, 1, 1)]), 0),
        (Rig::with_rom(&[trap()]), 64),
    ] {
        for at in 0..130 {
            let mut charges = vec![0; 130];
            charges[at] = 0xA7;
            let expected = match at {
                at if at == 2 * entry => 0xA700,
                at if at == 2 * entry + 1 => 0x00A7,
                _ => 0,
            };
            assert_eq!(cost(&rig, &charges, 0), expected, "byte {at}");
        }
    }
    // Entry 1 is bytes 2 and 3, entry 64 bytes 128 and 129.
    let counted: Vec<u8> = (0..130).collect();
    assert_eq!(cost(&Rig::with_rom(&[addi(1, 1, 1)]), &counted, 0), 0x0203);
    assert_eq!(cost(&Rig::with_rom(&[trap()]), &counted, 0), 0x8081);
}

/// Five steps, the last of them a trap to RAM, which holds ADD.
pub fn program() -> Rig {
    let words = [
        addi(1, 1, 1),
        ldhi(2, 0xC000),
        stw(1, 2, 0x80),
        ldbu(3, 2, 0x83),
        trap(),
    ];
    let mut rig = Rig::with_rom(&words);
    rig.cpu.psw = 0x0800_0000;
    rig
}

/// The entries of its first eight steps.
const ENTRIES: [usize; 8] = [0x01, 0x1F, 0x35, 0x34, 64, 0, 0, 0];

#[test]
fn a_plain_run_costs_the_sum_of_its_steps() {
    let mut expected = 0;
    for steps in 0..=8 {
        let found = charged(&mut program(), false, &distinct(), (steps, 0));
        assert_eq!(
            (found.answer.refusal, found.answer.steps),
            (0, steps as u32)
        );
        assert_eq!(found.charge, expected, "{steps} steps");
        if let Some(&entry) = ENTRIES.get(steps as usize) {
            expected += u64::from(distinct_charge(entry));
        }
    }
}

#[test]
fn a_run_to_exception_charges_its_last_step() {
    for wanted in [5, 6, 1_000_000] {
        let found = charged(&mut program(), true, &distinct(), (wanted, 0));
        let charges = ENTRIES[..5].iter().map(|&n| u64::from(distinct_charge(n)));
        assert_eq!((found.answer.steps, found.answer.eid), (5, 20));
        assert_eq!(found.charge, charges.sum());
        let last = charged(&mut program(), true, &only(64, 77), (wanted, 0));
        assert_eq!(last.charge, 77);
    }
    let before = charged(&mut program(), true, &only(64, 77), (4, 0));
    assert_eq!((before.answer.eid, before.charge), (32, 0));
}

#[test]
fn two_runs_cost_what_one_of_all_their_steps_does() {
    for first in 0..=8 {
        let mut rig = program();
        let parts = [first, 8 - first].map(|n| charged(&mut rig, false, &distinct(), (n, 0)));
        let whole = charged(&mut program(), false, &distinct(), (8, 0));
        assert_eq!(parts[0].charge + parts[1].charge, whole.charge);
    }
}

/// The word is gone from memory when the step ends.
#[test]
fn a_store_over_its_own_instruction_costs_the_opcode_that_was_fetched() {
    let rig = Rig::in_user_mode(stw(3, 0, 0x1000)).set(3, addi(1, 1, 1));
    assert_eq!(cost(&rig, &distinct(), 0), u64::from(distinct_charge(0x35)));
}

#[test]
fn the_sum_is_exact() {
    for kind in [false, true] {
        let million = |words: &[u32], charges: &[u8]| {
            charged(&mut Rig::with_rom(words), kind, charges, (1_000_000, 0))
        };
        let largest = million(&[j(-1)], &[0xFF; 130]);
        assert_eq!(largest.answer.steps, 1_000_000);
        assert_eq!(largest.charge, 65_535_000_000);
        let mixed = list(|n| if n == 0x2A { 65_535 } else { 1 });
        let loops = million(&[addi(1, 1, 1), j(-2)], &mixed);
        assert_eq!(loops.charge, 500_000 * 65_536);
    }
    let mut rig = Rig::with_rom(&[trap(), trap()]);
    let traps = charged(&mut rig, false, &[0xFF; 130], (1_000_000, 0));
    assert_eq!(traps.charge, 65_535_000_000);
}

#[test]
fn charges_of_zero_cost_nothing() {
    for (kind, steps) in [(false, 8), (true, 5)] {
        let found = charged(&mut program(), kind, &[0; 130], (8, 0));
        assert_eq!((found.answer.steps, found.charge), (steps, 0));
    }
}

#[test]
fn entry_64_alone_counts_the_exceptions() {
    // A trap whose service traps again: every step.
    let mut rig = Rig::with_rom(&[trap(), trap()]);
    let found = charged(&mut rig, false, &only(64, 1), (100, 0));
    assert_eq!((found.answer.steps, found.charge), (100, 100));
    // The service returns to the trap: every second step.
    let mut rig = Rig::with_rom(&[trap(), rfx()]);
    let found = charged(&mut rig, false, &only(64, 1), (100, 0));
    assert_eq!((found.answer.steps, found.charge), (100, 50));
}

#[test]
fn zero_steps_cost_nothing() {
    for kind in [false, true] {
        let mut rig = program();
        rig.cpu.psw = 0x0080_FFFF;
        let before = rig.clone();
        let found = charged(&mut rig, kind, &[0xFF; 130], (0, 0xFFFF));
        let nothing = Answer {
            refusal: 0,
            steps: 0,
            eid: 32,
            slot: 33,
        };
        assert_eq!((found.answer, found.charge), (nothing, 0));
        assert_eq!(rig.cpu, before.cpu);
        before.memory_equals(&rig, "zero steps");
    }
}

/// A random machine over random words, and lines.
pub fn random(numbers: &mut Numbers) -> (Rig, u16) {
    let mut rig = Rig::new();
    rig.cpu = numbers.fit_machine();
    rig.map(0, 0x0000_1000, 0x0000_1003);
    rig.cpu.pc = if rig.cpu.user_mode() {
        0x0000_1000
    } else {
        0xE000_0000
    } + (numbers.next() & 0xFFC);
    for byte in rig.rom.iter_mut().chain(rig.ram.iter_mut()) {
        *byte = numbers.next() as u8;
    }
    (rig, (numbers.next() & numbers.next()) as u16)
}

#[test]
fn the_charge_is_at_most_the_steps_times_the_largest_charge() {
    let mut numbers = Numbers(4);
    let mut reached = 0;
    for _ in 0..400 {
        let (rig, lines) = random(&mut numbers);
        let spread = numbers.next() as u16;
        let charge = |entry: usize| (entry as u16).wrapping_mul(spread);
        let charges = list(charge);
        let largest = u64::from((0..65).map(charge).max().unwrap());
        for kind in [false, true] {
            let found = charged(&mut rig.clone(), kind, &charges, (20, lines));
            let steps = u64::from(found.answer.steps);
            assert!(found.charge <= steps * largest);
            let alike = charged(&mut rig.clone(), kind, &[0x12; 130], (20, lines));
            assert_eq!(alike.charge, steps * 0x1212);
            reached += steps;
        }
    }
    assert!(reached > 8_000);
}

/// Code that User Mode fetches from the timer is charged as any other.
#[test]
fn an_opcode_fetched_from_the_timer() {
    let mut rig = Rig::in_user_mode(0);
    rig.map(5, 0x0000_3000, 0x3000_0001);
    rig.cpu.pc = 0x0000_3004;
    rig.cpu.timer = timer(xori(4, 4, 1), 9, 0);
    assert_eq!(cost(&rig, &distinct(), 0), u64::from(distinct_charge(0x15)));
}
