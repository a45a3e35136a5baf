//! The replacement index moves once after every step, and TBWR uses it as it
//! was before (document 02, job 4).

use crate::common::{moved, put, timer, Numbers, Rig, TIMER, USER};
use eco32_reference::asm::*;
use eco32_reference::{host, write_record, Processor, TlbEntry, RECORD_LENGTH};

/// Index before a step, and after it.
const MOVES: [(u8, u8); 5] = [(4, 5), (5, 6), (17, 18), (30, 31), (31, 4)];

const ENTRY: TlbEntry = TlbEntry {
    high: 0x0123_4000,
    low: 0x0567_8003,
};

/// The rig with an index, and ENTRY in the registers that TBWR and TBWI write.
fn at(mut rig: Rig, index: u8) -> Rig {
    rig.cpu.replacement = index;
    rig.cpu.entry_high = ENTRY.high;
    rig.cpu.entry_low = ENTRY.low;
    rig
}

/// Makes a step with this EID, or 32, and checks that it moves the index once.
#[track_caller]
fn moves(rig: Rig, lines: u16, eid: u32) {
    for (before, after) in MOVES {
        let mut rig = at(rig.clone(), before);
        assert_eq!(rig.step_with(lines), eid);
        assert_eq!(rig.cpu.replacement, after);
    }
}

#[test]
fn every_index_moves_by_one_and_31_to_4() {
    for index in 4..=31 {
        let rig = at(Rig::with_rom(&[addi(1, 0, 5)]), index);
        rig.completes("ADDI", |cpu| {
            cpu.registers[1] = 5;
            cpu.replacement = if index == 31 { 4 } else { index + 1 };
        });
    }
}

#[test]
fn every_opcode_in_both_modes() {
    for opcode in 0..64 {
        for mut rig in [
            Rig::with_rom(&[opcode << 26]),
            Rig::in_user_mode(opcode << 26),
        ] {
            for (before, after) in MOVES {
                rig.cpu.replacement = before;
                let mut made = rig.clone();
                made.step();
                assert_eq!(made.cpu.replacement, after, "{opcode:02X}");
            }
        }
    }
}

#[test]
fn faults_of_the_instruction_and_of_its_data_access() {
    let kernel = |word| Rig::with_rom(&[word]);
    moves(kernel(trap()), 0, 20);
    moves(kernel(0x7800_0000), 0, 17);
    moves(kernel(div(3, 1, 0)), 0, 19);
    moves(kernel(ldw(3, 0, -4)), 0, 16);
    moves(kernel(ldw(3, 0, 1)), 0, 24);
    moves(kernel(ldw(3, 0, 0)), 0, 21);
    moves(kernel(stw(3, 0, 0)), 0, 21);
    moves(Rig::in_user_mode(tbwr()), 0, 18);
    moves(Rig::in_user_mode(ldw(3, 0, -4)), 0, 25);
    for (low, eid) in [(0, 23), (1, 22)] {
        let mut rig = kernel(stw(3, 0, 0));
        rig.map(0, 0, low);
        moves(rig, 0, eid);
    }
}

#[test]
fn faults_of_the_fetch() {
    let table = [
        (0xC000_2000, 0, 16),
        (0x0000_5000, 0, 21),
        (0x0000_6000, 0, 23),
        (0xE000_0001, 0, 24),
        (0xE000_0000, USER, 25),
    ];
    for (pc, psw, eid) in table {
        let mut rig = Rig::new();
        rig.map(2, 0x0000_6000, 0);
        rig.cpu.pc = pc;
        rig.cpu.psw = psw;
        moves(rig, 0, eid);
    }
}

#[test]
fn interrupts_of_the_host_and_of_the_timer() {
    for channel in 0..16 {
        let mut rig = Rig::with_rom(&[tbwr()]);
        rig.cpu.psw = 0x0080_FFFF;
        moves(rig.clone(), 1 << channel, channel);
        // In its place TBWR writes nothing.
        let mut rig = at(rig, 9);
        rig.step_with(1 << channel);
        assert_ne!(rig.cpu.tlb[9], ENTRY);
    }
    let mut rig = Rig::in_user_mode(addi(1, 1, 1));
    rig.cpu.psw |= 0x0080_4000;
    rig.cpu.timer = timer(0, 0, 3);
    moves(rig, 0, 14);
}

/// A store, and where it goes: RAM, ROM, belt and timer.
#[test]
fn a_step_that_stores() {
    for base in [0xC000_0100, 0xE000_0100, 0xF050_0100, TIMER, TIMER + 4] {
        moves(Rig::with_rom(&[stw(2, 1, 0)]).set(1, base), 0, 32);
    }
    for word in [sth(2, 1, 0), stb(2, 1, 0)] {
        moves(Rig::with_rom(&[word]).set(1, 0xC000_0100), 0, 32);
        moves(Rig::in_user_mode(word).set(1, 0x0000_1100), 0, 32);
    }
    let mut rig = at(Rig::in_user_mode(stw(2, 1, 0)), 31);
    rig = rig.set(1, 0x0000_1100).set(2, 0x1234_5678);
    let mut ram = rig.ram.clone();
    put(&mut ram, 0x1100, 0x1234_5678);
    rig.step();
    assert_eq!(rig.cpu.replacement, 4);
    assert!(rig.ram == ram);
}

#[test]
fn tbwr_writes_where_the_index_was_before_the_move() {
    for index in 4..=31 {
        let rig = at(Rig::with_rom(&[tbwr()]), index);
        rig.completes("TBWR", |cpu| {
            cpu.tlb[usize::from(index)] = ENTRY;
            cpu.replacement = if index == 31 { 4 } else { index + 1 };
        });
    }
}

#[test]
fn two_tbwr_in_a_row() {
    for index in 4..=31 {
        let mut rig = at(Rig::with_rom(&[tbwr(), tbwr()]), index);
        rig.step();
        rig.cpu.entry_high = 0x0BCD_E000;
        rig.completes("the second", |cpu| {
            let next = if index == 31 { 4 } else { index + 1 };
            cpu.tlb[usize::from(next)] = TlbEntry {
                high: 0x0BCD_E000,
                low: ENTRY.low,
            };
        });
        assert_eq!(rig.cpu.tlb[usize::from(index)], ENTRY);
    }
}

/// What stands between two TBWR decides where the second writes.
#[test]
fn the_steps_before_tbwr_choose_its_slot() {
    for before in 0..90 {
        let mut words = vec![addi(1, 1, 1); before];
        words.push(tbwr());
        let mut rig = at(Rig::with_rom(&words), 4);
        for _ in 0..=before {
            assert_eq!(rig.step(), 32);
        }
        let slot = 4 + before % 28;
        let written: Vec<usize> = (0..32).filter(|&n| rig.cpu.tlb[n] == ENTRY).collect();
        assert_eq!(written, [slot]);
    }
}

#[test]
fn a_refused_tbwr_writes_nothing() {
    let rig = at(Rig::in_user_mode(tbwr()), 12);
    rig.faults("User Mode", 18, 0x0212_0000, 0xE000_0004, |_| {});
}

#[test]
fn tbwi_and_moves_to_special_registers_leave_it_to_its_move() {
    let mut rig = Rig::with_rom(&[tbwi()]);
    rig.cpu.tlb_index = 20;
    moves(rig.clone(), 0, 32);
    at(rig, 9).completes("TBWI", |cpu| cpu.tlb[20] = ENTRY);
    for number in 0..8 {
        let rig = Rig::with_rom(&[mvts(1, number)]).set(1, 0x0000_001F);
        moves(rig, 0, 32);
    }
}

/// Both kinds of run on a loop without exceptions.
#[test]
fn a_run_moves_it_once_for_each_step() {
    for index in [4, 17, 30, 31] {
        for steps in [0, 1, 2, 27, 28, 29, 55, 56, 57, 1000, 1_000_000] {
            let mut rig = at(Rig::with_rom(&[j(-1)]), index);
            let mut machine = rig.cpu.clone();
            machine.run(&mut rig.memory(), steps, 0);
            assert_eq!(machine.replacement, moved(index, steps as u32));
            let mut machine = rig.cpu.clone();
            machine.run_to_exception(&mut rig.memory(), steps, 0);
            assert_eq!(machine.replacement, moved(index, steps as u32));
        }
    }
}

/// The step that accepts the exception moves it too, those behind it are not
/// made.
#[test]
fn a_run_to_exception_moves_it_once_for_each_step_made() {
    for before in 0..60 {
        let mut words = vec![stw(1, 2, 0); before];
        words.push(trap());
        let mut rig = at(Rig::with_rom(&words).set(2, 0xC000_0100), 20);
        let mut machine = rig.cpu.clone();
        let answer = machine.run_to_exception(&mut rig.memory(), 1000, 0);
        assert_eq!((answer.steps, answer.eid), (before as u32 + 1, 20));
        assert_eq!(machine.replacement, moved(20, answer.steps));
    }
}

/// A call that is refused, or wants no step, makes none.
#[test]
fn calls_without_a_step_leave_it() {
    let mut rig = Rig::with_rom(&[tbwr()]);
    let mut record = [0; RECORD_LENGTH];
    write_record(&at(rig.clone(), 31).cpu, &mut record);
    let before = record;
    for run in [host::run, host::run_to_exception] {
        for (wanted, ram, refusal) in [(0, 8192, 0), (1_000_001, 8192, 7), (1, 4095, 1)] {
            let (ram, rom, belt) = (&mut rig.ram[..ram], &rig.rom, &mut rig.belt);
            let answer = run(&mut record, ram, rom, belt, wanted, 0xFFFF);
            assert_eq!((answer.refusal, answer.steps), (refusal, 0));
            assert_eq!(record, before);
        }
    }
    let mut other = [0; RECORD_LENGTH];
    assert_eq!(host::read_record(&record, &mut other), 0);
    assert_eq!(other, before);
    assert_eq!(host::write_record(&record, &mut other), 0);
    assert_eq!(other, before);
    assert_eq!(host::page_view(&rig.ram, &record, 0xC0000).refusal, 0);
    assert_eq!(record, before);
}

/// Machines of any contents, whatever their steps do.
#[test]
fn any_machine() {
    let mut numbers = Numbers(4);
    for _ in 0..2000 {
        let mut rig = Rig::new();
        rig.rom.fill_with(|| numbers.next() as u8);
        rig.cpu = numbers.fit_machine();
        if numbers.next().is_multiple_of(2) {
            rig.cpu.pc = Processor::reset().pc;
            rig.cpu.psw &= !USER;
        }
        let first = rig.cpu.replacement;
        for steps in 1..40 {
            rig.step_with(numbers.next() as u16);
            assert_eq!(rig.cpu.replacement, moved(first, steps));
        }
    }
}
