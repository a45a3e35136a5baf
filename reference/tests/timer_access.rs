//! Accesses to the timer's frame (manual 5.4; document 02, job 1).

use crate::common::{moved, put, timer, Rig, TIMER, USER};
use eco32_reference::asm::*;
use eco32_reference::{Processor, Timer};

type Transfer = fn(u32, u32, i32) -> u32;

const NARROW: [(Transfer, usize); 6] =
    [(ldh, 2), (ldhu, 2), (sth, 2), (ldb, 1), (ldbu, 1), (stb, 1)];

const BEFORE: Timer = timer(9, 5, 2);
const AFTER: Timer = timer(9, 4, 2);

/// An access by R1 to the address `at`; the other register is R2.
fn access(word: u32, at: u32) -> Rig {
    let mut rig = Rig::with_rom(&[word]).set(1, at).set(2, 0x0000_0601);
    rig.cpu.timer = BEFORE;
    rig
}

/// The fault leaves the timer to its tick.
#[track_caller]
fn times_out(rig: &Rig, what: &str) {
    rig.faults(what, 16, 0x0010_0000, 0xE000_0004, |cpu| cpu.timer = AFTER);
}

#[test]
fn narrower_accesses_time_out() {
    for (op, bytes) in NARROW {
        for offset in (0..16).step_by(bytes) {
            let rig = access(op(2, 1, offset), TIMER);
            times_out(&rig, &format!("{bytes} bytes at {offset}"));
        }
    }
}

#[test]
fn other_words_time_out() {
    let places = [0x8, 0xC, 0x10, 0xFFC, 0x1000, 0x1004, 0xF_FFFC, 0x10_0000];
    for place in places {
        for op in [ldw, stw] {
            let rig = access(op(2, 1, 0), TIMER + place);
            times_out(&rig, &format!("word at {place:X}"));
        }
        let mut rig = access(0, 0);
        rig.cpu.pc = TIMER + place;
        times_out(&rig, &format!("fetch at {place:X}"));
    }
    // Behind the last ROM frame that there may be.
    let rig = access(ldw(2, 1, -4), TIMER);
    times_out(&rig, "word before the timer");
}

#[test]
fn alignment_comes_before_the_timer() {
    for at in [1, 2, 3, 5, 6, 7] {
        let rig = access(ldw(2, 1, 0), TIMER + at);
        rig.faults("word", 24, 0x0018_0000, 0xE000_0004, |cpu| {
            cpu.bad_address = TIMER + at;
            cpu.timer = AFTER;
        });
    }
}

#[test]
fn fetches() {
    // The control is ADD R0, R0, R0 with bits set that mean nothing.
    for control in 0..4 {
        let mut rig = Rig::new();
        rig.cpu.pc = TIMER;
        rig.cpu.timer = timer(addi(1, 0, 7), 5, control);
        rig.completes("control", |cpu| cpu.timer.counter = 4);
        rig.cpu.pc = TIMER + 4;
        rig.completes("divisor", |cpu| {
            cpu.registers[1] = 7;
            cpu.timer.counter = 4;
        });
    }
    // An instruction in the divisor that stores over itself.
    let mut rig = Rig::new().set(1, TIMER).set(2, 3);
    rig.cpu.pc = TIMER + 4;
    rig.cpu.timer = timer(stw(2, 1, 4), 1, 0);
    rig.completes("store", |cpu| cpu.timer = timer(3, 2, 0));
}

/// One instruction in User Mode, with page 00005 for the timer's frame.
fn user(word: u32, low: u32) -> Rig {
    let mut rig = Rig::in_user_mode(word).set(1, 0x0000_5000).set(2, 0x0601);
    rig.map(9, 0x0000_5000, low);
    rig.cpu.timer = BEFORE;
    rig
}

#[test]
fn user_mode_reaches_the_timer_by_a_page() {
    for low in [0x3000_0001, 0x3000_0003] {
        user(ldw(3, 1, 0), low).completes("control", |cpu| {
            cpu.registers[3] = 2;
            cpu.timer = AFTER;
        });
        user(ldw(3, 1, 4), low).completes("divisor", |cpu| {
            cpu.registers[3] = 9;
            cpu.timer = AFTER;
        });
        for place in [8, 0xFFC] {
            let rig = user(ldw(3, 1, place), low);
            rig.faults("rest", 16, 0x0210_0000, 0xE000_0004, |cpu| {
                cpu.timer = AFTER
            });
        }
        let mut rig = user(0, low);
        rig.cpu.pc = 0x0000_5004;
        rig.cpu.timer = timer(addi(1, 0, 7), 5, 0);
        rig.completes("fetch", |cpu| {
            cpu.registers[1] = 7;
            cpu.timer.counter = 4;
        });
    }
    user(stw(2, 1, 0), 0x3000_0003).completes("control", |cpu| cpu.timer = timer(9, 4, 1));
    user(stw(2, 1, 4), 0x3000_0003).completes("divisor", |cpu| cpu.timer = timer(0x601, 0x600, 2));
    for (op, _) in NARROW {
        let rig = user(op(2, 1, 0), 0x3000_0003);
        rig.faults("narrow", 16, 0x0210_0000, 0xE000_0004, |cpu| {
            cpu.timer = AFTER
        });
    }
}

#[test]
fn user_mode_needs_the_bits_of_its_page() {
    let table = [
        (ldw(2, 1, 0), 0x3000_0000, 23),
        (ldw(2, 1, 4), 0x3000_0002, 23),
        (stw(2, 1, 0), 0x3000_0000, 23),
        (stw(2, 1, 4), 0x3000_0002, 23),
        (stw(2, 1, 0), 0x3000_0001, 22),
        (stw(2, 1, 4), 0x3000_0001, 22),
        (stb(2, 1, 4), 0x3000_0001, 22),
    ];
    for (word, low, eid) in table {
        let rig = user(word, low);
        let at = 0x0000_5000 + (word & 0xFFF);
        rig.faults("page", eid, 0x0200_0000 | eid << 16, 0xE000_0004, |cpu| {
            cpu.bad_address = at;
            cpu.entry_high = 0x0000_5000;
            cpu.timer = AFTER;
        });
    }
}

#[test]
fn user_mode_does_not_reach_the_timer_without_a_page() {
    // Page 00005 is for RAM here.
    let miss = user(stw(2, 1, 0), 1).set(1, 0x0000_6000);
    miss.faults("miss", 21, 0x0215_0000, 0xE000_0008, |cpu| {
        cpu.bad_address = 0x0000_6000;
        cpu.entry_high = 0x0000_6000;
        cpu.timer = AFTER;
    });
    for op in [ldw, stw] {
        let direct = user(op(2, 1, 4), 1).set(1, TIMER);
        direct.faults("direct", 25, 0x0219_0000, 0xE000_0004, |cpu| {
            cpu.bad_address = TIMER + 4;
            cpu.timer = AFTER;
        });
    }
    let mut fetch = user(0, 1);
    fetch.cpu.pc = TIMER;
    assert_eq!(fetch.step(), 25);
    assert_eq!(fetch.cpu.psw & USER, 0);
    assert_eq!(fetch.cpu.timer, AFTER);
}

#[test]
fn kernel_mode_reaches_the_timer_by_a_page_too() {
    for page in [0x0000_5000, 0xBFFF_F000] {
        let mut rig = access(stw(2, 1, 4), page);
        rig.map(0, page, 0x3000_0003);
        rig.completes("store", |cpu| cpu.timer = timer(0x601, 0x600, 2));
    }
}

/// Nothing of the timer stands in lent memory.
#[test]
fn memory_beside_the_timer() {
    let mut rig = Rig::with_rom(&[stw(2, 1, 0), stw(2, 1, 4), ldw(3, 1, 4)]);
    rig = rig.set(1, TIMER).set(2, 0xFFFF_FFFF);
    put(&mut rig.belt, 0, 0x1234_5678);
    let before = rig.clone();
    for _ in 0..3 {
        assert_eq!(rig.step(), 32);
    }
    before.memory_equals(&rig, "timer");
    let mut expected = Processor::reset();
    expected.registers[1..4].copy_from_slice(&[TIMER, 0xFFFF_FFFF, 0xFFFF_FFFF]);
    expected.pc = 0xE000_000C;
    expected.replacement = moved(expected.replacement, 3);
    expected.timer = timer(0xFFFF_FFFF, 0xFFFF_FFFD, 3);
    assert_eq!(rig.cpu, expected);
}
