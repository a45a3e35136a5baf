//! Ticks of the timer, stores and loads (manual 5.4; document 02, job 1).

use crate::common::{timer, Rig, TIMER};
use eco32_reference::asm::*;
use eco32_reference::{Processor, Timer};

/// A timer before a tick, and its counter and control after it.
const TICKS: [(Timer, u32, u8); 20] = [
    // With divisor 0 nothing moves.
    (timer(0, 0, 0), 0, 0),
    (timer(0, 1, 2), 1, 2),
    (timer(0, 2, 0), 2, 0),
    (timer(0, 5, 3), 5, 3),
    (timer(0, 0xFFFF_FFFF, 1), 0xFFFF_FFFF, 1),
    // A counter at 0 or 1 takes the divisor and sets the flag.
    (timer(1, 0, 0), 1, 1),
    (timer(1, 1, 0), 1, 1),
    (timer(2, 1, 2), 2, 3),
    (timer(7, 0, 2), 7, 3),
    (timer(7, 1, 1), 7, 1),
    (timer(7, 1, 3), 7, 3),
    (timer(0x8000_0000, 0, 0), 0x8000_0000, 1),
    (timer(0xFFFF_FFFF, 1, 2), 0xFFFF_FFFF, 3),
    // Any other goes down by 1.
    (timer(7, 2, 0), 1, 0),
    (timer(1, 2, 2), 1, 2),
    (timer(7, 7, 1), 6, 1),
    (timer(7, 9, 3), 8, 3),
    (timer(1, 0x8000_0000, 0), 0x7FFF_FFFF, 0),
    (timer(7, 0xFFFF_FFFF, 1), 0xFFFF_FFFE, 1),
    (timer(0xFFFF_FFFF, 0xFFFF_FFFF, 2), 0xFFFF_FFFE, 2),
];

#[test]
fn zero_at_reset() {
    assert_eq!(Processor::reset().timer, timer(0, 0, 0));
}

#[test]
fn one_tick_after_an_instruction() {
    for (before, counter, control) in TICKS {
        let mut rig = Rig::with_rom(&[addi(1, 0, 5)]);
        rig.cpu.timer = before;
        rig.completes(&format!("{before:?}"), |cpu| {
            cpu.registers[1] = 5;
            cpu.timer = timer(before.divisor, counter, control);
        });
    }
}

#[test]
fn one_tick_after_a_fault() {
    let words = [(trap(), 20), (0x7800_0000, 17), (ldw(3, 0, -4), 16)];
    for (before, counter, control) in TICKS {
        for (word, eid) in words {
            let mut rig = Rig::with_rom(&[word]);
            rig.cpu.timer = before;
            rig.faults("fault", eid, eid << 16, 0xE000_0004, |cpu| {
                cpu.timer = timer(before.divisor, counter, control);
            });
        }
        // The fetch faults: nothing answers behind RAM.
        let mut rig = Rig::new();
        rig.cpu.pc = 0xC000_2000;
        rig.cpu.timer = before;
        rig.faults("fetch", 16, 0x0010_0000, 0xE000_0004, |cpu| {
            cpu.timer = timer(before.divisor, counter, control);
        });
    }
}

#[test]
fn one_tick_after_an_interrupt() {
    for (before, counter, control) in TICKS {
        let mut rig = Rig::new();
        rig.cpu.psw = 0x0080_0008;
        rig.cpu.timer = before;
        assert_eq!(rig.step_with(0x0008), 3);
        assert_eq!(rig.cpu.timer, timer(before.divisor, counter, control));
    }
}

#[test]
fn a_wrap_every_so_many_steps() {
    for divisor in 1..10 {
        let mut rig = Rig::with_rom(&[j(-1)]);
        rig.cpu.timer = timer(divisor, divisor, 0);
        for step in 1..100 {
            rig.step();
            let wrapped = step % divisor == 0;
            assert_eq!(rig.cpu.timer.control == 1, wrapped, "{divisor}, {step}");
            rig.cpu.timer.control = 0;
        }
    }
}

#[test]
fn a_run_ticks_once_for_each_step() {
    let mut rig = Rig::with_rom(&[j(-1)]);
    let mut machine = rig.cpu.clone();
    machine.timer = timer(7, 7, 0);
    machine.run(&mut rig.memory(), 0, 0);
    assert_eq!(machine.timer, timer(7, 7, 0));
    // 142,857 times around, and one step more.
    machine.run(&mut rig.memory(), 1_000_000, 0);
    assert_eq!(machine.timer, timer(7, 6, 1));
    // A refused run does not tick.
    machine.run(&mut rig.memory(), 1_000_001, 0);
    assert_eq!(machine.timer, timer(7, 6, 1));
}

/// Offset and value of a store, the timer before it and after its step.
#[test]
fn stores() {
    let table = [
        // The divisor loads the counter, which then ticks.
        (4, 5, timer(0, 0, 0), timer(5, 4, 0)),
        (4, 2, timer(9, 8, 2), timer(2, 1, 2)),
        (4, 1, timer(0, 0, 0), timer(1, 1, 1)),
        (4, 1, timer(9, 8, 2), timer(1, 1, 3)),
        (4, 0, timer(9, 8, 3), timer(0, 0, 3)),
        (
            4,
            0xFFFF_FFFF,
            timer(9, 8, 1),
            timer(0xFFFF_FFFF, 0xFFFF_FFFE, 1),
        ),
        // The counter that would have wrapped is gone.
        (4, 5, timer(9, 1, 0), timer(5, 4, 0)),
        (4, 0, timer(9, 0, 0), timer(0, 0, 0)),
        // The control keeps bits 1 and 0.
        (0, 3, timer(0, 0, 0), timer(0, 0, 3)),
        (0, 1, timer(0, 6, 2), timer(0, 6, 1)),
        (0, 2, timer(9, 8, 1), timer(9, 7, 2)),
        (0, 0xFFFF_FFFC, timer(9, 8, 3), timer(9, 7, 0)),
        (0, 0xFFFF_FFFF, timer(9, 8, 0), timer(9, 7, 3)),
        (0, 0x0000_0102, timer(9, 8, 1), timer(9, 7, 2)),
        // The tick comes after the store.
        (0, 0, timer(9, 1, 3), timer(9, 9, 1)),
        (0, 2, timer(9, 0, 1), timer(9, 9, 3)),
    ];
    for (offset, value, before, after) in table {
        let mut rig = Rig::with_rom(&[stw(2, 1, offset)]);
        rig.cpu.timer = before;
        let rig = rig.set(1, TIMER).set(2, value);
        let what = format!("{value:08X} at {offset}, {before:?}");
        rig.completes(&what, |cpu| cpu.timer = after);
    }
}

#[test]
fn loads_change_nothing() {
    for control in 0..4 {
        for divisor in [0, 1, 0x8000_0001, 0xFFFF_FFFF] {
            // The counter is far from its end, or stands still.
            let counter = if divisor == 0 { 6 } else { 5 };
            let results = [u32::from(control), divisor];
            for (offset, result) in [0, 4].into_iter().zip(results) {
                let mut rig = Rig::with_rom(&[ldw(3, 1, offset)]).set(1, TIMER);
                rig.cpu.timer = timer(divisor, 6, control);
                rig.completes("load", |cpu| {
                    cpu.registers[3] = result;
                    cpu.timer = timer(divisor, counter, control);
                });
            }
        }
    }
}

#[test]
fn fit() {
    for control in 0..=255 {
        let mut machine = Processor::reset();
        machine.timer = timer(0xFFFF_FFFF, 0xFFFF_FFFE, control);
        assert_eq!(machine.fit(), control <= 3);
    }
}
