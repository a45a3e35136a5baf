//! Channel 14 by the timer and by the host (document 02, job 1).

use crate::common::{put, timer, Rig, TIMER};
use eco32_reference::asm::*;
use eco32_reference::Timer;

/// PSW with I_C and channel 14 enabled.
const READY: u32 = 0x0080_4000;

/// ADDI at reset with a PSW and a timer.
fn rig(psw: u32, timer: Timer) -> Rig {
    let mut rig = Rig::with_rom(&[addi(1, 1, 1), addi(1, 1, 1), addi(1, 1, 1)]);
    rig.cpu.psw = psw;
    rig.cpu.timer = timer;
    rig
}

/// A timer that stands still.
fn still(control: u8) -> Timer {
    timer(0, 0, control)
}

#[test]
fn flag_and_enable_raise_the_line() {
    for (control, eid) in [(0, 32), (1, 32), (2, 32), (3, 14)] {
        let mut rig = rig(READY, still(control));
        assert_eq!(rig.step(), eid, "{control}");
        // An accepted interrupt leaves the flag.
        assert_eq!(rig.cpu.timer, still(control));
    }
    let mut rig = rig(READY, still(3));
    rig.step();
    assert_eq!(rig.cpu.psw, 0x004E_4000);
    assert_eq!(rig.cpu.pc, 0xE000_0004);
    assert_eq!(rig.cpu.registers[30], 0xE000_0000);
    assert_eq!(rig.cpu.registers[1], 0);
}

#[test]
fn the_host_s_line_alone() {
    for control in 0..4 {
        let mut rig = rig(READY, still(control));
        assert_eq!(rig.step_with(0x4000), 14, "{control}");
        assert_eq!(rig.cpu.timer, still(control));
    }
}

#[test]
fn masked_and_disabled() {
    for psw in [0x0000_4000, 0x0060_FFFF, 0x0080_0000, 0x0080_BFFF] {
        for lines in [0, 0x4000] {
            let mut rig = rig(psw, still(3));
            assert_eq!(rig.step_with(lines), 32, "{psw:08X}");
            assert_eq!(rig.cpu.registers[1], 1);
        }
    }
}

#[test]
fn among_other_channels() {
    // Lines of the host, IEN, the channel accepted.
    let table = [
        (0x0001, 0xFFFF, 0),
        (0x2000, 0xFFFF, 13),
        (0x2000, 0xDFFF, 14),
        (0x8000, 0xFFFF, 14),
        (0x8000, 0xBFFF, 15),
        (0xFFFF, 0xC000, 14),
        (0x6000, 0x4000, 14),
    ];
    for (lines, enabled, channel) in table {
        let mut rig = rig(0x0080_0000 | enabled, still(3));
        assert_eq!(rig.step_with(lines), channel, "{lines:04X} {enabled:04X}");
    }
}

#[test]
fn the_step_of_the_wrap_does_not_see_it() {
    for counter in 0..5 {
        let mut rig = rig(READY, timer(9, counter, 2));
        for _ in 0..counter.max(1) {
            assert_eq!(rig.step(), 32);
        }
        assert_eq!(rig.cpu.timer, timer(9, 9, 3));
        assert_eq!(rig.step(), 14);
        // The interrupt's own step ticks too.
        assert_eq!(rig.cpu.timer, timer(9, 8, 3));
    }
}

/// A step that stores to the timer, and the one behind it.
#[test]
fn the_step_of_a_store_does_not_see_it() {
    // Offset and value of the store, the control before, the second EID.
    let table = [
        (0, 3, 0, 14),
        (0, 1, 2, 32),
        (0, 2, 1, 32),
        (4, 1, 2, 14),
        (4, 1, 0, 32),
        (4, 2, 2, 32),
        (4, 0, 2, 32),
    ];
    for (offset, value, control, eid) in table {
        let mut rig = Rig::with_rom(&[stw(2, 1, offset)])
            .set(1, TIMER)
            .set(2, value);
        rig.cpu.psw = READY;
        rig.cpu.timer = still(control);
        assert_eq!(rig.step(), 32, "{offset} {value} {control}");
        assert_eq!(rig.step(), eid, "{offset} {value} {control}");
    }
    // A line that is up comes before the store that would take it down.
    let mut rig = Rig::with_rom(&[stw(0, 1, 0)]).set(1, TIMER);
    rig.cpu.psw = READY;
    rig.cpu.timer = still(3);
    assert_eq!(rig.step(), 14);
    assert_eq!(rig.cpu.timer, still(3));
}

#[test]
fn the_line_stays_up_until_the_flag_is_cleared() {
    // The service routine only returns.
    let mut rig = Rig::in_user_mode(addi(1, 1, 1));
    put(&mut rig.rom, 4, rfx());
    rig.cpu.psw = 0x0480_4000;
    rig.cpu.timer = still(3);
    for _ in 0..3 {
        assert_eq!(rig.step(), 14);
        assert_eq!(rig.step(), 32);
    }
    // It stores the enable bit first, and the flag is gone.
    put(&mut rig.rom, 4, stw(2, 1, 0));
    put(&mut rig.rom, 8, rfx());
    let mut rig = rig.set(1, TIMER).set(2, 2);
    for eid in [14, 32, 32, 32] {
        assert_eq!(rig.step(), eid);
    }
    assert_eq!(rig.cpu.timer, still(2));
    assert_eq!(rig.cpu.registers[1], TIMER + 1);
}

#[test]
fn run_to_exception_names_the_timer() {
    let mut rig = Rig::with_rom(&[j(-1)]);
    let mut machine = rig.cpu.clone();
    machine.psw = READY;
    machine.timer = timer(1000, 250, 2);
    let answer = machine.run_to_exception(&mut rig.memory(), 1_000_000, 0);
    assert_eq!((answer.refusal, answer.steps, answer.eid), (0, 251, 14));
    assert_eq!(machine.timer, timer(1000, 999, 3));
}
