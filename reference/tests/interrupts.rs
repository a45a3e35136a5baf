//! Interrupts (manual 2.7.3 and 2.8, document 01, "One step").

use crate::common;
use crate::common::{moved, Rig};
use eco32_reference::asm::*;

/// Checks that the step accepts `channel` and has no effect but entry and the
/// move of the replacement index.
#[track_caller]
fn accepts(rig: &Rig, lines: u16, channel: u32, psw: u32, pc: u32) {
    let mut after = rig.clone();
    let mut expected = rig.cpu.clone();
    expected.registers[30] = rig.cpu.pc;
    expected.psw = psw;
    expected.pc = pc;
    expected.replacement = moved(rig.cpu.replacement, 1);
    assert_eq!(after.step_with(lines), channel);
    assert_eq!(after.cpu, expected);
    rig.memory_equals(&after, "interrupt");
}

#[test]
fn each_channel() {
    for channel in 0..16 {
        let line = 1u16 << channel;
        let mut rig = Rig::with_rom(&[addi(1, 0, 5)]);
        rig.cpu.psw = 0x0080_0000 | u32::from(line);
        rig.cpu.bad_address = 0x1234_5678;
        let psw = 0x0040_0000 | channel << 16 | u32::from(line);
        accepts(&rig, line, channel, psw, 0xE000_0004);
        accepts(&rig, 0xFFFF, channel, psw, 0xE000_0004);
        // Other lines do not matter.
        let mut other = rig.clone();
        assert_eq!(other.step_with(!line), 32);
        assert_eq!(other.cpu.registers[1], 5);
    }
}

#[test]
fn the_lowest_ready_channel_is_accepted() {
    let table = [
        (0xFFFF, 0xFFFF, 0),
        (0xFFFE, 0xFFFF, 1),
        (0xFFFF, 0x00A0, 5),
        (0x00A0, 0xFFFF, 5),
        (0xF0F0, 0x8F00, 15),
        (0xC000, 0xC000, 14),
    ];
    for (lines, enabled, channel) in table {
        let mut rig = Rig::new();
        rig.cpu.psw = 0x0080_0000 | enabled;
        let psw = 0x0040_0000 | channel << 16 | enabled;
        accepts(&rig, lines, channel, psw, 0xE000_0004);
    }
}

#[test]
fn disabled_interrupts_wait() {
    // I_C clear, with the rest of the stack set; or no enabled line.
    let table = [
        (0x0000_FFFF, 0xFFFF),
        (0x0060_FFFF, 0xFFFF),
        (0x0080_0000, 0xFFFF),
        (0x0080_FFFF, 0x0000),
        (0x0080_F0F0, 0x0F0F),
        (0x009F_0000, 0xFFFF),
    ];
    for (psw, lines) in table {
        let mut rig = Rig::with_rom(&[addi(1, 0, 5)]);
        rig.cpu.psw = psw;
        assert_eq!(rig.step_with(lines), 32, "{psw:08X}");
        assert_eq!(rig.cpu.registers[1], 5);
        assert_eq!(rig.cpu.psw, psw);
        assert_eq!(rig.cpu.pc, 0xE000_0004);
    }
}

#[test]
fn the_interrupt_comes_before_the_fetch() {
    // A PC that could not be fetched becomes the return address.
    for pc in [0x0000_0001, 0xFFFF_FFFF, 0x0000_5000, 0xC000_2000] {
        let mut rig = Rig::new();
        rig.cpu.pc = pc;
        rig.cpu.psw = 0x0880_0001;
        accepts(&rig, 1, 0, 0x0840_0001, 0xC000_0004);
    }
}

#[test]
fn interrupt_out_of_user_mode_and_back() {
    let mut rig = Rig::in_user_mode(addi(1, 1, 1));
    common::put(&mut rig.rom, 4, rfx());
    rig.cpu.psw = 0x0480_0002;
    assert_eq!(rig.step_with(2), 1);
    assert_eq!(rig.cpu.psw, 0x0241_0002);
    assert_eq!(rig.cpu.pc, 0xE000_0004);
    assert_eq!(rig.cpu.registers[30], 0x0000_1000);
    // In the service routine the line waits, after RFX it is due again.
    assert_eq!(rig.step_with(2), 32);
    assert_eq!(rig.cpu.psw, 0x0481_0002);
    assert_eq!(rig.cpu.pc, 0x0000_1000);
    assert_eq!(rig.clone().step_with(2), 1);
    assert_eq!(rig.step_with(0), 32);
    assert_eq!(rig.cpu.registers[1], 1);
}

#[test]
fn enabling_by_mvts_takes_effect_in_the_next_step() {
    let mut rig = Rig::with_rom(&[mvts(1, 0)]).set(1, 0x0080_8000);
    assert_eq!(rig.step_with(0x8000), 32);
    assert_eq!(rig.step_with(0x8000), 15);
    assert_eq!(rig.cpu.psw, 0x004F_8000);
    assert_eq!(rig.cpu.registers[30], 0xE000_0004);
}
