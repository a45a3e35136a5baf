//! Cases of interrupts.

use super::mnemonics::{MVTS, RFX, TRAP};
use super::numbers::Numbers;
use super::scene::{Place, Scene};
use super::turn::Turn;
use super::Sink;
use crate::asm::{addi, div, ldw, stw, two_registers};
use crate::processor::{PSW_IC, PSW_UC, PSW_V};

pub fn cases(sink: &mut dyn Sink, turn: &mut Turn, numbers: &mut Numbers) {
    single_channels(sink, turn);
    several_channels(sink, turn, numbers);
    not_accepted(sink, turn, numbers);
    before_instructions(sink, numbers);
    before_fetch_faults(sink);
    enabled_by_the_step_before(sink, numbers);
    through_the_service(sink, numbers);
}

fn single_channels(sink: &mut dyn Sink, turn: &mut Turn) {
    for channel in 0..16 {
        let line = 1u16 << channel;
        for enabled in [0xFFFF, u32::from(line)] {
            for _ in 0..8 {
                let scene = turn.either_mode(&[addi(1, 1, 1)]);
                let scene = scene.with_psw(PSW_IC | enabled).set(30, 0x3030_3030);
                sink.case(&scene, &[line, line, 0]);
            }
        }
    }
}

/// The channel is the lowest of those enabled, with lower lines masked.
fn several_channels(sink: &mut dyn Sink, turn: &mut Turn, numbers: &mut Numbers) {
    for channel in 0..16 {
        let from = 0xFFFF_u16 << channel;
        for _ in 0..8 {
            let enabled = numbers.word() as u16 & from | 0x8000 | 1 << channel;
            let scene = turn.scene(&[addi(1, 1, 1)]);
            let scene = scene.with_psw(PSW_IC | u32::from(enabled));
            sink.case(&scene, &[from]);
            sink.case(&scene, &[0xFFFF]);
            sink.case(&scene, &[numbers.word() as u16, numbers.word() as u16]);
        }
    }
}

/// Lines that are masked by IEN, and enabled ones while I_C is 0.
fn not_accepted(sink: &mut dyn Sink, turn: &mut Turn, numbers: &mut Numbers) {
    for _ in 0..24 {
        let enabled = numbers.word() as u16;
        let scene = turn.scene(&[addi(1, 1, 1), addi(2, 2, 1)]);
        let masked = scene.clone().with_psw(PSW_IC | u32::from(enabled));
        sink.case(&masked, &[!enabled, !enabled, enabled]);
        // The previous and the old enable bit do not count.
        let disabled = scene.with_psw(0x0060_0000 | u32::from(enabled));
        sink.case(&disabled, &[0xFFFF, enabled]);
    }
}

/// The interrupt comes in place of the instruction, whatever it would do.
fn before_instructions(sink: &mut dyn Sink, numbers: &mut Numbers) {
    let words = [
        TRAP << 26,
        RFX << 26,
        0xFC00_0000,
        div(3, 1, 0),
        stw(1, 1, 0),
        ldw(1, 1, 2),
    ];
    for word in words {
        for place in [Place::User, Place::KernelRom, Place::KernelMapped] {
            for v in [0, PSW_V] {
                let channel = numbers.below(16);
                let scene = place.scene(&[word]).set(1, 0xC000_0100);
                let scene = scene.with_psw(PSW_IC | v | 1 << channel);
                sink.case(&scene, &[1 << channel, 0]);
            }
        }
    }
}

fn before_fetch_faults(sink: &mut dyn Sink) {
    for pc in [
        0xC000_2000,
        0x0000_5000,
        0x0000_2001,
        0x8000_0000,
        0x0000_6FFC,
    ] {
        for psw in [0, PSW_UC, PSW_V] {
            let mut scene = Scene::new();
            scene.cpu.pc = pc;
            scene.cpu.psw = psw | PSW_IC | 0x0000_FFF0;
            scene.map(6, 0x0000_6000, 0x0000_0002);
            sink.case(&scene, &[0x0111, 0]);
        }
    }
}

/// MVTS and RFX that enable interrupts, or disable them: the next step obeys.
fn enabled_by_the_step_before(sink: &mut dyn Sink, numbers: &mut Numbers) {
    for channel in 0..16 {
        let line = 1u16 << channel;
        let place = numbers.pick(&[Place::KernelRom, Place::KernelRam]);
        let by_move = place.scene(&[two_registers(MVTS, 0, 3, 0), addi(1, 1, 1)]);
        let psw = PSW_IC | u32::from(line);
        sink.case(&by_move.clone().set(3, psw), &[line, line, line]);
        let disabling = by_move.set(3, psw & !PSW_IC);
        sink.case(&disabling.with_psw(psw), &[0, line]);
        let mut by_return = place.scene(&[RFX << 26]);
        by_return.cpu.psw = 0x0240_0000 | u32::from(line);
        by_return.map(8, 0x0000_4000, 0x0000_1001);
        sink.case(&by_return.set(30, 0x0000_4000), &[line, line, line]);
    }
}

/// A service routine that returns at once, with lines that stay or go.
fn through_the_service(sink: &mut dyn Sink, numbers: &mut Numbers) {
    for _ in 0..40 {
        let place = numbers.pick(&Place::ALL);
        let code = [addi(1, 1, 1), addi(2, 2, 2), addi(3, 3, 3), addi(4, 4, 4)];
        let mut scene = place.scene(&code);
        for base in [0, 0x2000_0000] {
            scene.put(base + 4, RFX << 26);
        }
        let v = numbers.pick(&[0, PSW_V]);
        let scene = scene.with_psw(PSW_IC | v | numbers.word() & 0xFFFF);
        let lines: Vec<u16> = (0..8)
            .map(|_| numbers.word() as u16 & numbers.word() as u16)
            .collect();
        sink.case(&scene, &lines);
    }
}
