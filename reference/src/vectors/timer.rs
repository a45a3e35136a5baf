//! Cases of the timer: ticks, accesses to its frame, and channel 14.

use super::access::width_of;
use super::mnemonics::{MVTS, RFX, TRAP};
use super::numbers::Numbers;
use super::scene::{Place, Scene};
use super::transfer::{reach, Bases, Way, OPCODES};
use super::turn::Turn;
use super::Sink;
use crate::asm::{addi, div, j, ldw, stw, two_registers};
use crate::memory::Width;
use crate::processor::{PSW_IC, PSW_UC, PSW_V};
use crate::timer::{CONTROL_ADDRESS, ENABLE, LINE};

/// The registers in the direct-mapped space, and their page in the others.
const DIRECT: u32 = 0xC000_0000 + CONTROL_ADDRESS;
const PAGE: u32 = 0x0000_5000;

pub fn cases(sink: &mut dyn Sink, turn: &mut Turn, numbers: &mut Numbers) {
    ticks(sink, turn);
    ticks_of_exceptions(sink);
    accesses(sink, turn, numbers);
    other_frames(sink, turn, numbers);
    pages(sink, turn);
    stores(sink, numbers);
    fetches(sink, numbers);
    unreached_fetches(sink);
    lines(sink, turn);
    raised_lines(sink);
    paced(sink);
}

/// Every turn of a tick, three in a row.
fn ticks(sink: &mut dyn Sink, turn: &mut Turn) {
    for divisor in [0, 1, 2, 5, 0x8000_0000, 0xFFFF_FFFF] {
        for counter in [0, 1, 2, 3, 0xFFFF_FFFF] {
            for control in 0..4 {
                let scene = turn.scene(&[addi(1, 1, 1), addi(2, 2, 2), addi(3, 3, 3)]);
                sink.quiet(&scene.with_timer(divisor, counter, control), 3);
            }
        }
    }
}

/// Steps that accept an exception tick too.
fn ticks_of_exceptions(sink: &mut dyn Sink) {
    let words = [
        TRAP << 26,
        0xFC00_0000,
        div(3, 1, 0),
        ldw(1, 1, 2),
        RFX << 26,
    ];
    for place in [Place::User, Place::KernelRom] {
        for counter in 0..4 {
            for word in words {
                let scene = place.scene(&[word]).set(1, DIRECT);
                sink.quiet(&scene.with_timer(3, counter, 0), 2);
            }
            let scene = place.scene(&[addi(1, 1, 1)]).with_psw(PSW_IC | 0x20);
            let scene = scene.with_timer(2, counter, 2);
            sink.case(&scene, &[0x20, 0, 0x20]);
        }
    }
}

/// A timer of any numbers.
fn any_timer(scene: Scene, numbers: &mut Numbers) -> Scene {
    let divisor = numbers.word() >> numbers.below(32);
    let counter = numbers.word() >> numbers.below(32);
    scene.with_timer(divisor, counter, numbers.below(4) as u8)
}

/// Each byte of the registers, and what stands beside them in their frame.
fn offsets(width: Width) -> &'static [u32] {
    match width {
        Width::Word => &[0, 4, 8, 12, 0xFFC, 2, 7],
        Width::Half => &[0, 2, 4, 6, 8, 0xFFE, 1, 5],
        Width::Byte => &[0, 1, 2, 3, 4, 7, 8, 0xFFF],
    }
}

fn accesses(sink: &mut dyn Sink, turn: &mut Turn, numbers: &mut Numbers) {
    let mut bases = Bases::default();
    for opcode in OPCODES {
        for way in Way::ALL {
            for offset in offsets(width_of(opcode)) {
                let physical = CONTROL_ADDRESS + offset;
                let scene = reach(turn, numbers, &mut bases, opcode, way, physical);
                if let Some(scene) = scene {
                    sink.quiet(&any_timer(scene, numbers), 1);
                }
            }
        }
    }
}

/// The timer's later frames, and the words on both sides of all of them.
fn other_frames(sink: &mut dyn Sink, turn: &mut Turn, numbers: &mut Numbers) {
    let mut bases = Bases::default();
    for opcode in OPCODES {
        for physical in [0x2FFF_FFFC, 0x3000_1000, 0x300F_FFFC, 0x3010_0000] {
            let way = Way::Direct;
            let scene = reach(turn, numbers, &mut bases, opcode, way, physical);
            if let Some(scene) = scene {
                sink.quiet(&any_timer(scene, numbers), 1);
            }
        }
    }
}

/// Pages of the timer's frame with each valid and write bit; a faulting store
/// leaves the timer to its tick.
fn pages(sink: &mut dyn Sink, turn: &mut Turn) {
    for opcode in OPCODES {
        for bits in 0..4 {
            for register in [0, 4] {
                for _ in 0..2 {
                    let word = two_registers(opcode, 1, 2, register);
                    let mut scene = turn.either_mode(&[word]);
                    scene.map(9, PAGE, CONTROL_ADDRESS | bits);
                    let scene = scene.set(1, PAGE).set(2, 0x0000_0107);
                    sink.quiet(&scene.with_timer(6, 2, 1), 1);
                }
            }
        }
    }
}

/// A store to each register, read back, from both modes.
fn stores(sink: &mut dyn Sink, numbers: &mut Numbers) {
    let code = |offset| [stw(2, 1, offset), ldw(3, 1, 0), ldw(4, 1, 4)];
    for (place, base) in [(Place::User, PAGE), (Place::KernelRam, DIRECT)] {
        for control in 0..4 {
            for value in [0, 1, 2, 3, 4, 0xFFFF_FFFD, numbers.word() | 4] {
                let mut scene = place.scene(&code(0)).set(1, base).set(2, value);
                scene.map(9, PAGE, CONTROL_ADDRESS | 3);
                sink.quiet(&scene.with_timer(9, 1 + numbers.below(3), control), 3);
            }
        }
        for counter in [0, 1, 2, 9] {
            for value in [0, 1, 2, 3, 0x8000_0000, 0xFFFF_FFFF, numbers.word()] {
                let mut scene = place.scene(&code(4)).set(1, base).set(2, value);
                scene.map(9, PAGE, CONTROL_ADDRESS | 3);
                sink.quiet(&scene.with_timer(counter, counter, 2), 3);
            }
        }
    }
}

/// Code in the two registers: the control reads as ADD, the divisor as any
/// word. Nothing answers behind it.
fn fetches(sink: &mut dyn Sink, numbers: &mut Numbers) {
    let words = [
        addi(1, 1, 1),
        j(-1),
        TRAP << 26,
        stw(2, 3, 0),
        stw(2, 3, 4),
        ldw(4, 3, 4),
        two_registers(MVTS, 0, 2, 4),
    ];
    for (pc, psw) in [(DIRECT, 0), (PAGE, 0), (PAGE, PSW_UC), (0x9000_0000, 0)] {
        for word in words {
            for first in [0, 4] {
                let mut scene = Scene::new().set(2, numbers.word()).set(3, pc);
                scene.map(3, pc & !0xFFF, CONTROL_ADDRESS | 3);
                scene.cpu.pc = pc + first;
                scene.cpu.psw = psw | numbers.pick(&[0, PSW_V]);
                let counter = numbers.below(4);
                let control = numbers.below(4) as u8;
                sink.quiet(&scene.with_timer(word, counter, control), 3);
            }
        }
    }
}

/// Fetches that the timer does not answer.
fn unreached_fetches(sink: &mut dyn Sink) {
    for psw in [0, PSW_UC, PSW_V, PSW_UC | PSW_V] {
        for (pc, bits) in [(DIRECT, 3), (DIRECT + 8, 3), (PAGE, 0), (PAGE, 2)] {
            let mut scene = Scene::new().with_psw(psw);
            scene.cpu.pc = pc;
            scene.map(3, PAGE, CONTROL_ADDRESS | bits);
            sink.quiet(&scene.with_timer(addi(1, 1, 1), 1, 0), 1);
        }
        for offset in [1, 2, 3, 8, 12, 0xFFC] {
            let mut scene = Scene::new().with_psw(psw);
            scene.cpu.pc = PAGE + offset;
            scene.map(3, PAGE, CONTROL_ADDRESS | 3);
            sink.quiet(&scene.with_timer(addi(1, 1, 1), 2, 0), 1);
        }
    }
}

/// Each control with lines of the host, enabled, masked and disabled.
fn lines(sink: &mut dyn Sink, turn: &mut Turn) {
    let line = u32::from(LINE);
    for control in 0..4 {
        for psw in [PSW_IC | 0xFFFF, PSW_IC | line, PSW_IC | 0xBFFF, line] {
            for lines in [0, LINE, 0x0001, LINE | 0x2000, 0x8000, 0xFFFF] {
                for counter in 1..3 {
                    let scene = turn.either_mode(&[addi(1, 1, 1)]).with_psw(psw);
                    let scene = scene.with_timer(counter - 1, counter, control);
                    sink.case(&scene, &[lines, 0]);
                }
            }
        }
    }
}

/// The step that raises the timer's line does not see it, the next does: by a
/// tick, by a store to the control, by one to the divisor, and by MVTS.
fn raised_lines(sink: &mut dyn Sink) {
    let enabled = PSW_IC | u32::from(LINE);
    for place in [Place::KernelRom, Place::User, Place::KernelBelt] {
        let base = if place == Place::User { PAGE } else { DIRECT };
        for v in [0, PSW_V] {
            for (offset, value, control) in [(0, 3, 0), (0, 2, 3), (4, 1, 2), (4, 2, 2)] {
                let words = [stw(2, 1, offset), addi(3, 3, 1), addi(3, 3, 1)];
                let mut scene = place.scene(&words).set(1, base).set(2, value);
                scene.map(9, PAGE, CONTROL_ADDRESS | 3);
                let scene = scene.with_psw(v | u32::from(LINE));
                sink.quiet(&scene.clone().with_timer(0, 0, control), 3);
                let raised = scene.with_psw(PSW_IC).with_timer(0, 0, control);
                sink.quiet(&raised, 3);
            }
            for counter in 0..3 {
                let scene = place.scene(&[addi(3, 3, 1), addi(3, 3, 1)]);
                let scene = scene.with_psw(v | enabled);
                sink.quiet(&scene.with_timer(7, counter, ENABLE), 3);
            }
        }
    }
    for control in 0..4 {
        let words = [two_registers(MVTS, 0, 3, 0), addi(1, 1, 1)];
        let scene = Place::KernelRom.scene(&words).set(3, enabled);
        sink.quiet(&scene.with_timer(1, 1, control), 3);
    }
}

/// A service routine that clears the flag and returns, for a timer that
/// interrupts again and again.
fn paced(sink: &mut dyn Sink) {
    let enabled = PSW_IC | u32::from(LINE);
    for place in [Place::User, Place::KernelRom, Place::KernelRam] {
        for v in [0, PSW_V] {
            for divisor in 1..9 {
                let mut scene = place.scene(&[addi(1, 1, 1), j(-2)]);
                for base in [0, 0x2000_0000] {
                    scene.put(base + 4, stw(26, 27, 0));
                    scene.put(base + 8, RFX << 26);
                }
                let scene = scene.set(26, u32::from(ENABLE)).set(27, DIRECT);
                let scene = scene.with_psw(v | enabled);
                sink.quiet(&scene.with_timer(divisor, divisor, ENABLE), 20);
            }
        }
    }
}
