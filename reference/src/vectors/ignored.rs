//! Cases of instructions whose words have bits set that mean nothing.

use super::mnemonics::{ignored_bits, MVFS, MVTS};
use super::numbers::Numbers;
use super::scene::Scene;
use super::turn::Turn;
use super::Sink;

pub fn cases(sink: &mut dyn Sink, turn: &mut Turn, numbers: &mut Numbers) {
    for opcode in (0..64).filter(|&opcode| ignored_bits(opcode) != 0) {
        let bits = ignored_bits(opcode);
        for set in [bits, bits, numbers.word() & bits, numbers.word() & bits] {
            for user in [false, true] {
                let rest = fields(opcode, numbers) & !bits;
                let words = [opcode << 26 | rest | set];
                let mut scene = if user {
                    super::scene::Place::User.scene(&words)
                } else {
                    turn.kernel(&words)
                };
                fill(&mut scene, numbers);
                sink.quiet(&scene, 1);
            }
        }
    }
}

/// The other fields, at random; a special register number is one in use.
fn fields(opcode: u32, numbers: &mut Numbers) -> u32 {
    match opcode {
        MVFS | MVTS => numbers.below(32) << 16 | numbers.below(5),
        _ => numbers.word() >> 6,
    }
}

/// Sets the registers that the instructions read, and those of the TLB.
fn fill(scene: &mut Scene, numbers: &mut Numbers) {
    for register in 1..32 {
        scene.cpu.set_register(register, numbers.word());
    }
    for special in 1..5 {
        scene.cpu.set_special(special, numbers.word());
    }
}
