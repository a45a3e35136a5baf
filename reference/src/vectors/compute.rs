//! Cases of computation: edge operands, immediates, shifts, register 0.

use super::mnemonics::{opcodes, Group};
use super::numbers::Numbers;
use super::observe::{EDGES, EDGE_IMMEDIATES, SHIFT_COUNTS};
use super::turn::Turn;
use super::Sink;
use crate::asm::{three_registers, two_registers};

pub fn cases(sink: &mut dyn Sink, turn: &mut Turn, numbers: &mut Numbers) {
    edge_operands(sink, turn);
    one_register(sink, turn);
    edge_immediates(sink, turn);
    shifts(sink, turn, numbers);
    register_zero(sink, turn, numbers);
    random_operands(sink, turn, numbers);
}

fn edge_operands(sink: &mut dyn Sink, turn: &mut Turn) {
    for opcode in opcodes(Group::Register) {
        for x in EDGES {
            for y in EDGES {
                let scene = turn.scene(&[three_registers(opcode, 1, 2, 3)]);
                sink.quiet(&scene.set(1, x).set(2, y), 1);
            }
        }
    }
}

/// Both operands and the result in one register.
fn one_register(sink: &mut dyn Sink, turn: &mut Turn) {
    for opcode in opcodes(Group::Register) {
        for x in EDGES {
            let scene = turn.scene(&[three_registers(opcode, 30, 30, 30)]);
            sink.quiet(&scene.set(30, x), 1);
        }
    }
}

fn edge_immediates(sink: &mut dyn Sink, turn: &mut Turn) {
    for opcode in opcodes(Group::Immediate) {
        for x in EDGES {
            for immediate in EDGE_IMMEDIATES {
                let word = two_registers(opcode, 31, 30, immediate as i32);
                sink.quiet(&turn.scene(&[word]).set(31, x), 1);
            }
        }
    }
}

fn shifts(sink: &mut dyn Sink, turn: &mut Turn, numbers: &mut Numbers) {
    for count in SHIFT_COUNTS {
        for value in [0x8000_0001, 0x7FFF_FFFE, numbers.word(), numbers.word()] {
            for opcode in [0x18, 0x1A, 0x1C] {
                let words = [
                    three_registers(opcode, 8, 9, 10),
                    two_registers(opcode + 1, 8, 11, count as i32),
                ];
                let scene = turn.scene(&words);
                sink.quiet(&scene.set(8, value).set(9, count), 2);
            }
        }
    }
    // Bits of the count above the lowest five play no part.
    for opcode in [0x18, 0x1A, 0x1C] {
        for count in [0x8000_0000, 0xFFFF_FFE1, 0xFFFF_FFFF] {
            let scene = turn.scene(&[three_registers(opcode, 8, 9, 10)]);
            sink.quiet(&scene.set(8, numbers.word()).set(9, count), 1);
        }
    }
}

/// A result for register 0, which then reads 0 still.
fn register_zero(sink: &mut dyn Sink, turn: &mut Turn, numbers: &mut Numbers) {
    for opcode in opcodes(Group::Register) {
        for _ in 0..2 {
            let words = [three_registers(opcode, 1, 2, 0), 0x0000_1800];
            let scene = turn.scene(&words).set(3, numbers.word());
            sink.quiet(&scene.set(1, numbers.word()).set(2, numbers.word()), 2);
        }
    }
    for opcode in opcodes(Group::Immediate) {
        for _ in 0..2 {
            let word = two_registers(opcode, 1, 0, numbers.word() as i32 | 1);
            let scene = turn.scene(&[word, 0x0000_1800]).set(3, numbers.word());
            sink.quiet(&scene.set(1, numbers.word()), 2);
        }
    }
}

/// Numbers of every size, so that quotients and products are not all edges.
fn random_operands(sink: &mut dyn Sink, turn: &mut Turn, numbers: &mut Numbers) {
    for opcode in opcodes(Group::Register) {
        for _ in 0..6 {
            let x = numbers.word() >> numbers.below(32);
            let y = numbers.word() >> numbers.below(32);
            let flip = |value: u32, on: bool| if on { value.wrapping_neg() } else { value };
            let (x, y) = (flip(x, numbers.percent(40)), flip(y, numbers.percent(40)));
            let immediate = y as i32 >> 16;
            let words = [
                three_registers(opcode, 4, 5, 6),
                two_registers(opcode + 1, 6, 7, immediate),
                two_registers(opcode + 1, 4, 8, y as i32),
            ];
            sink.quiet(&turn.scene(&words).set(4, x).set(5, y), 3);
        }
    }
}
