//! Cases of control flow: branches, jumps, the ends of the address space.

use super::mnemonics::{opcodes, Group, JALR};
use super::observe::{EDGES, EDGE_IMMEDIATES, EDGE_OFFSETS};
use super::scene::{Place, Scene};
use super::turn::Turn;
use super::Sink;
use crate::asm::{addi, long_offset, two_registers};
use crate::processor::PSW_UC;

const JR: u32 = 0x2B;

pub fn cases(sink: &mut dyn Sink, turn: &mut Turn) {
    branches(sink, turn);
    long_jumps(sink, turn);
    indirect_jumps(sink, turn);
    back_past_zero(sink);
    ends_of_spaces(sink);
    last_address(sink);
}

/// Every pair of edge operands, the offsets going round; the second step
/// fetches at the target.
fn branches(sink: &mut dyn Sink, turn: &mut Turn) {
    for opcode in opcodes(Group::Branch) {
        let mut n = opcode as usize;
        for x in EDGES {
            for y in EDGES {
                let offset = EDGE_IMMEDIATES[n % 5];
                n += 1;
                let word = two_registers(opcode, 1, 2, offset as i32);
                let scene = turn.scene(&[word]).set(1, x).set(2, y);
                sink.quiet(&scene, 2);
            }
            n += 1;
        }
    }
}

fn long_jumps(sink: &mut dyn Sink, turn: &mut Turn) {
    for opcode in opcodes(Group::Jump) {
        for _ in 0..3 {
            for offset in EDGE_OFFSETS.into_iter().chain([2, 0x03FF_FFF0]) {
                let scene = turn.scene(&[long_offset(opcode, offset as i32)]);
                sink.quiet(&scene.set(31, 0x1234_5678), 2);
            }
        }
    }
}

fn indirect_jumps(sink: &mut dyn Sink, turn: &mut Turn) {
    let targets = [0xE000_0080, 0xC000_0080, 0x0000_2080, 0x8000_3080];
    for opcode in [JR, JALR] {
        for register in [1, 30, 31, 0] {
            for target in targets {
                let scene = turn.scene(&[two_registers(opcode, register, 0, 0)]);
                sink.quiet(&scene.set(register, target), 3);
            }
        }
        for target in targets {
            for low in 1..4 {
                let scene = turn.scene(&[two_registers(opcode, 31, 0, 0)]);
                sink.quiet(&scene.set(31, target + low), 2);
            }
        }
    }
}

/// One frame behind one page, with a word at its first or last address.
fn at_edge(pc: u32, word: u32, psw: u32) -> Scene {
    let mut scene = Scene::new();
    scene.cpu.pc = pc;
    scene.cpu.psw = psw;
    scene.map(20, pc & !0xFFF, 0x0000_1001);
    scene.put(0x1000 + (pc & 0xFFC), word);
    scene
}

/// Branches at 00000000 whose targets lie below it, modulo 2^32.
fn back_past_zero(sink: &mut dyn Sink) {
    for psw in [0, PSW_UC] {
        for offset in [-2, -3, -0x8000] {
            let words = [
                two_registers(0x20, 0, 0, offset),
                two_registers(0x23, 0, 1, offset),
                long_offset(0x2A, offset),
                long_offset(0x2C, offset),
            ];
            for word in words {
                sink.quiet(&at_edge(0, word, psw), 3);
            }
        }
    }
}

/// The last address of a space, and the step on to the next.
fn ends_of_spaces(sink: &mut dyn Sink) {
    for psw in [0, PSW_UC, PSW_UC | 0x0800_0000] {
        for word in [addi(1, 0, 1), two_registers(0x20, 1, 2, 0)] {
            sink.quiet(&at_edge(0x7FFF_FFFC, word, psw), 3);
            let mut mapped = at_edge(0x7FFF_FFFC, word, psw);
            mapped.map(3, 0x8000_0000, 0x0000_1001);
            sink.quiet(&mapped, 3);
        }
    }
    for psw in [0, 0x0800_0000] {
        for word in [addi(1, 0, 1), long_offset(0x2C, 0)] {
            sink.quiet(&at_edge(0xBFFF_FFFC, word, psw), 3);
        }
    }
}

/// PC FFFFFFFC: nothing answers there, so R30 takes it and no PC follows it.
fn last_address(sink: &mut dyn Sink) {
    for v in [0, 0x0800_0000] {
        for psw in [0, PSW_UC] {
            let mut scene = Scene::new();
            scene.cpu.pc = 0xFFFF_FFFC;
            scene.cpu.psw = psw | v;
            sink.quiet(&scene, 2);
            scene.cpu.psw |= 0x0080_8001;
            sink.case(&scene, &[0x8000, 0x8000]);
            sink.case(&scene, &[0x4000, 0x0001]);
        }
        let jump = Place::KernelRam.scene(&[two_registers(JR, 9, 0, 0)]);
        sink.quiet(&jump.set(9, 0xFFFF_FFFC).with_psw(v), 3);
    }
}
