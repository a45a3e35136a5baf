//! Cases of faults: translations that fail, doubled pages, illegal and
//! privileged instructions.

use super::mnemonics::{opcodes, Group, TRAP};
use super::numbers::Numbers;
use super::scene::{Place, Scene};
use super::turn::Turn;
use super::Sink;
use crate::asm::{addi, two_registers};
use crate::processor::{PSW_UC, PSW_V};

pub fn cases(sink: &mut dyn Sink, turn: &mut Turn, numbers: &mut Numbers) {
    data_faults(sink, turn, numbers);
    order_of_data_faults(sink, turn);
    doubled_data_pages(sink, numbers);
    doubled_code_pages(sink);
    fetch_faults(sink);
    mapped_code(sink);
    high_frames(sink, turn, numbers);
    without_address(sink, turn, numbers);
    stacks_at_entry(sink);
}

/// Bad Address and Entry High hold something that a wrong fault would keep.
fn access(turn: &mut Turn, opcode: u32, address: u32) -> Scene {
    let scene = turn.either_mode(&[two_registers(opcode, 1, 2, 0)]);
    let mut scene = scene.set(1, address).set(2, 0x2222_2222);
    scene.cpu.bad_address = 0x5555_5555;
    scene.cpu.entry_high = 0x6666_6000;
    scene.cpu.entry_low = 0x7777_7001;
    scene
}

fn data_faults(sink: &mut dyn Sink, turn: &mut Turn, numbers: &mut Numbers) {
    for opcode in 0x30..=0x37 {
        for space in [0x0000_0000, 0x7FFF_F000, 0x8000_0000, 0xBFFF_F000] {
            for _ in 0..2 {
                let address = space + (numbers.below(4096) & !3);
                // A miss, and a neighbouring page present.
                let mut scene = access(turn, opcode, address);
                scene.map(5, (address & !0xFFF) ^ 0x1000, 0x0000_0003);
                sink.quiet(&scene, 1);
                // An entry without the valid bit, without the write bit, and
                // for a frame that nothing answers for.
                for low in [0x0000_0000, 0x0000_0002, 0x0000_0001, 0x1000_0003] {
                    let mut scene = access(turn, opcode, address);
                    scene.map(5, address & !0xFFF, low);
                    sink.quiet(&scene, 1);
                }
            }
        }
        for address in [
            0x8000_0000,
            0x8000_0002,
            0x8000_0001,
            0xC000_0000,
            0xFFFF_FFFF,
        ] {
            for _ in 0..2 {
                sink.quiet(&access(turn, opcode, address), 1);
            }
        }
    }
}

/// Accesses that break several rules at once.
fn order_of_data_faults(sink: &mut dyn Sink, turn: &mut Turn) {
    for opcode in [0x30, 0x31, 0x32, 0x35, 0x36] {
        for address in [0x8000_2001, 0xC000_0003, 0x0000_5001] {
            for low in [0x0000_0000, 0x0000_0001, 0x1000_0001] {
                let mut scene = access(turn, opcode, address);
                scene.map(31, address & !0xFFF, low);
                sink.quiet(&scene, 1);
            }
        }
    }
    for opcode in [0x35, 0x36, 0x37] {
        for low in [0x0000_0000, 0x1000_0000, 0x1000_0001, 0x2000_0001] {
            let mut scene = access(turn, opcode, 0x0000_5000);
            scene.map(31, 0x0000_5000, low);
            sink.quiet(&scene, 1);
        }
    }
}

/// All bits of two entries with one page number.
fn doubled_data_pages(sink: &mut dyn Sink, numbers: &mut Numbers) {
    for bits in 0..16 {
        for opcode in [0x30, 0x33, 0x35, 0x37] {
            let place = numbers.pick(&[Place::User, Place::KernelRom]);
            let mut scene = place.scene(&[two_registers(opcode, 1, 2, 8)]);
            let lower = numbers.below(7) as usize;
            scene.map(lower, 0x0000_5000, bits & 3);
            scene.map(lower + 13, 0x0000_5000, 0x0000_1000 | bits >> 2);
            scene.put(0x0208, numbers.word());
            scene.put(0x1208, numbers.word());
            sink.quiet(&scene.set(1, 0x0000_5200).set(2, numbers.word()), 1);
        }
    }
}

/// The same for the page of the instruction: frame 0 adds 1, frame 1 adds 2.
fn doubled_code_pages(sink: &mut dyn Sink) {
    for bits in 0..16 {
        for psw in [0, PSW_UC] {
            let mut scene = Scene::new();
            scene.cpu.pc = 0x0000_5100;
            scene.cpu.psw = psw;
            scene.map(2, 0x0000_5000, bits & 3);
            scene.map(4, 0x0000_5000, 0x0000_1000 | bits >> 2);
            scene.put(0x0100, addi(1, 1, 1));
            scene.put(0x1100, addi(1, 1, 2));
            sink.quiet(&scene, 1);
        }
    }
}

fn fetch_faults(sink: &mut dyn Sink) {
    let pcs = [
        0x0000_0000,
        0x7FFF_FFFC,
        0x8000_0000,
        0xBFFF_FFFC,
        0xC000_2000,
        0xDFFF_FFFC,
        0xE000_1000,
        0xF04F_FFFC,
        0xF050_0400,
        0x0000_0001,
        0x7FFF_FFFE,
        0x8000_0003,
        0xC000_0002,
        0xE000_0001,
    ];
    for pc in pcs {
        for psw in [0, PSW_V, PSW_UC, PSW_UC | PSW_V] {
            // No entry, none valid, and one for a frame without memory.
            for low in [None, Some(2), Some(0x1000_0001)] {
                let mut scene = Scene::new();
                scene.cpu.pc = pc;
                scene.cpu.psw = psw;
                if let Some(low) = low {
                    scene.map(18, pc & !0xFFF, low);
                }
                sink.quiet(&scene, 1);
                if pc >= 0xC000_0000 {
                    break;
                }
            }
        }
    }
}

/// Code in every region behind pages of both modes, and past its end.
fn mapped_code(sink: &mut dyn Sink) {
    for (frame, at) in [(0x1000, 0xFF8), (0x2000_0000, 0xFF8), (0x3050_0000, 0x3F8)] {
        for (page, psw) in [(0x0000_6000, PSW_UC), (0x0000_6000, 0), (0x9999_9000, 0)] {
            let mut scene = Scene::new();
            scene.cpu.pc = page + at;
            scene.cpu.psw = psw;
            scene.map(0, page, frame | 1);
            scene.put(frame + at, addi(1, 1, 1));
            scene.put(frame + at + 4, addi(2, 2, -1));
            sink.quiet(&scene, 3);
            scene.map(1, page + 0x1000, 0x0000_2001);
            sink.quiet(&scene, 3);
        }
    }
}

/// Frames from 40000000 up, which no direct-mapped address reaches: no bit of
/// the frame number is lost, so nothing answers there.
fn high_frames(sink: &mut dyn Sink, turn: &mut Turn, numbers: &mut Numbers) {
    for frame in [
        0x4000_0000,
        0x8000_1000,
        0xC000_0000,
        0x6000_0000,
        0xFFFF_F000,
    ] {
        for opcode in [0x30, 0x32, 0x34, 0x35, 0x36, 0x37] {
            let mut scene = access(turn, opcode, 0x0000_5000 + (numbers.below(256) & !3));
            scene.map(11, 0x0000_5000, frame | 3);
            sink.quiet(&scene, 1);
        }
        for psw in [0, PSW_UC, PSW_V, PSW_UC | PSW_V] {
            let mut scene = Scene::new();
            scene.cpu.pc = 0x0000_5000 + (numbers.below(256) & !3);
            scene.cpu.psw = psw;
            scene.map(11, 0x0000_5000, frame | 1);
            sink.quiet(&scene, 1);
        }
    }
}

/// Illegal, privileged and trap instructions with any other bits.
fn without_address(sink: &mut dyn Sink, turn: &mut Turn, numbers: &mut Numbers) {
    let illegal = opcodes(Group::Illegal).chain([TRAP]);
    for opcode in illegal {
        for _ in 0..16 {
            let word = opcode << 26 | numbers.word() >> 6;
            sink.quiet(&turn.scene(&[word]).set(30, numbers.word()), 1);
        }
    }
    for opcode in opcodes(Group::Privileged) {
        for n in 0..12 {
            let word = opcode << 26 | numbers.word() >> 6;
            let mut scene = Place::User.scene(&[word]);
            scene.cpu.psw |= numbers.word() & 0x037F_FFFF | (n % 2) << 27;
            sink.quiet(&scene.set(30, numbers.word()), 1);
        }
    }
}

/// Exception entry from all contents of the PSW's stacks.
fn stacks_at_entry(sink: &mut dyn Sink) {
    for stacks in 0..64 {
        for v in [0, PSW_V] {
            let place = if stacks & 0o40 == 0 {
                Place::KernelRam
            } else {
                Place::User
            };
            let mut scene = place.scene(&[TRAP << 26]);
            scene.cpu.psw = stacks << 21 | v | 0x001F_0000;
            sink.quiet(&scene, 2);
        }
    }
}
