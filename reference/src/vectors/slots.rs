//! Cases of the slots that serve data accesses (document 02, job 2).

use super::access::width_of;
use super::mnemonics::{RFX, TBRI, TBS, TBWI, TBWR, TRAP};
use super::scene::{Place, Scene};
use super::transfer::OPCODES;
use super::Sink;
use crate::asm::{add, addi, beq, div, j, jal, mvfs, mvts, two_registers};
use crate::memory::{BELT_BASE, ROM_BASE};
use crate::processor::{PSW_IC, PSW_UC};
use crate::timer::CONTROL_ADDRESS;

const MODES: [Place; 2] = [Place::User, Place::KernelRom];
const LDW: u32 = 0x30;
const STW: u32 = 0x35;

/// Registers with an address in the middle of each 65,536 bytes, or near it.
const BASES: [(u32, u32); 3] = [(1, 0x0000_4000), (2, 0x0001_8000), (4, 0x0002_8000)];
/// A register with an address that is privileged in User Mode, and has nothing
/// behind it in Kernel Mode.
const BEYOND: (u32, u32) = (5, 0xC000_2000);

/// Pages with several entries: the first of these slots serves.
pub(super) const DOUBLED: [(u32, [usize; 3]); 4] = [
    (0x0000_4000, [0, 31, 31]),
    (0x0000_5000, [1, 2, 11]),
    (0x0000_6000, [15, 16, 17]),
    (0x0000_7000, [29, 30, 30]),
];

/// Slots by which each region is reached.
pub(super) const SLOTS_BY_PLACE: [usize; 3] = [0, 17, 31];

pub fn cases(sink: &mut dyn Sink) {
    every_slot(sink);
    doubled_pages(sink);
    places(sink);
    own_word(sink);
    instructions_after(sink);
    faults_after(sink);
    fetch_faults_after(sink);
    interrupts_after(sink);
}

/// A load or store of R3.
fn access(opcode: u32, address: u32) -> u32 {
    let (register, base) = BASES[(address >> 16) as usize];
    two_registers(opcode, register, 3, address.wrapping_sub(base) as i32)
}

fn with_registers(scene: Scene) -> Scene {
    let bases = BASES.into_iter().chain([BEYOND, (3, 0x8182_8384)]);
    bases.fold(scene, |scene, (register, value)| scene.set(register, value))
}

/// Code at a place, in User Mode behind slot 12.
fn code(place: Place, words: &[u32]) -> Scene {
    with_registers(place.scene(words))
}

/// The page of a slot where all are in use: the pages have another order.
fn page(place: Place, slot: usize) -> u32 {
    match (place, slot) {
        (Place::User, 12) => 0x0000_2000,
        _ => 0x0001_0000 + 0x1000 * (5 * slot as u32 % 32),
    }
}

/// Each load and store by each slot, the stores first.
fn every_slot(sink: &mut dyn Sink) {
    for place in MODES {
        let mut words = Vec::new();
        for opcode in OPCODES.rev() {
            for slot in 0..32 {
                let inside = 4 - width_of(opcode).bytes() as u32;
                let offset = 0x800 + 4 * slot as u32 + inside;
                words.push(access(opcode, page(place, slot) + offset));
            }
        }
        let mut scene = code(place, &words);
        for slot in (0..32).filter(|&slot| page(place, slot) >= 0x0001_0000) {
            scene.map(slot, page(place, slot), (slot as u32 % 2) << 12 | 3);
        }
        sink.quiet(&scene, words.len());
    }
}

/// The lower entry has frame 0, the others frame 1.
fn doubled_pages(sink: &mut dyn Sink) {
    let pages = DOUBLED.map(|(page, _)| page);
    let words: Vec<u32> = OPCODES
        .flat_map(|opcode| pages.map(|page| access(opcode, page + 0x800)))
        .collect();
    for place in MODES {
        let mut scene = code(place, &words);
        for (page, [lower, higher, highest]) in DOUBLED {
            scene.map(lower, page, 0x0000_0003);
            scene.map(higher, page, 0x0000_1003);
            scene.map(highest, page, 0x0000_1003);
        }
        sink.quiet(&scene, words.len());
    }
}

/// ROM, belt and timer, whose stores have a slot as those to RAM have.
fn places(sink: &mut dyn Sink) {
    let (rom, belt, timer) = (0x0000_4000, 0x0000_5000, 0x0000_6000);
    let mut words: Vec<u32> = OPCODES.map(|opcode| access(opcode, rom + 0x100)).collect();
    for address in [belt + 0x100, timer, timer + 4] {
        words.extend([STW, LDW].map(|opcode| access(opcode, address)));
    }
    let frames = [(rom, ROM_BASE), (belt, BELT_BASE), (timer, CONTROL_ADDRESS)];
    for place in MODES {
        for first in 0..3 {
            let mut scene = code(place, &words);
            for (n, (page, frame)) in frames.into_iter().enumerate() {
                scene.map(SLOTS_BY_PLACE[(first + n) % 3], page, frame | 3);
            }
            sink.quiet(&scene, words.len());
        }
    }
}

/// A store to its own word, and a load over its own base.
fn own_word(sink: &mut dyn Sink) {
    for place in [Place::User, Place::KernelRam, Place::KernelBelt] {
        let store = code(place, &[two_registers(STW, 6, 3, 0)]);
        sink.quiet(&store.set(6, place.pc()), 2);
        let load = code(place, &[two_registers(LDW, 6, 6, 0)]);
        sink.quiet(&load.set(6, place.pc()), 2);
    }
}

/// An access by slot 6, and this word behind it.
fn before(place: Place, opcode: u32, word: u32) -> Scene {
    let mut scene = code(place, &[access(opcode, 0x0000_5800), word]);
    scene.map(6, 0x0000_5000, 0x0000_0003);
    scene
}

/// Instructions without a data access, completed or not.
fn instructions_after(sink: &mut dyn Sink) {
    let words = [
        add(7, 1, 2),
        addi(7, 1, 2),
        beq(1, 1, 1),
        j(1),
        jal(1),
        mvfs(7, 4),
        mvts(1, 4),
        TBS << 26,
        TBWR << 26,
        TBRI << 26,
        TBWI << 26,
        RFX << 26,
        TRAP << 26,
        0xFC00_0000,
        div(7, 1, 0),
    ];
    for word in words {
        for place in MODES {
            for opcode in [LDW, STW] {
                sink.quiet(&before(place, opcode, word), 2);
            }
        }
    }
}

/// Accesses without the valid bit, to a frame without memory, without an
/// entry, across words, without the write bit, and beyond.
fn faults_after(sink: &mut dyn Sink) {
    for place in MODES {
        for opcode in [LDW, STW] {
            let near = [0x7800, 0x9800, 0xA800, 0x5802, 0x8800];
            let words = near.map(|address| access(opcode, address));
            let beyond = two_registers(opcode, BEYOND.0, 3, 0);
            for word in words.into_iter().chain([beyond]) {
                let mut scene = before(place, LDW, word);
                scene.map(7, 0x0000_7000, 0x0000_0002);
                scene.map(8, 0x0000_8000, 0x0000_0001);
                scene.map(9, 0x0000_9000, 0x0000_2003);
                sink.quiet(&scene, 2);
            }
        }
    }
}

/// An access by the last word of a page, and no word behind it.
fn fetch_faults_after(sink: &mut dyn Sink) {
    let edges = [
        (0x0000_2FFC, PSW_UC, None),
        (0x0000_2FFC, PSW_UC, Some(0x0000_0002)),
        (0x0000_2FFC, PSW_UC, Some(0x0000_2001)),
        (0x7FFF_FFFC, PSW_UC, None),
        (0x0000_2FFC, 0, None),
        (0xC000_1FFC, 0, None),
    ];
    for (pc, psw, next) in edges {
        for opcode in [LDW, STW] {
            let mut scene = with_registers(Scene::new()).with_psw(psw);
            scene.cpu.pc = pc;
            scene.map(12, pc & !0xFFF, 0x0000_1001);
            scene.map(6, 0x0000_5000, 0x0000_0003);
            if let Some(low) = next {
                scene.map(13, pc + 4, low);
            }
            scene.put(0x1FFC, access(opcode, 0x0000_5800));
            sink.quiet(&scene, 2);
        }
    }
}

/// The interrupt comes in place of a second access.
fn interrupts_after(sink: &mut dyn Sink) {
    for place in MODES {
        for opcode in [LDW, STW] {
            for line in [0x0001, 0x4000, 0x8000] {
                let scene = before(place, opcode, access(opcode, 0x0000_5900));
                let scene = scene.with_psw(PSW_IC | 0xFFFF);
                sink.case(&scene, &[0, line]);
            }
        }
    }
}
