//! Cases of the replacement index: its move after each step, and the slots
//! that TBWR writes (document 02, job 4).

use super::mnemonics::{group, Group, RFX, TBRI, TBS, TBWI, TBWR, TRAP};
use super::scene::{Place, Scene};
use super::Sink;
use crate::asm::{
    addi, bne, div, j, ldw, long_offset, mvfs, mvts, sth, stw, three_registers, two_registers,
};
use crate::processor::{PSW_IC, PSW_V};
use crate::timer::{CONTROL_ADDRESS, ENABLE, LINE};

/// The first index, and those before the way back to it.
const EDGES: [u8; 3] = [4, 30, 31];
const MODES: [Place; 2] = [Place::User, Place::KernelRom];

pub fn cases(sink: &mut dyn Sink) {
    opcodes(sink);
    faults(sink);
    interrupts(sink);
    rows(sink);
    between(sink);
    services(sink);
    refills(sink);
    rounds(sink);
    paced(sink);
}

/// The index from which so many steps lead to another.
fn before(index: u8, steps: u8) -> u8 {
    4 + (index - 4 + 28 - steps) % 28
}

/// Code at a place, with its own page or RAM behind R1 and an entry of the
/// place's frame in the registers that TBWR writes.
fn code(place: Place, words: &[u32]) -> Scene {
    let base = match place {
        Place::User => 0x0000_2080,
        _ => 0xC000_1080,
    };
    let mut scene = place.scene(words).set(1, base).set(30, base);
    scene.cpu.entry_high = 0x0000_6000;
    scene.cpu.entry_low = 0x0000_1003;
    scene
}

/// A word that completes in Kernel Mode if its opcode can.
fn word(opcode: u32) -> u32 {
    match group(opcode) {
        Group::Register => three_registers(opcode, 1, 1, 3),
        Group::Jump => long_offset(opcode, 1),
        _ => two_registers(opcode, 1, 1, 4),
    }
}

/// Each opcode, in both modes.
fn opcodes(sink: &mut dyn Sink) {
    for place in MODES {
        for opcode in 0..64 {
            for index in [30, 31] {
                let scene = code(place, &[word(opcode)]);
                sink.quiet(&scene.with_index(index), 1);
            }
        }
    }
}

/// TRAP at each index, and the faults that no opcode alone makes, at the last.
fn faults(sink: &mut dyn Sink) {
    for place in MODES {
        for index in 4..32 {
            sink.quiet(&code(place, &[TRAP << 26]).with_index(index), 1);
        }
        let accesses = [
            (div(3, 1, 0), 0),
            (ldw(3, 2, 0), 0x0000_5000),
            (stw(3, 2, 0), 0x0000_6000),
            (stw(3, 2, 0), 0x0000_7000),
            (stw(3, 2, 0), 0x0000_8000),
            (ldw(3, 2, 0), 0x0000_2002),
            (ldw(3, 2, 0), 0xC000_2000),
        ];
        for (word, address) in accesses {
            let mut scene = code(place, &[word]).set(2, address);
            scene.map(9, 0x0000_6000, 0x0000_1002);
            scene.map(10, 0x0000_7000, 0x0000_1001);
            scene.map(11, 0x0000_8000, 0x0000_2003);
            sink.quiet(&scene.with_index(31), 1);
        }
    }
    for pc in [0xC000_2000, 0x0000_5000, 0x0000_5001] {
        let mut scene = Scene::new();
        scene.cpu.pc = pc;
        sink.quiet(&scene.with_index(31), 2);
    }
}

/// An interrupt at each index, and each channel at the last. The timer's line
/// is up too, but behind a lower one.
fn interrupts(sink: &mut dyn Sink) {
    for place in MODES {
        let scene = code(place, &[TBWR << 26]).with_psw(PSW_IC | 0xFFFF);
        for index in 4..32 {
            let lines = LINE | 1 << (index % 14);
            let raised = scene.clone().with_timer(0, 0, 3);
            sink.case(&raised.with_index(index), &[lines]);
        }
        for channel in 0..16 {
            sink.case(&scene.clone().with_index(31), &[1 << channel]);
        }
    }
}

/// TBWR after TBWR, three times and more than once around.
fn rows(sink: &mut dyn Sink) {
    for first in [4, 5, 28, 29, 30, 31] {
        let scene = code(Place::KernelRom, &[TBWR << 26; 3]);
        sink.quiet(&scene.with_index(first), 3);
    }
    for first in [17, 31] {
        let scene = code(Place::KernelRam, &[TBWR << 26; 30]);
        sink.quiet(&scene.with_index(first), 30);
    }
}

/// Two TBWR and a step of another sort between them; the second writes at an
/// edge.
fn between(sink: &mut dyn Sink) {
    let words = [
        addi(3, 3, 1),
        ldw(3, 1, 0),
        sth(3, 1, 0),
        stw(3, 1, 0),
        j(0),
        bne(1, 3, 0),
        mvfs(3, 4),
        mvts(3, 2),
        mvts(3, 3),
        TBS << 26,
        TBRI << 26,
        TBWI << 26,
    ];
    for word in words {
        for edge in EDGES {
            let scene = code(Place::KernelRom, &[TBWR << 26, word, TBWR << 26]);
            let scene = scene.set(3, 0x0ABC_D000);
            sink.quiet(&scene.with_index(before(edge, 2)), 3);
        }
    }
}

/// Services of both entries that write an entry at once and return.
fn with_services(mut scene: Scene) -> Scene {
    for base in [0, 0x2000_0000] {
        scene.put(base + 4, TBWR << 26);
        scene.put(base + 8, TBWR << 26);
        scene.put(base + 12, RFX << 26);
    }
    scene
}

/// TBWR right after a miss, a trap and an interrupt, at each edge.
fn services(sink: &mut dyn Sink) {
    for v in [0, PSW_V] {
        for edge in EDGES {
            let first = before(edge, 1);
            for word in [ldw(3, 2, 0), stw(3, 2, 0), TRAP << 26] {
                let scene = with_services(code(Place::User, &[word])).set(2, 0x0000_5000);
                sink.quiet(&scene.with_psw(v).with_index(first), 5);
            }
            let scene = with_services(code(Place::User, &[addi(3, 3, 1)]));
            let scene = scene.with_psw(v | PSW_IC | 0x0010);
            sink.case(&scene.with_index(first), &[0x0010, 0, 0, 0, 0]);
        }
    }
}

/// A program in User Mode that touches page after page, and its own page among
/// those that are replaced: all are filled by TBWR. A page takes nine steps.
fn refills(sink: &mut dyn Sink) {
    let words = [
        addi(3, 3, 1),
        stw(3, 2, 0),
        ldw(4, 2, 0),
        addi(2, 2, 0x1000),
        addi(5, 5, 1),
        j(-6),
    ];
    for (first, steps) in [(4, 320), (23, 160)] {
        let scene = with_services(code(Place::User, &words)).set(2, 0x0001_0000);
        sink.quiet(&scene.with_index(first), steps);
    }
}

/// Loops that go around several times, without TBWR and with it.
fn rounds(sink: &mut dyn Sink) {
    let words = [addi(3, 3, 1), stw(3, 1, 0), ldw(4, 1, 0), j(-4)];
    for place in [Place::User, Place::KernelRom, Place::KernelMapped] {
        for first in [4, 31] {
            sink.quiet(&code(place, &words).with_index(first), 88);
        }
    }
    let words = [TBWR << 26, mvts(3, 2), addi(3, 3, 0x1000), stw(3, 1, 0)];
    for first in EDGES {
        let mut words = words.to_vec();
        words.push(j(-5));
        let scene = code(Place::KernelRam, &words);
        sink.quiet(&scene.with_index(first), 60);
    }
}

/// The timer interrupts, and its service clears the flag and writes an entry.
fn paced(sink: &mut dyn Sink) {
    for place in MODES {
        let mut scene = code(place, &[addi(3, 3, 1), j(-2)]);
        for base in [0, 0x2000_0000] {
            scene.put(base + 4, stw(26, 27, 0));
            scene.put(base + 8, TBWR << 26);
            scene.put(base + 12, RFX << 26);
        }
        let scene = scene.set(26, u32::from(ENABLE));
        let scene = scene.set(27, 0xC000_0000 + CONTROL_ADDRESS);
        let scene = scene.with_psw(PSW_IC | u32::from(LINE));
        sink.quiet(&scene.with_timer(7, 3, ENABLE).with_index(29), 60);
    }
}
