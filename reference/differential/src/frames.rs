//! Frames that a machine in User Mode reaches (document 01, "Runs and views").

use crate::world::World;
use eco32_reference::memory::{BELT_BASE, ROM_BASE};
use eco32_reference::timer::CONTROL_ADDRESS;
use eco32_reference::Processor;
use std::collections::BTreeSet;
use std::ops::Range;

pub const FRAME: usize = 4096;
/// Number of the timer's frame. Its bytes stand in the record.
pub const TIMER_FRAME: u32 = CONTROL_ADDRESS >> 12;

/// Frame numbers reached, and those reached writable, by the TLB at the start.
pub struct Reached {
    pub readable: BTreeSet<u32>,
    pub writable: BTreeSet<u32>,
}

impl Reached {
    /// The entry of a page is the one of the lowest index; the page is a user
    /// page below 80000.
    pub fn of(cpu: &Processor) -> Reached {
        let mut pages = BTreeSet::new();
        let mut reached = Reached {
            readable: BTreeSet::new(),
            writable: BTreeSet::new(),
        };
        for entry in &cpu.tlb {
            let first = pages.insert(entry.high);
            if !first || entry.high >= 0x8000_0000 || entry.low & 1 == 0 {
                continue;
            }
            reached.readable.insert(entry.low >> 12);
            if entry.low & 2 != 0 {
                reached.writable.insert(entry.low >> 12);
            }
        }
        reached
    }
}

/// The parts of lent memory that lie in frames.
#[derive(Clone, Copy, Debug, PartialEq, Eq)]
pub enum Part {
    Ram,
    Rom,
    Belt,
}

impl Part {
    pub fn bytes(self, world: &World) -> &[u8] {
        match self {
            Part::Ram => world.ram.bytes(),
            Part::Rom => world.rom.bytes(),
            Part::Belt => world.belt.bytes(),
        }
    }

    pub fn bytes_mut(self, world: &mut World) -> &mut [u8] {
        match self {
            Part::Ram => world.ram.bytes_mut(),
            Part::Rom => world.rom.bytes_mut(),
            Part::Belt => world.belt.bytes_mut(),
        }
    }
}

/// A frame with memory: its number, and where its bytes lie.
pub struct Frame {
    pub number: u32,
    pub part: Part,
    pub range: Range<usize>,
}

/// All frames with memory in a world.
pub fn frames(world: &World) -> Vec<Frame> {
    let mut frames = Vec::new();
    let parts = [
        (Part::Ram, 0),
        (Part::Rom, ROM_BASE),
        (Part::Belt, BELT_BASE),
    ];
    for (part, base) in parts {
        let length = part.bytes(world).len();
        for at in (0..length).step_by(FRAME) {
            frames.push(Frame {
                number: (base >> 12) + (at / FRAME) as u32,
                part,
                range: at..length.min(at + FRAME),
            });
        }
    }
    frames
}
