//! Cases of loads and stores: every region, every end, every fault.

use super::access::width_of;
use super::numbers::Numbers;
use super::scene::{Region, Scene};
use super::turn::Turn;
use super::Sink;
use crate::asm::two_registers;
use crate::memory::Width;

pub const OPCODES: std::ops::RangeInclusive<u32> = 0x30..=0x37;
const IMMEDIATES: [i32; 9] = [0, 1, 0x7FFF, -0x8000, -1, 4, -4, 0x0123, -0x0456];

/// How an address reaches its physical one.
#[derive(Clone, Copy)]
pub enum Way {
    Direct,
    User,
    KernelLow,
    KernelHigh,
}

impl Way {
    pub const ALL: [Way; 4] = [Way::Direct, Way::User, Way::KernelLow, Way::KernelHigh];
}

/// Gives immediates in turn, and base registers that fit them.
#[derive(Default)]
pub struct Bases(usize);

impl Bases {
    fn next(&mut self, address: u32) -> (i32, u32) {
        let immediate = IMMEDIATES[self.0 % IMMEDIATES.len()];
        self.0 += 1;
        (immediate, address.wrapping_sub(immediate as u32))
    }
}

pub fn cases(sink: &mut dyn Sink, turn: &mut Turn, numbers: &mut Numbers) {
    let mut bases = Bases::default();
    for opcode in OPCODES {
        for region in Region::ALL {
            let length = Scene::new().length(region);
            for way in Way::ALL {
                for offset in offsets(length, width_of(opcode)) {
                    let physical = region.base().wrapping_add(offset as u32);
                    let scene = reach(turn, numbers, &mut bases, opcode, way, physical);
                    if let Some(scene) = scene {
                        sink.quiet(&scene, 1);
                    }
                }
            }
        }
        edge_immediates(sink, turn, numbers, opcode);
    }
    same_register(sink, turn, numbers);
}

/// Offsets from the region's base: its ends from both sides, each byte of a
/// word, and one inside.
fn offsets(length: u32, width: Width) -> Vec<i64> {
    let length = i64::from(length);
    let bytes = width.bytes() as i64;
    let mut offsets = vec![0, 4, 0x204, length - bytes, length, length + 12, -bytes];
    match width {
        Width::Byte => offsets.extend([1, 2, 3]),
        Width::Half => offsets.extend([2, 1, length - 1]),
        Width::Word => offsets.extend([1, 2, length - 2]),
    }
    offsets
}

/// Access to a physical address, where this way can reach it. The word there
/// and its neighbours are not 0, so that a wrong byte shows.
pub fn reach(
    turn: &mut Turn,
    numbers: &mut Numbers,
    bases: &mut Bases,
    opcode: u32,
    way: Way,
    physical: u32,
) -> Option<Scene> {
    let address = match way {
        Way::Direct => physical.checked_add(0xC000_0000)?,
        Way::User | Way::KernelLow => 0x0000_5000 | (physical & 0xFFF),
        Way::KernelHigh => 0x8000_5000 | (physical & 0xFFF),
    };
    let (immediate, base) = bases.next(address);
    let word = two_registers(opcode, 1, 2, immediate);
    let mut scene = match way {
        Way::User => super::scene::Place::User.scene(&[word]),
        _ => turn.kernel(&[word]),
    };
    if !matches!(way, Way::Direct) {
        scene.map(9, address & !0xFFF, physical & !0xFFF | 3);
    }
    // Not where the instruction stands.
    if scene
        .fetched()
        .is_ok_and(|(at, _)| at & !3 != physical & !3)
    {
        scene.put(physical, numbers.word() | 0x8080_8080);
    }
    Some(scene.set(1, base).set(2, numbers.word()))
}

/// The edge immediates with an address in RAM.
fn edge_immediates(sink: &mut dyn Sink, turn: &mut Turn, numbers: &mut Numbers, opcode: u32) {
    for immediate in [0, 1, 0x7FFF, -0x8000, -1] {
        for _ in 0..2 {
            let register = 2 * numbers.below(2);
            let word = two_registers(opcode, 1, register, immediate);
            let mut scene = turn.kernel(&[word]);
            let at = 0x300 + 4 * numbers.below(32);
            scene.put(at, numbers.word());
            let base = (0xC000_0000 + at).wrapping_sub(immediate as u32);
            sink.quiet(&scene.set(1, base).set(2, numbers.word()), 1);
        }
    }
}

/// The base register loaded or stored, and register 0 as the base.
fn same_register(sink: &mut dyn Sink, turn: &mut Turn, numbers: &mut Numbers) {
    for opcode in OPCODES {
        for _ in 0..2 {
            let mut scene = turn.either_mode(&[two_registers(opcode, 1, 1, 0x10)]);
            scene.map(15, 0x0000_5000, 0x0000_0003);
            scene.put(0x90, numbers.word());
            sink.quiet(&scene.set(1, 0x0000_5080), 1);
            let mut scene = turn.either_mode(&[two_registers(opcode, 0, 2, 0x10)]);
            scene.map(15, 0x0000_0000, 0x0000_0003);
            scene.put(0x10, numbers.word());
            sink.quiet(&scene.set(2, numbers.word()), 1);
        }
        // Sums past both ends of the 32 bits.
        for (base, offset) in [(0xFFFF_FFFC, 8), (4, -8), (0, -0x8000)] {
            let mut scene = turn.either_mode(&[two_registers(opcode, 1, 2, offset)]);
            scene.map(15, 0x0000_0000, 0x0000_0003);
            scene.put(4, numbers.word());
            sink.quiet(&scene.set(1, base).set(2, numbers.word()), 1);
        }
    }
}
