//! Random machines that can run for a while.

use super::numbers::Numbers;
use super::observe::EDGES;
use super::scene::{Region, Scene, RAM_LENGTH};
use crate::memory::Width;
use crate::mmu::{Access, DIRECT_BASE};
use crate::processor::{
    TlbEntry, KEPT_HIGH, KEPT_INDEX, KEPT_LOW, KEPT_PSW, PSW_IC, PSW_UC, PSW_V,
};
use crate::timer::{Timer, CONTROL_ADDRESS};

/// Frames with RAM, with ROM, with the belt registers, just past them, and
/// that of the timer.
const FRAMES: [u32; 9] = [
    0x0000_0000,
    0x0000_1000,
    0x0000_1000,
    0x0000_0000,
    0x2000_0000,
    0x3050_0000,
    0x0000_2000,
    0x2000_1000,
    CONTROL_ADDRESS,
];

/// Pages in both mapped spaces and at their ends.
const PAGES: [u32; 8] = [
    0x0000_0000,
    0x0000_1000,
    0x0000_2000,
    0x0000_7000,
    0x7FFF_F000,
    0x8000_0000,
    0x8000_1000,
    0xBFFF_F000,
];

/// Registers that hold addresses at the start.
pub const POINTERS: std::ops::RangeInclusive<u32> = 16..=21;

/// A number of any size, or an edge.
pub fn operand(numbers: &mut Numbers) -> u32 {
    match numbers.below(4) {
        0 => numbers.pick(&EDGES),
        1 => numbers.below(64),
        2 => numbers.word() >> numbers.below(32),
        _ => numbers.word(),
    }
}

/// Offset of a word in the timer's frame: most often one of its registers.
fn timer_offset(numbers: &mut Numbers) -> u32 {
    numbers.pick(&[0, 0, 0, 4, 4, 4, 8, 0xFFC])
}

/// An aligned address in a region or in the timer's frame, by the
/// direct-mapped space.
pub fn direct_address(scene: &Scene, numbers: &mut Numbers) -> u32 {
    if numbers.percent(10) {
        return DIRECT_BASE + CONTROL_ADDRESS + timer_offset(numbers);
    }
    let region = numbers.pick(&Region::ALL);
    region.direct() + (numbers.below(scene.length(region)) & !3)
}

/// An address in the page of a TLB entry below `limit`, if there is one.
pub fn mapped_address(scene: &Scene, numbers: &mut Numbers, limit: u32) -> Option<u32> {
    let entries = scene.cpu.tlb.iter().copied();
    let below: Vec<TlbEntry> = entries.filter(|entry| entry.high < limit).collect();
    if below.is_empty() {
        return None;
    }
    let entry = numbers.pick(&below);
    if entry.low & !3 == CONTROL_ADDRESS {
        return Some(entry.high + timer_offset(numbers));
    }
    // Most offsets lie inside the belt registers too.
    let reach = if numbers.percent(80) { 1024 } else { 4096 };
    Some(entry.high + (numbers.below(reach) & !3))
}

/// Whether a word could be fetched at an address.
pub fn executable(scene: &Scene, address: u32, user: bool) -> bool {
    scene
        .cpu
        .translate(address, Width::Word, Access::Load, user)
        .is_ok_and(|found| scene.locate(found.physical).is_some())
}

/// Makes a random machine over the memory of a scene. One in twenty has all
/// registers and TLB entries set.
pub fn machine(mut scene: Scene, numbers: &mut Numbers) -> Scene {
    let full = numbers.percent(5);
    translations(&mut scene, numbers, full);
    scene.cpu.psw = status(numbers);
    let kept = [
        (1, KEPT_INDEX),
        (2, KEPT_HIGH),
        (3, KEPT_LOW),
        (4, 0xFFFF_FFFF),
    ];
    for (number, bits) in kept {
        if full || numbers.percent(40) {
            scene.cpu.set_special(number, numbers.word() & bits);
        }
    }
    scene.cpu.replacement = 4 + numbers.below(28) as u8;
    scene.cpu.timer = timer(numbers);
    registers(&mut scene, numbers, full);
    scene.cpu.pc = first_pc(&scene, numbers);
    scene
}

fn status(numbers: &mut Numbers) -> u32 {
    let mode = numbers.pick(&[0, PSW_UC, PSW_UC]);
    let v = numbers.pick(&[0, PSW_V]);
    let enable = if numbers.percent(40) { PSW_IC } else { 0 };
    let lower = numbers.word() & 0x037F_FFFF;
    (mode | v | enable | lower) & KEPT_PSW
}

/// A timer at zero in half of all machines; most others wrap in few steps.
fn timer(numbers: &mut Numbers) -> Timer {
    if numbers.percent(50) {
        return Timer::default();
    }
    Timer {
        divisor: ticks(numbers),
        counter: ticks(numbers),
        control: numbers.below(4) as u8,
    }
}

fn ticks(numbers: &mut Numbers) -> u32 {
    match numbers.below(10) {
        0 => 0,
        1 => numbers.word(),
        _ => 1 + numbers.below(12),
    }
}

/// A frame for a TLB entry; any frame of a RAM longer than that of the set.
fn frame(scene: &Scene, numbers: &mut Numbers) -> u32 {
    if scene.ram.len() > RAM_LENGTH && numbers.percent(40) {
        numbers.below(scene.length(Region::Ram)) & !0xFFF
    } else {
        numbers.pick(&FRAMES)
    }
}

fn translations(scene: &mut Scene, numbers: &mut Numbers, full: bool) {
    for n in 0..if full { 32 } else { 6 } {
        let index = if full { n } else { numbers.below(32) as usize };
        let page = if full && numbers.percent(50) {
            numbers.word() & KEPT_HIGH
        } else {
            numbers.pick(&PAGES)
        };
        let frame = frame(scene, numbers);
        let bits = numbers.pick(&[3, 3, 3, 3, 1, 1, 0, 2]);
        scene.map(index, page, frame | bits);
    }
    // One user page with code, so that User Mode gets somewhere.
    let frame = numbers.pick(&FRAMES[..6]);
    scene.map(numbers.below(4) as usize, 0x0000_3000, frame | 1);
}

fn registers(scene: &mut Scene, numbers: &mut Numbers, full: bool) {
    for number in 1..32 {
        let value = if POINTERS.contains(&number) || numbers.percent(10) {
            let mapped = mapped_address(scene, numbers, 0xC000_0000);
            match numbers.below(3) {
                0 => direct_address(scene, numbers),
                _ => mapped.unwrap_or(0xC000_0000),
            }
        } else if full || !(8..30).contains(&number) {
            operand(numbers)
        } else {
            0
        };
        scene.cpu.set_register(number, value);
    }
}

/// A PC where a word can be fetched, nearly always.
fn first_pc(scene: &Scene, numbers: &mut Numbers) -> u32 {
    let user = scene.cpu.user_mode();
    for _ in 0..16 {
        let limit = if user { 0x8000_0000 } else { 0xC000_0000 };
        let mapped = mapped_address(scene, numbers, limit).unwrap_or(0x0000_3000);
        let pc = if user || numbers.percent(40) {
            mapped
        } else {
            direct_address(scene, numbers)
        };
        if executable(scene, pc, user) {
            return pc;
        }
    }
    numbers.word()
}
